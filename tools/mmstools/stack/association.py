"""The layers joined, for a server's end and for a client's: octets of a connection in, PDUs of MMS out, and back.

An end is fed what comes, and tells what that brings; `write` is given the octets that go back. What breaks a layer's
rules is answered in that layer, where it has an answer, and is told as BROKEN with the layer's name."""
import enum
from typing import Callable, Iterator, NamedTuple, Optional

from . import acse, cotp, presentation, session, tpkt
from .elements import Broken, Ended

ACCEPTED, REFUSED = 0xA9, 0xAA  # the first octets of an initiate-Response and of an initiate-Error
CONCLUDED, NOT_CONCLUDED = 0x8C, 0xAD  # and of a conclude-Response and of a conclude-Error
MMS = "MMS"


class Kind(enum.Enum):
    """What octets bring to completion."""

    PDU = "an MMS PDU"
    ABORT = "an abort of the session"
    RELEASE = "a release without a conclude PDU in it"
    OPEN = "the request for a transport connection"  # at a client's end, that it is there
    GONE = "the end of the transport connection"
    BROKEN = "octets that a layer refuses"


class Item(NamedTuple):
    """One thing that came: the octets of a PDU, or the layer and what it says of an end."""

    kind: Kind
    octets: bytes = b""
    layer: str = ""
    words: str = ""


class State(enum.Enum):
    """How far a connection is."""

    NEW = "no transport connection"
    IDLE = "a transport connection, and no association"
    ASKED = "an association is asked for"
    OPEN = "an association"
    RELEASING = "its release is asked for"
    OVER = "nothing more is heard or said"


class End:
    """What both ends do alike."""

    def __init__(self, write: Callable[[bytes], None], is_server: bool):
        self._write = write
        self._frames = tpkt.Frames()
        self._transport = cotp.Transport(self._put, is_server)
        self.state = State.NEW
        self.count = 0  # TPDUs that came
        self._contexts = presentation.OWN

    @property
    def is_partial(self) -> bool:
        """Whether a TPKT or a message has begun and isn't whole."""
        return self._frames.is_partial or self._transport.is_partial

    def feed(self, octets: bytes) -> Iterator[Item]:
        """What these octets bring, in order."""
        tpdu = b""
        try:
            for tpdu in self._frames.feed(octets):
                if self.state is State.OVER:
                    return
                self.count += 1
                message = self._transport.take(tpdu)
                if message is not None:
                    yield from self._message(session.read(message))
                elif self.state is State.NEW and self._transport.is_open:
                    self.state = State.IDLE
                    yield Item(Kind.OPEN)
        except Ended as end:
            self.state = State.OVER
            yield Item(Kind.GONE, b"", end.layer, end.words)
        except Broken as bad:
            if self.state is not State.OVER:
                self.refuse(bad, tpdu)
            yield Item(Kind.BROKEN, b"", bad.layer, bad.words)

    def refuse(self, bad: Broken, tpdu: bytes = b"") -> None:
        """Ends the connection as the layer does whose rules are broken."""
        if bad.layer == cotp.LAYER:
            asked = not self._transport.is_open and tpdu[1:2] == b"\xe0" and len(tpdu) > 6
            self._put(cotp.disconnect(tpdu[4:6], bad.code) if asked else cotp.error(tpdu))
        elif bad.layer == session.LAYER:
            self._send(self._refusing(b"", bad.code or session.UNSPECIFIED, session.BY_PROVIDER))
        elif bad.layer == presentation.LAYER:
            user = presentation.refuse(None, None) if self.state is State.IDLE else None
            self._send(self._refusing(user or presentation.provider_abort(presentation.PARAMETER)))
        elif bad.layer == acse.LAYER:
            self._send(self._refusing(self._no_association(bad.code or acse.NO_REASON)))
        elif bad.layer == MMS:
            self.abort()
        self.state = State.OVER

    def _refusing(self, user: bytes, reason: int = 2, by: int = session.BY_USER) -> bytes:
        """The session's refusal of a connection, where none is there, or its abort."""
        if self.state is State.IDLE:
            return session.refuse(reason, user)
        return session.abort(by, user)

    def _no_association(self, diagnostic: int) -> bytes:
        """ACSE's refusal of an association, where none is there, or its abort."""
        if self.state is State.IDLE:
            refused = acse.answer(None, 0, None, diagnostic)
            return presentation.refuse(self._contexts, refused)
        return presentation.abort(self._contexts, acse.abort(acse.BY_PROVIDER))

    def abort(self) -> None:
        """Aborts the association, and with it the connection."""
        if self.state in (State.ASKED, State.OPEN, State.RELEASING):
            apdu = acse.abort(acse.BY_USER)
            self._send(session.abort(session.BY_USER, presentation.abort(self._contexts, apdu)))
        self.state = State.OVER

    def _put(self, tpdu: bytes) -> None:
        self._write(tpkt.wrap(tpdu))

    def _send(self, message: bytes) -> None:
        if self._transport.is_open:
            self._transport.send(message)

    def _send_data(self, pdu: bytes) -> None:
        """Sends a PDU as data of its context."""
        self._send(session.data(presentation.pdv(self._contexts.mms or 0, pdu)))

    def _message(self, spdu: session.Spdu) -> Iterator[Item]:
        raise NotImplementedError

    def _data(self, user: bytes) -> Iterator[Item]:
        """The PDUs in data of an association."""
        found, flaw = presentation.values(user)
        for context, octets in found:
            if context is not None and context != self._contexts.mms:
                if context == self._contexts.acse:
                    raise Broken(acse.LAYER, f"an APDU of the tag {octets[0]:02X} in data of an association")
                raise Broken(presentation.LAYER, f"data of context {context}, which wasn't agreed on")
            yield Item(Kind.PDU, octets)
        if flaw:
            raise Broken(presentation.LAYER, flaw)

    def _aborted(self, spdu: session.Spdu) -> Item:
        """The other end aborts."""
        self.state = State.OVER
        by = (spdu.values.get(0x11) or b"\0")[0]
        return Item(Kind.ABORT, b"", session.LAYER, "aborted by the provider" if by & 4 else "aborted")

    def _release(self, user: bytes) -> acse.Apdu:
        """The APDU of a release, an empty one where there is none."""
        found, flaw = presentation.values(user) if user else ([], "")
        if flaw:
            raise Broken(presentation.LAYER, flaw)
        return acse.read(found[0][1]) if found else acse.Apdu(acse.RLRQ)


class ServerEnd(End):
    """A server's end: is asked for an association, and answers as the device does."""

    def __init__(self, write: Callable[[bytes], None]):
        super().__init__(write, True)
        self._session: dict = {}  # the parameters by which the connection was asked for
        self._asked: Optional[acse.Apdu] = None
        self.is_carried = False  # the release that is asked for has a conclude in it

    def refuse_connection(self, reason: int) -> None:
        """Has the transport connection that will be asked for refused, for a reason of COTP's."""
        self._transport.refusal = reason

    def tell(self, pdu: bytes) -> None:
        """Sends a PDU in the layer where it belongs."""
        first = pdu[0]
        if self.state is State.OVER:
            return
        if self.state is State.ASKED:
            self._answer(pdu, first == REFUSED)
        elif self.state is State.RELEASING and first in (CONCLUDED, NOT_CONCLUDED):
            self.release(pdu)
        else:
            self._send_data(pdu)

    def release(self, pdu: Optional[bytes] = None) -> None:
        """Answers a release: with the answer to the conclude in it, which may refuse it, or without one."""
        if self.state is State.OVER:
            return
        is_bad = pdu is not None and pdu[0] == NOT_CONCLUDED
        reason = acse.NOT_FINISHED if is_bad else acse.NORMAL
        apdu = acse.released(pdu, self._contexts.mms or 0, reason)
        user = presentation.pdv(self._contexts.acse or 0, apdu)
        if is_bad and session.agreed(self._session) & session.NEGOTIATED_RELEASE:
            self._send(session.not_finished(user))
            self.state = State.OPEN
        else:
            self._send(session.disconnect(user))
            self.state = State.OVER

    def _answer(self, pdu: bytes, is_refused: bool) -> None:
        """Accepts or refuses the association that is asked for."""
        mms, diagnostic = self._contexts.mms or 0, acse.NO_REASON if is_refused else 0
        apdu = acse.answer(pdu, mms, self._asked, diagnostic)
        if is_refused:
            self._send(session.refuse(2, presentation.refuse(self._contexts, apdu)))
            self.state = State.OVER
        else:
            self._send(session.accept(presentation.accept(self._contexts, apdu), self._session))
            self.state = State.OPEN

    def _message(self, spdu: session.Spdu) -> Iterator[Item]:
        if spdu.kind == session.ABORT:
            yield self._aborted(spdu)
        elif self.state is State.IDLE and spdu.kind == session.CONNECT:
            yield self._ask(spdu)
        elif self.state is State.OPEN and spdu.is_data:
            yield from self._data(spdu.user)
        elif self.state is State.OPEN and spdu.kind == session.FINISH:
            yield self._finish(spdu.user)
        elif self.state is not State.OPEN or spdu.kind != session.PLEASE_TOKENS:
            again = "a second CONNECT" if spdu.kind == session.CONNECT else f"an SPDU of the kind {spdu.kind}"
            raise Broken(session.LAYER, f"{again}, where {self.state.value} is there")

    def _ask(self, spdu: session.Spdu) -> Item:
        """An association is asked for."""
        session.check(spdu.values)
        self._session = spdu.values
        self._contexts, octets = presentation.read_connect(spdu.user)
        self._asked = acse.read(octets)
        pdu = acse.check(self._asked)
        if self._contexts.mms is None:
            raise Broken(acse.LAYER, "no context of MMS is proposed")
        self.state = State.ASKED
        return Item(Kind.PDU, pdu)

    def _finish(self, user: bytes) -> Item:
        """The release is asked for, with a conclude in it or without."""
        apdu = self._release(user)
        if apdu.kind != acse.RLRQ:
            raise Broken(acse.LAYER, f"an APDU of the tag {apdu.kind:02X} in a release")
        self.state = State.RELEASING
        pdu = apdu.pdu()
        self.is_carried = pdu is not None
        return Item(Kind.RELEASE) if pdu is None else Item(Kind.PDU, pdu)


class ClientEnd(End):
    """A client's end: opens a transport connection, asks for an association, and releases it."""

    def __init__(self, write: Callable[[bytes], None]):
        super().__init__(write, False)

    def connect(self, size: int = 13) -> None:
        """Asks for a transport connection, with TPDUs of at most 2 to the size."""
        self._transport.connect(size)

    def open(self, pdu: bytes, requirements: int = session.DUPLEX) -> None:
        """Asks for an association with that PDU."""
        user = presentation.connect(acse.request(pdu))
        self._send(session.connect(user, requirements))
        self.state = State.ASKED

    def send(self, pdu: bytes) -> None:
        """Sends a PDU in an association."""
        self._send_data(pdu)

    def release(self, pdu: Optional[bytes] = None) -> None:
        """Asks for the release, with a conclude in it or without."""
        user = presentation.pdv(presentation.ACSE_NUMBER, acse.release(pdu))
        self._send(session.finish(user))
        self.state = State.RELEASING

    def _message(self, spdu: session.Spdu) -> Iterator[Item]:
        if spdu.kind == session.ABORT:
            yield self._aborted(spdu)
        elif self.state is State.ASKED and spdu.kind in (session.ACCEPT, session.REFUSE):
            yield self._answered(spdu)
        elif self.state in (State.OPEN, State.RELEASING) and spdu.is_data:
            yield from self._data(spdu.user)
        elif self.state is State.RELEASING and spdu.kind in (session.DISCONNECT, session.NOT_FINISHED):
            yield from self._released(spdu)
        elif self.state is State.OPEN and spdu.kind == session.FINISH:
            self._send(session.disconnect(presentation.pdv(presentation.ACSE_NUMBER, acse.released())))
            self.state = State.OVER
            yield Item(Kind.RELEASE, b"", acse.LAYER, "released by the server")
        elif spdu.kind != session.PLEASE_TOKENS:
            raise Broken(session.LAYER, f"an SPDU of the kind {spdu.kind}, where {self.state.value} is there")

    def _answered(self, spdu: session.Spdu) -> Item:
        """The association is accepted or refused."""
        if spdu.kind == session.ACCEPT:
            pdu = acse.read(presentation.read_accept(spdu.user)).pdu()
            if pdu is None:
                raise Broken(acse.LAYER, "the acceptance of an association without a PDU of MMS")
            self.state = State.OPEN
            return Item(Kind.PDU, pdu)
        self.state = State.OVER
        octets = presentation.read_refuse((spdu.values.get(session.REASON) or b"\0")[1:])
        pdu = acse.read(octets).pdu() if octets else None
        if pdu is None:
            return Item(Kind.ABORT, b"", session.LAYER, spdu.reason())
        return Item(Kind.PDU, pdu)

    def _released(self, spdu: session.Spdu) -> Iterator[Item]:
        """The release is answered, or refused."""
        pdu = self._release(spdu.user).pdu()
        if pdu is not None:
            yield Item(Kind.PDU, pdu)
        self.state = State.OPEN if spdu.kind == session.NOT_FINISHED else State.OVER
        if self.state is State.OVER:
            yield Item(Kind.RELEASE, b"", acse.LAYER, "released")
