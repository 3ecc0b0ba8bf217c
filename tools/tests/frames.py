"""Frames of MMS conversations for the tests, from the layers of mmstools.stack (RFC 1006, ITU-T X.224 to X.227) and
from mmstools.pcap, so that a capture is there without a network."""
import os
import sys

sys.path.insert(0, os.path.dirname(os.path.dirname(os.path.abspath(__file__))))
from mmstools import pcap  # noqa: E402
from mmstools.stack import acse, cotp, presentation, session, tpkt  # noqa: E402
from mmstools.stack.elements import integer as small  # noqa: E402, F401
from mmstools.stack.elements import tlv  # noqa: E402, F401
from mmstools.stack.presentation import pdv  # noqa: E402
from mmstools.stack.session import parameter, spdu  # noqa: E402, F401

ASKED = {session.VERSION: b"\2", session.CALLED: b"\0\1"}  # parameters of a CN that its AC answers


def connect(initiate):
    """SPDU CN with CP, AARQ and an initiate-Request."""
    return session.connect(presentation.connect(acse.request(initiate)))


def accept(answer, refused=False):
    """SPDU AC with CPA, AARE and an initiate-Response; or RF with CPR and an initiate-Error."""
    aare = acse.answer(answer, presentation.MMS_NUMBER, None, int(refused))
    if refused:
        return session.refuse(2, presentation.refuse(presentation.OWN, aare))
    return session.accept(presentation.accept(presentation.OWN, aare), ASKED)


def data(pdu):
    return session.data(pdv(presentation.MMS_NUMBER, pdu))


def simple_data(pdu):
    """The same in simply-encoded-data."""
    return session.data(presentation.simple(pdu))


def abort():
    return session.abort(session.BY_USER, presentation.abort(presentation.OWN, acse.abort(acse.BY_USER)))


def finish(answer=False, pdu=None):
    """SPDU FN with RLRQ, or DN with RLRE; some stacks put the conclude PDUs into their user information."""
    apdu = acse.released(pdu) if answer else acse.release(pdu)
    user = pdv(presentation.ACSE_NUMBER, apdu)
    return session.disconnect(user) if answer else session.finish(user)


def cotp_connect(answer=False):
    options = bytes.fromhex("C0010D") + cotp.SELECTORS
    return tpkt.wrap(cotp.confirm(b"\0\1", options) if answer else cotp.connect())


def cotp_data(user, most=8000):
    """DT TPDUs of at most so many octets of user data each."""
    return b"".join(map(tpkt.wrap, cotp.data(user, most + cotp.HEAD)))


class Wire:
    """Frames with their times, and the pcap of them."""

    def __init__(self, start=1700000000):
        self.now, self.frames = start * 10**6, []  # times in microseconds

    def put(self, frame, gap=0):
        self.now += gap
        self.frames.append((self.now, frame))

    def pcap(self, snap=pcap.SNAP, cut=0, link=pcap.ETHERNET):
        out = pcap.head(snap, link) + b"".join(pcap.record(t, f, snap) for t, f in self.frames)
        return out[: len(out) - cut]


class Connection(pcap.Flow):
    """One TCP connection of a client to a server's port."""

    def __init__(self, wire, client, port, server="10.0.0.1", server_port=102, most=8000):
        super().__init__((client, port), (server, server_port))
        self.wire, self.most = wire, most

    def send(self, side, payload, cuts=(), gap=0):
        """The payload in segments that are cut at these places."""
        places = sorted({0, *cuts, *range(0, len(payload), pcap.MOST), len(payload)})
        for a, b in zip(places, places[1:]):
            self.wire.put(self.segment(side, payload[a:b]), gap)

    def open(self, initiate, answer):
        """From SYN to the server's answer: octets of a PDU, or None for an abort. Ones that begin AA are a refusal."""
        self.wire.put(self.segment(0, b"", 2))
        self.wire.put(self.segment(1, b"", 0x12))
        self.wire.put(self.segment(0, b"", 0x10))
        self.send(0, cotp_connect())
        self.send(1, cotp_connect(True))
        self.send(0, cotp_data(connect(initiate), self.most))
        if answer is None:
            self.send(1, cotp_data(abort(), self.most))
        else:
            self.send(1, cotp_data(accept(answer, answer[0] == 0xAA), self.most))

    def pdu(self, side, octets, cuts=(), gap=0):
        self.send(side, cotp_data(data(octets), self.most), cuts, gap)

    def abort(self, side):
        self.send(side, cotp_data(abort(), self.most))

    def reset(self, side=0):
        self.wire.put(self.segment(side, b"", 0x14))

    def close(self):
        self.wire.put(self.segment(0, b"", 0x11))
        self.wire.put(self.segment(1, b"", 0x11))
        self.wire.put(self.segment(0, b"", 0x10))
