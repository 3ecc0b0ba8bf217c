"""Tests of the layers under MMS, without a network: both ends, and what each layer refuses."""
from common import *  # noqa: F403
from mmstools.stack import ClientEnd, Kind, ServerEnd, State, acse, cotp, presentation, session, tpkt
from mmstools.stack.elements import integer

STATUS, OPERATIONAL = bytes.fromhex("A006020101800100"), bytes.fromhex("A10B020101A006800100810100")
CONCLUDE, CONCLUDED, NOT_CONCLUDED = b"\x8b\0", b"\x8c\0", bytes.fromhex("AD05A003890101")
REFUSED = bytes.fromhex("AA05A003880101")


class Ends(unittest.TestCase):
    """A client's end and a server's, with what each wrote for the other."""

    def setUp(self):
        self.to_server, self.to_client = [], []
        self.client, self.server = ClientEnd(self.to_server.append), ServerEnd(self.to_client.append)

    def at_server(self):
        octets = b"".join(self.to_server)
        self.to_server.clear()
        return [(i.kind, i.octets) for i in self.server.feed(octets)]

    def at_client(self):
        octets = b"".join(self.to_client)
        self.to_client.clear()
        return [(i.kind, i.octets) for i in self.client.feed(octets)]

    def connect(self, size=13):
        self.client.connect(size)
        self.assertEqual(self.at_server(), [(Kind.OPEN, b"")])
        self.assertEqual(self.at_client(), [(Kind.OPEN, b"")])

    def open(self, size=13, requirements=session.DUPLEX):
        self.connect(size)
        self.client.open(ASK, requirements)
        self.assertEqual(self.at_server(), [(Kind.PDU, ASK)])
        self.server.tell(YES)
        self.assertEqual(self.at_client(), [(Kind.PDU, YES)])
        self.assertEqual((self.client.state, self.server.state), (State.OPEN, State.OPEN))

    def say(self, user, frame=None):
        """What the server makes of a session message, and the first octets of the messages it answers."""
        octets = frame if frame is not None else b"".join(map(tpkt.wrap, cotp.data(user, 1 << 13)))
        items = list(self.server.feed(octets))
        answers = b"".join(self.to_client)
        self.to_client.clear()
        return items, answers


class Both(Ends):
    """What both ends agree on."""

    def test_data(self):
        """PDUs of all lengths pass both ways, in TPDUs of at most the size that was agreed on."""
        for size in range(7, 14):
            self.setUp()
            self.open(size)
            for n in (1, 2, 100, 118, 119, 120, 121, 127, 128, 250, 255, 256, 8000, 8192, 40000, 65535, 70000):
                pdu = b"\xa0" + bytes(n - 1)
                self.client.send(pdu)
                sizes = [len(t) for t in tpkt.Frames().feed(b"".join(self.to_server))]
                self.assertLessEqual(max(sizes), 1 << size)
                self.assertEqual(self.at_server(), [(Kind.PDU, pdu)])
                self.server.tell(pdu)
                self.assertLessEqual(max(len(t) for t in tpkt.Frames().feed(b"".join(self.to_client))), 1 << size)
                self.assertEqual(self.at_client(), [(Kind.PDU, pdu)])

    def test_octet_by_octet(self):
        """Nothing depends on how TCP cuts."""
        self.open()
        self.client.send(STATUS)
        self.client.send(STATUS)
        octets = b"".join(self.to_server)
        got = [i.octets for n in range(len(octets)) for i in self.server.feed(octets[n : n + 1])]
        self.assertEqual(got, [STATUS, STATUS])
        self.assertFalse(self.server.is_partial)

    def test_refused(self):
        self.connect()
        self.client.open(ASK)
        self.at_server()
        self.server.tell(REFUSED)
        self.assertEqual(self.at_client(), [(Kind.PDU, REFUSED)])
        self.assertEqual((self.client.state, self.server.state), (State.OVER, State.OVER))

    def test_release(self):
        """Without a conclude in it."""
        self.open()
        self.client.release()
        self.assertEqual(self.at_server(), [(Kind.RELEASE, b"")])
        self.server.release()
        self.assertEqual(self.at_client(), [(Kind.RELEASE, b"")])
        self.assertEqual((self.client.state, self.server.state), (State.OVER, State.OVER))

    def test_conclude_before_the_release(self):
        self.open()
        self.client.send(CONCLUDE)
        self.assertEqual(self.at_server(), [(Kind.PDU, CONCLUDE)])
        self.server.tell(CONCLUDED)
        self.assertEqual(self.at_client(), [(Kind.PDU, CONCLUDED)])
        self.client.release()
        self.assertEqual(self.at_server(), [(Kind.RELEASE, b"")])

    def test_conclude_in_the_release(self):
        self.open()
        self.client.release(CONCLUDE)
        self.assertEqual(self.at_server(), [(Kind.PDU, CONCLUDE)])
        self.server.tell(OPERATIONAL)  # what else is told meanwhile goes as data
        self.server.tell(CONCLUDED)
        self.assertEqual(self.at_client(), [(Kind.PDU, OPERATIONAL), (Kind.PDU, CONCLUDED), (Kind.RELEASE, b"")])

    def test_a_conclude_in_the_release_is_refused(self):
        """With negotiated release the association goes on; without it, it is over, and the refusal is in its end."""
        both = session.DUPLEX | session.NEGOTIATED_RELEASE
        for requirements, after, more in ((both, State.OPEN, []), (session.DUPLEX, State.OVER, [(Kind.RELEASE, b"")])):
            self.setUp()
            self.open(requirements=requirements)
            self.client.release(CONCLUDE)
            self.at_server()
            self.server.tell(NOT_CONCLUDED)
            self.assertEqual(self.at_client(), [(Kind.PDU, NOT_CONCLUDED), *more])
            self.assertEqual((self.client.state, self.server.state), (after, after))

    def test_aborts(self):
        for which in ("client", "server"):
            self.setUp()
            self.open()
            getattr(self, which).abort()
            got = self.at_server() if which == "client" else self.at_client()
            self.assertEqual(got, [(Kind.ABORT, b"")])
            self.assertEqual((self.client.state, self.server.state), (State.OVER, State.OVER))
        self.setUp()
        self.connect()
        self.client.open(STATUS)  # no initiate-Request: the device aborts before there is an association
        self.at_server()
        self.server.abort()
        self.assertEqual(self.at_client(), [(Kind.ABORT, b"")])

    def test_disconnected(self):
        self.open()
        items, answer = self.say(b"", tpkt.wrap(cotp.disconnect(b"\0\1", 0)))
        self.assertEqual((items[0].kind, items[0].layer, answer), (Kind.GONE, "COTP", b""))


class Proposals(Ends):
    """What a client proposes."""

    def cotp_options(self, options, credit=b"\0"):
        body = b"\xe0\0\0\0\5" + credit + options
        items, answer = self.say(b"", tpkt.wrap(bytes((len(body),)) + body))
        return items[0].kind, answer

    def test_transport(self):
        """Sizes are the lesser, selectors and the reference of the client come back."""
        for asked, answered in (
            ("", ""),
            ("C0010A", "C0010A"),
            ("C0010DC1020001C2020002", "C0010DC2020002C1020001"),
            ("F00108", "F00108"),
            ("C0010DF00108", "F00108"),
            ("C100C2050102030405", "C2050102030405C100"),
        ):
            self.setUp()
            kind, answer = self.cotp_options(bytes.fromhex(asked))
            self.assertEqual(kind, Kind.OPEN)
            self.assertEqual(answer[5:11].hex().upper(), "D00005000200")
            self.assertEqual(answer[11:].hex().upper(), answered, asked)

    def test_transport_is_refused(self):
        """By a DR: a size that there isn't, another class alone, a parameter that is cut."""
        for asked, credit in (("C0010E", 0), ("C00106", 0), ("C0020A0A", 0), ("", 0x40), ("C00A0A", 0), ("F000", 0)):
            self.setUp()
            kind, answer = self.cotp_options(bytes.fromhex(asked), bytes((credit,)))
            self.assertEqual((kind, answer[5:6], self.server.state), (Kind.BROKEN, b"\x80", State.OVER), asked)
        self.setUp()
        self.assertEqual(self.cotp_options(bytes.fromhex("C70100"), b"\x40")[0], Kind.OPEN)  # class 4, or else 0
        self.setUp()
        self.server.refuse_connection(1)
        self.assertEqual(self.cotp_options(b"")[1].hex().upper(), "0300000B0680000500" + "0001")

    def contexts(self, *proposed):
        listed = [tlv(0x30, integer(n), tlv(6, name), tlv(0x30, *[tlv(6, s) for s in to])) for n, name, to in proposed]
        number = next((n for n, name, _ in proposed if name == presentation.ACSE), 1)
        user = pdv(number, acse.request(ASK))
        normal = tlv(0xA2, tlv(0x81, b"\7"), tlv(0x82, b"\x08\x09"), tlv(0xA4, *listed), user)
        cp = tlv(0x31, tlv(0xA0, b"\x80\1\1"), normal)
        return session.connect(cp, called=b"\xca\x11", calling=b"\xcc")

    def test_contexts(self):
        """Contexts have the numbers of the client; one that isn't served is refused; the selector comes back."""
        ber = [presentation.BER]
        other = bytes.fromhex("2A030405")
        self.connect()
        items, _ = self.say(
            self.contexts((129, other, ber), (70000, presentation.MMS, [other, *ber]), (-1, presentation.ACSE, ber))
        )
        self.assertEqual([i.octets for i in items], [ASK])
        self.server.tell(YES)
        answer = b"".join(self.to_client)
        self.assertIn(bytes.fromhex("A51A 3006800102820101 30078001008102 5101 30078001008102 5101"), answer)
        self.assertIn(bytes.fromhex("83020809"), answer)
        self.assertIn(bytes.fromhex("3402CA11"), answer)
        self.assertIn(bytes.fromhex("020301 1170"), answer)
        items, _ = self.say(session.data(pdv(70000, STATUS)))
        self.assertEqual([i.octets for i in items], [STATUS])

    def test_titles(self):
        """A widespread client names both ends, and gives no encoding for the PDU; who was called comes back."""
        called = tlv(0xA2, tlv(6, bytes.fromhex("2901876701"))), tlv(0xA3, integer(12))
        calling = tlv(0xA6, tlv(6, bytes.fromhex("29018767"))), tlv(0xA7, integer(12))
        information = tlv(0xBE, tlv(0x28, integer(3), tlv(0xA0, ASK)))
        aarq = tlv(0x60, tlv(0xA1, tlv(6, acse.CONTEXT_NAME)), *called, *calling, information)
        self.connect()
        items, _ = self.say(session.connect(presentation.connect(aarq)))
        self.assertEqual([i.octets for i in items], [ASK])
        self.server.tell(YES)
        answer = b"".join(self.to_client)
        self.assertIn(bytes.fromhex("A40706052901876701A50302010C"), answer)

    def test_long_names(self):
        """Selectors that are too long are refused, and titles that are don't come back."""
        cp = presentation.connect(acse.request(ASK))
        for user in (
            session.connect(cp, called=bytes(17)),
            session.connect(presentation.connect(acse.request(ASK), called=bytes(65))),
        ):
            self.setUp()
            self.connect()
            items, answer = self.say(user)
            self.assertEqual((items[0].kind, answer[7]), (Kind.BROKEN, session.REFUSE))
        title = tlv(0xA2, tlv(4, bytes(60000)))
        aarq = tlv(0x60, tlv(0xA1, tlv(6, acse.CONTEXT_NAME)), title, acse.user_information(ASK))
        self.setUp()
        self.connect()
        self.say(session.connect(presentation.connect(aarq)))
        self.server.tell(YES)
        self.assertLess(len(b"".join(self.to_client)), 300)
        self.setUp()
        self.connect()
        many = [(n, presentation.MMS, [presentation.BER]) for n in range(2500)]
        self.say(self.contexts(*many, (-1, presentation.ACSE, [presentation.BER])))
        self.server.tell(YES)
        self.assertEqual(self.server.state, State.OPEN)

    def test_no_mms(self):
        """ACSE refuses a client without a context of MMS; presentation one without ACSE."""
        ber = [presentation.BER]
        acse_alone = [(1, presentation.ACSE, ber)]
        other = [(1, presentation.ACSE, ber), (3, presentation.MMS, [b"\x51\x02"])]
        for proposed, layer in ((acse_alone, "ACSE"), (other, "ACSE"), ([(3, presentation.MMS, ber)], "presentation")):
            self.setUp()
            self.connect()
            items, answer = self.say(self.contexts(*proposed))
            self.assertEqual((items[0].kind, items[0].layer), (Kind.BROKEN, layer))
            self.assertEqual(answer[7], session.REFUSE)
            self.assertEqual(b"\x61" in answer[20:] and b"\xa2\x03\x02\x01\x01" in answer, layer == "ACSE")

    def test_indefinite_lengths(self):
        """Presentation and ACSE may have them, and the PDU in them, too."""

        def endless(tag, *parts):
            return bytes((tag, 0x80)) + b"".join(parts) + b"\0\0"

        pdu = bytes.fromhex("A0800201018001000000")
        self.open()
        user = endless(0x61, endless(0x30, integer(3), endless(0xA0, pdu)))
        self.assertEqual([i.octets for i in self.say(session.data(user))[0]], [pdu])

    def test_simply_encoded_and_several(self):
        self.open()
        items, _ = self.say(session.data(presentation.simple(STATUS)))
        self.assertEqual([i.octets for i in items], [STATUS])
        one = tlv(0x30, integer(3), tlv(0xA0, STATUS))
        other = tlv(0x30, tlv(6, b"\x51\1"), integer(3), tlv(0x81, b"\xa0"))
        items, _ = self.say(session.data(tlv(0x61, one, one, other)))
        self.assertEqual([i.octets for i in items], [STATUS, STATUS, b"\xa0"])

    def test_session_proposals(self):
        """Version 1 alone is answered with 1; neither, no duplex or data that goes on elsewhere is refused."""
        cp = presentation.connect(acse.request(ASK))
        for head, answer in (
            ("0506130100160101 14020002", bytes.fromhex("0506130100160101")),
            ("0506130100160103 14020082", bytes.fromhex("050613010016010214020082")),
            ("0506130100160102 14020002", bytes.fromhex("050613010016010214020002")),
            ("0506130100160104 14020002", bytes.fromhex("0C03320184")),
            ("0506130100160102 14020001", bytes.fromhex("0C03320185")),
            ("0506130100160102 3C0100 14020002", bytes.fromhex("0C03320185")),
        ):
            self.setUp()
            self.connect()
            self.say(session.spdu(session.CONNECT, bytes.fromhex(head), session.parameter(session.USER, cp)))
            self.server.tell(YES)
            self.assertIn(answer, b"".join(self.to_client) + self.refusal, head)

    def say(self, user, frame=None):
        items, answer = super().say(user, frame)
        self.refusal = answer
        return items, answer


class Refusals(Ends):
    """What breaks a layer's rules is answered by that layer."""

    def refused(self, layer, kind, items, answer):
        self.assertEqual([(i.kind, i.layer) for i in items], [(Kind.BROKEN, layer)], items)
        self.assertEqual(self.server.state, State.OVER)
        self.assertEqual(answer[5:6] if layer == "COTP" else answer[7:8], kind, answer.hex())

    def test_tpkt(self):
        for octets in (b"GET / HTTP/1.1\r\n", b"\2\0\0\7\2\xf0\x80", b"\3\0\0\6\1\2"):
            self.setUp()
            self.open()
            self.refused("TPKT", b"", *self.say(b"", octets))

    def test_transport(self):
        """A header longer than its TPDU, a TPDU longer than agreed on, a second request, an unknown one."""
        long = b"\2\xf0\x80" + bytes(1 << 9)
        for tpdu in (b"\x20\xf0\x80", b"\1\xf0\x80", long, cotp.connect(), b"\2\x10\x80", b"\3\xf0\x80\0"):
            self.setUp()
            self.open(9)
            self.refused("COTP", b"\x70", *self.say(b"", tpkt.wrap(tpdu)))
        self.setUp()
        self.refused("COTP", b"\x70", *self.say(b"", tpkt.wrap(b"\2\xf0\x80")))

    def test_session(self):
        """A second CONNECT, data before an association, a length behind the end, and a message of over a mebibyte."""
        other = b"\1\0\x0d\0"
        for user in (session.connect(b""), b"\x0d\xff", b"\x7f\0", b"", other, b"\1\0\1\3\x19\1\1"):
            self.setUp()
            self.open()
            self.refused("session", b"\x19", *self.say(user))
        for user in (session.data(pdv(3, STATUS)), session.finish(b"")):
            self.setUp()
            self.connect()
            self.refused("session", b"\x0c", *self.say(user))
        self.setUp()
        self.open()
        piece = tpkt.wrap(b"\2\xf0\0" + bytes(8000))
        self.refused("session", b"\x19", *self.say(b"", piece * (1 + (1 << 20) // 8000)))
        self.setUp()
        self.connect()
        self.client.open(ASK)
        self.client.send(STATUS)  # before the association is there
        items = list(self.server.feed(b"".join(self.to_server)))
        self.assertEqual([(i.kind, i.layer) for i in items], [(Kind.PDU, ""), (Kind.BROKEN, "session")])

    def test_presentation(self):
        """A context that wasn't agreed on, data that is cut, no PDU in it; and a connection that isn't one."""
        for user in (pdv(5, STATUS), pdv(3, b""), b"\x61\x7f\0", b"\x40\0", b"\x62\0", b"", tlv(0x61)):
            self.setUp()
            self.open()
            self.refused("presentation", b"\x19", *self.say(session.data(user)))
        for user in (b"", tlv(0x30), tlv(0x31, tlv(0xA0, b"\x80\1\0")), tlv(0x31, tlv(0xA0, b"\x80\1\1"), tlv(0xA2))):
            self.setUp()
            self.connect()
            self.refused("presentation", b"\x0c", *self.say(session.connect(user)))

    def test_acse(self):
        """An AARQ without MMS, of another application, or another APDU in its place; and one in data."""
        other = tlv(0x60, tlv(0xA1, tlv(6, b"\x2a\3")), acse.user_information(ASK))
        for apdu in (tlv(0x60, tlv(0xA1, tlv(6, acse.CONTEXT_NAME))), other, acse.release(), b"\x60\x7f"):
            self.setUp()
            self.connect()
            self.refused("ACSE", b"\x0c", *self.say(session.connect(presentation.connect(apdu))))
        for user in (session.data(pdv(1, acse.request(ASK))), session.finish(pdv(1, acse.request(ASK)))):
            self.setUp()
            self.open()
            self.refused("ACSE", b"\x19", *self.say(user))

    def test_deep_and_many(self):
        """Elements within elements, and very many of them, take no time that others would notice."""
        for user in (b"\x61\x80" * 200000, b"\x61\x80" + b"\x30\x80\0\0" * 200000, tlv(0x61, b"\x30\0" * 200000)):
            self.setUp()
            self.open()
            began = time.monotonic()
            self.refused("presentation", b"\x19", *self.say(session.data(user)))
            self.assertLess(time.monotonic() - began, 2)


class Damaged(Ends):
    """A conversation with octets that are changed, left out or doubled gives no exception, whatever it gives."""

    def conversation(self):
        """The octets that a client sends in a short conversation."""
        self.open()
        out, whole = ClientEnd((written := []).append), []
        out.connect()
        out._transport.is_open = True
        out.open(ASK)
        out.state = State.OPEN
        out.send(STATUS)
        out.release(CONCLUDE)
        whole += written
        return b"".join(whole)

    def test_damaged(self):
        octets, rng = self.conversation(), random.Random(11)
        for n in range(2000):
            at = n % len(octets)
            way = n // len(octets) % 4
            some = octets[at : at + rng.randrange(1, 5)]
            put = bytes((rng.randrange(256),)) if way == 0 else b"" if way == 1 else some * 2 if way == 2 else b"\0" * 4
            self.feed(octets[:at] + put + octets[at + (1 if way == 0 else len(some)) :])

    def test_damaged_at_a_client(self):
        """The same of what a server says."""
        self.connect()
        written = []
        self.server._write = written.append
        self.client.open(ASK)
        self.at_server()
        self.server.tell(YES)
        self.server.tell(OPERATIONAL)
        self.client.release(CONCLUDE)
        self.server.feed(b"")
        self.at_server()
        self.server.tell(CONCLUDED)
        octets, rng = b"".join(written), random.Random(12)
        for n in range(1200):
            at = n % len(octets)
            put = (bytes((rng.randrange(256),)), b"", octets[at : at + 3] * 2)[n // len(octets) % 3]
            client = ClientEnd(lambda _: None)
            client._transport.is_open = True
            client.open(ASK)
            for item in client.feed(octets[:at] + put + octets[at + rng.randrange(1, 4) :]):
                if item.kind is Kind.PDU and client.state is State.OPEN:
                    client.release(CONCLUDE)

    def feed(self, octets):
        server = ServerEnd(lambda _: None)
        for item in server.feed(octets):
            if item.kind is Kind.PDU and server.state is State.ASKED:
                server.tell(YES)
            elif item.kind is Kind.PDU:
                server.tell(CONCLUDED if item.octets == CONCLUDE else OPERATIONAL)
            elif item.kind is Kind.RELEASE:
                server.release()
        return server
