"""Captures written without a network: TCP segments in IPv4 or IPv6 in Ethernet frames, with their times (pcap)."""
import ipaddress
import struct
from typing import BinaryIO, Tuple

SYN, FIN, RESET, PUSHED, ACKNOWLEDGED = 0x02, 0x01, 0x04, 0x18, 0x10
ETHERNET = 1
SNAP = 65535
MOST = 1400  # octets of a segment
MACS = b"\2\0\0\0\0\1\2\0\0\0\0\2"
End = Tuple[str, int]  # address and port


def head(snap: int = SNAP, link: int = ETHERNET) -> bytes:
    """What a capture begins with."""
    return struct.pack("<IHHiIII", 0xA1B2C3D4, 2, 4, 0, 0, snap, link)


def record(time: int, frame: bytes, snap: int = SNAP) -> bytes:
    """A frame as a capture has it; the time is in microseconds since 1970."""
    kept = frame[:snap]
    return struct.pack("<IIII", time // 10**6, time % 10**6, len(kept), len(frame)) + kept


def checksum(octets: bytes) -> int:
    """That of IPv4 and TCP."""
    octets += b"\0" * (len(octets) % 2)
    total = sum(struct.unpack(">%dH" % (len(octets) // 2), octets))
    while total >> 16:
        total = (total & 0xFFFF) + (total >> 16)
    return ~total & 0xFFFF


class Flow:
    """The frames of one TCP connection: side 0 is the client, side 1 the server."""

    def __init__(self, client: End, server: End):
        self.ends = (client, server)
        self.addresses = tuple(ipaddress.ip_address(host.partition("%")[0]) for host, _ in self.ends)
        self.seq = [1000 * client[1], 7 * client[1]]

    def segment(self, side: int, payload: bytes, flags: int = PUSHED, again: bool = False) -> bytes:
        """The next frame of a side, which its number of sequence goes on from; one that comes again leaves it."""
        sport, dport = self.ends[side][1], self.ends[1 - side][1]
        seq, ack = self.seq[side] & 0xFFFFFFFF, self.seq[1 - side] & 0xFFFFFFFF
        said = ack if flags & ACKNOWLEDGED else 0
        tcp = struct.pack(">HHIIBBHHH", sport, dport, seq, said, 0x50, flags, 65535, 0, 0) + payload
        if not again:
            self.seq[side] += len(payload) + (1 if flags & (SYN | FIN) else 0)
        return self._frame(side, tcp)

    def _frame(self, side: int, tcp: bytes) -> bytes:
        """The Ethernet frame of a segment, whose checksum is 0 yet."""
        source, target = (self.addresses[i].packed for i in (side, 1 - side))
        is_v6 = len(source) == 16
        form = ">IBBH" if is_v6 else ">BBH"
        pseudo = struct.pack(form, len(tcp), 0, 0, 6) if is_v6 else struct.pack(form, 0, 6, len(tcp))
        tcp = tcp[:16] + struct.pack(">H", checksum(source + target + pseudo + tcp)) + tcp[18:]
        if is_v6:
            return MACS + b"\x86\xdd" + struct.pack(">IHBB", 6 << 28, len(tcp), 6, 64) + source + target + tcp
        ip = struct.pack(">BBHHHBBH", 0x45, 0, 20 + len(tcp), 0, 0x4000, 64, 6, 0) + source + target
        return MACS + b"\x08\0" + ip[:10] + struct.pack(">H", checksum(ip)) + ip[12:] + tcp


class Writer:
    """A capture that grows as a server and its clients talk."""

    def __init__(self, file: BinaryIO):
        self.file = file
        self.failed = ""  # why it isn't whole
        self._write(head())

    def _write(self, octets: bytes) -> None:
        """Writes, until that fails: a connection doesn't end for it."""
        try:
            if not self.failed:
                self.file.write(octets)
        except OSError as bad:
            self.failed = bad.strerror

    def flush(self) -> None:
        """Has all that was said in the file."""
        try:
            if not self.failed:
                self.file.flush()
        except OSError as bad:
            self.failed = bad.strerror

    def opened(self, client: End, server: End, time: int) -> Flow:
        """A connection opens."""
        flow = Flow(client, server)
        for side, flags in ((0, SYN), (1, SYN | ACKNOWLEDGED), (0, ACKNOWLEDGED)):
            self._write(record(time, flow.segment(side, b"", flags)))
        return flow

    def said(self, flow: Flow, side: int, octets: bytes, time: int) -> None:
        """A side says these octets."""
        for at in range(0, len(octets), MOST):
            self._write(record(time, flow.segment(side, octets[at : at + MOST])))

    def closed(self, flow: Flow, side: int, is_reset: bool, time: int) -> None:
        """A side closes the connection, or resets it."""
        steps = [(side, RESET | ACKNOWLEDGED)]
        if not is_reset:
            fin = FIN | ACKNOWLEDGED
            steps = [(side, fin), (1 - side, fin), (side, ACKNOWLEDGED)]
        for one, flags in steps:
            self._write(record(time, flow.segment(one, b"", flags)))
        self.flush()
