"""Elements of BER as edition 2 reads them (ITU-T X.690, 8.1), in plain Python: whether octets are whole ones, and the same
elements with other lengths.

Nothing here is taken from the device or from the tools. An identifier has one octet, or one and one or two that spell a
number above 30; a length has one octet, or up to nine; that of a constructed element may be indefinite, and then whole
elements follow, of which none begins with two octets of zeros, and such two.
"""

END = b"\0\0"


def _header(octets, at, end):
    """Of the element at that place: where its contents begin, how many octets they have, None where the length is
    indefinite, and whether it is constructed. None where no identifier and length stand there."""
    if at >= end:
        return None
    constructed = bool(octets[at] & 0x20)
    if octets[at] & 0x1F == 0x1F:
        at += 1
        if at >= end or octets[at] < 31 or octets[at] == 128:
            return None
        if octets[at] > 128:
            at += 1
            if at >= end or octets[at] >= 128:
                return None
    at += 1
    if at >= end:
        return None
    first, start = octets[at], at + 1
    if first < 128:
        return start, first, constructed
    if first == 128:
        return (start, None, True) if constructed else None
    count = first - 128
    if count > 8 or start + count > end:
        return None
    return start + count, int.from_bytes(octets[start:start + count], "big"), constructed


def _behind_end(octets, at, end):
    """Where the contents of indefinite length that begin at that place end, and what is behind them; None where they
    don't."""
    opened = 1
    while True:
        if octets[at:at + 2] == END and at + 2 <= end:
            opened -= 1
            if not opened:
                return at, at + 2
            at += 2
            continue
        found = _header(octets, at, end)
        if found is None:
            return None
        at, size, _ = found
        if size is None:
            opened += 1
        elif at + size > end:
            return None
        else:
            at += size


def _element(octets, at, end):
    """Of the whole element at that place: where its contents begin and end, what is behind it, and whether it is
    constructed. None where none stands there."""
    found = _header(octets, at, end)
    if found is None:
        return None
    start, size, constructed = found
    if size is None:
        closed = _behind_end(octets, start, end)
        return None if closed is None else (start, *closed, constructed)
    return None if start + size > end else (start, start + size, start + size, constructed)


def parts(octets):
    """The elements that octets are a joining of, each as its identifier, its contents and whether it is constructed; None
    where they are no joining of whole elements."""
    at, found = 0, []
    while at < len(octets):
        one = _element(octets, at, len(octets))
        if one is None:
            return None
        start, stop, behind, constructed = one
        found.append((_identifier(octets, at), octets[start:stop], constructed))
        at = behind
    return found


def _identifier(octets, at):
    """The identifier that stands there."""
    size = 1 if octets[at] & 0x1F != 0x1F else 2 if octets[at + 1] < 128 else 3
    return octets[at:at + size]


def is_whole(octets):
    """Whether octets are one whole element, and nothing behind it."""
    found = _element(octets, 0, len(octets))
    return found is not None and found[2] == len(octets)


def length(size, longer=0):
    """A definite length, in the fewest octets or in so many more, at most."""
    if size < 128 and not longer:
        return bytes([size])
    count = min(max(1, (size.bit_length() + 7) // 8) + max(0, longer - 1), 8)
    return bytes([128 + count]) + size.to_bytes(count, "big")


def spelled(octets, choose):
    """The same elements with other lengths. Of each, `choose` is told whether it may be indefinite, and tells None for an
    indefinite length, or by how many octets a definite one is longer than needed. Octets that are no joining of elements
    stay as they are, and so do the contents of what is primitive."""
    found = parts(octets)
    return octets if found is None else b"".join(_spelled(part, choose) for part in found)


def _spelled(part, choose):
    identifier, contents, constructed = part
    inner = spelled(contents, choose) if constructed else contents
    longer = choose(constructed and _may_be_open(inner))
    if longer is None:
        return identifier + b"\x80" + inner + END
    return identifier + length(len(inner), longer) + inner


def _may_be_open(contents):
    """Whether contents are elements of which none begins as an end of contents does."""
    at = 0
    while at < len(contents):
        one = None if contents[at:at + 2] == END else _element(contents, at, len(contents))
        if one is None:
            return False
        at = one[2]
    return True


def definite(octets):
    """One whole element, and all that is within it, with the shortest definite lengths."""
    return spelled(octets, lambda may_be_open: 0)


def indefinite(octets):
    """The same with indefinite lengths wherever elements stand within."""
    return spelled(octets, lambda may_be_open: None if may_be_open else 0)
