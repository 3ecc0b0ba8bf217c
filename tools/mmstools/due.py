"""When time has to go by unasked: a device whose clock is real is told of time before each event, and between events
where something may come of it. That is where a wait or a control ends, by the numbers in TakeControl and the moment of
its answer; and where a condition is evaluated, by its interval. Too many moments do no harm: a tick of which nothing
comes is as none."""
import heapq
from typing import Dict, List, Optional, Tuple

from .stack.elements import Part, cut, number

TAKE, DEFINE, ALTER = 0xB3, 0xBF2F, 0xBF33  # tags of TakeControl, DefineEventCondition, AlterEventConditionMonitoring
DELAY, CONTROL, INTERVAL = 0x83, 0x84, 0x87  # components: acceptableDelay, controlTimeOut, evaluationInterval
OFTEN = 5  # milliseconds between ticks, where it isn't known when a condition is evaluated
LEAST_INTERVAL = 10
MOST = 64  # conditions whose moments are worked out


class Due:
    """The moments at which something may come of time, in the milliseconds of the device's clock."""

    def __init__(self) -> None:
        self._moments: List[int] = []
        self._controls: Dict[Tuple[int, int], int] = {}  # by client and invokeID of a TakeControl: its time-out
        self._grids: Dict[Tuple[int, int], None] = {}  # of conditions: first moment modulo the interval, interval
        self._is_often = False
        self._met: List[int] = []

    def heard(self, client: int, pdu: bytes, now: int) -> None:
        """A client sent that PDU."""
        if pdu[0] != 0xA0 or not (0xB3 in pdu[:20] or b"\xbf\x2f" in pdu[:20] or b"\xbf\x33" in pdu[:20]):
            return
        invoke, service = _request(pdu)
        if service is None:
            return
        if service.tag == TAKE:
            given = {p.tag: number(p.contents) or 0 for p in cut(service.contents)[0] if p.tag in (DELAY, CONTROL)}
            delay, control = given.get(DELAY, 0), given.get(CONTROL, 0)
            if 0 < delay < 1 << 32:
                heapq.heappush(self._moments, now + delay)
            if 0 < control < 1 << 32 and invoke is not None:
                self._controls[client, invoke] = control
        elif service.tag == DEFINE:
            interval = next((number(p.contents) for p in cut(service.contents)[0] if p.tag == INTERVAL), None)
            if interval is not None:
                interval = max(interval, LEAST_INTERVAL)
                self._grids[now % interval, interval] = None
                self._is_often = self._is_often or len(self._grids) > MOST
        elif service.tag == ALTER:
            self._is_often = True

    def told(self, client: int, pdu: bytes, now: int) -> None:
        """A client is sent that PDU: where it grants a token, its control may end in time."""
        if not self._controls or pdu[0] not in (0xA1, 0xA2, 0xA4):
            return
        invoke, _ = _request(pdu)
        control = self._controls.pop((client, invoke), None) if invoke is not None else None
        if control is not None and pdu[0] == 0xA1:
            for moment in {now, *self._met}:
                heapq.heappush(self._moments, moment + control)

    def lost(self, client: int) -> None:
        """A client was lost: what it asked for is forgotten, and what it had may end in time all the same."""
        self._controls = {key: control for key, control in self._controls.items() if key[0] != client}

    def met(self, now: int) -> None:
        """Time went by up to that moment."""
        self._met = []
        while self._moments and self._moments[0] <= now:
            self._met.append(heapq.heappop(self._moments))

    def next(self, now: int) -> Optional[int]:
        """The next moment, None where nothing comes of time alone."""
        found = self._moments[:1]
        if self._is_often:
            found = [*found, now + OFTEN]
        else:
            found = [*found, *(now + interval - (now - at) % interval for at, interval in self._grids)]
        return min(found, default=None)


def _request(pdu: bytes) -> Tuple[Optional[int], Optional[Part]]:
    """The invokeID and the service of a confirmed PDU, an error or a reject, of edition 1 or 2."""
    whole = cut(pdu)[0]
    found = cut(whole[0].contents)[0] if whole else []
    invoke = number(found[0].contents) if found and found[0].tag in (2, 0x80) else None
    return invoke, next((p for p in found[1:] if p.tag != 0x30), None)
