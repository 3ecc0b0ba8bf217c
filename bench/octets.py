#!/usr/bin/env python3
"""Puts damaged octets in the place of each PDU of whole conversations, and looks at what comes of it.

    bench/octets.py [--rows FILE ..] [--state FILE] [--minutes N] [--some N] [--jobs N] [--program PATH]

Takes the rows by steps of conversations.rows (or of other files of crates/cell_rows/data). In the place of each PDU that
a client sends it puts, one at a time, with what was heard before: that PDU with each octet replaced by each of the other
255, with each left out and each doubled, each front of it, and it with an octet 00 and FF behind. Of each it looks
whether

- `replay` ends with status 0, and so does `run` by two workers, whose report replays to itself (of a tenth of them);
- where it gets one answer and that refuses it, the rest of the report is to the octet that of `8E 00` in its place;
- what begins as a confirmed request gets one reject without an invokeID, or one answer, error or reject with its
  invokeID, or nothing, and then waits, so that a second request of that invokeID is rejected;
- what is no whole element is refused for it, in edition 1;
- the association lives, unless it was aborted or concluded. In Idle whatever is no proposal is aborted.

What is refused is sent in one recording, each in a phase of its own, one behind the other, and what follows has to be
as behind as many `8E 00`; what isn't refused is sent alone. In Idle all are sent in one recording, each lost again. --state keeps what was done in a file, line by line: with it
a run that was stopped, or that ends after so many minutes, is gone on with. --some takes each so many-th damage alone.
Ends with status 1 where anything was found. Nothing here is a test.
"""

import argparse
import concurrent.futures
import json
import os
import subprocess
import sys
import time
from collections import Counter

HERE = os.path.dirname(os.path.abspath(__file__))
sys.path.insert(0, os.path.join(HERE, "..", "tools"))
from mmstools import row_files  # noqa: E402

NO_PDU = bytes.fromhex("8E00")
REFUSED, WAITS = bytes.fromhex("A403850100"), b"\x81\x01\x03"
BARE = (bytes.fromhex("A403850100"), bytes.fromhex("A403850101"))  # rejects without an invokeID
LEAST, MOST = 8, 4096  # damages that are tried in one recording


class Place:
    """One PDU of a conversation: what was heard before, and what comes behind."""

    def __init__(self, name, head, before, client, octets, behind):
        self.name, self.head, self.before = name, head, before
        self.client, self.octets, self.behind = client, octets, behind

    def key(self):
        return self.head, tuple(self.before), self.client, self.octets

    def recording(self, sent):
        """The recording that has each of these lists of lines in the PDU's place, each in a phase of its own."""
        phases = [self.before, *sent, self.behind]
        return (self.head + "phase\n".join("".join(f"{line}\n" for line in p) for p in phases)).encode()

    def line(self, octets):
        return f"{self.client} {octets.hex().upper()}"


def places(paths):
    """The PDUs of these files of rows, each once with what was heard before, and with the most that comes behind."""
    found = {}
    for path in paths:
        with open(path, encoding="latin-1") as file:
            rows = [row for row in row_files.read(file.read(), os.path.basename(path)) if row.steps]
        for row in rows:
            head = row.recording.partition("\nend\n")[0] + "\nend\n"
            lines = [step.event.line() for step in row.steps]
            for at, step in enumerate(row.steps):
                if step.event.kind == "heard":
                    one = Place(f"{row.place} {at + 1}", head, lines[:at], step.event.client, step.event.octets, lines[at + 1 :])
                    old = found.get(one.key())
                    if old is None or len(old.behind) < len(one.behind):
                        found[one.key()] = one
    return list(found.values())


def damages(octets):
    """What is put in the place of a PDU, each once."""
    out = {}
    for at in range(len(octets)):
        for value in range(256):
            out[octets[:at] + bytes([value]) + octets[at + 1 :]] = None
        out[octets[:at] + octets[at + 1 :]] = None
        out[octets[: at + 1] + octets[at:]] = None
        out[octets[:at]] = None
    out[octets + b"\0"] = out[octets + b"\xff"] = None
    out.pop(octets, None)
    out.pop(b"", None)
    return list(out)


def invoke_of(octets):
    """The invokeID's contents of what begins as a confirmed request, where they can be read."""
    at = 1
    if octets[at : at + 1] > b"\x80":
        at += octets[at] & 127
    at += 1
    if octets[at : at + 1] != b"\x02" or not 0 < int.from_bytes(octets[at + 1 : at + 2], "big") < 128:
        return None
    contents = octets[at + 2 : at + 2 + octets[at + 1]]
    return contents if len(contents) == octets[at + 1] else None


def is_whole(octets):
    """Whether octets are one element of definite length."""
    at = 1
    if octets[0] & 31 == 31:
        at = 3 if octets[1:2] >= b"\x80" else 2
        number = [it & 127 for it in octets[1:at]]
        if at > len(octets) or octets[at - 1] > 127 or number[0] == 0 or number == [it for it in number if it < 31][:1]:
            return False
    if at >= len(octets) or octets[at] == 128 or octets[at] > 136:
        return False
    more = octets[at] & 127 if octets[at] > 128 else 0
    size = int.from_bytes(octets[at + 1 : at + 1 + more], "big") if more else octets[at]
    return len(octets) >= at + 1 + more and len(octets) == at + 1 + more + size


def answered(output):
    """The contents of the invokeID that an answer, an error or a reject of a confirmed request has."""
    if output is None or output[0] not in (0xA1, 0xA2, 0xA4):
        return None
    at = 2 + (output[1] & 127 if output[1] > 128 else 0)
    tag = b"\x02" if output[0] == 0xA1 else b"\x80"
    return output[at + 2 : at + 2 + output[at + 1]] if output[at : at + 1] == tag else None


def number(contents):
    return int.from_bytes(contents, "big", signed=True)


class Served:
    """What came of a recording: the status, and each phase's outputs by client, and its text."""

    def __init__(self, program, recording, words=("replay",)):
        ran = subprocess.run([program, *words], input=recording, stdout=subprocess.PIPE, stderr=subprocess.DEVNULL)
        self.status, self.report = ran.returncode, ran.stdout
        self.texts = [b"phase " + text for text in (b"\n" + ran.stdout).split(b"\nphase ")[1:]]

    def outputs(self, phase):
        """The outputs of a phase, from 0: pairs of a client and octets, or None for an abort."""
        out, client = [], 0
        for line in self.texts[phase].split(b"\n"):
            if line.startswith(b"client "):
                client = int(line[7:])
            elif line.startswith(b"> "):
                out.append((client, None if line == b"> abort" else bytes.fromhex(line[2:].decode())))
        return out


def is_refusal(outputs, client):
    """Whether one answer came, and is a reject or an error."""
    if len(outputs) != 1 or outputs[0][0] != client or outputs[0][1] is None:
        return False
    return outputs[0][1][0] in (0xA2, 0xA4, 0xA7, 0xAD)


def ends(outputs, client):
    """Whether an association ended: by an abort, or by the answer to a Conclude."""
    return any(to == client and (octets is None or octets[0] == 0x8C) for to, octets in outputs)


class Trial:
    """The damages of one place."""

    def __init__(self, place, program, some):
        self.place, self.program = place, program
        self.damages = damages(place.octets)[::some]
        self.is_definite = place.head.startswith("mms-recording 1\n")
        self.counts, self.found = Counter({"PDUs": len(self.damages)}), []
        probe = Served(program, place.recording([[place.line(NO_PDU)]]))
        self.is_open = probe.outputs(1) == [(place.client, REFUSED)]

    def tell(self, what, octets):
        self.found.append(f"{self.place.name}: {octets.hex(' ').upper()}: {what}")

    def lines(self, octets):
        """The lines of a damage among others: in Idle it is looked whether it opened, and what was opened is lost again."""
        line = self.place.line
        return [line(octets)] + ([] if self.is_open else [line(NO_PDU), f"lost {self.place.client}"])

    def parted(self):
        """Parts the damages into those that are refused, with what came of each, and those that aren't. Each was heard
        behind refused ones alone: the first that isn't ends its recording. In Idle all are heard, since a lost client
        leaves nothing."""
        stays, apart, todo, size = [], [], self.damages, MOST
        while todo:
            done = Served(self.program, self.place.recording([self.lines(it) for it in todo[:size]]))
            if done.status != 0:
                self.tell(f"status {done.status} of these and what follows", todo[0])
                break
            upto = len(todo[:size])
            for at, octets in enumerate(todo[:size]):
                outputs = done.outputs(at + 1)
                if self.is_open and not is_refusal(outputs, self.place.client):
                    apart.append(octets)
                    upto = at + 1
                    break
                stays.append((octets, outputs))
            size = min(MOST, 2 * size) if upto == len(todo[:size]) else max(LEAST, min(size, 2 * upto))
            todo = todo[upto:]
        return stays, apart

    def one_behind_the_other(self, refused):
        """Looks at those that are refused. Whether what follows is as behind as many of no PDU."""
        if not refused:
            return
        sent = [octets for octets, _ in refused]
        plain = Served(self.program, self.place.recording([self.lines(NO_PDU)] * len(sent)))
        recording = self.place.recording([self.lines(octets) for octets in sent])
        done = Served(self.program, recording)
        is_same = done.texts[-1] == plain.texts[-1] and done.texts[0] == plain.texts[0]
        if not is_same or any(done.outputs(at + 1) != outputs for at, (_, outputs) in enumerate(refused)):
            self.tell(f"{len(sent)} that are refused change what follows, or each other", sent[0])
            for octets in sent:
                self.alone(octets)
            return
        for octets, outputs in refused:
            if self.is_open:
                self.looks_at(octets, outputs)
            else:
                self.opens(octets, [it for to, it in outputs if to == self.place.client])
        self.counts["one behind the other"] += len(sent)
        self.by_workers(recording, sent[0])

    def opens(self, octets, outputs):
        """In Idle a proposal opens the association, and all else is aborted or refused, and leaves it in Idle."""
        if self.is_definite and not is_whole(octets) and outputs != [None, None]:
            self.tell("it is no whole element, and isn't aborted for it", octets)
        if len(outputs) != 2 or outputs[1] not in (None, REFUSED):
            self.tell(f"{len(outputs)} answers in Idle", octets)
        elif (outputs[0] is not None and outputs[0][0] == 0xA9) != (outputs[1] is not None):
            self.tell("the association isn't as it was answered", octets)
        self.counts["in Idle"] += 1
        self.counts["in Idle, and opened"] += outputs[1:] == [REFUSED]

    def by_workers(self, recording, octets):
        """Whether workers serve it, and what they write replays to itself."""
        done = Served(self.program, recording, ("run", "--workers", "2"))
        phases = [[line.partition(b" ")[2] for line in text.split(b"\n")[1:] if line[:1].isdigit()] for text in done.texts]
        again = self.place.head.encode() + b"phase\n".join(b"".join(line + b"\n" for line in it) for it in phases)
        if done.status != 0 or Served(self.program, again).report != done.report:
            self.tell(f"by workers status {done.status}, or its report doesn't replay to itself", octets)
        self.counts["by workers"] += len(phases) - 2

    def looks_at(self, octets, outputs):
        """The answers to what begins as a confirmed request. Whether it has none, and so has to wait."""
        if self.is_definite and not is_whole(octets) and outputs != [(self.place.client, BARE[1])]:
            self.tell("it is no whole element, and isn't refused for it", octets)
        if octets[0] != 0xA0:
            return False
        mine = [it for to, it in outputs if to == self.place.client]
        if any(it in BARE for it in mine):
            if len(mine) != 1:
                self.tell("more than a reject without an invokeID", octets)
            return False
        invoke = invoke_of(octets)
        if invoke is None:
            self.tell("answered, though it has no invokeID", octets)
            return False
        own = [it for it in mine if (answer := answered(it)) is not None and number(answer) == number(invoke)]
        if len(own) > 1 or (not own and mine and not ends(outputs, self.place.client)):
            self.tell(f"{len(own)} answers of its invokeID", octets)
        return not own

    def alone(self, octets, is_tenth=False):
        """Looks at one that is sent alone: what comes of it, whether it waits, and whether the association lives."""
        place = self.place
        recording = place.recording([[place.line(octets)], [place.line(NO_PDU)]])
        done = Served(self.program, recording)
        self.counts["alone"] += 1
        if done.status != 0:
            self.tell(f"status {done.status}", octets)
            return
        outputs, probe = done.outputs(1), done.outputs(2)
        if is_refusal(outputs, place.client):
            plain = Served(self.program, place.recording([[place.line(NO_PDU)]] * 2))
            self.counts["alone, and refused"] += 1
            if plain.texts[2:] != done.texts[2:]:
                self.tell("it is refused, and changes what follows", octets)
        lives = not ends(outputs, place.client)
        if probe != [(place.client, REFUSED if lives else None)]:
            self.tell(f"the association {'ended' if lives else 'lives'}", octets)
        if self.looks_at(octets, outputs):
            self.waits(octets)
        if is_tenth:
            self.by_workers(recording, octets)

    def waits(self, octets):
        """Whether a request of the same invokeID is rejected for it."""
        status = b"\x02" + bytes([len(invoke_of(octets))]) + invoke_of(octets) + b"\x80\x01\x00"
        again = b"\xa0" + bytes([len(status)]) + status
        done = Served(self.program, self.place.recording([[self.place.line(octets)], [self.place.line(again)]]))
        outputs = done.outputs(2)
        self.counts["waits"] += 1
        if not outputs or outputs[-1][1] is None or not outputs[-1][1].endswith(WAITS):
            self.tell("no answer, and it doesn't wait", octets)


def tried(place, program, some, until):
    """What was counted and found of one place; None where the time is over."""
    if time.monotonic() > until:
        return None
    began, trial = time.monotonic(), Trial(place, program, some)
    refused, apart = trial.parted()
    trial.one_behind_the_other(refused)
    for at, octets in enumerate(apart):
        trial.alone(octets, at % 10 == 0)
    trial.counts["milliseconds"] = round(1000 * (time.monotonic() - began))
    return {"place": place.name, "counts": dict(trial.counts), "found": trial.found}


def done_before(path):
    """What a file of state tells: a line for each place that was tried."""
    if not path or not os.path.exists(path):
        return []
    with open(path, encoding="utf-8") as file:
        return [json.loads(line) for line in file if line.endswith("\n")]


def main():
    parser = argparse.ArgumentParser(description=__doc__, formatter_class=argparse.RawDescriptionHelpFormatter)
    parser.add_argument("--rows", nargs="+", default=[os.path.join(row_files.DATA, "conversations.rows")], metavar="FILE")
    parser.add_argument("--state", metavar="FILE")
    parser.add_argument("--minutes", type=float, default=1e9)
    parser.add_argument("--some", type=int, default=1, metavar="N")
    parser.add_argument("--jobs", type=int, default=os.cpu_count())
    parser.add_argument("--program", default=os.path.join(HERE, "..", "crates", "mmscell", "out", "mmscell"))
    asked = parser.parse_args()
    told = done_before(asked.state)
    before = {it["place"] for it in told}
    todo = [it for it in places(asked.rows) if it.name not in before]
    whole, until = len(todo) + len(told), time.monotonic() + 60 * asked.minutes
    with concurrent.futures.ProcessPoolExecutor(asked.jobs) as pool:
        for result in pool.map(tried, todo, *zip(*[(asked.program, asked.some, until)] * len(todo))):
            if result is None:
                continue
            told.append(result)
            if asked.state:
                with open(asked.state, "a", encoding="utf-8") as file:
                    file.write(json.dumps(result) + "\n")
            for line in result["found"][:5]:
                print(line, flush=True)
    counts = Counter()
    for result in told:
        counts.update(result["counts"])
    print(f"{len(told):>9,} of {whole:,} places")
    print("\n".join(f"{count:>9,} {name}" for name, count in sorted(counts.items())))
    found = sum(len(it["found"]) for it in told)
    print(f"{found:>9,} found")
    sys.exit(bool(found))


if __name__ == "__main__":
    main()
