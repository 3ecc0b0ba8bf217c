"""The table of forms, held against what all rows of the gate and the examples send and receive."""

import re
import unittest
from typing import Iterator, List, Set, Tuple

from common import REPORTS, text_of
from mmstools import ber, grammar, texts, words
from mmstools.grammar import Component, Form, Node
from row_files import HERE, Step, rows

PROFILE = [0, 1, 2, *range(4, 8), *range(10, 14), *range(19, 32), *range(36, 46), 47, 48, 50, 51, 52, 57, 58]
PROFILE += range(65, 71)
# ^ the services that are served
BEYOND = """localDetail listOfAbstractSyntaxes scatteredAccess alternateAccess generalized-time bcd booleanArray objId
    mMSString utc-time ae-invocation-id application-reference time-resolution file others additionalCode
    additionalDescription obtainFile any sequence""".split()  # of the table, and in no row


def _of_examples() -> Iterator[Step]:
    for path in REPORTS:
        for phase in texts.read_report(text_of(path)).phases:
            outputs = [(client, o) for client, many in phase.outputs.items() for o in many]
            yield Step(texts.Event("tick"), outputs)
            yield from (Step(one, []) for _, one in phase.served)


def _of_reports() -> Iterator[Step]:
    for row in rows():
        if row.report.startswith("phase "):
            whole = row.report[: row.report.rfind("\n") + 1]  # where the sink was full, a part of a line may come behind
            for phase in texts.read_report(whole).phases:
                yield Step(texts.Event("tick"), [(c, o) for c, many in phase.outputs.items() for o in many])


def steps() -> List[Step]:
    return [s for row in rows() for s in row.steps]


def shown(n: Node) -> bytes:
    """The octets that a node and its parts show."""
    e = n.element
    end = ber.END_OF_CONTENTS if e.is_ended else b""
    return e.octets[e.at : e.start] + (b"".join(map(shown, n.parts)) if n.parts else e.contents) + end


def lacks(e, form, at: str) -> List[str]:
    """What an element lacks of a form: components that may not be missing, and parts that no component is."""
    form = grammar._resolved(form)
    if isinstance(form, str):
        return []
    if form.kind == "choice":
        found = next((c for c in form.components if grammar._fits(e, c)), None)
        return [f"{at}: none of the choice"] if found is None else _below(e, found, at)
    if form.kind == "list":
        return [x for p in e.parts for x in _below(p, form.components[0], at)]
    out, parts = [], list(e.parts)
    for c in form.components:
        if parts and grammar._fits(parts[0], c):
            out += _below(parts.pop(0), c, at)
        elif not c.optional:
            out.append(f"{at}: no {c.label or c.form}")
    return out + [f"{at}: more than the form has"] * len(parts)


def _below(e, c: Component, at: str) -> List[str]:
    """The same of an element as that component: of what its tag holds, where the tag is explicit."""
    form = grammar._resolved(c.form)
    explicit = c.number is not None and (c.explicit or isinstance(form, Form) and form.kind == "choice")
    return lacks(e.parts[0] if explicit and len(e.parts) == 1 else e, form, f"{at}/{c.label}")


class Answers(unittest.TestCase):
    """What the server sends: also what it asks."""

    def test_each_element_is_known_and_shown_once(self):
        count = 0
        for step in [*steps(), *_of_examples(), *_of_reports()]:
            for octets in (o for _, o in step.outputs if o is not None):
                nodes = grammar.decode(octets)
                self.assertEqual(len(nodes), 1)
                for n in nodes[0].walk():
                    self.assertTrue(n.known and not n.element.flaw, octets.hex())
                    self.assertTrue(n.parts or n.value or not n.element.contents, octets.hex())
                self.assertEqual(shown(nodes[0]), octets)
                count += 1
        self.assertGreater(count, 5000)

    def test_each_is_of_its_form(self):
        for step in steps():
            for octets in (o for _, o in step.outputs if o is not None):
                e = grammar.decode(octets)[0].element
                self.assertEqual(lacks(e, grammar._PDU_CHOICE, ""), [], octets.hex())

    def test_words_are_whole(self):
        for step in steps():
            for octets in (o for _, o in step.outputs if o is not None):
                said = words.say(octets)
                self.assertTrue(said.pdu, octets.hex())
                self.assertNotRegex(said.detail, r"malformed|\(no octet|\(no bit string|unknown |\bcode\b")


class Requests(unittest.TestCase):
    """What a client sends and the server takes."""

    def taken(self) -> Iterator[bytes]:
        """Requests that are answered or refused by their service, proposals that are taken, and all client's answers
        that no reject follows."""
        for step in steps():
            octets = step.event.octets
            own = [o for client, o in step.outputs if client == step.event.client]
            if octets[:1] in (b"\xa0", b"\xa8") and own and own[0] and own[0][:1] in (b"\xa1", b"\xa2", b"\xa9"):
                yield octets
            elif octets[:1] == b"\xa1" and None not in own and all(o[:1] != b"\xa4" for o in own):
                yield octets

    def test_each_element_is_known_and_shown_once(self):
        count = 0
        for octets in self.taken():
            (node,) = grammar.decode(octets)
            self.assertTrue(all(n.known and not n.element.flaw for n in node.walk()), octets.hex())
            self.assertEqual(shown(node), octets)
            self.assertEqual(lacks(node.element, grammar._PDU_CHOICE, ""), [], octets.hex())
            count += 1
        self.assertGreater(count, 2000)


class Table(unittest.TestCase):
    def test_the_rows_have_each_component(self):
        """Each component of the profile's services is met; a wrong tag in the table leaves it unmet."""
        met: Set[int] = set()
        whole, component = grammar._component, grammar._component

        def noting(e, c):
            met.add(id(c))
            return component(e, c)

        grammar._component = noting
        try:
            for step in steps():
                for octets in [step.event.octets, *(o for _, o in step.outputs if o)]:
                    grammar._decoded.__wrapped__(octets)  # not what was kept of it
        finally:
            grammar._component = whole
        unmet = {label for k in PROFILE for form in grammar.SERVICE[k][1] for label in self.unmet(form, "", met, 0)}
        self.assertEqual(unmet, {*BEYOND})

    def unmet(self, form, at: str, met: Set[int], depth: int) -> Iterator[str]:
        form = grammar._resolved(form)
        for c in form.components if isinstance(form, Form) and depth < 5 else []:
            if id(c) not in met:
                yield c.label or at
            else:
                yield from self.unmet(c.form, c.label or at, met, depth + 1)

    def profile(self) -> Iterator[Tuple[int, str, str, str]]:
        """Number, name and forms of each service that docs/PROFILE.md has in a table."""
        with open(f"{HERE}/../../docs/PROFILE.md", encoding="utf-8") as f:
            for line in f:
                cells = [x.strip() for x in line.strip().strip("|").split(" | ")]
                if re.fullmatch(r"\d+", cells[0]) and len(cells) in (4, 5) and re.fullmatch(r"[A-Z]\w+", cells[1]):
                    yield int(cells[0]), cells[1], cells[-2], cells[-1]

    def test_profile(self):
        """Each service of docs/PROFILE.md has its name and as many components with tags."""
        found = list(self.profile())
        self.assertEqual(sorted(k for k, *_ in found), [k for k in PROFILE if k > 2])
        for k, name, asks, answers in found:
            label, forms = grammar.SERVICE[k]
            self.assertEqual(label.lower(), name.lower())
            for told, form in zip((asks, answers), map(grammar._resolved, forms)):
                if told.startswith("`{") and isinstance(form, Form):
                    own = [c.number for c in form.components if c.number is not None and c.label not in BEYOND]
                    self.assertEqual(self.tags(told), own, name)

    def tags(self, told: str) -> List[int]:
        """The tags of a sequence's own components, as PROFILE writes them."""
        inner = told[told.index("{") + 1 :]
        while re.search(r"\{[^{}]*\}", inner):
            inner = re.sub(r"\{[^{}]*\}", "", inner)
        return [int(n) for n in re.findall(r"\[(\d+)\]", inner.partition("}")[0])]


if __name__ == "__main__":
    unittest.main()
