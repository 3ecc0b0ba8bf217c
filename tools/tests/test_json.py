"""What `--json` prints, held to the schema that the repository has."""
import json

from common import *  # noqa: F403
from test_commands import Refusing

with open(os.path.join(TOP, "tools", "mmstools", "result.schema.json"), encoding="utf-8") as f:
    SCHEMA = json.load(f)
TYPES = {"object": dict, "array": list, "string": str, "boolean": bool, "null": type(None)}


def wrong(value, schema, at="$"):
    """Where a value breaks a schema, as far as the schema's words are known here; every other word is told, too."""
    known = {"$schema", "$defs", "title", "description", "$ref", "anyOf", "type", "required", "additionalProperties"}
    for word in set(schema) - known - {"properties", "items", "enum", "const", "pattern"}:
        yield f"{at}: the schema has a word that the test does not know, {word}"
    if "$ref" in schema:
        yield from wrong(value, SCHEMA["$defs"][schema["$ref"].rpartition("/")[2]], at)
    if "anyOf" in schema and all(any(True for _ in wrong(value, one, at)) for one in schema["anyOf"]):
        yield f"{at}: none of anyOf"
    if "type" in schema and not any(_is(value, name) for name in _names(schema["type"])):
        yield f"{at}: {value!r} is not {schema['type']}"
    if "const" in schema and value != schema["const"] or "enum" in schema and value not in schema["enum"]:
        yield f"{at}: {value!r}"
    if "pattern" in schema and isinstance(value, str) and not re.search(schema["pattern"], value):
        yield f"{at}: {value!r}"
    if isinstance(value, list):
        for i, one in enumerate(value):
            yield from wrong(one, schema.get("items", {}), f"{at}[{i}]")
    if isinstance(value, dict):
        yield from _wrong_in(value, schema, at)


def _names(kind):
    return [kind] if isinstance(kind, str) else kind


def _is(value, name):
    if name in ("integer", "number"):
        return isinstance(value, int if name == "integer" else (int, float)) and not isinstance(value, bool)
    return isinstance(value, TYPES[name])


def _wrong_in(value, schema, at):
    """What is wrong with an object's keys."""
    inner, others = schema.get("properties", {}), schema.get("additionalProperties", True)
    for key in schema.get("required", []):
        if key not in value:
            yield f"{at}: {key} is missing"
    for key, one in value.items():
        if key in inner or isinstance(others, dict):
            yield from wrong(one, inner.get(key, others), f"{at}.{key}")
        elif not others:
            yield f"{at}: {key} is too much"


class Json(Refusing):
    def document(self, *words):
        """What a command prints, which keeps the schema, and tells the status with which it ends."""
        status, out, err = self.run_(*words, "--json")
        self.assertEqual(err, "", words)
        found = json.loads(out)
        self.assertEqual(list(wrong(found, SCHEMA))[:3], [], words)
        self.assertEqual((found["status"], found["command"]), (status, words[0]))
        return found

    def test_the_test(self):
        """A document that breaks the schema is found out."""
        whole = self.document("explain", "A006020101800100")
        for key, value in (("format", 2), ("command", "x"), ("status", "0"), ("pdus", [{}]), ("more", 1)):
            self.assertTrue(list(wrong({**whole, key: value}, SCHEMA)), key)
        del whole["status"]
        self.assertTrue(list(wrong(whole, SCHEMA)))

    def test_explain(self):
        """Each example, and what is refused or malformed."""
        for path in REPORTS:
            report = texts.read_report(text_of(path))
            found = self.document("explain", path)
            self.assertEqual(len(found["events"]), sum(len(p.served) for p in report.phases))
            sent = [o["pdu"]["octets"] for e in found["events"] for o in e["sent"]]
            self.assertEqual(len(sent), sum(len(o) for p in report.phases for o in p.outputs.values()))
            recording = texts.read_recording(text_of(path[: -len("report")] + "mms"))
            found = self.document("explain", path[: -len("report")] + "mms")
            self.assertEqual(len(found["events"]), sum(len(p) for p in recording.phases))
        self.assertEqual(self.document("explain", "A0FF")["status"], 2)
        for text, told in (
            (b"phase 1\n1 1 8B00\nbad 6 hex\n", "bad 6 hex"),
            (b"bad config 3\n", "bad config 3"),
            (b"mms-recording 1\nconfig\nclients = 65\nend\n", "bad config 2"),
            (b"mms-recording 1\nconfig\nend\n1 8B0\n", "bad 4 hex"),
            (b"mms-recording 3\nconfig\nend\n", "bad 1 header"),
        ):
            found = self.document("explain", self.file(text))
            self.assertEqual((found["status"], found["refusal"]["told"]), (2, told))

    def test_undecided(self):
        """A configuration that Python doesn't read as TOML is no refusal."""
        found = self.document("explain", self.file(b'mms-recording 1\nconfig\nvendor = "\\x4"\nend\n1 8B00\n'))
        self.assertEqual((found["status"], found["refusal"], len(found["events"])), (0, None, 1))
        self.assertIn("mmscell decides", found["undecided"])

    def test_compare(self):
        report = os.path.join(EXAMPLES, "loss.report")
        self.assertEqual({a["kind"] for a in self.document("compare", report, report)["answers"]}, {"same"})
        other = self.file(text_of(report).replace("> abort\n", "", 1).encode())
        found = self.document("compare", report, other)
        self.assertEqual((found["status"], [a["kind"] for a in found["answers"] if a["second"] is None]), (1, ["more"]))

    def test_run(self):
        with tempfile.TemporaryDirectory() as d:
            for name in ("a", "b"):
                with open(os.path.join(d, name + ".mms"), "w", encoding="utf-8") as f:
                    f.write("mms-recording 1\nconfig\nend\n")
            found = self.document("run", d, "--program", "/no/such")
            self.assertEqual((found["status"], found["counts"]["failed"], len(found["recordings"])), (2, 2, 2))

    def test_refused(self):
        """What can't be read is a sentence, and no document."""
        for words in (["explain", "/no/such"], ["run", "/no/such"], ["compare", REPORTS[0], REPORTS[1]]):
            self.refused(*words, "--json")


if __name__ == "__main__":
    unittest.main()
