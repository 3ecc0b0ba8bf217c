"""Tests of run, with a program that answers by what stands in a recording."""
from common import *  # noqa: F403
from mmstools import run
from test_commands import Running

PROGRAM_TEXT = """#!/bin/sh
[ "$*" = replay ] || exit 1
text=$(cat)
case "$text" in
    *refused*) echo "bad config 0"; exit 6 ;;
    *memory*) echo "want of memory" >&2; exit 3 ;;
esac
printf 'phase 1\\n1 1 8B00\\nclient 1\\n> abort\\n'
"""
SERVED = "phase 1\n1 1 8B00\nclient 1\n> abort\n"


class Run(Running):
    def setUp(self):
        folder = tempfile.TemporaryDirectory()
        self.addCleanup(folder.cleanup)
        self.folder = folder.name
        self.program = self.write("../%s.sh" % os.path.basename(self.folder), PROGRAM_TEXT)
        self.addCleanup(os.remove, self.program)
        os.chmod(self.program, 0o755)

    def write(self, name, text):
        path = os.path.normpath(os.path.join(self.folder, name))
        os.makedirs(os.path.dirname(path), exist_ok=True)
        with open(path, "w", encoding="utf-8") as f:
            f.write(text)
        return path

    def read(self, name):
        with open(os.path.join(self.folder, name), encoding="utf-8") as f:
            return f.read()

    def recording(self, name, note="", report=None):
        self.write(name + ".mms", f"mms-recording 1\nconfig\n{note}end\n1 8B00\n")
        if report is not None:
            self.write(name + ".report", report)

    def ran(self, *words):
        return self.run_("run", self.folder, "--program", self.program, *words)

    def test_same(self):
        self.recording("a", report=SERVED)
        self.recording("in/b", "# refused\n", "bad config 0\n")
        self.assertEqual(self.ran(), (0, "2 recordings: 2 same\n", ""))

    def test_differs(self):
        """Answers are told as compare tells them; what isn't an answer by its line."""
        self.recording("a", report=SERVED.replace("> abort", "> 8C00"))
        self.recording("b", "# refused\n", "bad config 1\n")
        status, out, _ = self.ran()
        self.assertEqual(status, 1)
        self.assertIn("a.mms: differs\n  place 1, client 1: conclude-Request\n    another answer\n", out)
        self.assertIn("wanted `bad config 1`, came `bad config 0`", out)
        self.assertIn("2 recordings: 2 differs\n", out)

    def test_new_and_accept(self):
        self.recording("a")
        self.recording("b", report="phase 1\n")
        status, out, _ = self.ran()
        self.assertEqual((status, "a.mms: new" in out), (1, True))
        self.assertFalse(os.path.exists(os.path.join(self.folder, "a.report")))
        status, out, _ = self.ran("--accept")
        self.assertEqual((status, out.split("\n")[-2]), (0, "2 recordings: 2 accepted"))
        self.assertEqual((self.read("a.report"), self.read("b.report")), (SERVED, SERVED))
        self.assertEqual(self.ran(), (0, "2 recordings: 2 same\n", ""))

    def test_failed(self):
        """A program that gives no report is told with its status and its words, and nothing is stored."""
        self.recording("a", "# memory\n")
        self.recording("b", report=SERVED)
        status, out, _ = self.ran("--accept")
        self.assertEqual(status, 2)
        self.assertIn("a.mms: failed\n  the program ended with 3: want of memory\n", out)
        self.assertFalse(os.path.exists(os.path.join(self.folder, "a.report")))
        self.recording("a", report=SERVED)
        status, out, _ = self.run_("run", self.folder, "--program", "/no/such")
        self.assertEqual((status, out.count("No such file")), (2, 2))

    def test_junit(self):
        self.recording("a", report=SERVED)
        self.recording("b")
        self.recording("c", "# memory\n")
        path = os.path.join(self.folder, "out.xml")
        self.assertEqual(self.ran("--junit", path)[0], 2)
        suite = ET.fromstring(self.read("out.xml"))
        self.assertEqual([suite.get(k) for k in ("tests", "failures", "errors")], ["3", "1", "1"])
        cases = {case.get("name"): [part.tag for part in case] for case in suite}
        self.assertEqual(cases, {"a.mms": [], "b.mms": ["failure"], "c.mms": ["error"]})

    def test_nothing_to_run(self):
        for words in ([self.folder], ["/no/such"], [__file__]):
            status, out, err = self.run_("run", *words, "--program", self.program)
            self.assertEqual((status, out), (2, ""))
            self.assertRegex(err, r"^mms run: .*\n$")
        self.recording("a", report=SERVED)
        self.assertEqual(self.ran("--jobs", "0")[0], 2)

    def test_many(self):
        """They are told in the order of their names, however many are served at once."""
        for i in range(40):
            self.recording(f"{i:02}", "# refused\n" * (i % 2))
        results = list(run.run_all(run.recordings(self.folder), [self.program], False, 8))
        self.assertEqual([os.path.basename(r.name) for r in results], [f"{i:02}" for i in range(40)])
        self.assertEqual({r.status for r in results}, {0, 6})

    @needs_program
    def test_examples(self):
        status, out, err = self.run_("run", EXAMPLES, "--program", " ".join(DEVICE))
        self.assertEqual((status, out, err), (0, f"{len(REPORTS)} recordings: {len(REPORTS)} same\n", ""))


if __name__ == "__main__":
    unittest.main()
