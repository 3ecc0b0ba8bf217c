"""Tests of the script `mmscell`, with a kit and a program that only say how they were called."""
import re
import shlex

from common import *  # noqa: F403

SCRIPT = os.path.join(TOP, "mmscell")


class Script(unittest.TestCase):
    """A copy of the script at the top of a folder of its own."""

    def setUp(self):
        folder = tempfile.TemporaryDirectory()
        self.addCleanup(folder.cleanup)
        self.top = folder.name
        shutil.copy(SCRIPT, self.top)
        for name in ("crates.txt", "HANDLES"):
            shutil.copy(os.path.join(TOP, name), self.top)
        os.makedirs(self.path("crates", "mmscell", "out"))
        os.makedirs(self.path("bin"))
        self.write("a.mms", "mms-recording 1\nconfig\nend\n")
        self.kit('echo "called: $*" >&2; exit 9')

    def path(self, *names):
        return os.path.join(self.top, *names)

    def write(self, name, text):
        with open(self.path(*name.split("/")), "w", encoding="utf-8") as f:
            f.write(text)

    def tool(self, name, body):
        self.write(name, f"#!/bin/sh\n{body}\n")
        os.chmod(self.path(*name.split("/")), 0o755)

    def kit(self, body):
        """The command `rt`, which answers `rt doc` with nothing."""
        self.tool("bin/rt", f'[ "$1" != doc ] || exit 1\n{body}')

    def program(self, body):
        self.tool("crates/mmscell/out/mmscell", body)

    def run_(self, words, text=""):
        """Status, output and errors of the script with these words."""
        env = {**os.environ, "PATH": f"{self.path('bin')}:{os.environ['PATH']}"}
        command = [self.path("mmscell"), *shlex.split(words)]
        done = subprocess.run(command, input=text, capture_output=True, text=True, env=env, cwd=self.top)
        return done.returncode, done.stdout, done.stderr


class Words(Script):
    """What the script says before it starts anything."""

    def test_help(self):
        for words in ("-h", "--help", "help"):
            status, out, err = self.run_(words)
            self.assertEqual((status, err), (0, ""), words)
            for said in ("replay < RECORDING", "run --workers N", "stress --seed N", "--unproved", "--all FOLDER", "hour"):
                self.assertIn(said, out)

    def test_no_form(self):
        """Nothing is started by words that are no form of the command, and a file is said to come on standard input."""
        for words, said in (
            ("", "no command"),
            ("''", "no command"),
            ("frob", "there is no command `frob`"),
            ("a.mms", "a.mms is a file: a recording comes on standard input, ./mmscell replay < a.mms"),
            ("replay a.mms", "./mmscell replay < a.mms"),
            ("run a.mms --workers 2", "./mmscell run < a.mms"),
            ("replay --workers 2", "replay has no further words"),
            ("--unproved", "no command"),
            ("--unproved a.mms", "comes on standard input"),
            ("--unproved replay a.mms", "comes on standard input"),
        ):
            status, out, err = self.run_(words)
            self.assertEqual((status, out), (1, ""), words)
            self.assertIn(said, err.split("\n")[0], words)
            self.assertIn("./mmscell replay < RECORDING", err)
            self.assertNotIn("called:", err)

    def test_before_it_proves(self):
        """How long it takes, and what there is besides."""
        status, _, err = self.run_("replay")
        self.assertEqual(status, 70)
        self.assertRegex(err, r"an hour or more")
        self.assertIn("./mmscell --unproved replay", err)
        with open(re.search(r"the log is (\S+)", err)[1], encoding="utf-8") as f:
            self.assertEqual(f.read(), "called: ci\n")
        os.remove(re.search(r"the log is (\S+)", err)[1])


class Ends(Script):
    """The program's output and status, and the sentence behind a refusal."""

    def test_statuses(self):
        for status in range(8):
            self.program(f'cat; echo "$@"; exit {status}')
            got, out, err = self.run_("run --workers 2", "in\n")
            self.assertEqual((got, out), (status, "in\nrun --workers 2\n"))
            refused = status in (2, 6, 7)
            self.assertEqual("tools/mms explain x.report" in err, refused, err)
            self.assertEqual(f"refused (status {status})" in err, refused, err)

    def test_unproved(self):
        self.kit('echo "called: $*"; cat; exit 6')
        got, out, err = self.run_("--unproved replay", "in\n")
        self.assertEqual((got, out), (6, "called: try --seconds 600 -- replay\nin\n"))
        self.assertIn("nothing of what follows is proved", err)
        self.assertIn("refused (status 6)", err)

    def test_all(self):
        """One build serves a folder; a report is left beside each recording, and statuses are printed."""
        os.mkdir(self.path("many"))
        for name in ("a.mms", "b c.mms", "other.txt"):
            self.write(f"many/{name}", "mms-recording 1\nconfig\nend\n")
        case = 'echo "case=$n run=ended status=$s runners=1 races=unchecked proved=no" >&2'
        self.kit(
            'echo "called: $*" >&2; cd "$5"; for n in *; do s=0; [ "$n" != "$BAD" ] || s=2;'
            f' echo "== $n"; echo "phase 1"; echo "of $n"; {case}; done; echo "cases=2 ended=2" >&2'
        )
        got, out, err = self.run_("--unproved --all many")
        self.assertEqual((got, out), (0, "a.mms 0\nb c.mms 0\n"), err)
        self.assertEqual(err.count("called: try"), 1)
        self.assertEqual(sorted(os.listdir(self.path("many"))), ["a.mms", "a.report", "b c.mms", "b c.report", "other.txt"])
        with open(self.path("many", "b c.report"), encoding="utf-8") as f:
            self.assertEqual(f.read(), "phase 1\nof b c.mms\n")
        self.assertNotIn("run=ended", err)
        os.environ["BAD"] = "b c.mms"
        self.addCleanup(os.environ.pop, "BAD")
        got, out, err = self.run_("--unproved --all many")
        self.assertEqual((got, out), (2, "a.mms 0\nb c.mms 2\n"))
        self.kit("exit 1")
        got, out, err = self.run_("--unproved --all many")
        self.assertEqual((got, out), (70, ""))
        self.assertIn("a.mms has no report", err)

    def test_all_of_nothing(self):
        os.mkdir(self.path("none"))
        for words in ("--unproved --all", "--unproved --all a.mms", "--unproved --all none"):
            self.assertEqual(self.run_(words)[:2], (1, ""), words)


class Device(unittest.TestCase):
    """MMSCELL is words, which the tests split as a shell and the tools do."""

    def said(self, words):
        code = "import sys; sys.path.insert(0, %r); import common; print(common.DEVICE); " % HERE
        code += "print(common.replayed(common.texts.Recording('1', [], [])) if common.DEVICE else '')"
        env = {**os.environ, "MMSCELL": words}
        done = subprocess.run([sys.executable, "-c", code], capture_output=True, text=True, env=env, check=True)
        return done.stdout

    def test_words(self):
        with tempfile.TemporaryDirectory() as d:
            path = os.path.join(d, "a b.sh")
            with open(path, "w", encoding="utf-8") as f:
                f.write('echo "phase 1: $*"\n')
            self.assertEqual(self.said(f"sh '{path}' --unproved"), f"{['sh', path, '--unproved']}\nphase 1: --unproved replay\n\n")
            self.assertEqual(self.said(f"{d}/none --unproved"), "[]\n\n")


if __name__ == "__main__":
    unittest.main()
