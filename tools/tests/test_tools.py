"""The commands, called as a user calls them: on folders, on a terminal, and with a stand-in for the program."""

import os
import pty
import subprocess
import sys
import tempfile
import unittest
from pathlib import Path
from typing import Dict, List
from unittest import mock

from jimple.prepare import Job, do
from jimple.program import BUILT
from tests.texts import CHANGED, KEPT, LEFT_OUT

ROOT = Path(__file__).resolve().parents[2]
BUILT_BELOW = BUILT.relative_to(ROOT)

# Answers by the name of its last word, as the program does.
STAND_IN = """#!/bin/sh
for file; do :; done
case $file in
  *.placed.jimple) echo "clean: $file: syntax at 15" >&2; exit 3;;
  *.twice.jimple) echo "clean: class A given twice" >&2; exit 3;;
esac
echo classes 1
"""


def rest(terminal: int) -> str:
    """What a terminal has taken whose other end is closed."""
    pieces = []
    with open(terminal, "rb", buffering=0) as ours:
        try:
            while not pieces or pieces[-1]:
                pieces.append(ours.read(4096))
        except OSError:  # so Linux tells the end
            pass
    return b"".join(pieces).decode()


class Tools(unittest.TestCase):
    def setUp(self) -> None:
        folder = tempfile.TemporaryDirectory()
        self.addCleanup(folder.cleanup)
        self.folder = Path(folder.name)

    def write(self, texts: Dict[str, bytes]) -> None:
        for name, text in texts.items():
            path = self.folder / name
            path.parent.mkdir(parents=True, exist_ok=True)
            path.write_bytes(text)

    def written(self, below: str) -> Dict[str, bytes]:
        folder = self.folder / below
        return {str(path.relative_to(folder)): path.read_bytes() for path in folder.rglob("*") if path.is_file()}

    def program(self, name: str) -> str:
        self.write({name: STAND_IN.encode()})
        (self.folder / name).chmod(0o755)
        return str(self.folder / name)

    def call(self, tool: str, *words: str, **settings: str) -> "subprocess.CompletedProcess[str]":
        command = [sys.executable, "-B", str(ROOT / "tools" / tool), *words]
        return subprocess.run(
            command, cwd=self.folder, env={**os.environ, **settings}, stdin=subprocess.DEVNULL, text=True,
            stdout=subprocess.PIPE, stderr=subprocess.PIPE)

    def on_terminal(self, command: List[str]) -> "subprocess.CompletedProcess[str]":
        """A call whose standard error is a terminal; what it writes there has its line ends."""
        ours, theirs = pty.openpty()
        with subprocess.Popen(command, cwd=self.folder, stdout=subprocess.PIPE, stderr=theirs, text=True) as started:
            out, _ = started.communicate()
        os.close(theirs)
        return subprocess.CompletedProcess(command, started.returncode, out, rest(ours).replace("\r\n", "\n"))


class Prepare(Tools):
    def refuse(self, *words: str) -> str:
        """What is said of words that can't be followed; nothing is written."""
        before = self.written(".")
        done = self.call("prepare", *words)
        self.assertEqual((done.returncode, done.stdout, self.written(".")), (2, "", before))
        return done.stderr

    def test_a_folder(self) -> None:
        text, wanted = CHANGED["a class"]
        given = {"in/a/A.jimple": text, "in/B.jimple": KEPT["two classes"], "in/C.jimple": LEFT_OUT["a breakpoint"][0],
                 "in/empty.jimple": b"", "in/other.txt": text}
        self.write(given)
        done = self.call("prepare", "in", "out")
        report = "taken 3\nchanged 1: quoted names 1\nleft out 1\nleft out C.jimple:7:9: breakpoint not supported\n"
        self.assertEqual((done.returncode, done.stdout, done.stderr), (1, report, ""))
        self.assertEqual(
            self.written("."), {**given, "out/a/A.jimple": wanted, "out/B.jimple": KEPT["two classes"],
                                "out/empty.jimple": b"",
                                "out.list": (report + "changed a/A.jimple: quoted names 1\n").encode()})

    def test_the_same_again(self) -> None:
        """The same input gives the same bytes, and what was made is made of itself; with many files too."""
        self.write({"in/%d.jimple" % number: text for number, (text, _) in enumerate([*CHANGED.values()] * 2)})
        for words in ("in", "out"), ("in", "again"), ("out", "new"):
            self.assertEqual(self.call("prepare", *words).returncode, 0)
        self.assertEqual(self.written("out"), self.written("again"))
        self.assertEqual(self.written("out"), self.written("new"))
        self.assertEqual(self.written(".")["out.list"], self.written(".")["again.list"])
        self.assertIn(b"changed 0\n", self.written(".")["new.list"])

    def test_files(self) -> None:
        self.write({"a/A.txt": KEPT["nothing"], "b/B.jimple": LEFT_OUT["no text"][0]})
        done = self.call("prepare", "a/A.txt", "b/B.jimple", "out/deep")
        self.assertEqual(done.stdout, "taken 1\nchanged 0\nleft out 1\nleft out B.jimple:1:1: byte not allowed\n")
        self.assertEqual(done.returncode, 1)
        self.assertEqual(self.written("out"), {"deep/A.txt": b"", "deep.list": done.stdout.encode()})

    def test_a_file_that_cannot_be_read(self) -> None:
        self.write({"in/A.jimple": b""})
        (self.folder / "in/B.jimple").symlink_to("nowhere")
        done = self.call("prepare", "in", "out")
        self.assertEqual(
            (done.returncode, done.stdout),
            (1, "taken 1\nchanged 0\nleft out 1\nleft out B.jimple: can't be read: No such file or directory\n"))

    def test_a_file_that_is_too_long(self) -> None:
        self.write({"A.jimple": b"1234"})
        with mock.patch("jimple.prepare.ROOM", 3):
            done = do(Job("A.jimple", self.folder / "A.jimple", self.folder / "B.jimple"))
        self.assertEqual((done.refusal, list(self.written("."))), (": longer than 3 bytes", ["A.jimple"]))

    def test_an_empty_folder_takes_what_is_made(self) -> None:
        self.write({"in/A.jimple": b""})
        (self.folder / "out").mkdir()
        self.assertEqual(self.call("prepare", "in", "out").returncode, 0)

    def test_words_that_cannot_be_followed(self) -> None:
        self.write({"in/A.jimple": b"", "in/a/A.jimple": b"", "none/A.txt": b"", "full/A": b"", "new.list": b""})
        self.assertIn("OUT", self.refuse("in"))
        for words, reason in {
            ("nowhere", "out"): "nowhere: no such file or folder",
            ("none", "out"): "none: no .jimple file",
            ("in", "full"): "full: there already, and no empty folder",
            ("in", "new.list"): "new.list: there already, and no empty folder",
            ("in", "new"): "new.list: there already",
            ("in", "in/out"): "in/out: lies in the input in",
            ("in", "in/a/A.jimple", "out"): "in/A.jimple and in/a/A.jimple would have one name",
        }.items():
            with self.subTest(words):
                self.assertEqual(self.refuse(*words).splitlines()[-1].replace(str(self.folder.resolve()) + "/", ""),
                                 "prepare: " + reason)

    def test_a_terminal_shows_how_far_it_is(self) -> None:
        self.write({"in/A.jimple": b"", "in/B.jimple": b""})
        done = self.on_terminal([sys.executable, "-B", str(ROOT / "tools" / "prepare"), "in", "out"])
        self.assertIn("[%s] 1 of 2 files" % ("#" * 20 + " " * 20), done.stderr)
        self.assertTrue(done.stderr.endswith("\r\x1b[K"))


class Faults(Tools):
    def test_each_file_has_its_first_fault(self) -> None:
        self.write({"in/A.placed.jimple": b"class A {\n\tint \xe9;\n}\n", "in/B.jimple": b"", "C.twice.jimple": b""})
        done = self.call("faults", "in", "C.twice.jimple", CLEAN=self.program("program"))
        self.assertEqual(
            (done.returncode, done.stdout, done.stderr),
            (1, "in/A.placed.jimple:2:6: syntax\n int ?;\n     ^\nC.twice.jimple: class A given twice\n", ""))

    def test_no_fault(self) -> None:
        self.write({"A.jimple": b""})
        done = self.call("faults", "A.jimple", CLEAN=self.program("program"))
        self.assertEqual((done.returncode, done.stdout, done.stderr), (0, "", ""))

    def test_words_that_cannot_be_followed(self) -> None:
        self.write({"A.jimple": b""})
        for words, program in (("nowhere",), self.program("program")), (("A.jimple",), "./nowhere"):
            done = self.call("faults", *words, CLEAN=program)
            self.assertEqual((done.returncode, done.stdout, done.stderr.count("\n")), (2, "", 1))


class Launcher(Tools):
    """The launcher, with a stand-in where it keeps what it built."""

    def setUp(self) -> None:
        super().setUp()
        self.program(str(BUILT_BELOW))
        self.write({"clean": (ROOT / "clean").read_bytes(), "A b.placed.jimple": b"class A {\n\tint \xe9;\n}\n"})

    def test_a_terminal_shows_the_place_behind_the_line(self) -> None:
        done = self.on_terminal(["bash", "clean", "check", "A b.placed.jimple"])
        line = "clean: A b.placed.jimple: syntax at 15\n"
        self.assertEqual(
            (done.returncode, done.stdout, done.stderr), (3, "", line + "A b.placed.jimple:2:6\n int ?;\n     ^\n"))

    def test_other_lines_stay_alone(self) -> None:
        done = self.on_terminal(["bash", "clean", "check", "A.twice.jimple"])
        self.assertEqual((done.returncode, done.stdout, done.stderr), (3, "", "clean: class A given twice\n"))

    def test_an_output_goes_its_way(self) -> None:
        done = self.on_terminal(["bash", "-c", "bash clean check A.jimple; s=$?; echo end >&2; exit $s"])
        self.assertEqual((done.returncode, done.stdout, done.stderr), (0, "classes 1\n", "end\n"))

    def test_elsewhere_the_line_stays_alone(self) -> None:
        done = subprocess.run(
            ["bash", "clean", "check", "A b.placed.jimple"], cwd=self.folder, stdout=subprocess.PIPE,
            stderr=subprocess.PIPE)
        self.assertEqual(
            (done.returncode, done.stdout, done.stderr), (3, b"", b"clean: A b.placed.jimple: syntax at 15\n"))


@unittest.skipUnless("CLEAN" in os.environ or os.access(BUILT, os.X_OK), "the program isn't built")
class Program(Tools):
    def test_what_is_prepared_is_accepted(self) -> None:
        texts = [*KEPT.values(), *(wanted for _, wanted in CHANGED.values())]
        self.write({"%d.jimple" % number: text for number, text in enumerate(texts)})
        self.assertEqual(self.call("faults", ".").stdout, "")


if __name__ == "__main__":
    unittest.main()
