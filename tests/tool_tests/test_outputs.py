"""Tests of the files that the commands write: each is whole, or as it was."""

import os
import signal
import sqlite3
import subprocess
import sys
import time
from contextlib import closing
from dataclasses import dataclass

from .support import DATA, EXAMPLES, TOOLS, Ran, ToolTest, Word, for_each, needs, run, write_script
from .test_cuts import SUCCEEDS
from .test_launcher import FOR_HELP, USAGE, LauncherTest

UNWRITTEN = 4  # the status
SMALLEST = 100  # bytes: a limit that each of the outputs passes
TRACE = "".join(f"# line {number}\n" for number in range(100))


@dataclass(frozen=True)
class Writer:
    """A command that writes a file: its words before and behind the file's name, and how it refuses one."""

    before: list[Word]
    behind: list[Word]
    option: str


WRITERS = {
    "run": Writer(["run", "t", "-o"], [], "-o"),
    "drill": Writer(["drill", "-o"], ["7", "0x10"], "-o"),
    "from-qemu": Writer(["from-qemu", "-o"], [DATA / "small.log"], "-o/--output"),
    "entries": Writer(["entries", "--debugfs", "-o"], [DATA / "htab.debugfs"], "-o/--output"),
    "receipts": Writer(["receipts", "--sqlite"], [EXAMPLES / "sharing.replies"], "--sqlite"),
}
OF_PROGRAM = ("run", "drill")
OF_TEXTS = (*OF_PROGRAM, "from-qemu", "entries")
OF_TOOLS = ("from-qemu", "entries", "receipts")


def name_of(command: str) -> str:
    """What a message of the command begins with."""
    return "papr" if command in OF_PROGRAM else f"papr {command}"


class WriterTest(LauncherTest):
    """A test of commands that write a file."""

    def setUp(self) -> None:
        """Writes a trace, which is no output."""
        super().setUp()
        self.file("t", TRACE)

    def write(self, command: str, name: Word, limit: str = "") -> Ran:
        """Runs the command for this file, by a shell that sets a limit before."""
        writer = WRITERS[command]
        return self.by_shell(f'{limit} exec "$@"', *writer.before, name, *writer.behind)

    def written(self, command: str) -> bytes:
        """What the command writes where nothing is in its way."""
        place = self.folder / "elsewhere"
        self.assert_ran(self.write(command, place), err=None)
        made = place.read_bytes()
        self.assertGreater(len(made), SMALLEST if command != "drill" else 0)
        place.unlink()
        return made

    def before(self, command: str, name: str) -> bytes:
        """A file that is there before the command runs: a database where that is what it writes."""
        place = self.folder / name
        if command == "receipts":
            with closing(sqlite3.connect(place)) as base:
                base.execute("create table other (number)")
        else:
            place.write_text("before\n")
        return place.read_bytes()


class Whole(WriterTest):
    """A file is whole, or as it was."""

    @for_each(*WRITERS)
    def test_a_new_file_has_the_usual_mode(self, command: str) -> None:
        made = self.written(command)
        self.assert_ran(self.write(command, "out", "umask 027;"), err=None)
        self.assertEqual((self.folder / "out").read_bytes(), made)
        self.assertEqual((self.folder / "out").stat().st_mode & 0o777, 0o640)
        self.assertEqual(self.left(), ["out", "t"])

    @for_each(*WRITERS)
    def test_a_file_keeps_its_mode(self, command: str) -> None:
        before = self.before(command, "out")
        (self.folder / "out").chmod(0o604)
        self.assert_ran(self.write(command, "out", "umask 027;"), err=None)
        self.assertNotEqual((self.folder / "out").read_bytes(), before)
        self.assertEqual((self.folder / "out").stat().st_mode & 0o777, 0o604)
        self.assertEqual(self.left(), ["out", "t"])

    @needs("prlimit")
    @for_each("run", *OF_TOOLS)
    def test_a_file_stays_where_its_size_has_a_limit(self, command: str) -> None:
        before = self.before(command, "out")
        ran = self.write(command, "out", f"prlimit --pid=$$ --fsize={SMALLEST};")
        self.assertNotEqual(ran.status, 0)
        self.assertTrue(ran.err.startswith(f"{name_of(command)}: "), ran.err)
        self.assertEqual((self.folder / "out").read_bytes(), before)
        self.assertEqual(self.left(), ["out", "t"])

    @needs("prlimit")
    @for_each("run", *OF_TOOLS)
    def test_no_file_is_made_where_its_size_has_a_limit(self, command: str) -> None:
        ran = self.write(command, "out", f"prlimit --pid=$$ --fsize={SMALLEST};")
        self.assertNotEqual(ran.status, 0)
        self.assertEqual(self.left(), ["t"])

    @for_each("from-qemu", "entries", "receipts")
    def test_a_file_stays_where_the_input_is_none(self, command: str) -> None:
        before, writer = self.before(command, "out"), WRITERS[command]
        ran = self.papr(*writer.before, "out", given="x\n")
        self.assert_ran(ran, status=2, err=None)
        self.assertEqual((self.folder / "out").read_bytes(), before)

    @for_each("HUP", "INT", "TERM")
    def test_a_signal_leaves_the_file_of_the_program(self, name: str) -> None:
        self.file("t", "stays\n")
        before = self.before("run", "out")
        begun = subprocess.Popen([self.usr / "bin" / "papr", "run", "t", "-o", "out"], cwd=self.folder)
        time.sleep(1)
        begun.send_signal(signal.Signals[f"SIG{name}"])
        self.assertEqual(begun.wait(20), -signal.Signals[f"SIG{name}"])
        self.assertEqual((self.folder / "out").read_bytes(), before)
        self.assertEqual(self.left(), ["out", "t"])


class Names(WriterTest):
    """What a file's name may be."""

    @for_each(*OF_TEXTS)
    def test_a_hyphen_and_standard_outputs_own_name_are_standard_output(self, command: str) -> None:
        """What a file has already stays in it."""
        made = self.written(command).decode("ascii")
        for name in ("-", "/dev/stdout"):
            self.assert_ran(self.write(command, name), made, err=None)
            self.before(command, "out")
            self.assert_ran(self.write(command, name, "exec >>out;"), err=None)
            self.assert_text((self.folder / "out").read_text(), f"before\n{made}")
            (self.folder / "out").unlink()
        self.assertEqual(self.left(), ["t"])

    @for_each(*OF_PROGRAM)
    def test_no_name_for_the_program(self, command: str) -> None:
        self.assert_ran(self.write(command, ""), USAGE, status=1, err=f"papr: -o wants a file\n{FOR_HELP}")
        ran = self.papr(command, "--output=")
        self.assert_ran(ran, USAGE, status=1, err=f"papr: --output wants a file\n{FOR_HELP}")

    @for_each(*OF_TOOLS)
    def test_no_name_for(self, command: str) -> None:
        message = f"{name_of(command)}: error: argument {WRITERS[command].option}: the name of a file is empty"
        self.assert_refused(self.write(command, ""), message)

    def test_a_database_is_a_file(self) -> None:
        """SQLite would take the names for one in memory, and for a file."""
        for name in (":memory:", "-"):
            message = f"papr receipts: error: argument --sqlite: `{name}` is no file"
            self.assert_refused(self.write("receipts", name), message)
        self.assertEqual(self.left(), ["t"])

    @for_each(*WRITERS)
    def test_a_link_stays_one(self, command: str) -> None:
        made = self.written(command)
        (self.folder / "out").symlink_to("place")
        self.assert_ran(self.write(command, "out"), err=None)
        self.assertTrue((self.folder / "out").is_symlink())
        self.assertEqual((self.folder / "place").read_bytes(), made)
        self.assertEqual(self.left(), ["out", "place", "t"])

    @for_each(*WRITERS)
    def test_a_link_to_itself(self, command: str) -> None:
        (self.folder / "out").symlink_to("out")
        reason = "it can't be written" if command in OF_PROGRAM else "Too many levels of symbolic links"
        message = f"{name_of(command)}: out: {reason}\n"
        self.assert_ran(self.write(command, "out"), status=UNWRITTEN, err=message)
        self.assertEqual(self.left(), ["out", "t"])

    @for_each(*WRITERS)
    def test_a_folder_that_is_not_there(self, command: str) -> None:
        reason = "it can't be written" if command in OF_PROGRAM else "No such file or directory"
        message = f"{name_of(command)}: no/out: {reason}\n"
        self.assert_ran(self.write(command, "no/out"), status=UNWRITTEN, err=message)

    @for_each(*WRITERS)
    def test_folders(self, command: str) -> None:
        """One that is there, and one that isn't."""
        (self.folder / "folder").mkdir()
        for name in ("folder", "none/"):
            ran = self.write(command, name)
            self.assert_ran(ran, status=UNWRITTEN, err=None)
            self.assertTrue(ran.err.startswith(f"{name_of(command)}: {name}: "), ran.err)
        self.assertEqual(self.left(), ["folder", "t"])

    @for_each(*OF_TEXTS)
    def test_a_pipe_is_written_as_it_is(self, command: str) -> None:
        made = self.written(command).decode("ascii")
        os.mkfifo(self.folder / "out")
        writer = WRITERS[command]
        ran = self.by_shell('cat out & "$@" && wait', *writer.before, "out", *writer.behind)
        self.assert_ran(ran, made, err=None)
        self.assert_ran(self.by_shell('"$@" > >(cat)', *writer.before, "/dev/fd/1", *writer.behind), made, err=None)
        self.assertTrue((self.folder / "out").is_fifo())


class Links(WriterTest):
    """Links that somebody else has put into the folder."""

    def test_the_program_follows_none_at_the_name_of_its_process(self) -> None:
        victim = self.file("victim", "precious\n")
        papr = self.usr / "bin" / "papr"
        line = 'ln -s victim out.papr-$$; ln -s victim .papr.$$; exec "$0" run t -o out'
        self.assert_ran(run("bash", "-c", line, papr, folder=self.folder))
        self.assertEqual(victim.read_text(), "precious\n")
        self.assertFalse((self.folder / "out").is_symlink())

    def test_parts_replace_them(self) -> None:
        """No word of the command names these files."""
        victim = self.file("victim", "precious\n")
        succeeds = write_script(self.folder / "succeeds", SUCCEEDS)
        (self.folder / "part-1.trace").symlink_to("victim")
        ran = self.papr("cut", "--papr", succeeds, "--parts", ".", EXAMPLES / "first.trace")
        self.assert_ran(ran, "part-1.trace: lines 4 to 5\n")
        self.assertEqual(victim.read_text(), "precious\n")
        self.assert_same_file(self.folder / "part-1.trace", EXAMPLES / "first.trace")

    @needs("prlimit")
    def test_a_part_stays_where_its_size_has_a_limit(self) -> None:
        """There are no replies to lines that make none."""
        part = self.file("part-1.trace", "before\n")
        succeeds = write_script(self.folder / "succeeds", SUCCEEDS)
        line = 'prlimit --pid=$$ --fsize=10; exec "$@"'
        ran = self.by_shell(line, "cut", "--papr", succeeds, "--parts", ".", EXAMPLES / "first.trace")
        self.assert_ran(ran, status=4, err="papr cut: part-1.trace: File too large\n")
        self.assertEqual(part.read_text(), "before\n")
        self.assertEqual(self.left(), ["part-1.trace", "succeeds", "t"])


class Parts(ToolTest):
    """The file that a tool writes before it takes a place."""

    def write(self, *lines: str) -> Ran:
        """Runs these lines while a tool writes the file `out`."""
        begin = ["import os, secrets, signal, sys, writing", "secrets.token_hex = lambda count: 'known'"]
        begin += ["part = f'.papr.{os.getpid()}.known'", "out = writing.output('out')"]
        words = [sys.executable, "-c", "\n".join([*begin, *lines])]
        return run(*words, folder=self.folder, environment={"PYTHONPATH": str(TOOLS)})

    def test_no_link_is_followed_at_its_name(self) -> None:
        (self.folder / "victim").write_text("precious\n")
        ran = self.write("os.symlink('victim', part)", "with out as text: text.write('replies')")
        self.assertEqual(ran.status, 1)
        self.assertTrue(ran.err.endswith("common.Unwritten: out: File exists\n"), ran.err)
        self.assertEqual((self.folder / "victim").read_text(), "precious\n")
        self.assertFalse((self.folder / "out").exists())

    @for_each("HUP", "TERM")
    def test_it_is_removed_at_the_signal(self, name: str) -> None:
        (self.folder / "out").write_text("before\n")
        killed = f"os.kill(os.getpid(), signal.SIG{name})"
        there = f"with out as text: text.write('x'); assert os.path.exists(part); {killed}"
        self.assert_ran(self.write(there), status=-signal.Signals[f"SIG{name}"])
        self.assertEqual([path.name for path in self.folder.iterdir()], ["out"])
        self.assertEqual((self.folder / "out").read_text(), "before\n")

    def test_an_ignored_hangup_ends_nothing(self) -> None:
        """As under nohup."""
        lines = ["signal.signal(signal.SIGHUP, signal.SIG_IGN)"]
        lines += ["with out as text: os.kill(os.getpid(), signal.SIGHUP); text.write('whole')"]
        self.assert_ran(self.write(*lines))
        self.assertEqual((self.folder / "out").read_text(), "whole")

    def test_a_closed_standard_output(self) -> None:
        words = [str(TOOLS / "htab-to-entries"), "--debugfs", str(DATA / "htab.debugfs")]
        ran = run("bash", "-c", '"$@" >&-', "sh", *words)
        self.assert_ran(ran, status=4, err="htab-to-entries: standard output: Bad file descriptor\n")
