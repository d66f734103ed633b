"""Tests of the command papr, installed with a stand-in for the program: arguments, files, messages."""

import gzip
import os
import pty
import signal
import subprocess
import tempfile
import time
from pathlib import Path
from typing import ClassVar, Optional

from .installed import make
from .support import EXAMPLES, PROGRAM, TOP, Ran, Text, ToolTest, Word, decoded, environment_with, for_each
from .support import needs, needs_program, run, write_script

# Writes its words and its input. A first line `ends N` has it end with this status, and refuse, judge or fail as
# papr does; `waits` has it take its time.
STAND_IN = """\
#!/bin/bash
if [ ! -e /dev/fd/0 ] || [ -d /dev/fd/0 ]; then exit 3; fi
input=$(cat; echo .)
case $input in
    waits*) sleep 3 ;;
    stays*) exec sleep 60 ;;
    ends*) set -- ${input%%$'\\n'*}
        case $2 in
            2) echo 'papr: line 1: word' ;;
            6) echo 'bad section 1' ;;
            9) kill -s KILL $$ ;;
        esac
        exit "$2" ;;
esac
printf 'ran %s\\n%s' "$*" "${input%.}" 2>/dev/null || exit 4
"""
FOR_HELP = "papr: for help: papr --help, or man papr\n"
REFUSED = (
    "  line: ends 2\n"
    "  rule: the first word doesn't begin with a digit, and is neither the first word of a configuration line "
    "nor `dump`\n"
)
USAGE = "papr: usage\n"
COMMANDS: dict[str, list[str]] = {"run": [], "par": [], "check": [], "set": [], "image": ["old"]}
TOOLS_OF = {
    "why": "why",
    "history": "entry-history",
    "picture": "run-picture",
    "receipts": "receipts",
    "bad-line": "bad-line",
    "find-order": "find-order",
    "cut": "cut-trace",
    "from-qemu": "qemu-log-to-trace",
    "entries": "htab-to-entries",
    "decode": "decode",
    "groups": "groups",
    "diff": "diff",
}


@needs("make")
class LauncherTest(ToolTest):
    """A test of the installed command, in a folder whose name has a blank."""

    usr: ClassVar[Path]

    @classmethod
    def setUpClass(cls) -> None:
        """Installs it, once for the class."""
        super().setUpClass()
        work = tempfile.TemporaryDirectory(prefix="papr-tree-")
        cls.addClassCleanup(work.cleanup)
        program, tree = write_script(Path(work.name) / "program", STAND_IN), Path(work.name) / "a tree"
        make("install-program", tree, f"PROGRAM={program}")
        cls.usr = tree / "usr"

    def papr(self, *words: Word, given: Text = "", **variables: str) -> Ran:
        """Runs the command; standard input is a pipe."""
        return run(self.usr / "bin" / "papr", *words, given=given, folder=self.folder, environment=variables)

    def by_shell(self, line: str, *words: Word) -> Ran:
        """Runs a shell's line, in which "$@" is the command with these words."""
        return run("bash", "-c", line, "sh", self.usr / "bin" / "papr", *words, folder=self.folder)

    def file(self, name: str, text: str) -> Path:
        """A file in the test's folder."""
        path = self.folder / name
        path.write_text(text, encoding="ascii")
        return path

    def left(self) -> list[str]:
        """The files in the test's folder."""
        return sorted(path.name for path in self.folder.iterdir())


class Inputs(LauncherTest):
    """Where a command's input comes from."""

    @for_each(*COMMANDS)
    def test_input_comes_from_a_pipe_a_file_or_a_name_by(self, command: str) -> None:
        words = [command, *COMMANDS[command]]
        self.file("t", "a trace\n")
        answer = f"ran {' '.join(words)}\na trace\n"
        self.assert_ran(self.papr(*words, given="a trace\n"), answer)
        self.assert_ran(self.papr(*words, "-", given="a trace\n"), answer)
        self.assert_ran(self.by_shell('"$@" <t', *words), answer)
        self.assert_ran(self.papr(*words, "t"), answer)
        self.assert_ran(self.by_shell('"$@" <(cat t)', *words), answer)

    @needs("xz")
    def test_compressed_files_are_expanded(self) -> None:
        (self.folder / "t.gz").write_bytes(gzip.compress(b"a trace\n"))
        self.file("t", "a trace\n")
        self.assert_ran(run("xz", "-k", "t", folder=self.folder))
        for name in ("t.gz", "t.xz"):
            self.assert_ran(self.papr("run", name), "ran run\na trace\n")
        self.assert_ran(self.papr("check", "t.xz", "t.gz"), "ran check\na trace\nreplies\na trace\n")

    def test_a_file_that_cannot_be_expanded(self) -> None:
        (self.folder / "t.gz").write_bytes(gzip.compress(b"a trace\n" * 100)[:-10])
        self.assert_ran(self.papr("run", "t.gz"), status=3, err="papr: t.gz: unexpected end of file\n")

    def test_a_command_that_expands_and_is_not_installed(self) -> None:
        (self.folder / "t.zst").write_bytes(b"(\xb5/\xfd rest")
        (self.folder / "bin").mkdir()
        for name in ("bash", "rm", "head"):
            (self.folder / "bin" / name).symlink_to(f"/usr/bin/{name}")
        ran = self.papr("run", "t.zst", PATH=str(self.folder / "bin"))
        self.assert_ran(ran, status=3, err="papr: t.zst: zstd, which expands it, isn't installed\n")

    def test_a_trace_and_replies_are_joined(self) -> None:
        """By a line, also where the trace's last one has no end."""
        self.file("replies", "5 0 reply\n")
        for text in ("", "a trace", "a trace\n"):
            self.file("t", text)
            ended = text if text in ("", "a trace\n") else f"{text}\n"
            self.assert_ran(self.papr("check", "t", "replies"), f"ran check\n{ended}replies\n5 0 reply\n")
        self.assert_ran(self.papr("check", "-", "replies", given="x\n"), "ran check\nx\nreplies\n5 0 reply\n")

    def test_files_that_cannot_be_read(self) -> None:
        """Nothing is run."""
        for name, reason in (("none", "No such file or directory"), (".", "Is a directory")):
            for words in (["run"], ["image", "new"], ["check", "/dev/null"]):
                self.assert_ran(self.papr(*words, name), status=3, err=f"papr: {name}: {reason}\n")

    def test_a_standard_input_that_cannot_be_read(self) -> None:
        closed = self.by_shell('"$@" <&-', "run")
        self.assert_ran(closed, status=3, err="papr: standard input: Bad file descriptor\n")
        directory = self.by_shell('"$@" <.', "run")
        self.assert_ran(directory, status=3, err="papr: standard input: Is a directory\n")

    def test_no_temporary_file_is_left(self) -> None:
        (self.folder / "t.gz").write_bytes(gzip.compress(b"ends 2\n"))
        (self.folder / "temporary").mkdir()
        self.papr("run", "t.gz", TMPDIR="temporary")
        self.papr("run", given="ends 2\n", TMPDIR="temporary")
        self.assertEqual(list((self.folder / "temporary").iterdir()), [])

    def test_a_pipe_is_read_where_no_temporary_file_can_be_made(self) -> None:
        self.assert_ran(self.papr("run", given="a trace\n", TMPDIR="none"), "ran run\na trace\n")
        refused = self.papr("run", given="ends 2\n", TMPDIR="none")
        message = "papr: standard input: refused, for the reason on standard output\n"
        self.assert_ran(refused, "papr: line 1: word\n", status=2, err=message)
        (self.folder / "t.gz").write_bytes(gzip.compress(b"a trace\n"))
        ran = self.papr("run", "t.gz", TMPDIR="none")
        self.assert_ran(ran, status=3, err="papr: t.gz: no temporary file can be made in none\n")


class Outputs(LauncherTest):
    """Where a command's output goes."""

    @for_each("-o", "--output")
    def test_a_whole_output_takes_a_files_place(self, option: str) -> None:
        place = self.file("out", "before\n")
        place.chmod(0o604)
        self.assert_ran(self.papr("run", option, "out", given="a trace\n"))
        self.assertEqual(place.read_text(), "ran run\na trace\n")
        self.assertEqual(place.stat().st_mode & 0o777, 0o604)
        self.assertEqual(self.left(), ["out"])

    def test_an_option_may_stand_behind_files_and_without_a_blank(self) -> None:
        self.file("t", "a trace\n")
        for number, words in enumerate((["t", "-oout"], ["--output=out", "t"], ["-o", "out", "--", "t"])):
            self.file("out", f"before {number}\n")
            self.assert_ran(self.papr("run", *words))
            self.assertEqual((self.folder / "out").read_text(), "ran run\na trace\n")

    @for_each(1, 2, 3, 4, 5, 126)
    def test_an_output_that_is_not_whole_is_not_written(self, status: int) -> None:
        self.assert_ran(self.papr("run", "-o", "out", given=f"ends {status}\n"), status=status, err=None)
        self.assertEqual(self.left(), [])

    def test_a_verdict_is_written_whatever_it_is(self) -> None:
        self.assert_ran(self.papr("check", "-o", "out", given="ends 6\n"), status=6, err=None)
        self.assertEqual((self.folder / "out").read_text(), "bad section 1\n")

    def test_a_link_stays_one(self) -> None:
        self.file("place", "before\n")
        (self.folder / "out").symlink_to("place")
        self.assert_ran(self.papr("run", "-o", "out", given="x\n"))
        self.assertTrue((self.folder / "out").is_symlink())
        self.assertEqual((self.folder / "place").read_text(), "ran run\nx\n")

    def test_outputs_that_cannot_be_written(self) -> None:
        self.assert_ran(self.papr("run", "-o", "."), status=4, err="papr: .: Is a directory\n")
        self.assert_ran(self.papr("run", "-o", "no/out"), status=4, err="papr: no/out: it can't be written\n")
        ran = self.papr("run", "-o", "/dev/full", given="x\n")
        self.assert_ran(ran, status=4, err="papr: /dev/full: write error\n")
        full = self.by_shell('echo | "$@" >/dev/full', "run")
        self.assert_ran(full, status=4, err="papr: standard output: write error\n")
        closed = self.by_shell('echo | "$@" >&-', "run")
        self.assert_ran(closed, status=4, err="papr: standard output: Bad file descriptor\n")


class Messages(LauncherTest):
    """What is said of each status, with the same status and standard output."""

    def assert_refused_word(self, ran: Ran, name: str) -> None:
        """A refusal as the stand-in has it, of an input of this name."""
        self.assert_ran(ran, "papr: line 1: word\n", status=2, err=None)
        message = f"papr: {name}: line 1: word\n{REFUSED}"
        self.assert_text(ran.err[: len(message)], message)

    def test_a_refusal_of_a_file_a_pipe_and_a_standard_input(self) -> None:
        self.file("t", "ends 2\n")
        self.assert_refused_word(self.papr("run", "t"), "t")
        self.assert_refused_word(self.papr("run", given="ends 2\n"), "standard input")
        self.assert_refused_word(self.by_shell('"$@" <t', "run"), "standard input")
        self.assert_refused_word(self.papr("check", "t", "/dev/null"), "t")

    def test_a_refusal_of_the_rest_of_a_file(self) -> None:
        """What was read before the run counts for nothing."""
        self.file("t", "read before\nends 2\n")
        self.assert_refused_word(self.by_shell('{ read -r line; "$@"; } <t', "run"), "standard input")

    def test_a_refusal_where_there_is_no_python(self) -> None:
        (self.folder / "bin").mkdir()
        for name in ("bash", "rm", "head", "tail", "tee", "cat"):
            (self.folder / "bin" / name).symlink_to(f"/usr/bin/{name}")
        ran = self.papr("run", given="ends 2\n", PATH=str(self.folder / "bin"))
        self.assert_ran(ran, "papr: line 1: word\n", status=2, err="papr: standard input: line 1: word\n")

    @for_each(
        (3, "standard input: it can't be read"),
        (5, "out of memory"),
        (9, "the program was ended by signal 9"),
    )
    def test_status(self, case: tuple[int, str]) -> None:
        status, message = case
        for line in ('"$@" <t | cat; exit "${PIPESTATUS[0]}"', '"$@" t | cat; exit "${PIPESTATUS[0]}"'):
            self.file("t", f"ends {status}\n")
            name = "t" if " t " in line else "standard input"
            told = f"papr: {message.replace('standard input', name)}\n"
            self.assert_ran(self.by_shell(line, "run"), status=137 if status == 9 else status, err=told)

    def test_a_reader_that_has_enough_is_no_error(self) -> None:
        """Nothing is said, and the status is that of SIGPIPE."""
        self.file("t", "ends 4\n")
        for line in ('"$@" <t | cat; exit "${PIPESTATUS[0]}"', '"$@" t | cat; exit "${PIPESTATUS[0]}"'):
            self.assert_ran(self.by_shell(line, "run"), status=128 + signal.SIGPIPE)

    def test_replies_that_are_not_good(self) -> None:
        self.file("t", "ends 6\n")
        told = "papr: t: these are not the replies of a good run; papr bad-line TRACE REPLIES finds the line"
        self.assert_ran(self.papr("check", "t", "/dev/null"), "bad section 1\n", status=6, err=f"{told}\n")

    def test_no_program(self) -> None:
        place = self.usr / "libexec" / "papr" / "papr"
        place.rename(place.with_name("away"))
        self.addCleanup(place.with_name("away").rename, place)
        self.assert_ran(self.papr("run"), status=127, err=f"papr: the program isn't there: {place}\n")


class Arguments(LauncherTest):
    """Command lines that aren't taken: the program's answer, and a message."""

    def assert_wrong(self, message: str, *words: Word) -> None:
        """Just this message, with the program's usage line and its status."""
        self.assert_ran(self.papr(*words), USAGE, status=1, err=f"papr: {message}\n{FOR_HELP}")

    def test_no_command(self) -> None:
        self.assert_wrong("no command is named")

    @for_each(
        ("rnu", "run"),
        ("chekc", "check"),
        ("histroy", "history"),
        ("imagine", "image"),
        ("fromqemu", "from-qemu"),
    )
    def test_a_wrong_command_has_the_nearest_one_named(self, case: tuple[str, str]) -> None:
        self.assert_wrong(f"no command '{case[0]}'; did you mean '{case[1]}'?", case[0])

    def test_a_wrong_command_that_resembles_none(self) -> None:
        self.assert_wrong("no command 'frobnicate'", "frobnicate")
        self.assert_wrong("no command ''", "")

    def test_a_file_in_place_of_a_command(self) -> None:
        self.file("t", "")
        self.assert_wrong("no command 't'; did you mean 'papr run t'?", "t")

    def test_unknown_options(self) -> None:
        self.assert_wrong("no option '--hlep'", "--hlep")
        self.assert_wrong("no option '-x'", "run", "-x")
        self.assert_wrong("-o wants a file", "run", "-o")

    def test_too_many_or_too_few(self) -> None:
        self.assert_wrong("run wants at most 1 file", "run", "a", "b")
        self.assert_wrong("check wants at most 2 files", "check", "a", "b", "c")
        layout = "image wants a layout, old or new, and then at most one file"
        self.assert_wrong(layout, "image")
        self.assert_wrong(layout, "image", "3.0", "t")
        numbers = "drill wants two numbers: a seed, and lines, at most 100,000"
        for words in (["1"], ["1", "100001"], ["x", "1"], ["1", "1", "1"]):
            self.assert_wrong(numbers, "drill", *words)

    def test_a_usage_line_that_cannot_be_written(self) -> None:
        self.assert_ran(self.by_shell('"$@" >/dev/full'), status=4, err=None)

    def test_a_drill_reads_nothing(self) -> None:
        self.assert_ran(self.by_shell('"$@" </dev/null', "drill", "7", "0x10"), "ran drill 7 0x10\n")


class Help(LauncherTest):
    """Help and versions."""

    @for_each("--help", "-h", "help")
    def test_help_of_all_has_each_command(self, word: str) -> None:
        ran = self.papr(word)
        self.assert_ran(ran, out=None)
        self.assertTrue(ran.out.startswith("usage: papr COMMAND "))
        for command in (*COMMANDS, "drill", *TOOLS_OF):
            self.assertRegex(ran.out, rf"(?m)^  {command} ")

    @for_each(*COMMANDS, "drill", *TOOLS_OF)
    def test_help_of(self, command: str) -> None:
        by_word, by_option = self.papr("help", command), self.papr(command, "--help")
        self.assert_ran(by_word, out=None)
        self.assertTrue(by_word.out.startswith(f"usage: papr {command} "), by_word.out[:80])
        self.assertEqual(by_option, by_word)

    def test_help_of_no_command(self) -> None:
        told = f"papr: no command 'ran'; did you mean 'run'?\n{FOR_HELP}"
        self.assert_ran(self.papr("help", "ran"), USAGE, status=1, err=told)

    def test_the_version_has_the_commit_and_the_kit(self) -> None:
        place = self.usr / "share" / "papr" / "version"
        before = place.read_text()
        self.addCleanup(place.write_text, before)
        self.assertEqual(before.splitlines()[0], (TOP / "VERSION").read_text().strip())
        place.write_text("1.2\nabc1234\na kit\n")
        self.assert_ran(self.papr("--version"), "papr 1.2\ncommit abc1234\nproved with a kit\n")

    def test_the_programs_place(self) -> None:
        self.assert_ran(self.papr("--program"), f"{self.usr / 'libexec' / 'papr' / 'papr'}\n")


class Tools(LauncherTest):
    """The tools as commands."""

    def test_a_tool_gets_its_words_and_its_name(self) -> None:
        ran = self.papr("receipts", "--csv", "--replies", given="1 0 slbclear ok\n")
        self.assert_ran(ran, out=None)
        self.assertIn("slbclear,ok", ran.out)
        refused = self.papr("receipts", "--csv", given="x\n")
        self.assert_ran(refused, out=None, status=2, err="papr receipts: this is no reply: x\n")

    def test_a_tool_by_a_name_of_its_own(self) -> None:
        ran = run(self.usr / "bin" / "papr-receipts", "--csv", given="x\n")
        self.assert_ran(ran, out=None, status=2, err="papr-receipts: this is no reply: x\n")

    def test_a_tool_where_there_is_no_python(self) -> None:
        (self.folder / "bin").mkdir()
        (self.folder / "bin" / "bash").symlink_to("/usr/bin/bash")
        ran = self.papr("why", "t", PATH=str(self.folder / "bin"))
        self.assert_ran(ran, status=127, err="papr: papr why needs Python 3, which isn't on the path\n")


class Signals(LauncherTest):
    """Signals end the program, and then the command, by the same signal."""

    @for_each("HUP", "INT", "TERM")
    def test_signal(self, name: str) -> None:
        number = signal.Signals[f"SIG{name}"]
        for words in (["run"], ["run", "t"]):
            path = self.file("t", "stays\n")
            with open(path, "rb") as given:
                begun = subprocess.Popen(
                    [self.usr / "bin" / "papr", *words], stdin=given, cwd=self.folder, start_new_session=True
                )
            time.sleep(1)
            begun.send_signal(number)
            self.assertEqual(begun.wait(20), -number)
            # No process of the group is left.
            time.sleep(0.2)
            with self.assertRaises(ProcessLookupError):
                os.killpg(begun.pid, 0)

    def test_a_loop_around_the_command_ends_at_an_interrupt(self) -> None:
        """As at a terminal: all of the group get the signal."""
        self.file("t", "stays\n")
        line = 'for turn in 1 2; do "$1" run <t; echo "turn $turn"; done'
        begun = subprocess.Popen(
            ["bash", "-c", line, "sh", self.usr / "bin" / "papr"],
            cwd=self.folder,
            stdout=subprocess.PIPE,
            start_new_session=True,
        )
        time.sleep(1)
        os.killpg(begun.pid, signal.SIGINT)
        out, _ = begun.communicate(timeout=20)
        self.assertEqual((out, begun.returncode), (b"", -signal.SIGINT))


class Terminals(LauncherTest):
    """What a terminal shows."""

    def shown(self, *words: Word, given: Optional[bytes] = None) -> tuple[int, str]:
        """The status, and what a terminal gets."""
        here, there = pty.openpty()
        source = subprocess.DEVNULL if given is None else subprocess.PIPE
        command = [str(word) for word in (self.usr / "bin" / "papr", *words)]
        begun = subprocess.Popen(
            command, stdin=source, stdout=there, stderr=there, cwd=self.folder, env=environment_with()
        )
        os.close(there)
        if begun.stdin is not None:
            begun.stdin.write(given or b"")
            begun.stdin.close()
        told = b""
        with open(here, "rb", buffering=0) as terminal:
            try:
                while data := terminal.read(4096):
                    told += data
            except OSError:
                pass  # the last of its writers has closed it
        return begun.wait(20), decoded(told)

    def test_a_quick_run_shows_its_output_alone(self) -> None:
        self.file("t", "a trace\n")
        self.assertEqual(self.shown("run", "t"), (0, "ran run\r\na trace\r\n"))

    def test_a_slow_run_shows_how_much_was_read(self) -> None:
        """The line that tells it is gone when the output comes."""
        self.file("t", "waits\n" + "x" * 1_499_999 + "\n")
        status, told = self.shown("run", "t")
        before, _, output = told.rpartition("\r\033[K")
        self.assertEqual(status, 0)
        self.assertTrue(output.startswith("ran run\r\nwaits\r\n"), output[:200])
        self.assertRegex(before, r"^\r\033\[Kpapr: 1\.5 MB read, running, \d+ s\r\033\[K")

    def test_a_slow_run_of_a_pipe(self) -> None:
        status, told = self.shown("run", given=b"waits\n" + b"x" * 1_499_999)
        self.assertEqual(status, 0)
        self.assertRegex(told, r"^\r\033\[Kpapr: [0-9.]+ MB read, \d+ s\r")

    def test_the_status_and_the_messages_are_those_of_any_output(self) -> None:
        self.file("t", "ends 5\n")
        self.assertEqual(self.shown("run", "t"), (5, "papr: out of memory\r\n"))


@needs_program
class Program(LauncherTest):
    """The command around the program itself."""

    @classmethod
    def setUpClass(cls) -> None:
        """Puts the program in the stand-in's place."""
        super().setUpClass()
        place = cls.usr / "libexec" / "papr" / "papr"
        place.write_bytes(PROGRAM.read_bytes())

    def test_replies_are_the_programs(self) -> None:
        replies = (EXAMPLES / "first.replies").read_text()
        self.assert_ran(self.papr("run", EXAMPLES / "first.trace"), replies)
        self.assert_ran(self.papr("run", given=EXAMPLES / "first.trace"), replies)
        self.assert_ran(self.papr("check", EXAMPLES / "first.trace", EXAMPLES / "first.replies"), "good\n")

    def test_a_refused_trace(self) -> None:
        trace = EXAMPLES / "refused.trace"
        told = (
            f"papr: {trace}: line 5: number\n  line: 0 H_ENTER 0x0 0x20 0x1001 0x\n"
            "  rule: a word isn't a number where a number is required\n  form: C H_ENTER flags ptex pteh ptel\n"
            "  hint: the word is `0x`\n"
        )
        for words in (["run"], ["par"], ["image", "new"]):
            self.assert_ran(self.papr(*words, trace), "papr: line 5: number\n", status=2, err=told)

    def test_an_image_that_a_layout_cannot_hold(self) -> None:
        trace = "order 18\nram 0x0 0x2000000000 0x40000000\nbegin\n0 H_ENTER 0 0x20 0x10000000001001 0x3012\n"
        self.file("t", trace)
        ran = self.papr("image", "new", "t")
        self.assert_ran(ran, "papr: entry 0x20: layout\n", status=2, err="papr: t: entry 0x20: layout\n")

    def test_a_reader_that_stops(self) -> None:
        ran = self.by_shell('"$@" | head -n 1', "run", EXAMPLES / "sharing.trace")
        self.assert_ran(ran, (EXAMPLES / "sharing.replies").read_text().partition("\n")[0] + "\n")
