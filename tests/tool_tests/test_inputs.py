"""Tests of what a command takes for its input: compressed, binary, a trace where replies are read; and of `| head`."""

import bz2
import gzip
import lzma
from pathlib import Path
from typing import Callable, Optional

from .installed import InstalledTest
from .support import A_TRACE, DATA, EXAMPLES, Ran, Word, for_each, missing, needs, run, run_bytes

# What expands each form, and what makes it; Python has no module for zstd.
PACKED: dict[str, Optional[Callable[[bytes], bytes]]] = {
    "xz": lzma.compress,
    "gzip": gzip.compress,
    "bzip2": bz2.compress,
    "zstd": None,
}
TRACE, REPLIES = EXAMPLES / "sharing.trace", EXAMPLES / "sharing.replies"
LOG, TABLE = DATA / "small.log", DATA / "htab.debugfs"
# Each command that reads a file: its words before the file's name, and a file that it can read.
READERS: dict[str, tuple[tuple[Word, ...], Path]] = {
    "run": ((), TRACE),
    "par": ((), EXAMPLES / "first.trace"),
    "set": ((), EXAMPLES / "two-partitions.set"),
    "image": (("old",), TRACE),
    "check": ((), EXAMPLES / "bad-lost-change.judged"),
    "why": ((), TRACE),
    "groups": ((), TRACE),
    "cut": ((), TRACE),
    "from-qemu": ((), LOG),
    "entries": (("--debugfs",), TABLE),
    "receipts": (("--csv",), REPLIES),
    "history": (("0x20",), REPLIES),
    "picture": ((), REPLIES),
    "diff": ((REPLIES,), REPLIES),
    "bad-line": ((TRACE,), REPLIES),
    "find-order": ((TRACE,), REPLIES),
}
OF_PROGRAM = ("run", "par", "set", "image", "check")
BY_NAME_ALONE = ("bad-line",)
BINARY = b"\x7fELF\x02\x01\x01\0\0\0" * 100
# The tools that read replies.
OF_REPLIES = ("receipts", "history", "picture", "diff")


class InputTest(InstalledTest):
    """A test of the installed command."""

    def papr(self, command: str, path: Word, given: bytes = b"") -> Ran:
        """Runs a command on a file."""
        return self.run_installed("papr", command, *READERS[command][0], path, given=given)

    def packed(self, form: str, path: Path) -> bytes:
        """A file's bytes in this form."""
        pack = PACKED[form]
        if missing(form):
            self.skipTest(f"{form} is not installed")
        return pack(path.read_bytes()) if pack else run_bytes(form, "-qc", path)


class Compressed(InputTest):
    """What is compressed is known by its bytes, and not by its name."""

    @for_each(*((command, form) for command in READERS for form in PACKED))
    def test_an_input_is_expanded(self, case: tuple[str, str]) -> None:
        """The answer is that to the file itself: by a name without an ending, from a pipe, and from a file."""
        command, form = case
        plain = self.papr(command, READERS[command][1])
        place = self.folder / "input"
        place.write_bytes(self.packed(form, READERS[command][1]))
        answers = [self.papr(command, place)]
        if command not in BY_NAME_ALONE:
            words: list[Word] = [self.commands / "papr", command, *READERS[command][0], "-"]
            answers += [self.papr(command, "-", given=place.read_bytes())]
            answers += [run("bash", "-c", '"$@" <"$0"', place, *words)]
        for answer in answers:
            self.assertEqual((answer.status, answer.out), (plain.status, plain.out), answer.err)

    @for_each(*READERS)
    def test_a_plain_file_may_have_such_a_name(self, command: str) -> None:
        place = self.folder / "input.xz"
        place.write_bytes(READERS[command][1].read_bytes())
        plain, named = self.papr(command, READERS[command][1]), self.papr(command, place)
        self.assertEqual((named.status, named.out), (plain.status, plain.out), named.err)

    @for_each(*((command, form) for command in ("run", "picture") for form in PACKED))
    def test_one_that_is_cut_off_is_refused(self, case: tuple[str, str]) -> None:
        command, form = case
        for at, whole in enumerate((self.packed(form, REPLIES), self.packed(form, TRACE))):
            place = self.folder / f"input{at}"
            place.write_bytes(whole[: len(whole) // 2])
            ran = self.papr(command, place)
            self.assert_ran(ran, status=3 if command in OF_PROGRAM else 2, err=None)
            self.assertIn(f"{place}: ", ran.err)
            self.assertEqual(ran.err.count("\n"), 1)

    def test_the_rest_of_a_file_is_expanded(self) -> None:
        place = self.folder / "input"
        place.write_bytes(b"read before\n" + gzip.compress(TRACE.read_bytes()))
        line = '{ read -r line; "$@"; } <"$0"'
        ran = run("bash", "-c", line, place, self.commands / "papr", "run")
        self.assert_ran(ran, REPLIES.read_text(encoding="ascii"))


class Binary(InputTest):
    """A file that is neither compressed nor a text."""

    @for_each(*(command for command in READERS if command not in (*OF_PROGRAM, "why", "groups")))
    def test_a_tool_says_that_it_is_no_text(self, command: str) -> None:
        place = self.folder / "input"
        place.write_bytes(BINARY)
        self.assert_ran(self.papr(command, place), status=2, err=f"papr {command}: {place} is not a text\n")

    @for_each(*OF_PROGRAM)
    def test_the_program_refuses_it_and_the_message_says_that_it_is_no_text(self, command: str) -> None:
        place = self.folder / "input"
        place.write_bytes(BINARY)
        refusal = "line 2: replies" if command == "check" else "line 1: ascii"
        told = f"papr: {place}: {refusal}\n  hint: the input is not a text\n"
        self.assert_ran(self.papr(command, place), f"papr: {refusal}\n", status=2, err=told)


class Traces(InputTest):
    """A trace where replies are read."""

    @for_each(*OF_REPLIES)
    def test_a_trace_is_called_one(self, command: str) -> None:
        for trace in (EXAMPLES / "first.trace", TRACE):  # the second begins with a remark
            self.assert_ran(self.papr(command, trace), status=2, err=f"papr {command}: {A_TRACE}\n")


class Readers(InputTest):
    """A reader that stops early, as head does."""

    @needs("xz")
    @for_each("run", "image", "receipts", "picture", "cut")
    def test_nothing_is_said_and_the_status_is_that_of_the_signal(self, command: str) -> None:
        boot = self.folder / "boot"
        boot.write_bytes(run_bytes("xz", "-dc", EXAMPLES / "linux-boot.trace.xz"))
        if command in OF_REPLIES:
            self.assert_ran(self.run_installed("papr", "run", "-o", self.folder / "replies", boot))
            boot = self.folder / "replies"
        words: list[Word] = [self.commands / "papr", command, *READERS[command][0], boot]
        for line in ('"$@" | head -c 5; echo " ${PIPESTATUS[0]}"', '"$@" | true; echo "12345 ${PIPESTATUS[0]}"'):
            ran = run("bash", "-c", line, "bash", *words)
            self.assert_ran(ran, out=None)
            self.assertEqual(ran.out[5:], " 141\n")
