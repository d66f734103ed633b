"""Tests of the statuses of the program."""

import os
import shlex
import subprocess
from pathlib import Path
from typing import Union

from .support import DATA, EXAMPLES, PROGRAM, TOP, Ran, ToolTest, decoded, needs, needs_program, run

TRACE = DATA / "small.trace"
SET = EXAMPLES / "two-partitions.set"
USAGE = "papr: usage\n"
INPUT_LIMIT = 2**24  # bytes
KILOBYTE = 1024


def by_shell(line: str, *words: Union[str, Path]) -> Ran:
    """Runs a shell's line, in which "$@" is the program with these words."""
    return run("sh", "-c", line, "sh", PROGRAM, *words)


def within(kilobytes: int, *words: str, given: str) -> Ran:
    """Runs the program with no more memory than this, on a file."""
    return by_shell(f'ulimit -v {kilobytes}; exec "$@" <{shlex.quote(given)}', *words)


@needs_program
class Usage(ToolTest):
    """Wrong words, which are answered whatever standard input is."""

    def assert_usage(self, *words: Union[str, bytes]) -> None:
        """The program refuses the words, on a closed standard input."""
        command = ["sh", "-c", 'exec "$@" <&-', "sh", str(PROGRAM), *words]
        ended = subprocess.run(command, capture_output=True, check=False)
        self.assert_ran(Ran(ended.returncode, decoded(ended.stdout), decoded(ended.stderr)), USAGE, status=1)

    def test_no_word(self) -> None:
        self.assert_usage()

    def test_a_word_behind_run(self) -> None:
        self.assert_usage("run", "x")

    def test_a_word_behind_set(self) -> None:
        self.assert_usage("set", "x")

    def test_an_image_in_no_layout(self) -> None:
        self.assert_usage("image")

    def test_an_image_in_another_layout(self) -> None:
        self.assert_usage("image", "3.0")

    def test_a_word_behind_the_layout(self) -> None:
        self.assert_usage("image", "old", "x")

    def test_a_third_number_behind_drill(self) -> None:
        self.assert_usage("drill", "1", "0", "0")

    def test_a_word_that_is_not_text(self) -> None:
        self.assert_usage(b"\xff")

    def test_a_word_behind_run_that_is_not_text(self) -> None:
        self.assert_usage("run", b"\xff")


@needs_program
class Inputs(ToolTest):
    """Standard inputs that can't be read, and such as are refused."""

    def assert_directory(self, *words: str) -> None:
        """The program ends with status 3 where standard input is a directory."""
        self.assert_ran(by_shell(f'exec "$@" <{shlex.quote(str(TOP))}', *words), status=3)

    def test_a_directory_in_place_of_a_trace(self) -> None:
        self.assert_directory("run")

    def test_a_directory_in_place_of_a_trace_for_an_image(self) -> None:
        self.assert_directory("image", "new")

    def test_a_directory_in_place_of_a_set(self) -> None:
        self.assert_directory("set")

    def test_a_closed_standard_input(self) -> None:
        self.assert_ran(by_shell('exec "$@" <&-', "run"), status=3)

    def test_a_drill_needs_no_standard_input(self) -> None:
        drilled = run(PROGRAM, "drill", "7", "100")
        self.assert_ran(drilled, out=None)
        self.assertEqual(drilled.out.partition("\n")[0], "lines 104")
        self.assert_ran(by_shell('exec "$@" <&-', "drill", "7", "100"), drilled.out)

    def test_no_image_of_a_refused_trace(self) -> None:
        self.assert_ran(run(PROGRAM, "image", "old", given="frob\n"), "papr: line 1: word\n", status=2)

    def test_a_trace_is_no_set(self) -> None:
        self.assert_ran(run(PROGRAM, "set", given=TRACE), "papr: line 2: lpar\n", status=2)

    def test_a_set_past_the_limit(self) -> None:
        """By one byte."""
        ran = run(PROGRAM, "set", given=b"#" * (INPUT_LIMIT + 1))
        self.assert_ran(ran, "papr: line 0: long\n", status=2)


@needs_program
class Outputs(ToolTest):
    """Standard outputs that can't be written: a full device, and a closed one."""

    def assert_unwritten(self, given: Path, *words: str) -> None:
        """The program ends with status 4, and without a message."""
        for output in (">/dev/full", ">&-"):
            with self.subTest(output=output):
                line = f'exec "$@" <{shlex.quote(str(given))} {output}'
                self.assert_ran(by_shell(line, *words), status=4)

    def test_replies_that_cannot_be_written(self) -> None:
        self.assert_unwritten(TRACE, "run")

    def test_an_image_that_cannot_be_written(self) -> None:
        self.assert_unwritten(TRACE, "image", "old")

    def test_a_summary_that_cannot_be_written(self) -> None:
        self.assert_unwritten(TRACE, "drill", "1", "0")

    def test_a_usage_line_that_cannot_be_written(self) -> None:
        self.assert_unwritten(TRACE)

    def test_replies_of_a_set_that_cannot_be_written(self) -> None:
        self.assert_unwritten(SET, "set")


@needs_program
class Memory(ToolTest):
    """Too little memory."""

    def long_input(self) -> str:
        """A file of as many bytes as an input may have: one remark."""
        path = self.folder / "long.input"
        path.write_bytes(b"#" * INPUT_LIMIT)
        return str(path)

    def test_too_little_for_a_trace(self) -> None:
        """An input of 16 MB, in less."""
        self.assert_ran(within(16_384, "run", given=self.long_input()), status=5)

    def test_too_little_for_a_set(self) -> None:
        self.assert_ran(within(16_384, "set", given=self.long_input()), status=5)

    def test_too_little_for_the_lines_of_a_drill(self) -> None:
        """They take 96 bytes each."""
        self.assert_ran(within(8_192, "drill", "1", "100000", given=os.devnull), status=5)

    def test_a_drill_keeps_no_reply(self) -> None:
        """A list of them would take 1.4 KB a line."""
        ran = within(32_768, "drill", "1", "100000", given=os.devnull)
        self.assert_ran(ran, out=None)
        self.assertEqual(ran.out.count("\n"), 12)
        self.assertEqual(ran.out.partition("\n")[0], "lines 100004")

    @needs("prlimit")
    def test_too_little_for_the_words(self) -> None:
        """Ten words of 100 KB: there is a limit at which the program starts and the words don't fit."""
        words = ["x" * 100_000] * 10
        self.assert_ran(run(PROGRAM, *words), USAGE, status=1)
        limits = (f"--as={KILOBYTE * kilobytes}" for kilobytes in range(1_000, 16_000, 200))
        ends = (run("prlimit", limit, PROGRAM, *words) for limit in limits)
        self.assertIn(Ran(status=5, out="", err=""), ends)
