"""Tests of recordings that end anywhere, as those of a QEMU that was killed: each whole part is judged."""

import os
import random
import re
import signal
import subprocess
import sys
import time
from dataclasses import dataclass
from pathlib import Path
from typing import Iterator

from .made_recordings import HEAD, JUDGE, OWN, AT, ENTERED, LOAD, PAGE, STORE, Recording, RecordingTest, ThreadsTest
from .made_recordings import enter, two_parts
from .test_recipes import blocks_of
from .support import TOOLS, Ran, for_each, needs, needs_library, needs_program, needs_shared_table, run, write_script

sys.path[:0] = [str(TOOLS), str(OWN)]

from found_parts import Found  # noqa: E402
from recorded_traces import written  # noqa: E402
from recordings import part_at  # noqa: E402

MARK_BYTES = 24  # of a part or of the end, in an actor
DEADS, SEED = 10, 20261202
TURNS = 3000  # of each thread, in a part
LINE = re.compile(r"part ([0-9]+): (.*)\n")
PATIENCE = 60  # seconds
# A `parallel` that does one thing after another, here: its options are those of the recipe.
PARALLEL = """#!/usr/bin/python3
import subprocess, sys
words = sys.argv[1:]
while words[0].startswith("--"):
    words = words[1 if words[0] == "--keep-order" else 2 :]
for line in sys.stdin:
    subprocess.run([word.replace("{}", line.strip()) for word in words], check=False)
"""


def three_parts(has_places: bool) -> Recording:
    """A recording that ended, whose last part has records of both actors."""
    it = Recording(has_places)
    it.part()
    two_parts(it)
    it.part(HEAD.replace("begin", f"{ENTERED}begin"))
    it.walk(0, LOAD, PAGE, AT, "0x20.0.2.at")
    it.walk(1, STORE, PAGE, AT, "0x20.0.2.at")
    it.end()
    return it


@dataclass(frozen=True)
class Text:
    """What a part becomes."""

    number: int
    trace: tuple[str, ...]
    replies: tuple[str, ...]


def texts_of(folder: Path) -> tuple[list[Text], object]:
    """What the whole parts of a recording become, and the part in which it ends without being whole."""
    found = Found(folder, 1, None)
    made = [(place.number, written(part_at(folder, place))) for place in found.there()]
    return [Text(number, tuple(it.trace), tuple(it.replies)) for number, it in made], found.broken_off


class Anywhere(RecordingTest):
    """A recording of three parts that is cut at each byte of its tail, or at places that are drawn."""

    def setUp(self) -> None:
        """Writes it whole, and keeps what it becomes."""
        super().setUp()
        three_parts(False).write(self.recorded)
        self.bytes = [(self.recorded / f"actor-{actor}").read_bytes() for actor in range(2)]
        self.places = [self.part_ends(actor) for actor in range(2)]

    def part_ends(self, actor: int) -> list[int]:
        """At how many bytes of an actor each part is whole: behind the mark that follows it."""
        it, ends = three_parts(True), []
        for head in it.heads[1:]:
            ends.append(8 * int(head.split()[3 + actor]) + MARK_BYTES)
        return [*ends, len(self.bytes[actor])]

    def cuts(self, actor: int) -> Iterator[int]:
        """Each byte of the actor's last two parts."""
        return iter(range(self.places[actor][0] - MARK_BYTES, len(self.bytes[actor]) + 1))

    def cut(self, actor: int, size: int) -> int:
        """Cuts an actor's file to a size; the parts that are whole then."""
        (self.recorded / f"actor-{actor}").write_bytes(self.bytes[actor][:size])
        return sum(end <= size for end in self.places[actor])

    @for_each((0, False), (0, True), (1, False), (1, True))
    def test_cut_at_each_byte_it_has_the_parts_that_are_whole_and_nothing_else(self, told: tuple[int, bool]) -> None:
        actor, has_places = told
        three_parts(has_places).write(self.recorded)
        whole, broken_off = texts_of(self.recorded)
        self.assertEqual((len(whole), broken_off), (3, None))
        for size in self.cuts(actor):
            count = self.cut(actor, size)
            self.assertEqual(texts_of(self.recorded), (whole[:count], count + 1 if count < 3 else None), size)

    @needs_program
    @for_each(False, True)
    def test_the_verdicts_of_whole_parts_are_those_of_the_whole_recording(self, has_places: bool) -> None:
        three_parts(has_places).write(self.recorded)
        whole = run(JUDGE, self.recorded)
        self.assert_ran(whole, out=None)
        draw = random.Random(SEED)
        for _turn in range(5):
            for actor in range(2):
                (self.recorded / "actor-0").write_bytes(self.bytes[0])
                (self.recorded / "actor-1").write_bytes(self.bytes[1])
                count = self.cut(actor, draw.randrange(len(self.bytes[actor])))
                lines = [*whole.out.splitlines(keepends=True)[:count], ends_in(count + 1)]
                self.assert_ran(run(JUDGE, self.recorded), "".join(lines), status=0 if count else 2)

    @needs_program
    def test_a_bad_part_is_bad_whatever_is_cut_off_after_it(self) -> None:
        it = three_parts(True)
        it.words[0][it.words[0].index(0x3192)] = 0x3112
        it.write(self.recorded)
        self.cut(1, self.places[1][2] - 1)
        ran = run(JUDGE, self.recorded)
        self.assert_ran(ran, out=None, status=1)
        self.assertIn(": bad section 1\npart 2", ran.out)
        self.assertTrue(ran.out.endswith(ends_in(3)), ran.out)

    def test_a_wrong_word_in_a_whole_part_is_refused_behind_the_parts_before_it(self) -> None:
        it = three_parts(True)
        place = int(it.heads[1].split()[3])
        it.words[0][place + 3] = 99
        it.write(self.recorded)
        ran = run(JUDGE, self.recorded, "--unjudged")
        self.assertEqual((ran.status, ran.err), (2, f"judge-recording: actor-0: word {place + 3} begins no record\n"))
        self.assertRegex(ran.out, r"\Apart 1: .*\n\Z")


def ends_in(number: int) -> str:
    """What is said of the part in which a recording ends."""
    return f"part {number}: not whole, so that it isn't judged: the recording ends in it\n"


@needs_program
@needs_library
@needs("cc")
@needs_shared_table
class Killed(ThreadsTest):
    """Recordings of threads that are killed."""

    def begun(self) -> "subprocess.Popen[str]":
        """The threads, which go on for ever."""
        words = [str(self.program), str(self.recorded), "0", "0", str(TURNS), "ever"]
        return subprocess.Popen(words, stdout=subprocess.PIPE, text=True)

    def kill_in(self, process: "subprocess.Popen[str]", part: int, seconds: float) -> int:
        """Kills the threads so long after a part has begun. The last part that they said has begun."""
        assert process.stdout is not None
        with process:
            for line in process.stdout:
                if int(line) == part:
                    time.sleep(seconds)
                    process.kill()
                    break
            last = process.stdout.read().split()
        self.assertEqual(process.returncode, -signal.SIGKILL)
        return int(last[-1]) if last else part

    @for_each(*range(DEADS))
    def test_each_part_that_was_whole_is_judged_and_is_good(self, turn: int) -> None:
        draw = random.Random(SEED + turn)
        begun = self.kill_in(self.begun(), draw.randrange(1, 4), draw.random() / 20)
        ran = run(JUDGE, self.recorded)
        *lines, last = LINE.findall(ran.out)
        self.assertEqual([int(number) for number, _said in lines], list(range(1, len(lines) + 1)))
        self.assertTrue(all(said.endswith(": good") for _number, said in lines), ran.out)
        self.assertIn(len(lines), (begun - 1, begun), "a part that has begun makes the one before it whole")
        self.assertEqual(f"part {last[0]}: {last[1]}\n", ends_in(len(lines) + 1))
        self.assert_ran(ran, out=None, status=0 if lines else 2)

    def test_a_recording_is_judged_while_it_is_made_until_a_signal_comes(self) -> None:
        with self.begun() as process:
            follow = [str(JUDGE), str(self.recorded), "--follow", "--jobs", "2"]
            with subprocess.Popen(follow, stdout=subprocess.PIPE, text=True) as judge:
                assert judge.stdout is not None
                lines = [judge.stdout.readline() for _turn in range(2)]
                self.assertIsNone(process.poll())
                process.kill()
                judge.send_signal(signal.SIGTERM)
                lines += judge.stdout.readlines()
        self.assertEqual(judge.returncode, 0, lines)
        numbers = [int(number) for number, _said in LINE.findall("".join(lines))]
        self.assertEqual(numbers, list(range(1, len(lines) + 1)))
        self.assertTrue(all(line.endswith(": good\n") for line in lines[:-1]), lines)


@needs_program
class Many(RecordingTest):
    """Parts that are judged by several processes, or machines, and the summary of their lines."""

    def setUp(self) -> None:
        """Writes a recording of nine parts, the fifth of which is bad."""
        super().setUp()
        self.it = Recording(has_places=True)
        for number in range(1, 10):
            self.it.part()
            enter(self.it)
            self.it.walk(1, LOAD, PAGE, AT, f"0x20.{2 if number == 5 else 1}.0.at")
        self.it.end()
        self.it.write(self.recorded)

    def test_the_lines_come_in_the_order_of_the_parts(self) -> None:
        one, three = (run(JUDGE, self.recorded, "--jobs", jobs) for jobs in ("1", "3"))
        self.assert_ran(one, out=None, status=1)
        self.assertEqual(one, three)
        said = [(int(number), text.rpartition(": ")[2]) for number, text in LINE.findall(one.out)]
        self.assertEqual(said, [(number, "bad section 1" if number == 5 else "good") for number in range(1, 10)])

    def test_a_part_is_judged_alone(self) -> None:
        whole = run(JUDGE, self.recorded).out.splitlines(keepends=True)
        for number, line in enumerate(whole, 1):
            ran = run(JUDGE, self.recorded, "--first", str(number), "--last", str(number))
            self.assert_ran(ran, line, status=number == 5)

    def test_a_recording_that_has_ended_is_followed_to_its_end(self) -> None:
        self.assertEqual(run(JUDGE, self.recorded, "--follow"), run(JUDGE, self.recorded))

    @needs("bash")
    def test_the_recipe_with_several_machines_has_the_summary_of_all_parts(self) -> None:
        (block,) = (block for block in blocks_of("docs/RECIPES.md") if "parallel" in block.command)
        (self.folder / "tools").symlink_to(TOOLS)
        write_script(self.folder / "bin" / "parallel", PARALLEL)
        path = f"{self.folder / 'bin'}:{os.environ['PATH']}"
        ran = run("bash", "-c", block.command, folder=self.folder, environment={"PATH": path})
        self.assert_ran(ran, self.summary(run(JUDGE, self.recorded).out).out, status=1)
        self.assertEqual(ran.out.partition("\n")[0], "9 parts: 8 good, 1 bad, 0 not judged, 0 not whole")

    def summary(self, lines: str) -> Ran:
        """What the tool says of lines."""
        return run(JUDGE, "--summary", "-", given=lines)

    def test_a_summary_has_the_counts_and_the_parts_that_are_not_good(self) -> None:
        lines = run(JUDGE, self.recorded).out
        bad = lines.splitlines(keepends=True)[4]
        text = f"9 parts: 8 good, 1 bad, 0 not judged, 0 not whole\n{bad}"
        self.assert_ran(self.summary(lines), text, status=1)

    def test_a_summary_says_of_which_parts_there_is_no_line(self) -> None:
        kept = [line for line in run(JUDGE, self.recorded).out.splitlines(keepends=True) if line[5] in "1689"]
        text = "4 parts: 4 good, 0 bad, 0 not judged, 0 not whole\nno line: 2 to 5, 7\n"
        self.assert_ran(self.summary("".join(reversed(kept))), text, status=2)

    def test_a_summary_of_a_recording_that_was_cut_off(self) -> None:
        lines = f"part 1: 2 lines: good\n{ends_in(2)}"
        text = f"2 parts: 1 good, 0 bad, 0 not judged, 1 not whole\n{ends_in(2)}"
        self.assert_ran(self.summary(lines), text)

    @for_each(
        ("part 1: a: good\npart 1: a: bad section 1\n", "there are two different lines about part 1"),
        ("nothing\n", "`nothing` is no line about a part"),
        ("", "there is no line about a part"),
    )
    def test_lines_that_say_nothing_of_use_are_refused(self, told: tuple[str, str]) -> None:
        self.assert_refused(self.summary(told[0]), f"judge-recording: {told[1]}")
