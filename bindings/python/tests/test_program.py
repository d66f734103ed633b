"""Tests of the whole program on texts, by the examples and their stored replies."""

import unittest
from unittest.mock import patch

from support import EXAMPLES, needs_bytes, text_of

from papr import Layout, ProgramFailed, Replies, Status, Verdict, call, check, drill, image, run, run_set

TRACES = sorted(path.stem for path in EXAMPLES.glob("*.trace"))
JUDGED = sorted(path.stem for path in EXAMPLES.glob("*.judged"))


@needs_bytes
class Runs(unittest.TestCase):
    """Runs of traces."""

    def test_the_replies_are_those_of_the_examples(self) -> None:
        for name in TRACES:
            with self.subTest(name=name):
                status, out = call("run", text=text_of(f"{name}.trace"))
                self.assertEqual(out.decode(), text_of(f"{name}.replies"))
                self.assertIs(status, Status.REFUSED if out.startswith(b"papr: ") else Status.DONE)

    def test_records_of_a_run(self) -> None:
        replies = run(text_of("first.trace"))
        self.assertEqual(str(replies), text_of("first.replies"))
        self.assertEqual([reply.ending for reply in replies], ["0", "-6"])

    def test_a_refused_trace(self) -> None:
        with self.assertRaises(ProgramFailed) as caught:
            run("order 18\norder 18\n")
        self.assertIs(caught.exception.status, Status.REFUSED)
        self.assertEqual(str(caught.exception), "papr: line 2: place")

    def test_what_is_no_command(self) -> None:
        self.assertEqual(call("walk"), (Status.USAGE, b"papr: usage\n"))
        with self.assertRaises(ValueError):
            call("drill", "1", "2", "3")

    def test_replies_for_which_the_first_room_is_too_small(self) -> None:
        with patch("papr.program.LEAST_ROOM", 1), patch("papr.program.ROOM_FOR_A_BYTE", 0):
            self.assertEqual(str(run(text_of("sharing.trace"))), text_of("sharing.replies"))


@needs_bytes
class Verdicts(unittest.TestCase):
    """Whether a text can be the replies to a trace."""

    def test_the_examples_are_judged_as_stored(self) -> None:
        for name in JUDGED:
            with self.subTest(name=name):
                trace, _, replies = text_of(f"{name}.judged").partition("\nreplies\n")
                verdict = check(f"{trace}\n", replies)
                words = "good" if verdict.is_good else f"bad section {verdict.bad_section}"
                self.assertEqual(f"{words}\n", text_of(f"{name}.verdict"))

    def test_a_run_is_good_and_another_text_is_not(self) -> None:
        trace = text_of("first.trace")
        self.assertEqual(check(trace, run(trace)), Verdict(True, None))
        wrong = text_of("first.replies").replace("-6", "-7")
        self.assertEqual(check(trace, Replies(wrong)), Verdict(False, 1))


@needs_bytes
class Others(unittest.TestCase):
    """Images, sets of partitions, drills."""

    def test_images(self) -> None:
        for name, layout in (("image-old", Layout.OLD), ("image-new", Layout.NEW), ("entries", Layout.OLD)):
            stored = text_of(f"{name}.image-{layout.name.lower()}")
            self.assertEqual(image(text_of(f"{name}.trace"), layout), stored)

    def test_a_set(self) -> None:
        self.assertEqual(run_set(text_of("two-partitions.set")), text_of("two-partitions.set-replies"))

    def test_a_drill(self) -> None:
        summary = drill(1, 100_000)
        words = "".join(f"{name} {number}\n" for name, number in summary._asdict().items())
        self.assertEqual(words, text_of("drill.summary"))
