"""Tests of the tool that makes traces with replies of recordings."""

from .made_recordings import AT, ENTERED, FETCH, FRAME, HEAD, H_BULK_REMOVE, H_PROTECT, H_REMOVE, JUDGE
from .made_recordings import LOAD, MARK, MASKS, NO_PAGE, PAGE, PREPARE, SEGMENT, STORE, USER, WALK
from .made_recordings import Recording, RecordingTest, ThreadsTest, enter, no_match, receipt, two_parts
from .support import DATA, EXAMPLES, TOOLS, Ran, ToolTest, for_each, needs
from .support import needs_library, needs_program, needs_shared_table, run

BAD_LINE = TOOLS / "bad-line"
# The first records of parts of two boots; the heads have the entries that occur.
RECORDED = DATA / "qemu-papr" / "recorded"

# Planted errors: a receipt that is dropped, words of another processor, and a walk that is repeated when it is stale.
DROPPED, EXCHANGED, STALE = 1, 2, 3


class Lines(RecordingTest):
    """The lines and replies that records become."""

    def test_a_walk_that_finds_the_cached_translation_is_a_hit(self) -> None:
        enter(self.it)
        self.it.walk(1, LOAD, PAGE, AT, "0x20.1.0.at")
        self.it.walk(1, STORE, PAGE + 4, AT, "0x20.1.2.at", mode=USER)
        trace = (
            "0 H_ENTER 0x0 0x20 0x1001 0x3012\n1 slbmte 0x8000000 0x1000\n1 load 0x5000 priv\n1 store 0x5004 user\n"
        )
        replies = (
            "6 0 H_ENTER 0 0x20 | 0x20.0.0.entered\n7 1 slbmte ok\n"
            "8 1 load at 0x2000003000 walk | 0x20.1.0.at\n9 1 store at 0x2000003004 hit | 0x20.1.2.at\n"
        )
        self.assert_written(trace, replies)

    def test_a_walk_that_finds_nothing(self) -> None:
        self.it.walk(0, FETCH, PAGE, NO_PAGE, no_match(0))
        trace = "0 slbmte 0x8000000 0x1000\n0 fetch 0x5000 priv\n"
        self.assert_written(trace, f"6 0 slbmte ok\n7 0 fetch nopage walk | {no_match(0)}\n")

    def test_masks_come_before_the_access_that_they_refuse(self) -> None:
        enter(self.it)
        self.it.put(1, MASKS, [0x4000000000000000, 0])
        self.it.walk(1, LOAD, PAGE, 4, "0x20.1.0.masked")
        self.assert_ran(self.convert("--unjudged"), out=None)
        self.assertEqual(self.text("trace").splitlines()[1], "1 amr 0x4000000000000000")
        self.assertEqual(self.text("replies").splitlines()[3], "9 1 load masked amr walk | 0x20.1.0.masked")

    def test_a_call_that_is_refused_has_no_words(self) -> None:
        self.it.call(1, H_REMOVE, [0, 0x20, 0], -7, receipts="0x20.0.0.notfound")
        self.assert_written("1 H_REMOVE 0x0 0x20 0x0\n", "6 1 H_REMOVE -7 | 0x20.0.0.notfound\n")

    def test_another_segment_of_the_same_addresses_takes_the_slot(self) -> None:
        self.it.walk(0, LOAD, PAGE, NO_PAGE, no_match(0))
        header = WALK | NO_PAGE << 16 | 12 << 32
        self.it.put(0, header, [PAGE, 0x2000, 0], no_match(0))
        lines = [line for line in self.convert("--unjudged").out.splitlines() if "segments" in line]
        self.assertIn("2 segments", lines[0])
        self.assertEqual(self.text("trace").splitlines()[2], "0 slbmte 0x8000000 0x2000")

    def test_a_segment_of_another_size_makes_the_slot_of_the_first_invalid(self) -> None:
        self.it.walk(0, LOAD, PAGE, NO_PAGE, no_match(0))
        one_tb = 1 << 62 | 1 << 24
        self.it.put(0, WALK | NO_PAGE << 16 | 12 << 32, [PAGE, one_tb, 0], no_match(0))
        self.assert_ran(self.convert("--unjudged"), out=None)
        made = ["0 slbmte 0x0 0x0", "0 slbmte 0x8000001 0x4000000001000000"]
        self.assertEqual(self.text("trace").splitlines()[2:4], made)

    def test_a_part_has_caches_of_its_own(self) -> None:
        enter(self.it)
        self.it.walk(1, LOAD, PAGE, AT, "0x20.1.0.at")
        self.it.part(HEAD.replace("begin", f"{ENTERED}begin"))
        self.it.walk(1, LOAD, PAGE, AT, "0x20.0.2.at")
        self.assert_ran(self.convert("--unjudged"), out=None)
        self.assert_text(self.text("replies", 2), "7 1 slbmte ok\n8 1 load at 0x2000003000 walk | 0x20.0.2.at\n")


class Unrecorded(RecordingTest):
    """Parts of which nothing was recorded, since no trace has such a table."""

    def test_it_is_said_of_the_part_and_the_others_are_written(self) -> None:
        enter(self.it)
        self.it.part("unrecorded 23\n")
        self.it.part()
        enter(self.it)
        counts = "1 lines, 1 sections, 1 calls, 0 walks, 0 hits, 0 segments"
        why = "not recorded, so that it can't be judged: no trace has what was done with a table of order 23"
        text = f"part 1: {counts}\npart 2: {why}\npart 3: {counts}\n"
        self.assert_ran(self.convert("--unjudged"), text, status=2)
        self.assertEqual(sorted(path.name for path in self.parts.glob("*.trace")), ["part-1.trace", "part-3.trace"])


class Order(RecordingTest):
    """The order of the lines of several processors."""

    def lines(self) -> list[str]:
        """The first words of the lines that aren't of segments."""
        self.assert_ran(self.convert("--unjudged"), out=None)
        lines = (line.split() for line in self.text("trace").splitlines())
        return [" ".join(words[:2]) for words in lines if words[1] != "slbmte"]

    def test_a_line_comes_behind_what_its_receipts_start_from(self) -> None:
        """Here the clock was read late."""
        enter(self.it, late=100)
        self.it.walk(1, LOAD, PAGE, AT, "0x20.1.0.at")
        self.assertEqual(self.lines(), ["0 H_ENTER", "1 load"])

    def test_lines_that_have_nothing_in_common_come_by_the_clock(self) -> None:
        self.it.walk(1, LOAD, PAGE, NO_PAGE, no_match(0))
        enter(self.it)
        self.assertEqual(self.lines(), ["1 load", "0 H_ENTER"])

    def test_a_search_beside_a_call_takes_the_stamp_that_fits(self) -> None:
        """The search read the stamp before the call, and found what the call had entered."""
        enter(self.it)
        header = WALK | STORE << 24 | 12 << 32 | 1 << 41
        self.it.put(1, header, [PAGE, SEGMENT, FRAME], "0x20.0.0.at", late=-15)
        self.assertEqual(self.lines(), ["0 H_ENTER", "1 store"])
        self.assertIn("0x20.1.0.at", self.text("replies"))

    def test_a_search_beside_a_call_whose_bits_do_not_fit_stays_as_it_was(self) -> None:
        enter(self.it)
        header = WALK | STORE << 24 | 12 << 32 | 1 << 41
        self.it.put(1, header, [PAGE, SEGMENT, FRAME], "0x20.0.3.at")
        self.lines()
        self.assertIn("0x20.0.3.at", self.text("replies"))

    def test_a_search_beside_a_call_comes_behind_the_call_if_it_fits_there_too(self) -> None:
        enter(self.it)
        header = WALK | STORE << 24 | 12 << 32 | 1 << 41
        self.it.put(1, header, [PAGE, SEGMENT, FRAME], "0x20.1.0.at")
        self.it.call(0, H_PROTECT, [2, 0x20, 0], 0, receipts="0x20.1.0.protected")
        self.it.call(0, H_PROTECT, [2, 0x20, 0], 0, receipts="0x20.2.3.protected")
        self.assertEqual(self.lines(), ["0 H_ENTER", "0 H_PROTECT", "1 store", "0 H_PROTECT"])
        self.assertIn("0x20.2.0.at", self.text("replies"))

    def test_an_entry_that_a_bulk_removal_names_twice(self) -> None:
        enter(self.it)
        pairs = [1 << 62 | 0x20, 0, 1 << 62 | 0x20, 0, 3 << 62, 0, 0, 0]
        told = [1 << 63 | 0x20, 0, 9 << 60 | 0x20, 0, 3 << 62, 0, 0, 0]
        receipts = "0x20.1.0.removed 0x20.2.0.notfound"
        self.it.call(1, H_BULK_REMOVE, pairs, 0, told, receipts)
        self.it.call(0, H_REMOVE, [0, 0x20, 0], -7, receipts="0x20.2.0.notfound", late=-15)
        self.assertEqual(self.lines(), ["0 H_ENTER", "1 H_BULK_REMOVE", "0 H_REMOVE"])

    def test_a_quiet_point_divides_the_lines_whatever_the_clock_says(self) -> None:
        self.it.walk(1, LOAD, PAGE, NO_PAGE, no_match(0), late=1000)
        self.it.quiet(0, PREPARE, 18, 0)
        self.it.walk(0, LOAD, PAGE, NO_PAGE, no_match(0))
        self.assertEqual(self.lines(), ["1 load", "0 H_RESIZE_HPT_PREPARE", "0 load"])


class Pieces(ToolTest):
    """Beginnings of parts that a QEMU recorded, of a boot with four processors."""

    def told(self, name: str, *words: str, status: int = 0) -> str:
        """The tool's line of one of them."""
        ran = run(JUDGE, RECORDED / name, "--parts", self.folder, *words)
        self.assert_ran(ran, out=None, status=status)
        return ran.out

    @for_each("good", "calls", "stale")
    def test_a_piece_becomes_a_trace_of_which_each_line_has_a_reply(self, name: str) -> None:
        self.told(name, "--unjudged")
        trace = (self.folder / "part-1.trace").read_text(encoding="ascii").splitlines()
        replies = [line.split() for line in (self.folder / "part-1.replies").read_text(encoding="ascii").splitlines()]
        begin = trace.index("begin") + 1
        self.assertEqual([int(words[0]) for words in replies], list(range(begin + 1, len(trace) + 1)))
        self.assertEqual([words[1:3] for words in replies], [line.split()[:2] for line in trace[begin:]])

    @needs_program
    @for_each("good", "calls")
    def test_what_papr_answered_is_good(self, name: str) -> None:
        self.assertTrue(self.told(name).endswith(": good\n"))

    @needs_program
    def test_a_stale_translation_that_was_planted_is_bad_and_its_line_is_named(self) -> None:
        self.assertTrue(self.told("stale", status=1).endswith(": bad section 1\n"))
        found = run(BAD_LINE, self.folder / "part-1.trace", self.folder / "part-1.replies")
        self.assert_ran(found, out=None, status=1)
        self.assertIn("0 store at 0x40000000043170c hit | 0x3d3b8.0.3.at", found.out.splitlines()[-1])


@needs_program
class Judged(RecordingTest):
    """What the program says of the traces that are made."""

    def test_a_good_recording(self) -> None:
        two_parts(self.it)
        text = (
            "part 1: 10 lines, 4 sections, 5 calls, 3 walks, 1 hits, 1 segments: good\n"
            "part 2: 2 lines, 1 sections, 0 calls, 1 walks, 0 hits, 1 segments: good\n"
        )
        self.assert_ran(self.convert(), text)

    def spoil(self, old: str, new: str) -> Ran:
        """What the tool says where one receipt of the whole is another."""
        two_parts(self.it)
        words = self.it.words[int(new[0])]
        words[words.index(receipt(old))] = receipt(new[2:])
        return self.convert()

    @for_each(
        ("0x20.1.3.removed", "0 0x20.1.2.removed"),
        ("0x20.1.2.at", "1 0x20.0.2.at"),
        ("0x20.2.0.nomatch", "1 0x20.1.0.nomatch"),
    )
    def test_a_receipt_of_another_state_is_bad(self, change: tuple[str, str]) -> None:
        ran = self.spoil(*change)
        self.assertEqual(ran.status, 1, ran.err)
        self.assertIn(": bad section 1\npart 2", ran.out)


@needs_program
@needs_library
@needs("cc")
@needs_shared_table
class Threads(ThreadsTest):
    """Recordings of four threads that call and walk at once."""

    def record(self, lock: int, plant: int, turns: int) -> Ran:
        """What the program says of its recording, which the tool has judged."""
        self.assert_ran(run(self.program, self.recorded, str(lock), str(plant), str(turns)), err=None)
        return run(JUDGE, self.recorded, "--parts", self.parts)

    @for_each(0, 1)
    def test_what_the_threads_did_is_a_good_run_with_lock(self, lock: int) -> None:
        ran = self.record(lock, 0, 1000)
        self.assert_ran(ran, out=None, status=2)
        told = [line.rpartition(": ")[2] for line in ran.out.splitlines()]
        self.assertEqual(told, ["good", "good", "no trace has what was done with a table of order 23", "good"])

    @for_each(DROPPED, EXCHANGED, STALE)
    def test_an_error_that_is_planted_is_bad(self, plant: int) -> None:
        self.assert_ran(self.record(0, plant, 2600), out=None, status=1)

    @for_each(
        (DROPPED, r"H_REMOVE 0 0x\w+ 0x\w+$"),
        (EXCHANGED, r"H_REMOVE 0 0x\w+ 0x\w+ \| "),
        (STALE, r"(load|store|fetch) at "),
    )
    def test_an_error_that_is_planted_is_found_in_its_line(self, told: tuple[int, str]) -> None:
        """With one lock: without it the line may stand between two calls that each found what the other did."""
        self.assert_ran(self.record(1, told[0], 2600), out=None, status=1)
        found = run(BAD_LINE, self.parts / "part-1.trace", self.parts / "part-1.replies")
        self.assert_ran(found, out=None, status=1)
        self.assertRegex(found.out.splitlines()[-1], told[1])


class Words(RecordingTest):
    """The tool's words, and recordings that it can't read."""

    def test_the_tool_has_help(self) -> None:
        self.assert_help(JUDGE)

    def test_parts_replace_links_of_their_names(self) -> None:
        victim = self.folder / "victim"
        victim.write_text("precious\n")
        for kind in ("trace", "replies"):
            (self.parts / f"part-1.{kind}").symlink_to(victim)
        enter(self.it)
        self.assert_ran(self.convert("--unjudged"), out=None)
        self.assertIn("H_ENTER", self.text("replies"))
        self.assertEqual(victim.read_text(), "precious\n")

    def test_a_folder_that_is_no_recording(self) -> None:
        message = f"judge-recording: {EXAMPLES} is no recording: it has no actor-0"
        self.assert_refused(run(JUDGE, EXAMPLES), message)

    def test_a_record_that_is_cut_off_before_the_end(self) -> None:
        enter(self.it)
        self.it.words[0].pop()
        self.assert_refused(self.convert("--unjudged"), "judge-recording: actor-0: word 17 begins no record")

    def test_a_part_that_does_not_begin_where_its_head_says(self) -> None:
        self.it = Recording(has_places=True)
        self.it.part()
        enter(self.it)
        self.it.part()
        self.it.words[0][3:6] = []
        self.assert_refused(self.convert("--unjudged"), "judge-recording: actor-0: part 2 doesn't begin at word 17")

    def test_a_head_that_is_not_ascii(self) -> None:
        enter(self.it)
        self.it.end()
        self.it.write(self.recorded)
        head = self.recorded / "part-1.head"
        head.write_bytes(b"# \xa4\n" + head.read_bytes())
        message = "judge-recording: part-1.head isn't ASCII: byte 2 is 0xa4"
        self.assert_refused(run(JUDGE, self.recorded, "--unjudged"), message)

    def test_a_part_that_is_not_there(self) -> None:
        message = f"judge-recording: {self.recorded} has no part 2"
        self.assert_refused(self.convert("--unjudged", "--first", "2"), message)

    def test_a_word_that_begins_no_record(self) -> None:
        self.it.words[1].append(99)
        self.assert_refused(self.convert("--unjudged"), "judge-recording: actor-1: word 3 begins no record")

    def test_quiet_points_that_only_one_actor_has(self) -> None:
        self.it.put(0, MARK, [1])
        ran = self.convert("--unjudged")
        self.assertEqual(ran.status, 2)
        self.assertIn("judge-recording: the actors' quiet points are not the same", ran.err)
