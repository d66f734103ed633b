"""Tests of the converter of QEMU's logs."""

from .support import DATA, PROGRAM, TOOLS, Ran, ToolTest, needs_program, run

CONVERT = TOOLS / "qemu-log-to-trace"
LOG, TRACE = DATA / "small.log", DATA / "small.trace"

TITLE = "# Page table calls of a guest under QEMU, from its log\n"
OTHERS = "other calls passed over (most: 0xf005 1, 0x58 1): 2"
NOTES = ("H_RESIZE_HPT_PREPARE added before commits: 3", OTHERS, "lines of calls that could not be read: 1")

MOST_LINES = 2**17 - 80  # that the converter takes: the rest is for a trace's head and its last remark
A_READ = "0 H_READ 0x2000000000 0x20\n"
A_PREPARE = "0 H_RESIZE_HPT_PREPARE 0x0 0x14\n"


def said(*notes: str) -> str:
    """The notes as they stand on standard error."""
    return "".join(f"qemu-log-to-trace: {note}\n" for note in notes)


def log_of(number: int, count: int) -> str:
    """A log that has the stored log's first call of this number, so many times."""
    lines = LOG.read_text(encoding="ascii").splitlines(keepends=True)
    return next(line for line in lines if line.startswith(f"hypercall r3={number:016x} ")) * count


class Logs(ToolTest):
    """What becomes of a log."""

    def test_a_small_log_becomes_the_stored_trace(self) -> None:
        self.assert_ran(run(CONVERT, LOG), TRACE.read_text(encoding="ascii"), err=said(*NOTES))

    def test_a_log_is_read_from_standard_input_and_a_trace_written_to_a_file(self) -> None:
        trace = self.folder / "small.trace"
        self.assert_ran(run(CONVERT, "-o", trace, given=LOG), err=said(*NOTES))
        self.assert_same_file(trace, TRACE)

    def test_options_give_the_grants_and_the_part_of_a_log(self) -> None:
        ram = ("--ram", "0x0", "0x3000000000", "0x10000000")
        notes = (
            "page table calls skipped at the log's beginning: 1",
            "page table calls left out because --calls 2 is reached: 10",
            OTHERS,
            "lines of calls that could not be read: 1",
        )
        trace = (
            f"{TITLE}order 20\nram 0x0 0x3000000000 0x10000000\n"
            "io 0x200080000000 0x2000000000 0x1000\nbegin\n"
            "0 H_ENTER 0x0 0x6008 0x400ea1b217000015 0x31190\n"
            "0 H_ENTER 0x0 0x28 0x1001 0x2000800001ac\n"
        ) + "".join(f"# {note}\n" for note in notes)
        ran = run(CONVERT, LOG, "--order", "20", *ram, "--skip", "1", "--calls", "2")
        self.assert_ran(ran, trace, err=said(*notes))

    def test_calls_on_tces_are_passed_over_and_counted_with_the_others(self) -> None:
        """A log tells of no DMA window."""
        log = LOG.read_text(encoding="ascii")
        log = log.replace("r3=000000000000f005", "r3=0000000000000020").replace(
            "r3=0000000000000058", "r3=000000000000001c"
        )
        others = "other calls passed over (most: 0x20 1, 0x1c 1): 2"
        trace = TRACE.read_text(encoding="ascii").replace(OTHERS, others)
        self.assert_ran(run(CONVERT, given=log), trace, err=said(NOTES[0], others, NOTES[2]))

    def test_no_call_is_added_with_as_recorded(self) -> None:
        trace = TRACE.read_text(encoding="ascii").replace(A_PREPARE * 4, A_PREPARE)
        trace = trace.replace(f"# {NOTES[0]}\n", "")
        self.assert_ran(run(CONVERT, "--as-recorded", LOG), trace, err=said(*NOTES[1:]))

    def test_the_tool_has_help(self) -> None:
        self.assert_help(CONVERT)


class Limits(ToolTest):
    """How much of a long log goes into a trace."""

    def assert_stops(self, ran: Ran, call: str, taken: int, limit: str, left_out: int) -> None:
        """So many calls are taken, and the trace and a message tell how many are left out."""
        note = f"page table calls left out because the trace's limit of {limit} is reached: {left_out}"
        self.assert_ran(ran, f"{TITLE}order 18\nbegin\n{call * taken}# {note}\n", err=said(note))

    def test_a_long_log_stops_at_the_limit_of_lines(self) -> None:
        """A log of 140,000 calls: the trace stays within 2^17 lines."""
        ran = run(CONVERT, given=log_of(0xC, 140_000))
        self.assert_stops(ran, A_READ, MOST_LINES, "lines", 140_000 - MOST_LINES)
        self.assertLessEqual(ran.out.count("\n"), 2**17)

    def test_a_long_log_becomes_a_long_trace(self) -> None:
        ran = run(CONVERT, "--long", given=log_of(0xC, 140_000))
        self.assert_ran(ran, f"{TITLE}order 18\nbegin\n{A_READ * 140_000}")

    def test_resizes_stop_at_their_limit(self) -> None:
        self.assert_stops(run(CONVERT, given=log_of(0x36C, 300)), A_PREPARE, 256, "resize calls", 44)


class Refusals(ToolTest):
    """Options and logs that can't be used."""

    def refuses(self, message: str, *words: str) -> None:
        """The converter refuses the words, where standard input is empty."""
        self.assert_refused(run(CONVERT, *words), f"qemu-log-to-trace: {message}")

    def test_an_order_that_is_none(self) -> None:
        self.refuses("error: argument --order: 17 is not 18 to 22", "--order", "17")

    def test_a_number_that_is_none(self) -> None:
        self.refuses("error: argument --skip: `x` is no number", "--skip", "x")

    def test_a_grant_that_lacks_a_word(self) -> None:
        self.refuses("error: argument --ram: expected 3 arguments", "--ram", "0x0", "0x1000")

    def test_a_grant_that_is_not_aligned(self) -> None:
        message = "grant `ram 0x1 0x2000000000 0x1000` is not aligned to 4096"
        self.refuses(message, "--ram", "0x1", "0x2000000000", "0x1000")

    def test_a_grant_that_meets_the_pool(self) -> None:
        message = "grant `io 0x0 0x1000000000 0x1000` meets the pool of tables at 0x1000000000"
        self.refuses(message, "--io", "0x0", "0x1000000000", "0x1000")

    def test_a_log_that_is_not_there(self) -> None:
        self.refuses(f"{self.folder}/none: No such file or directory", f"{self.folder}/none")

    def test_a_log_without_a_call(self) -> None:
        self.refuses("the log has no page table call; was it recorded with `-d int`?")

    def test_an_option_that_is_not_one(self) -> None:
        self.refuses("error: unrecognized arguments: --frob", "--frob")


@needs_program
class WithTheProgram(ToolTest):
    """What papr does with a trace of the converter."""

    def test_the_stored_trace_is_accepted(self) -> None:
        ran = run(PROGRAM, "run", given=TRACE)
        self.assert_ran(ran, out=None)
        lines = TRACE.read_text(encoding="ascii").splitlines()
        calls = [number for number, line in enumerate(lines, start=1) if line.startswith("0 ")]
        self.assertEqual([int(line.split()[0]) for line in ran.out.splitlines()], calls)
