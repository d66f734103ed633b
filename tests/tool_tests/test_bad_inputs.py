"""Tests of inputs that no tool can use: each tool refuses them with a message and with status 2."""

import resource
import struct
import sys
from pathlib import Path

from .support import DATA, EXAMPLES, TOOLS, TOP, Ran, ToolTest, Word, for_each, needs_library, run

DIGITS = "7" * 5_000  # more than Python makes a number of
# The tools that read replies, and the words before the text.
READERS: dict[str, tuple[str, ...]] = {
    "receipts": ("--csv",),
    "run-picture": (),
    "entry-history": ("0x20",),
    "diff": ("-",),
    "decode": (),
}
# Texts that are no replies, by their names.
TEXTS = {
    "long-stamp": f"4 0 H_ENTER 0 0x20 | 0x20.{DIGITS}.0.entered\n",
    "stamp": f"4 0 H_ENTER 0 0x20 | 0x20.{2**64}.0.entered\n",
    "entry": "4 0 H_ENTER 0 0x20 | 0x40000.0.0.entered\n",
    "long-line": f"{DIGITS} 0 H_ENTER 0 0x20 | 0x20.0.0.entered\n",
    "line": f"{2**64} 0 H_ENTER 0 0x20 | 0x20.0.0.entered\n",
    "processor": "4 64 H_ENTER 0 0x20 | 0x20.0.0.entered\n",
    "receipt": "4 0 H_ENTER 0 0x20 | 0x20.0.0\n",
    "dump-of-a-processor": "8 0 dump H_READ 0\n",
    "dump": "8 dump table 0 place 0x1000000000 entries 1\n",
    "dumped-order": "8 dump table 0 order 23 place 0x1000000000 entries 1\n",
    "dumped-table": f"8 dump table {DIGITS} order 18 place 0x1000000000 entries 1\n",
}
A_DUMP = "8 dump table 0 order 18 place 0x1000000000 entries 1\n"
SHOWN_ENTRIES = {
    "underscore": " 0x2_0 0x1001 0x3112 1\n",
    "sign": " 0x20 0x1001 0x3112 +1\n",
    "word": f" 0x20 0x1{'0' * 16} 0x3112 1\n",
    "stamp": f" 0x20 0x1001 0x3112 {DIGITS}\n",
}
REPLIES = "4 0 H_ENTER 0 0x20 | 0x20.0.0.entered\n"
# A UTF-8 locale, in which standard input is no ASCII.
UTF_8 = {"LC_ALL": "C.UTF-8", "PYTHONUTF8": "1"}
# Each tool's words by which it reads standard input, and what it can read there.
INPUTS: dict[str, tuple[tuple[str, ...], str]] = {
    "receipts": (("--csv",), REPLIES),
    "run-picture": ((), REPLIES),
    "entry-history": (("0x20",), REPLIES),
    "diff": (("--short", "-", str(EXAMPLES / "first.replies")), REPLIES),
    "htab-to-entries": (("--debugfs",), (DATA / "htab.debugfs").read_text(encoding="ascii")),
    "qemu-log-to-trace": ((), (DATA / "small.log").read_text(encoding="ascii")),
}
CLOSED = "Bad file descriptor"


class ReplyTest(ToolTest):
    """A test of the tools that read replies."""

    def read(self, tool: str, text: str) -> Ran:
        """The tool reads this text; as for diff, against itself."""
        path = self.folder / "replies"
        path.write_text(text, encoding="utf-8")
        words: list[Word] = [path, path] if tool == "diff" else [*READERS[tool], path]
        return run(TOOLS / tool, *words)


@needs_library
class Replies(ReplyTest):
    """Texts that are no replies, since a number in them is none or too large."""

    @for_each(*READERS)
    def test_numbers_are_within_their_bounds(self, tool: str) -> None:
        for name, text in TEXTS.items():
            with self.subTest(text=name):
                self.assert_refused(self.read(tool, text), f"{tool}: this is no reply: {text.strip()[:60]}")

    @for_each(*READERS)
    def test_numbers_of_dumped_entries(self, tool: str) -> None:
        for name, line in SHOWN_ENTRIES.items():
            with self.subTest(line=name):
                message = f"{tool}: this is no entry of a dump: {line.strip()[:60]}"
                self.assert_refused(self.read(tool, A_DUMP + line), message)

    @for_each("receipts", "run-picture", "entry-history", "diff", "decode")
    def test_standard_input_is_ascii_as_files_are(self, tool: str) -> None:
        """The superscript two is a digit for Python, and no number."""
        words = {"diff": ("-", str(EXAMPLES / "first.replies")), "decode": ("-",)}.get(tool, READERS[tool])
        ran = run(TOOLS / tool, *words, given="² 0 H_ENTER 0 | 0x1.1.0.entered\n", environment=UTF_8)
        self.assert_refused(ran, f"{tool}: standard input has the byte 0xc2, which isn't ASCII")

    def test_words_of_replies_are_numbers(self) -> None:
        text = "4 0 H_READ 0 0x1_0 0x2 | 0x20.0.0.read\n"
        ran = run(TOOLS / "receipts", "--csv", "--decode", given=text)
        self.assert_refused(ran, "receipts: one of these words of a reply is no number: 0x1_0 0x2")

    def test_the_order_of_a_trace(self) -> None:
        trace = self.folder / "trace"
        orders = {"99": "99 is not 18 to 22", DIGITS: f"`{DIGITS}` is no number", "": "`` is no number"}
        for order, message in orders.items():
            trace.write_text(f"order {order}\nbegin\n", encoding="ascii")
            ran = run(TOOLS / "receipts", "--csv", "--decode", "--trace", trace, given=REPLIES)
            self.assert_refused(ran, f"receipts: {message}")


class Databases(ToolTest):
    """Numbers that SQLite has no integer for."""

    def put(self, stamp: int) -> Ran:
        """A reply with this stamp, into a database."""
        text = f"4 0 H_ENTER 0 0x20 | 0x20.{stamp}.0.entered\n"
        return run(TOOLS / "receipts", "--sqlite", self.folder / "base", given=text)

    def test_the_largest_integer_is_stored(self) -> None:
        self.assert_ran(self.put(2**63 - 1))

    def test_a_larger_one_is_refused_and_the_database_stays(self) -> None:
        self.assert_ran(self.put(1))
        before = (self.folder / "base").read_bytes()
        told = "receipts: line 4: stamp 9223372036854775808 is above 2^63 - 1, the most that a database holds"
        self.assert_refused(self.put(2**63), told)
        self.assertEqual((self.folder / "base").read_bytes(), before)


@needs_library
class Decoded(ToolTest):
    """What `decode` reads beside replies."""

    ENTRY = "00000000000010010000000000003012"

    def decode(self, *words: str, given: str = "") -> Ran:
        """Runs the tool."""
        return run(TOOLS / "decode", *words, given=given)

    def test_an_index_may_begin_with_zeros(self) -> None:
        ran = self.decode("entry", "old", "039", self.ENTRY)
        self.assert_ran(ran, out=None)
        self.assertIn("entry        0x27: group 0x4, slot 7\n", ran.out)

    def test_an_index_past_2_to_the_64(self) -> None:
        ran = self.decode("entry", "old", str(2**64), self.ENTRY)
        self.assert_refused(ran, f"decode: `{2**64}` is not below 2^64")

    def test_an_order_that_is_none(self) -> None:
        for order, message in ((DIGITS, f"`{DIGITS}` is no number"), ("17", "17 is not 18 to 22")):
            for text in (f"image old order {order} entries 0\n", f"order {order}\nbegin\n"):
                self.assert_refused(self.decode("-", given=text), f"decode: {message}")


class Streams(ToolTest):
    """Standard input or output that is closed."""

    def by_shell(self, tool: str, redirection: str) -> Ran:
        """Runs the tool with what it can read, and a redirection."""
        words, given = INPUTS[tool]
        return run("sh", "-c", f'exec "$@" {redirection}', "sh", TOOLS / tool, *words, given=given)

    @for_each(*INPUTS)
    def test_closed_standard_input(self, tool: str) -> None:
        self.assert_refused(self.by_shell(tool, "<&-"), f"{tool}: standard input: {CLOSED}")

    @for_each(*INPUTS)
    def test_closed_standard_output(self, tool: str) -> None:
        ran = self.by_shell(tool, ">&-")
        self.assertEqual((ran.status, ran.out), (4, ""), ran.err)
        self.assertEqual(ran.err.splitlines()[-1], f"{tool}: standard output: {CLOSED}")

    def test_closed_standard_error(self) -> None:
        """The message doesn't go to standard output instead."""
        self.assert_ran(run("sh", "-c", 'exec "$@" 2>&-', "sh", TOOLS / "diff", "none", "none"), status=2)

    def test_why_without_standard_input(self) -> None:
        ran = run("sh", "-c", 'exec "$@" <&-', "sh", TOOLS / "why", "-")
        self.assert_refused(ran, f"why: standard input: {CLOSED}")


class Told(ToolTest):
    """A refusal that `why` is told and that the text, which may be another one by then, doesn't fit."""

    def test_the_rule_is_shown(self) -> None:
        rules = {"line 1: ascii": "a byte is neither tab", "line 2: word": "the first word doesn't begin with a digit"}
        for told, rule in rules.items():
            ran = run(TOOLS / "why", "--known", told, "-", given="order 18\n\nbegin\n")
            self.assert_ran(ran, out=None)
            self.assertIn(f"  rule: {rule}", ran.out)


class Own(ToolTest):
    """An error of a tool itself."""

    def test_it_is_one_line_and_no_answer(self) -> None:
        """Status 1 would say that texts differ, or that a text is bad."""
        code = "import sys; sys.path.insert(0, sys.argv[1]); import common; sys.exit(common.run_tool([].pop))"
        ran = run(sys.executable, "-c", code, TOOLS)
        self.assertEqual((ran.status, ran.out, ran.err.count("\n")), (2, "", 1), ran.err)
        self.assertRegex(ran.err, r"^-c: an error in common\.py, line [0-9]+: IndexError: pop from empty list\n$")


def is_python(path: Path) -> bool:
    """Whether a file is a script of Python."""
    if not path.is_file() or path.is_symlink():
        return False
    with open(path, "rb") as text:
        return text.readline(80).rstrip().endswith(b"python3")


FOLDERS = ("tools", "tools/targets", "tools/qemu-papr", "tests", "page", "bindings/python")
SCRIPTS = sorted(str(path.relative_to(TOP)) for it in FOLDERS for path in (TOP / it).iterdir() if is_python(path))


class SafePath(ToolTest):
    """Python may leave out the folder of the script (PYTHONSAFEPATH, python3 -P)."""

    @for_each(*SCRIPTS)
    def test_modules_beside_a_script_are_found(self, script: str) -> None:
        ran = run(TOP / script, "--help", environment={"PYTHONSAFEPATH": "1"})
        self.assert_ran(ran, out=None)

    def test_scripts_were_looked_at(self) -> None:
        self.assertLessEqual({"tools/why", "tools/build", "tests/tools", "page/build-page"}, set(SCRIPTS))


class Large(ToolTest):
    """Small inputs that take long if each entry is looked at alone, or each pair."""

    def seconds(self, *words: Word, given: bytes) -> tuple[float, Ran]:
        """The processor's seconds that a tool takes, and what it writes."""
        before = resource.getrusage(resource.RUSAGE_CHILDREN)
        ran = run(*words, given=given)
        after = resource.getrusage(resource.RUSAGE_CHILDREN)
        return after.ru_utime - before.ru_utime, ran

    def test_headers_without_valid_entries(self) -> None:
        """Each says of 65,535 entries that they are empty."""
        headers = struct.pack("<IHH", 0, 0, 65_535) * 2**14
        seconds, ran = self.seconds(TOOLS / "htab-to-entries", "--stream", given=headers)
        self.assert_ran(ran, "# The page table of a guest under KVM, by KVM_PPC_GET_HTAB_FD\norder 20\nbegin\n")
        self.assertLess(seconds, 10)

    def test_inhibited_pages(self) -> None:
        """All gaps between the pages are of 4 KB. The first are closed, so that 63 pages are left alone."""
        count, first, step = 6_000, 0x2000_0000_0000, 0x2000
        line = "hypercall r3=0000000000000008 r4=0000000000000000 r5=0000000000000020 r6=0000000000001001 r7={:016x}"
        rest = " ".join(f"r{place}={0:016x}" for place in range(8, 12))
        log = "".join(f"{line.format(first + step * at + 0x1AC)} {rest}\n" for at in range(count))
        seconds, ran = self.seconds(TOOLS / "qemu-log-to-trace", given=log.encode())
        grants = [line for line in ran.out.splitlines() if line.startswith("io ")]
        ranges = [(int(words[1], 16), int(words[3], 16)) for words in map(str.split, grants)]
        alone = [(first + step * at, 0x1000) for at in range(count - 63, count)]
        self.assertEqual(ranges, [(first, step * (count - 64) + 0x1000), *alone])
        self.assertLess(seconds, 10)
