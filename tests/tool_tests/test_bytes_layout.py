"""Tests that include/papr_bytes.h says what the sources of papr_bytes say, like test_c_layout for papr.h."""

import sys

from .support import TOOLS, TOP, ToolTest, for_each
from .test_c_layout import BYTES_STRUCTS, Sources, in_capitals, laid_out, swapped, text_of

sys.path.insert(0, str(TOOLS))

from interface.headers import Header, without_remarks  # noqa: E402

HEADER = TOP / "include" / "papr_bytes.h"
SOURCES = sorted((TOP / "crates" / "papr_bytes" / "src").glob("*.rt"))
# The statuses of the program, which the call has too.
STATUSES = TOP / "crates" / "papr_edge" / "src" / "status.rt"
END, CALL = "papr_bytes_end", "papr_bytes_call"
BYTES = 16  # that the header says the end has

# Those whose names the header has in other words.
IN_OTHER_WORDS = {"MEMORY": "NO_MEMORY", "CHECK_NO": "NOT_GOOD"}

# Swaps in the sources by which a caller in C would read another field, or pass another value.
SWAPPED = (
    (END, "status", "length"),
    (CALL, "first", "second"),
    (CALL, "second", "third"),
    (CALL, "third", "input"),
    (CALL, "input", "output"),
)


def header() -> Header:
    """The header of this checkout."""
    return Header(text_of(HEADER))


def text_of_sources() -> str:
    """The sources of this checkout, as one text, in which the caller's room has its name in C."""
    text = without_remarks("\n".join(text_of(path) for path in SOURCES))
    return text.replace("room: &mut [u8]", "output: &mut [u8]")


def sources() -> Sources:
    """The sources of this checkout."""
    return Sources(text_of_sources())


class BytesStructs(ToolTest):
    """The struct of a call's end."""

    @for_each(*BYTES_STRUCTS.values())
    def test_the_fields_of_are_those_of_the_sources(self, name: str) -> None:
        self.assertTrue(header().structs[name].fields)
        self.assertEqual(header().structs[name].fields, sources().structs[name].fields)
        self.assertTrue(sources().structs[name].is_c, f"{name} lacks #[repr(C)]")

    def test_the_end_has_the_size_that_the_header_says(self) -> None:
        self.assertIn(f"What a call answers, in {BYTES} bytes.", text_of(HEADER))
        self.assertEqual(laid_out(sources().structs, END)[0], BYTES)

    def test_the_header_has_no_other_struct(self) -> None:
        self.assertEqual(list(header().structs), list(BYTES_STRUCTS.values()))


class BytesConstants(ToolTest):
    """The statuses."""

    def test_the_statuses_are_those_of_the_sources(self) -> None:
        numbers = Sources(text_of(STATUSES)).numbers(r"\bStatus::(\w+) => ([0-9]+),")
        expected = {in_capitals(name): number for name, number in numbers.items()}
        expected |= sources().numbers(r"\bconst (NO_ROOM): u32 = ([0-9]+);")
        named = {f"PAPR_BYTES_{IN_OTHER_WORDS.get(name, name)}": number for name, number in expected.items()}
        self.assertEqual(header().enums["papr_bytes_status"], named)


class BytesFunctions(ToolTest):
    """The call."""

    def test_its_parameters_and_its_result_are_those_of_the_sources(self) -> None:
        self.assertTrue(header().functions[CALL].parameters)
        self.assertEqual(header().functions, sources().functions)
        self.assertEqual(list(header().functions), [CALL])

    @for_each(*SWAPPED)
    def test_a_swap_is_refused_in(self, swap: tuple[str, str, str]) -> None:
        """Edits that no proof refuses, and that would break a caller in C."""
        edited, mine = Sources(swapped(text_of_sources(), *swap)), header()
        if swap[0] == END:
            self.assertNotEqual(edited.structs[END].fields, mine.structs[END].fields)
        else:
            self.assertNotEqual(edited.functions[CALL], mine.functions[CALL])
