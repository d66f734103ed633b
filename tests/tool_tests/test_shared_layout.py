"""Tests that include/papr_shared.h says what the sources of the shared table say, as test_c_layout does for papr.h."""

import re
import sys

from .support import TOOLS, TOP, ToolTest, for_each
from .test_c_layout import SHARED_STRUCTS, Sources, laid_out, swapped, text_of

sys.path.insert(0, str(TOOLS))

from interface.headers import Header, without_remarks  # noqa: E402

HEADER = TOP / "include" / "papr_shared.h"
SOURCES = [
    path for name in ("shared_pass", "papr_shared") for path in sorted((TOP / "crates" / name / "src").glob("*.rt"))
]
# What a pass has of its own is in a struct that C sees as parts of it.
POINTER = re.compile(r"pub struct WorkingPointer \{(.*?)\n\}", re.DOTALL)

# Swaps in the sources by which a caller in C would read another field, or pass another value.
SWAPPED = (
    ("papr_busy", "looked", "found"),
    ("papr_busy", "entry", "done"),
    ("papr_try_h_remove", "ptex", "avpn"),
    ("papr_try_h_enter", "pteh", "ptel"),
)


def header() -> Header:
    """The header of this checkout."""
    return Header(text_of(HEADER))


def text_of_sources() -> str:
    """The sources of this checkout, as one text, in which the parts of a pass are its own."""
    text = without_remarks("\n".join(text_of(path) for path in SOURCES))
    pointer = POINTER.search(text)
    return text.replace("pub(crate) pointer: WorkingPointer,", pointer[1] if pointer else "")


def sources() -> Sources:
    """The sources of this checkout."""
    return Sources(text_of_sources())


class SharedStructs(ToolTest):
    """The structs."""

    @for_each(*SHARED_STRUCTS.values())
    def test_the_fields_of_are_those_of_the_sources(self, name: str) -> None:
        self.assertTrue(header().structs[name].fields)
        self.assertEqual(header().structs[name].fields, sources().structs[name].fields)
        self.assertTrue(sources().structs[name].is_c, f"{name} lacks #[repr(C)]")

    @for_each(*SHARED_STRUCTS.values())
    def test_the_header_asserts_how_the_sources_lay_out(self, name: str) -> None:
        size, _align, places = laid_out(sources().structs, name)
        self.assertEqual(header().sizes[name], size)
        asserted = {field: at for (struct, field), at in header().places.items() if struct == name}
        self.assertEqual(asserted, places)

    def test_the_header_has_no_other_struct(self) -> None:
        self.assertEqual(list(header().structs), list(SHARED_STRUCTS.values()))


class SharedConstants(ToolTest):
    """The constants."""

    def test_the_numbers_of_what_is_busy_are_those_of_the_sources(self) -> None:
        numbers = sources().numbers(r"\bconst (\w+): u32 = ([0-9]+);")
        held = {f"PAPR_{name}": numbers[name] for name in ("HELD", "CHANGING")}
        self.assertEqual(header().enums["papr_hold"], {"PAPR_NOT_HELD_UP": 0, **held})
        walk = re.findall(r"(?m)^#define PAPR_WALK_BUSY ([0-9]+)$", text_of(HEADER))
        self.assertEqual(walk, [str(numbers["BUSY"])])


class SharedFunctions(ToolTest):
    """The functions."""

    @for_each(*header().functions)
    def test_the_parameters_and_the_result_of_are_those_of_the_sources(self, name: str) -> None:
        self.assertTrue(header().functions[name].parameters)
        self.assertEqual(header().functions[name], sources().functions[name])

    def test_neither_has_another_function(self) -> None:
        self.assertIn("papr_try_h_enter", header().functions)
        self.assertCountEqual(sources().functions, header().functions)

    @for_each(*SWAPPED)
    def test_a_swap_is_refused_in(self, swap: tuple[str, str, str]) -> None:
        """Edits that no proof refuses, and that would break a caller in C."""
        name = swap[0]
        edited, mine = Sources(swapped(text_of_sources(), *swap)), header()
        if name in mine.structs:
            self.assertNotEqual(edited.structs[name].fields, mine.structs[name].fields)
        else:
            self.assertNotEqual(edited.functions[name], mine.functions[name])
