"""Tests of what is written from the headers: what a header may have, and how Rust and Python declare it."""

import sys

from .support import TOOLS, TOP, ToolTest, for_each, run

sys.path.insert(0, str(TOOLS))

from common import Bad  # noqa: E402
from interface import ctypes_tables, rust  # noqa: E402
from interface.headers import Header  # noqa: E402

CHECK = TOP / "tests" / "check"
# A header in the style of papr.h: a struct, an enum, and two functions with one comment.
TEXT = """/* ---- parts */

enum papr_side {
    PAPR_LEFT = 0,
    PAPR_RIGHT = 1              /* the other one */
};

struct papr_part {
    uint64_t sizes[8];
    bool whole;                 /* not cut */
};

/* Cuts a part at `place`. Gives an enum papr_side, or PAPR_RIGHT with an array args[1]. */
uint32_t papr_cut(struct papr_part *part, size_t place, const uint8_t args[2]);
void papr_mend(struct papr_part *part);
"""
# Declarations that nothing here reads, each in a header of its own.
UNREAD = (
    "typedef int papr_number;",
    "int papr_call(int (*done)(int));",
    "extern int papr_count;",
    "union papr_any { int i; };",
)


class Headers(ToolTest):
    """What a header declares."""

    def test_structs_functions_and_numbers_are_read(self) -> None:
        found = Header(TEXT)
        self.assertEqual(found.structs["papr_part"].fields, [("sizes", "uint64_t[8]"), ("whole", "bool")])
        cut = found.functions["papr_cut"]
        parameters = [("part", "struct papr_part*"), ("place", "size_t"), ("args", "const uint8_t[2]")]
        self.assertEqual((cut.parameters, cut.result), (parameters, "uint32_t"))
        self.assertEqual(found.enums, {"papr_side": {"PAPR_LEFT": 0, "PAPR_RIGHT": 1}})

    def test_functions_with_no_line_between_have_one_comment(self) -> None:
        found = Header(TEXT)
        self.assertEqual(found.comments["papr_mend"], found.comments["papr_cut"])

    @for_each(*UNREAD)
    def test_what_is_not_understood_is_refused(self, line: str) -> None:
        with self.assertRaises(Bad):
            Header(f"{TEXT}\n{line}\n")


class Written(ToolTest):
    """What is written of a type."""

    @for_each(
        ("uint8_t", "u8", "U8"),
        ("size_t", "usize", "SIZE"),
        ("const struct papr_entry*", "*const papr_entry", "P(CEntry)"),
        ("struct papr_bytes_end", "papr_bytes_end", "CBytesEnd"),
        ("uint64_t[8]", "*mut u64", "P(U64)"),
    )
    def test_a_type_has_a_name_in_both_languages(self, given: tuple[str, str, str]) -> None:
        in_c, in_rust, in_python = given
        self.assertEqual((rust.type_of(in_c), ctypes_tables.as_passed(in_c)), (in_rust, in_python))

    def test_a_type_of_another_kind_is_refused(self) -> None:
        for type_of in (rust.type_of, ctypes_tables.type_of):
            with self.assertRaises(Bad):
                type_of("long")

    def test_the_files_are_those_of_the_headers(self) -> None:
        ran = run(CHECK, "declarations")
        self.assert_ran(ran, out=None)
        self.assertIn("5 files are as the headers declare", ran.out)
