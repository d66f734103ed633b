"""Tests that include/papr.h says what the sources of the library for C say; nothing is built for them.

Structs, constants and functions are parsed out of the header and out of the sources of crates/papr_c and of
crates/c_layout below it, and compared by name, order and type. A slice of the sources is a pointer and a count in C.
"""

import re
import sys
from pathlib import Path

from .support import TOOLS, TOP, ToolTest, for_each

sys.path.insert(0, str(TOOLS))

from interface.headers import PARTS, Function, Header, Named, Struct, without_remarks  # noqa: E402

HEADER = TOP / "include" / "papr.h"
FOLDERS = [TOP / "crates" / crate / "src" for crate in ("c_layout", "papr_c")]
SOURCES = [path for folder in FOLDERS for path in sorted(folder.glob("*.rt"))]
# What the sources have from the crates below: return codes, flags, and the length of a list of grants.
BELOW = [
    TOP / "crates" / "frame_grants" / "src" / "grants.rt",
    TOP / "crates" / "papr_codes" / "src" / "codes.rt",
    TOP / "crates" / "papr_codes" / "src" / "flag_bits.rt",
]

# The structs of the header, by their names in the sources.
STRUCTS = {
    "PaprEntry": "papr_entry",
    "PaprReceipt": "papr_receipt",
    "PaprReply": "papr_reply",
    "PaprGrant": "papr_grant",
    "PaprGrants": "papr_grants",
    "PaprMaking": "papr_making",
    "PaprRange": "papr_range",
    "PaprAccess": "papr_access",
    "PaprWalk": "papr_walk",
    "PaprPage": "papr_page",
    "PaprTaken": "papr_taken",
    "PaprRehash": "papr_rehash",
    "PaprResize": "papr_resize",
    "PaprSlot": "papr_slot",
    "PaprSlb": "papr_slb",
    "PaprDevice": "papr_device",
    "PaprTransfer": "papr_transfer",
}
# And those of papr_shared.h and of papr_bytes.h.
SHARED_STRUCTS = {"PaprPass": "papr_pass", "PaprBusy": "papr_busy"}
BYTES_STRUCTS = {"CallEnd": "papr_bytes_end"}
NAMES = {**STRUCTS, **SHARED_STRUCTS, **BYTES_STRUCTS}
# Their entries are those of a window.
OF_WINDOWS = ("papr_put_tce", "papr_get_tce", "papr_device")
SCALARS = {
    "u8": "uint8_t",
    "u32": "uint32_t",
    "u64": "uint64_t",
    "i64": "int64_t",
    "usize": "size_t",
    "bool": "bool",
    "*mut u8": "void*",
}
WIDTHS = {"uint8_t": 1, "uint32_t": 4, "uint64_t": 8, "int64_t": 8, "size_t": 8, "bool": 1, "void*": 8}  # in bytes

# How the headers name the count behind a slice.
COUNTS = {
    "entries": "count",
    "words": "words_room",
    "receipts": "receipts_room",
    "indexes": "indexes_room",
    "given": "given_count",
    "pairs": "pairs_count",
    "into": "into_count",
    "out": "out_size",
    "bytes": "bytes_size",
    "first": "first_length",
    "second": "second_length",
    "third": "third_length",
    "input": "input_length",
    "output": "room",
}

# What isn't there in C: facts of the proof, and the heap, which has no bytes.
UNSEEN = re.compile(r"(pub )?ghost |\w+: Global$")

# A struct of the sources with its attributes, and a function for C.
STRUCT = re.compile(r"((?:#\[[^\n]*\]\s*)*)pub struct (\w+) \{(.*?)\n\}", re.DOTALL)
EXTERN = re.compile(r"(#\[unsafe\(no_mangle\)\]\s*)?pub extern \"C\" fn (\w+)\(([^()]*)\)(?: -> (\w+))?")


def split_outside(text: str) -> list[str]:
    """The parts of a list between commas that stand in no brackets."""
    parts, depth = [""], 0
    for letter in text:
        depth += (letter in "[(<{") - (letter in "])>}")
        if letter == "," and depth == 0:
            parts.append("")
        else:
            parts[-1] += letter
    return [part.strip() for part in parts if part.strip()]


def in_c(name: str, type_: str) -> list[Named]:
    """What a field or a parameter of this type is in C: of a slice a pointer, and its count."""
    by = re.fullmatch(r"&(mut )?(\[)?(\w+)\]?", type_)
    if by is not None:
        pointer = ("" if by[1] else "const ") + of_value(by[3]) + "*"
        return [(name, pointer), (COUNTS[name], "size_t")] if by[2] else [(name, pointer)]
    array = re.fullmatch(r"(?:&mut )?\[(\w+); ([0-9]+)\]", type_)
    return [(name, f"{of_value(array[1])}[{array[2]}]" if array else of_value(type_))]


def of_value(type_: str) -> str:
    """What a type of the sources is in C."""
    return SCALARS[type_] if type_ in SCALARS else f"struct {NAMES[type_]}"


def with_lengths(text: str) -> str:
    """The sources with a number where the length of an array is a constant of theirs."""
    lengths = dict(re.findall(r"\bconst (\w+): usize = ([0-9]+);", text))
    return re.sub(r"; ([A-Z_]+)\]", lambda it: f"; {lengths.get(it[1], it[1])}]", text)


class Sources:
    """What the sources declare."""

    def __init__(self, text: str) -> None:
        text = with_lengths(without_remarks(text))
        self.structs: dict[str, Struct] = {}
        for before, name, body in STRUCT.findall(text):
            if name in NAMES:
                fields = [it.split(": ", 1) for it in split_outside(body) if not UNSEEN.match(it)]
                named = [pair for it in fields for pair in in_c(it[0].split()[-1], it[1])]
                self.structs[NAMES[name]] = Struct(named, "#[repr(C)]" in before)
        self.functions: dict[str, Function] = {}
        for exported, name, given, result in EXTERN.findall(text):
            parameters = [it.split(": ", 1) for it in split_outside(given) if not UNSEEN.match(it)]
            named = [pair for it in parameters for pair in in_c(it[0].removeprefix("_"), it[1])]
            if name in OF_WINDOWS:
                named[1] = ("pages", named[1][1])
            symbol = name if exported else f"{name}, not exported"
            self.functions[symbol] = Function(named, of_value(result) if result else "void")
        self.text = text

    def numbers(self, pattern: str) -> dict[str, int]:
        """The names and numbers that a pattern finds."""
        return {name: int(number) for name, number in re.findall(pattern, self.text)}


def laid_out(structs: dict[str, Struct], name: str) -> tuple[int, int, dict[str, int]]:
    """A struct's size, its alignment, and each field's place, as C has them on a machine of 64 bits."""
    at, widest = 0, 1
    places: dict[str, int] = {}
    for field, type_ in structs[name].fields:
        element, _, count = type_.removesuffix("]").partition("[")
        if element in WIDTHS:
            size = align = WIDTHS[element]
        else:
            size, align, _places = laid_out(structs, element.removeprefix("struct "))
        at += -at % align
        places[field] = at
        at += size * int(count or 1)
        widest = max(widest, align)
    return at + -at % widest, widest, places


def text_of(path: Path) -> str:
    """A file's text."""
    return path.read_text(encoding="utf-8")


def constants_of(name: str, type_: str) -> dict[str, int]:
    """The constants of this type in the files of the sources with this name."""
    text = without_remarks("\n".join(text_of(path) for path in SOURCES if path.name == name))
    return {it: int(number) for it, number in re.findall(rf"\bconst (\w+): {type_} = ([0-9]+);", text)}


def in_capitals(name: str) -> str:
    """A name as C's constants have it."""
    return re.sub(r"(?<=[a-z])(?=[A-Z])", "_", name).upper()


def header() -> Header:
    """The header of this checkout."""
    return Header(text_of(HEADER))


def text_of_sources() -> str:
    """The sources of this checkout, as one text."""
    return "\n".join(text_of(path) for path in (*SOURCES, *BELOW))


def sources() -> Sources:
    """The sources of this checkout."""
    return Sources(text_of_sources())


class Structs(ToolTest):
    """The structs."""

    @for_each(*STRUCTS.values())
    def test_the_fields_of_are_those_of_the_sources(self, name: str) -> None:
        self.assertTrue(header().structs[name].fields)
        self.assertEqual(header().structs[name].fields, sources().structs[name].fields)

    @for_each(*STRUCTS.values())
    def test_the_sources_give_the_layout_of_c_to(self, name: str) -> None:
        self.assertTrue(sources().structs[name].is_c, f"{name} lacks #[repr(C)]")

    @for_each(*STRUCTS.values())
    def test_the_header_asserts_how_the_sources_lay_out(self, name: str) -> None:
        size, _align, places = laid_out(sources().structs, name)
        self.assertEqual(header().sizes[name], size)
        asserted = {field: at for (struct, field), at in header().places.items() if struct == name}
        self.assertEqual(asserted, places)

    def test_the_header_has_no_other_struct(self) -> None:
        self.assertEqual(list(header().structs), list(STRUCTS.values()))


class Constants(ToolTest):
    """The constants."""

    def test_the_numbers_of_answers_are_those_of_the_sources(self) -> None:
        numbers = sources().numbers(r"\bAnswer::(\w+) => ([0-9]+),")
        numbers["Read"] = numbers.pop("Words")
        expected = {f"PAPR_{it.upper()}": n for it, n in numbers.items()}
        self.assertEqual(header().enums["papr_answer"], expected)

    def test_the_numbers_of_refusals_are_those_of_the_sources(self) -> None:
        of_grants = sources().numbers(r"\bGrantError::(\w+) => ([0-9]+),")
        of_pools = sources().numbers(r"\bRangeError::(\w+) => ([0-9]+),")
        of_grants["Pool"] = of_grants.pop("PoolOverlap")
        expected = {"PAPR_GRANTED": 0}
        expected.update({f"PAPR_GRANT_{in_capitals(it)}": n for it, n in of_grants.items()})
        expected.update({f"PAPR_POOL_{in_capitals(it)}": n for it, n in of_pools.items()})
        self.assertEqual(header().enums["papr_refusal"], expected)

    def test_the_numbers_of_outcomes_are_those_of_the_sources(self) -> None:
        numbers = constants_of("walking.rt", "u32")
        numbers["AT"], numbers["PARAMETER"] = numbers.pop("ALLOWED"), numbers.pop("REFUSED")
        expected = {f"PAPR_WALK_{it}": n for it, n in numbers.items()}
        self.assertEqual(header().enums["papr_outcome"], expected)

    def test_the_numbers_of_refused_transfers_are_those_of_the_sources(self) -> None:
        numbers = sources().numbers(r"\bRefusal::(\w+) => ([0-9]+),")
        expected = {"PAPR_TRANSFERRED": 0}
        expected.update({f"PAPR_TRANSFER_{in_capitals(it)}": n for it, n in numbers.items()})
        self.assertEqual(header().enums["papr_transfer_refusal"], expected)

    def test_the_numbers_of_devices_outcomes_are_those_of_the_sources(self) -> None:
        numbers = sources().numbers(r"\bDeviceOutcome::(\w+)(?:\(\w+\))? => \(\w+, ([0-9]+)\),")
        expected = {f"PAPR_DEVICE_{in_capitals(it)}": n for it, n in numbers.items()}
        self.assertEqual(header().enums["papr_device_outcome"], {**expected, "PAPR_DEVICE_PARAMETER": 4})

    def test_the_numbers_of_refused_slots_are_those_of_the_sources(self) -> None:
        numbers = sources().numbers(r"\bBadSlb::(\w+) => ([0-9]+),")
        expected = {"PAPR_SLB_WRITTEN": 0}
        expected.update({f"PAPR_SLB_{in_capitals(it)}": n for it, n in numbers.items()})
        self.assertEqual(header().enums["papr_slb_refusal"], expected)

    def test_the_numbers_of_layouts_are_those_of_the_sources(self) -> None:
        numbers = re.findall(r"\b([0-9]+) => Some\(Layout::(\w+)\),", sources().text)
        expected = {f"PAPR_LAYOUT_{in_capitals(it)}": int(n) for n, it in numbers}
        self.assertEqual(header().enums["papr_layout"], expected)

    def test_the_version_is_that_of_the_sources_and_of_the_file(self) -> None:
        numbers = sources().numbers(r"\bconst (\w+): u32 = ([0-9]+);")
        version = [numbers[name] for name in PARTS]
        self.assertEqual(header().version, version)
        self.assertEqual(text_of(TOP / "VERSION").strip(), ".".join(map(str, version)))

    def test_the_numbers_of_rights_and_causes_are_those_of_the_sources(self) -> None:
        numbers = constants_of("rights.rt", "u8")
        rights = {f"PAPR_MAY_{it}": numbers.pop(it) for it in ("READ", "WRITE", "EXECUTE")}
        self.assertEqual(header().enums["papr_right"], rights)
        self.assertEqual(header().enums["papr_cause"], {f"PAPR_CAUSE_{it}": n for it, n in numbers.items()})

    def test_the_numbers_of_decodings_are_those_of_the_sources(self) -> None:
        numbers = sources().numbers(r"\bNoPage::(\w+) => ([0-9]+),")
        expected = {f"PAPR_{in_capitals(it)}": n for it, n in numbers.items()}
        self.assertEqual(header().enums["papr_decoding"], {"PAPR_PAGE": 0, **expected})

    def test_the_return_codes_are_those_of_the_sources(self) -> None:
        codes = sources().numbers(r"\bRc::(\w+) => (-?[0-9]+),")
        expected = {f"PAPR_H_{in_capitals(it)}": n for it, n in codes.items()}
        self.assertEqual(header().enums["papr_rc"], expected)

    def test_the_flags_are_those_of_the_sources(self) -> None:
        flags = re.findall(r"\bconst (\w+) = (0x[0-9A-F_]+);", sources().text)
        expected = {f"PAPR_{name.replace('AND_', 'AND')}": int(value, 16) for name, value in flags}
        self.assertEqual(len(expected), 4)
        self.assertEqual(header().flags, expected)


class Functions(ToolTest):
    """The functions."""

    @for_each(*header().functions)
    def test_the_parameters_and_the_result_of_are_those_of_the_sources(self, name: str) -> None:
        self.assertEqual(bool(header().functions[name].parameters), name != "papr_version")
        self.assertEqual(header().functions[name], sources().functions[name])

    def test_neither_has_another_function(self) -> None:
        self.assertIn("papr_h_enter", header().functions)
        self.assertCountEqual(sources().functions, header().functions)


# Swaps in the sources by which a caller in C would read another field, or pass another value: the struct or
# function, and the two names that change places in it.
SWAPPED = (
    ("papr_making", "index", "refusal"),
    ("papr_rehash", "first", "second"),
    ("papr_receipt", "dword0", "dword1"),
    ("papr_receipt", "entry", "stamp"),
    ("papr_range", "granted", "is_io"),
    ("papr_walk", "entry", "receipts"),
    ("papr_walk", "rights", "causes"),
    ("papr_page", "base_shift", "actual_shift"),
    ("papr_decode", "dword0", "dword1"),
    ("papr_access", "amr", "iamr"),
    ("papr_reply", "words", "receipts"),
    ("papr_transfer", "index", "refusal"),
    ("papr_slot", "ks", "kp"),
    ("papr_slb_mte", "rb", "rs"),
    ("papr_resize_prepare", "flags", "shift"),
    ("papr_export", "first", "number"),
    ("papr_h_remove", "ptex", "avpn"),
    ("papr_h_clear_ref", "_flags", "ptex"),
)


def swapped(text: str, name: str, one: str, other: str) -> str:
    """The sources with the two fields or parameters in each other's place, with their types."""
    own = {mine: theirs for theirs, mine in NAMES.items()}
    begin = text.index(f"pub struct {own[name]} {{" if name in own else f"fn {name}(")
    end = text.index("\n}" if name in own else "\n)", begin)
    item, count = re.subn(
        rf"\b({one}: [^,]*)(,.*?)\b({other}: [^,]*)", r"\3\2\1", text[begin:end], flags=re.DOTALL
    )
    if count != 1:
        raise ValueError(f"{name} has no {one}, or no {other} behind it")
    return text[:begin] + item + text[end:]


class Swaps(ToolTest):
    """What these tests are for: edits that no proof refuses, and that would break a caller in C."""

    @for_each(*SWAPPED)
    def test_a_swap_is_refused_in(self, swap: tuple[str, str, str]) -> None:
        name = swap[0]
        edited, mine = Sources(swapped(text_of_sources(), *swap)), header()
        if name in mine.structs:
            self.assertNotEqual(edited.structs[name].fields, mine.structs[name].fields)
        else:
            self.assertNotEqual(edited.functions[name], mine.functions[name])

    @for_each(*STRUCTS)
    def test_a_lost_layout_is_refused_in(self, name: str) -> None:
        layout = rf"#\[repr\(C\)\]\n((?:#\[[^\n]*\n)*pub struct {name} )"
        lost, count = re.subn(layout, r"\1", text_of_sources())
        self.assertEqual(count, 1)
        self.assertFalse(Sources(lost).structs[STRUCTS[name]].is_c)
