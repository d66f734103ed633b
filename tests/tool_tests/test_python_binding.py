"""Tests of the Python package: its declarations against the headers, and its own tests over the libraries.

The declarations need no library. The package's own tests, in bindings/python/tests, run over shared objects that
are made of the archives under test.
"""

import ctypes
import re
import sys
import tempfile
from enum import IntEnum, IntFlag
from pathlib import Path
from typing import Any, ClassVar, Union

from .built import BYTES_SHARED, HERE, SHARED, make_shared
from .support import DOCS, EXAMPLES, TOOLS, TOP, Ran, ToolTest, Word, for_each, needs
from .support import needs_bytes_library, needs_library, needs_shared_table, run
from .test_c_layout import header, in_capitals, text_of
from .test_shared_layout import header as shared_header

PACKAGE = TOP / "bindings" / "python"
sys.path[:0] = [str(PACKAGE), str(TOOLS)]

from interface.headers import Header  # noqa: E402
from papr import codes  # noqa: E402
from papr._functions import BYTES_FUNCTIONS, FUNCTIONS, SHARED_FUNCTIONS  # noqa: E402
from papr._library import VERSION  # noqa: E402
from papr._structs import CBytesEnd, CGrants  # noqa: E402
from papr.shared import WALK_BUSY  # noqa: E402

OWN_TESTS = sorted(path.stem for path in (PACKAGE / "tests").glob("test_*.py"))
IN_PYTHON = re.compile(r"^```python\n(.*?)^```\n(?:```text\n(.*?)^```\n)?", re.MULTILINE | re.DOTALL)
# ctypes has one type for numbers of 64 bits and for sizes.
SCALARS = {
    None: "void",
    ctypes.c_uint8: "uint8_t",
    ctypes.c_uint32: "uint32_t",
    ctypes.c_uint64: "uint64_t",
    ctypes.c_int64: "int64_t",
    ctypes.c_bool: "bool",
    ctypes.c_void_p: "void*",
}
# The enums of the headers, each with the Python class and what its names have in front in C.
ENUMS: dict[str, tuple[Union[type[IntEnum], type[IntFlag]], str]] = {
    "papr_rc": (codes.Code, "PAPR_"),
    "papr_answer": (codes.Answer, "PAPR_"),
    "papr_refusal": (codes.GrantRefusal, "PAPR_"),
    "papr_outcome": (codes.Outcome, "PAPR_WALK_"),
    "papr_hold": (codes.Hold, "PAPR_"),
    "papr_right": (codes.Right, "PAPR_MAY_"),
    "papr_cause": (codes.Cause, "PAPR_CAUSE_"),
    "papr_decoding": (codes.Decoding, "PAPR_"),
    "papr_slb_refusal": (codes.SlotRefusal, "PAPR_SLB_"),
    "papr_device_outcome": (codes.DeviceOutcome, "PAPR_DEVICE_"),
    "papr_layout": (codes.Layout, "PAPR_LAYOUT_"),
    "papr_transfer_refusal": (codes.TransferRefusal, "PAPR_TRANSFER_"),
    "papr_bytes_status": (codes.Status, "PAPR_BYTES_"),
}


def bytes_header() -> Header:
    """The header of the program on bytes."""
    return Header(text_of(TOP / "include" / "papr_bytes.h"))


# The headers, each with the functions that the package has of it.
HEADERS = ((header(), FUNCTIONS), (shared_header(), SHARED_FUNCTIONS), (bytes_header(), BYTES_FUNCTIONS))


def name_of(struct: type[ctypes.Structure]) -> str:
    """A struct's name in C."""
    return f"papr_{in_capitals(struct.__name__.removeprefix('C')).lower()}"


def in_c(kind: Any) -> str:
    """A type of ctypes in C."""
    if kind in SCALARS:
        return SCALARS[kind]
    if issubclass(kind, ctypes.Structure):
        return f"struct {name_of(kind)}"
    if issubclass(kind, ctypes.Array):
        return f"{in_c(kind._type_)}[{kind._length_}]"
    return f"{in_c(kind._type_)}*"


def as_passed(type_: str) -> str:
    """A type of the header as ctypes passes it: without const, an array by its address, a size as a number."""
    return re.sub(r"\[\w+\]$", "*", type_.removeprefix("const ").replace("size_t", "uint64_t"))


def structs() -> dict[str, type[ctypes.Structure]]:
    """The package's structs, by their names in C."""
    found = ctypes.Structure.__subclasses__()
    return {name_of(it): it for it in found if it.__module__ == CGrants.__module__}


class Declarations(ToolTest):
    """The package declares what the headers do."""

    @for_each(*header().structs, *shared_header().structs)
    def test_a_struct_is_that_of_the_header(self, name: str) -> None:
        (of_struct,) = (it for it, _ in HEADERS if name in it.structs)
        struct, expected = structs()[name], of_struct.structs[name].fields
        fields = [(field[0], in_c(field[1])) for field in struct._fields_]
        self.assertEqual(fields, [(it, kind.replace("size_t", "uint64_t")) for it, kind in expected])
        self.assertEqual(ctypes.sizeof(struct), of_struct.sizes[name])
        places = {field: at for (of, field), at in of_struct.places.items() if of == name}
        self.assertEqual({field[0]: getattr(struct, field[0]).offset for field in struct._fields_}, places)

    def test_the_end_of_the_program_on_bytes(self) -> None:
        fields = [(field[0], in_c(field[1])) for field in CBytesEnd._fields_]
        self.assertEqual(fields, bytes_header().structs["papr_bytes_end"].fields)
        self.assertEqual(ctypes.sizeof(CBytesEnd), 16)

    def test_there_is_no_other_struct(self) -> None:
        self.assertCountEqual(structs(), [name for it, _ in HEADERS for name in it.structs])

    @for_each(*FUNCTIONS, *SHARED_FUNCTIONS, *BYTES_FUNCTIONS)
    def test_a_function_is_that_of_the_header(self, name: str) -> None:
        ((of_function, functions),) = (it for it in HEADERS if name in it[1])
        (result, parameters), expected = functions[name], of_function.functions[name]
        self.assertEqual(in_c(result), as_passed(expected.result))
        self.assertEqual([in_c(it) for it in parameters], [as_passed(it) for _, it in expected.parameters])

    def test_there_is_no_other_function(self) -> None:
        for of_functions, functions in HEADERS:
            self.assertCountEqual(functions, of_functions.functions)

    @for_each(*header().enums, *shared_header().enums, *bytes_header().enums)
    def test_the_numbers_of(self, name: str) -> None:
        kind, front = ENUMS[name]
        (members,) = (it.enums[name] for it, _ in HEADERS if name in it.enums)
        expected = {it.removeprefix(front).removeprefix("PAPR_"): number for it, number in members.items()}
        self.assertEqual({it.name: it.value for it in kind}, expected)

    def test_the_flags_and_the_version(self) -> None:
        flags = {it.removeprefix("PAPR_"): number for it, number in header().flags.items()}
        self.assertEqual({it.name: it.value for it in codes.Flag}, flags)
        self.assertEqual(list(VERSION), header().version)

    def test_the_outcome_of_a_walk_that_is_busy(self) -> None:
        text = text_of(TOP / "include" / "papr_shared.h")
        self.assertEqual(re.findall(r"(?m)^#define PAPR_WALK_BUSY ([0-9]+)$", text), [str(WALK_BUSY)])

    def test_the_numbers_of_calls_are_those_of_the_sources(self) -> None:
        text = text_of(TOP / "crates" / "papr_codes" / "src" / "calls.rt")
        found = re.findall(r"(0x[0-9A-F]+) => Hcall::(\w+),", text)
        numbers = {f"H_{in_capitals(name)}": int(number, 16) for number, name in found}
        self.assertEqual({it.name: numbers[it.name] for it in codes.Hcall}, {it.name: it.value for it in codes.Hcall})


# A library that has a table for one caller, and none that threads share.
NO_SHARED_TABLE = """
#include <papr.h>
uint32_t papr_version(void) { return PAPR_VERSION; }
struct papr_making papr_make_grants(const struct papr_grant *given, size_t count, uint64_t base, uint8_t order,
                                    struct papr_grants *list) { return (struct papr_making){0}; }
"""
USE = """
import papr
table = papr.Table(18)
try:
    papr.SharedTable(table)
except papr.LibraryMissing as error:
    print(error, len(table))
"""


@needs("cc")
class WithoutASharedTable(ToolTest):
    """The package over a library that has no shared table, and over none."""

    def said_over(self, library: Path) -> str:
        """What the use of a shared table writes."""
        variables = {"PYTHONPATH": str(PACKAGE), "PAPR_SHARED_LIBRARY": str(library)}
        ran = run(sys.executable, "-c", USE, environment=variables)
        self.assert_ran(ran, out=None)
        return ran.out

    def test_a_library_that_has_none_is_named(self) -> None:
        library = self.folder / SHARED
        flags = ("-shared", "-fPIC", f"-I{TOP / 'include'}", "-o", library, "-x", "c", "-")
        self.assert_ran(run("cc", *flags, given=NO_SHARED_TABLE))
        expected = f"{library} has no table that threads share: it lacks papr_open 16384\n"
        self.assertEqual(self.said_over(library), expected)


@needs("cc")
class OverTheLibraries(ToolTest):
    """The package over shared objects that are made of the archives."""

    variables: ClassVar[dict[str, str]]

    @classmethod
    def setUpClass(cls) -> None:
        """Makes them, once for the class."""
        super().setUpClass()
        work = tempfile.TemporaryDirectory(prefix="papr-python-")
        cls.addClassCleanup(work.cleanup)
        make_shared(Path(work.name), HERE)
        # Where there is no archive, the file that is named isn't there either.
        named = {"PAPR_SHARED_LIBRARY": SHARED, "PAPR_SHARED_BYTES_LIBRARY": BYTES_SHARED}
        places = {variable: str(Path(work.name) / name) for variable, name in named.items()}
        cls.variables = {"PYTHONPATH": str(PACKAGE), **places}

    def python(self, *words: Word, given: str = "") -> Ran:
        """Runs Python with the package."""
        return run(sys.executable, *words, given=given, folder=EXAMPLES, environment=self.variables)

    @for_each(*OWN_TESTS)
    def test_the_tests_of_the_package_pass(self, name: str) -> None:
        ran = self.python("-m", "unittest", "discover", "-s", PACKAGE / "tests", "-p", f"{name}.py")
        self.assert_ran(ran, err=None)
        ended = ran.err.splitlines()[-1]
        if "skipped=" in ended:
            self.skipTest(f"{ended}: a library for C is missing (make library)")
        self.assertEqual(ended, "OK")

    @needs_library
    @needs_shared_table
    @needs_bytes_library
    def test_the_blocks_of_the_document_write_what_it_says(self) -> None:
        """Each block goes on from those before it, beside the example traces."""
        found = IN_PYTHON.findall(text_of(DOCS / "LIBRARY.md"))
        self.assertGreater(len(found), 1)
        ran = self.python("-", given="".join(code for code, _ in found))
        self.assert_ran(ran, "".join(written for _, written in found))
