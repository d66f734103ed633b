"""The structs and the functions of the headers as Python's ctypes has them."""

import re
from textwrap import wrap
from typing import Iterator

from common import Bad
from interface.headers import NAMES, Function, header

COLUMNS = 120
TYPES = {
    "uint8_t": "U8",
    "uint32_t": "U32",
    "uint64_t": "U64",
    "int64_t": "I64",
    "size_t": "SIZE",
    "bool": "BOOL",
    "void": "None",
    "void*": "ctypes.c_void_p",
}
# What each header's functions are called in Python.
TABLES = dict(zip(NAMES, ("FUNCTIONS", "SHARED_FUNCTIONS", "BYTES_FUNCTIONS")))


def class_of(name: str) -> str:
    """The class of a struct."""
    return "C" + "".join(part.capitalize() for part in name.removeprefix("papr_").split("_"))


def type_of(type_: str) -> str:
    """A type of a field, a parameter or a result; a parameter that is an array is passed by its address."""
    if type_ in TYPES:
        return TYPES[type_]
    array = re.fullmatch(r"(.*)\[(\w+)\]", type_)
    if array is not None:
        return f"{type_of(array[1])} * {array[2]}"
    if type_.endswith("*"):
        return f"P({type_of(type_[:-1].removeprefix('const '))})"
    if not type_.startswith("struct "):
        raise Bad(f"there is no type for Python of {type_}")
    return class_of(type_.removeprefix("struct "))


def as_passed(type_: str) -> str:
    """The type of a parameter."""
    return type_of(re.sub(r"\[\w+\]$", "*", type_))


def struct_lines(name: str, fields: list[tuple[str, str]]) -> Iterator[str]:
    """The class of a struct."""
    pairs = [f'("{field}", {type_of(type_)})' for field, type_ in fields]
    yield from ["", "", f"class {class_of(name)}(ctypes.Structure):", f'    """struct {name}"""', ""]
    whole = f"    _fields_ = [{', '.join(pairs)}]"
    if len(whole) <= COLUMNS:
        yield whole
    else:
        yield from ["    _fields_ = [", *(f"        {pair}," for pair in pairs), "    ]"]


def structs(about: str) -> str:
    """The module of all structs."""
    lines = [f'"""{about}"""', "", "import ctypes", ""]
    lines.append("U8, U32, U64 = ctypes.c_uint8, ctypes.c_uint32, ctypes.c_uint64")
    lines.append("I64, SIZE, BOOL = ctypes.c_int64, ctypes.c_size_t, ctypes.c_bool")
    for name in NAMES:
        for struct, found in header(name).structs.items():
            lines += struct_lines(struct, found.fields)
    return "\n".join([*lines, ""])


def function_lines(name: str, function: Function) -> Iterator[str]:
    """The row of a function: its result and its parameters."""
    types = [as_passed(type_) for _, type_ in function.parameters]
    listed = f"({types[0]},)" if len(types) == 1 else f"({', '.join(types)})"
    result = type_of(function.result)
    whole = f'    "{name}": ({result}, {listed}),'
    if len(whole) <= COLUMNS:
        yield whole
    else:
        inner = wrap(", ".join(types) + ",", COLUMNS - 12)
        yield from [f'    "{name}": (', f"        {result},", "        ("]
        yield from [*(f"            {it}" for it in inner), "        ),", "    ),"]


def functions(about: str) -> str:
    """The module of all functions."""
    tables: list[str] = []
    for name, table in TABLES.items():
        tables.append(f"{table}: dict[str, tuple[Any, Types]] = {{")
        for function, found in header(name).functions.items():
            tables += function_lines(function, found)
        tables.append("}")
    used = sorted({it for line in tables for it in re.findall(r"\b(?:BOOL|I64|SIZE|U\d+|C[A-Z]\w+)\b", line)})
    lines = [f'"""{about}"""', "", "import ctypes", "from typing import Any", "", "from ._structs import ("]
    lines += [f"    {it}" for it in wrap(", ".join(used) + ",", COLUMNS - 4)]
    lines += [")", "", "P = ctypes.POINTER", "Types = tuple[Any, ...]", ""]
    lines.append("# Each function's result, and its parameters.")
    return "\n".join([*lines, *tables, ""])
