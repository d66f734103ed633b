"""The headers in include/: their structs, functions with their comments, enums and numbers.

They are written in a narrow style, which is all that is read here: a type and a name for each field and parameter, and
no declaration inside of another. What isn't understood is refused, so that nothing is left out unseen.
"""

import re
from dataclasses import dataclass
from functools import cache

from common import Bad
from crates import TOP

INCLUDE = TOP / "include"
NAMES = ("papr.h", "papr_shared.h", "papr_bytes.h")

# The parts of a version.
PARTS = ("MAJOR", "MINOR", "PATCH")

STRUCT = re.compile(r"^struct (\w+) \{(.*?)^\};", re.DOTALL | re.MULTILINE)
ENUM = re.compile(r"^enum (\w+) \{(.*?)^\};", re.DOTALL | re.MULTILINE)
MEMBER = re.compile(r"(\w+) = (-?[0-9]+)")
FUNCTION = re.compile(r"^((?:struct )?\w+) (\w+)\(([^()]*)\);", re.MULTILINE)
FLAG = re.compile(r"^#define (PAPR_\w+)\s+UINT64_C\((0x[0-9A-F]+)\)", re.MULTILINE)
INLINE = re.compile(r"^static inline .*?^\}", re.DOTALL | re.MULTILINE)
DIRECTIVE = re.compile(r"^#(?:[^\n]*\\\n)*[^\n]*$", re.MULTILINE)
ASSERTED = re.compile(r"^PAPR_(?:SIZE|AT)\([^()]*\);$", re.MULTILINE)
LINKAGE = re.compile(r'^extern "C" \{$|^\}$', re.MULTILINE)
REMARK = re.compile(r"/\*.*?\*/|//[^\n]*", re.DOTALL)
# A comment, and the functions that follow it with no empty line between.
COMMENTED = re.compile(r"^/\*((?:(?!\*/).)*)\*/\n((?:[^\n]+\n)+)", re.DOTALL | re.MULTILINE)
# The comment that begins a part of a header, and the part.
PART = re.compile(r"^/\* ---- ((?:(?!\*/).)*)\*/\n(.*?)(?=^/\* ---- |\Z)", re.DOTALL | re.MULTILINE)

Named = tuple[str, str]  # a name and its type in C


@dataclass(frozen=True)
class Function:
    """A function of the library."""

    parameters: list[Named]
    result: str


@dataclass(frozen=True)
class Struct:
    """A struct of the library; its alignment is C's where it says so."""

    fields: list[Named]
    is_c: bool = True


def without_remarks(text: str) -> str:
    """A text in C or in Rattle without its remarks."""
    return REMARK.sub(" ", text)


def c_type(words: str) -> str:
    """A type in C, with single spaces, and none before a star."""
    return " ".join(words.replace("*", " * ").split()).replace(" *", "*")


def declared(words: str) -> Named:
    """The name and the type that a field or a parameter in C declares."""
    found = re.fullmatch(r"\s*(.*?)(\w+)\s*(\[\w+\])?\s*", words, re.DOTALL)
    if found is None or not found[1].strip():
        raise Bad(f"this declares nothing: {words.strip()}")
    return found[2], c_type(found[1]) + (found[3] or "")


def function_of(result: str, given: str) -> Function:
    """A function of this result and these parameters."""
    return Function([] if given == "void" else [declared(it) for it in given.split(",")], result)


class Header:
    """What a header declares, by names."""

    def __init__(self, text: str) -> None:
        bare = without_remarks(text)
        self.structs: dict[str, Struct] = {
            name: Struct([declared(field) for field in body.split(";") if field.strip()])
            for name, body in STRUCT.findall(bare)
        }
        self.functions: dict[str, Function] = {
            name: function_of(result, given) for result, name, given in FUNCTION.findall(bare)
        }
        self.enums: dict[str, dict[str, int]] = {
            name: {member: int(value) for member, value in MEMBER.findall(body)} for name, body in ENUM.findall(bare)
        }
        sizes = re.findall(r"^PAPR_SIZE\((\w+), ([0-9]+)\);", bare, re.MULTILINE)
        self.sizes = {name: int(size) for name, size in sizes}
        places = re.findall(r"^PAPR_AT\((\w+), (\w+), ([0-9]+)\);", bare, re.MULTILINE)
        self.places = {(name, field): int(place) for name, field, place in places}
        self.flags = {name: int(value, 16) for name, value in FLAG.findall(bare)}
        parts = dict(re.findall(r"^#define PAPR_VERSION_(\w+) ([0-9]+)$", bare, re.MULTILINE))
        self.version = [int(parts[name]) for name in PARTS if name in parts]
        self.comments = comments_of(text)
        self.parts = parts_of(text)
        refuse_the_rest(bare)


def refuse_the_rest(bare: str) -> None:
    """Stops where a header without its remarks has what none of the patterns read."""
    for pattern in (INLINE, DIRECTIVE, STRUCT, ENUM, FUNCTION, ASSERTED, LINKAGE):
        bare = pattern.sub("", bare)
    if bare.strip():
        raise Bad(f"a header has what isn't read here: {bare.strip().splitlines()[0]}")


def without_marks(comment: str) -> str:
    """The lines of a comment without what is in front of them."""
    lines = [re.sub(r"^ \* ?", "", line).rstrip() for line in comment.strip(" ").split("\n")]
    return "\n".join(lines).strip("\n")


def comments_of(text: str) -> dict[str, str]:
    """The comment of each function that has one."""
    return {
        name: without_marks(comment)
        for comment, code in COMMENTED.findall(text)
        for _result, name, _given in FUNCTION.findall(code)
    }


def parts_of(text: str) -> dict[str, str]:
    """For each function the comment that begins the part of the header in which it is."""
    return {
        name: without_marks(comment)
        for comment, code in PART.findall(text)
        for _result, name, _given in FUNCTION.findall(code)
    }


@cache
def header(name: str) -> Header:
    """A header of this checkout."""
    return Header(text_of(name))


def text_of(name: str) -> str:
    """A header's text."""
    return (INCLUDE / name).read_text(encoding="utf-8")


def headers() -> list[Header]:
    """All headers of this checkout."""
    return [header(name) for name in NAMES]
