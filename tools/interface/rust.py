"""The functions of the headers as Rust declares them, in the layout of rustfmt, with the headers' comments."""

import re
from textwrap import wrap
from typing import Iterator

from common import Bad
from interface.headers import Function, Header, header, headers

COLUMNS = 100
TYPES = {
    "uint8_t": "u8",
    "uint32_t": "u32",
    "uint64_t": "u64",
    "int64_t": "i64",
    "size_t": "usize",
    "bool": "bool",
}
# What isn't said of a function of this name is said of the one without this part of the name.
TRY = "try_"
NAME = re.compile(r"`[^`]*`|\b(?:PAPR|papr)_\w+\b|\b\w+\[\d+\]")
# Rust has no enums of these: their numbers are constants.
IN_ENUM = re.compile(r"\ban enum (papr_\w+)")


def type_of(type_: str) -> str:
    """A type of a parameter or a result."""
    pointer = re.fullmatch(r"(const )?(.*?)(?:\*|\[\w+\])", type_)
    if pointer is not None:
        return f"*{'const' if pointer[1] else 'mut'} {type_of(pointer[2])}"
    if type_ not in TYPES and not type_.startswith("struct "):
        raise Bad(f"there is no type for Rust of {type_}")
    return TYPES.get(type_, type_.removeprefix("struct "))


def signature_of(name: str, function: Function) -> Iterator[str]:
    """The lines that declare a function."""
    parameters = [f"{it}: {type_of(type_)}" for it, type_ in function.parameters]
    result = "" if function.result == "void" else f" -> {type_of(function.result)}"
    whole = f"    pub fn {name}({', '.join(parameters)}){result};"
    if len(whole) <= COLUMNS:
        yield whole
    else:
        yield f"    pub fn {name}("
        yield from (f"        {it}," for it in parameters)
        yield f"    ){result};"


def first_member(name: str) -> str:
    """The first constant of an enum."""
    members = next(it.enums[name] for it in headers() if name in it.enums)
    return next(iter(members))


def in_markdown(comment: str) -> str:
    """A comment with its names as code, and constants where it names an enum."""
    comment = IN_ENUM.sub(lambda it: f"{first_member(it[1])} or a following one", comment)
    return NAME.sub(lambda it: it[0] if it[0].startswith("`") else f"`{it[0]}`", comment)


def paragraphs_of(comment: str) -> Iterator[list[str]]:
    """The paragraphs of a comment as lines of this width; a block that is set in is code."""
    for block in comment.split("\n\n"):
        if block.startswith("  "):
            yield ["```text", *(line.removeprefix("  ") for line in block.split("\n")), "```"]
        else:
            yield wrap(in_markdown(block), COLUMNS - len("    /// "), break_on_hyphens=False, break_long_words=False)


def comment_of(name: str, of_header: Header) -> str:
    """What is said of a function: its own comment, or that of its namesake and what is said of the whole part."""
    if name in of_header.comments:
        return of_header.comments[name]
    other = name.replace(TRY, "", 1)
    found = next((it.comments[other] for it in headers() if other != name and other in it.comments), None)
    if found is None:
        raise Bad(f"{name} has no comment")
    _title, _, rest = re.sub(r"\. (?=[A-Z])", "\0", of_header.parts.get(name, ""), count=1).partition("\0")
    return f"{found}\n\n{rest}" if rest else found


def function_lines(name: str, of_header: Header) -> Iterator[str]:
    """A function with its comment."""
    for at, paragraph in enumerate(paragraphs_of(comment_of(name, of_header))):
        yield from ["    ///"] if at else []
        yield from (f"    /// {line}" for line in paragraph)
    yield from signature_of(name, of_header.functions[name])


def structs_in(of_header: Header) -> list[str]:
    """The structs that the functions of a header name, in the order of the alphabet."""
    named = {it.result for it in of_header.functions.values()}
    named |= {type_ for it in of_header.functions.values() for _, type_ in it.parameters}
    return sorted({found for it in named for found in re.findall(r"struct (\w+)", it)})


def declarations(name: str, own: str, about: str) -> str:
    """The module with the functions of a header, whose own structs are in the module `own`; `about` is its comment."""
    of_header = header(name)
    parts = [f"//! {line}" if line else "//!" for line in about.splitlines()]
    others = [it for it in structs_in(of_header) if it not in of_header.structs or own == "structs"]
    mine = [it for it in structs_in(of_header) if it not in others]
    parts.append("")
    parts += [use for use in (use_of(own, mine), use_of("structs", others)) if use]
    functions = ["\n".join(function_lines(it, of_header)) for it in of_header.functions]
    return "\n".join([*parts, "", 'extern "C" {', "\n\n".join(functions), "}", ""])


def use_of(module: str, names: list[str]) -> str:
    """The line or lines that import these names of a module."""
    if not names:
        return ""
    listed = names[0] if len(names) == 1 else f"{{{', '.join(names)}}}"
    line = f"use crate::{module}::{listed};"
    if len(line) <= COLUMNS:
        return line
    inner = wrap(", ".join(names) + ",", COLUMNS - 5)
    return "\n".join([f"use crate::{module}::{{", *(f"    {it}" for it in inner), "};"])
