"""Phrases that no document and no message has, each with its better words.

Looks at the documents, the manual pages, the headers for C, the page for a browser, the comments of the crates,
and the messages of the tools: their strings, and the sentence on top that `--help` shows. Names and code, in
backticks or indented, are left out.
"""

import argparse
import ast
import re
from dataclasses import dataclass
from functools import partial
from pathlib import Path
from typing import Callable, Iterator, Optional

from checks.running import Failed
from crates import TOP

DOCUMENTS = ("*.md", "docs/*.md", "examples/*.md", "bindings/*/*.md")
OTHERS = ("man/*.[15]", "include/*.h", "page/page.html", "page/js/*.js")
IN_CRATES = ("crates/*/src/**/*.rt", "crates/*/specs/*.antt", "crates/*/proofs/*.antt")
TOOLS = ("papr", "tools/**/*", "page/build-page", "bindings/python/papr/*.py", "bindings/python/build-wheel")
COMMENT = re.compile(r"/\*.*?\*/", re.DOTALL)
OF_CODE, OF_ANTT = re.compile(r"(?:^|\s)//[/!]?\s(.*)$"), re.compile(r"^\s*--\s(.*)$")


@dataclass(frozen=True)
class Phrase:
    """A phrase, as a pattern, and what to say instead."""

    pattern: str
    better: str


PHRASES = [
    Phrase(r"told|tells", "said, says, stated, known, shows"),
    Phrase(r"behind(?! (one lock|a lock|a pointer|a proxy))", "after"),
    Phrase(r"one behind the other", "one after the other"),
    Phrase(r"(?:the )?way of an? (?:line|call|access)", "how a line is run"),
    Phrase(r"how far (?:it|the build) is", "progress"),
    Phrase(r"of which none", "none of which"),
    Phrase(r"stands? (?:there|here|in|on|once|twice|beside|alone|above|below|too)", "is"),
    Phrase(r"go(?:es)? by", "depends on, uses"),
    Phrase(r"by the clock", "of elapsed time"),
    Phrase(r"(?:minutes|seconds) of (?:the )?processor(?! time)", "of processor time"),
    Phrase(r"dear(?:er|est)?", "expensive, long"),
    Phrase(r"anew", "again"),
    Phrase(r"all the same", "nevertheless"),
    Phrase(r"cached lines?", "cached translation"),
    Phrase(r"gone lines?", "stale translation"),
    Phrase(r"exactly where", "exactly if, exactly when"),
    Phrase(r"but for", "except for"),
    Phrase(r"with a word(?! )", "with a note"),
    Phrase(r"comes? of it", "the result"),
    Phrase(r"in place of", "instead of"),
    Phrase(r"beside (?:that|it|them|others?)", "at the same time, next to"),
]
ALL = [(re.compile(rf"(?i)\b(?:{phrase.pattern})\b"), phrase) for phrase in PHRASES]

Lines = Iterator[tuple[int, str]]


def paths(patterns: tuple[str, ...]) -> Iterator[Path]:
    """The files of these patterns."""
    for pattern in patterns:
        for path in sorted(TOP.glob(pattern)):
            if path.is_file() and "__pycache__" not in path.parts:
                yield path


def prose(text: str) -> Lines:
    """The lines of a document without code: neither fenced nor indented nor in backticks."""
    fenced = False
    for number, line in enumerate(text.splitlines(), 1):
        if line.startswith("```"):
            fenced = not fenced
        elif not fenced and not line.startswith("    "):
            yield number, re.sub(r"`[^`]*`", "`", line)


def whole(text: str) -> Lines:
    """All lines of a manual page."""
    yield from enumerate(text.splitlines(), 1)


def without_marks(text: str) -> Lines:
    """The lines of a page of HTML without its marks."""
    yield from enumerate(re.sub(r"<[^>\n]*>", " ", text).splitlines(), 1)


def comments(text: str) -> Lines:
    """The lines of a header's comments."""
    for found in COMMENT.finditer(text):
        first = text.count("\n", 0, found.start()) + 1
        yield from enumerate(found[0].splitlines(), first)


def after(mark: re.Pattern[str], text: str) -> Lines:
    """What follows the mark of a comment in each line, without names."""
    for number, line in enumerate(text.splitlines(), 1):
        found = mark.search(line)
        if found:
            yield number, re.sub(r"`[^`]*`", "`", found[1])


def strings(text: str) -> Lines:
    """The strings of a script of Python, without those that say what a class or a function is."""
    tree = ast.parse(text)
    about = set()
    for node in ast.walk(tree):
        if isinstance(node, (ast.FunctionDef, ast.ClassDef)) and isinstance(node.body[0], ast.Expr):
            about.add(node.body[0].value)
    for node in ast.walk(tree):
        if isinstance(node, ast.Constant) and isinstance(node.value, str) and node not in about:
            for number, line in enumerate(node.value.splitlines(), node.lineno):
                yield number, re.sub(r"`[^`]*`", "`", line)


def quoted(text: str) -> Lines:
    """What a script of the shell or of the page has in quotes, where it is more than a word."""
    for number, line in enumerate(text.splitlines(), 1):
        if not line.lstrip().startswith(("#", "//")):
            found = re.findall(r"\"[^\"]*\"|'[^']*'|`[^`]*`", line)
            yield number, "; ".join(it for it in found if " " in it)


READERS: dict[str, Callable[[str], Lines]] = {
    ".md": prose,
    ".1": whole,
    ".5": whole,
    ".h": comments,
    ".html": without_marks,
    ".js": quoted,
    ".py": strings,
    ".rt": partial(after, OF_CODE),
    ".antt": partial(after, OF_ANTT),
}


def reader_of(path: Path, text: str) -> Optional[Callable[[str], Lines]]:
    """What gives the lines of a file that a user reads."""
    if path.suffix or not text.startswith("#!"):
        return READERS.get(path.suffix)
    return strings if text.startswith("#!/usr/bin/env python3") else quoted


def faults(path: Path) -> Iterator[str]:
    """The phrases of a file, each with its line."""
    text = path.read_text(encoding="utf-8")
    reader = reader_of(path, text)
    for number, line in reader(text) if reader else ():
        for pattern, phrase in ALL:
            found = pattern.search(line)
            if found:
                yield f"{path.relative_to(TOP)}:{number}: `{found[0]}`; better: {phrase.better}"


def is_asked(path: Path, crates: list[str]) -> bool:
    """Whether a file is to be looked at: any, or that of one of these crates."""
    return not crates or path.relative_to(TOP).parts[:1] == ("crates",) and path.relative_to(TOP).parts[1] in crates


def add_options(parser: argparse.ArgumentParser) -> None:
    """The options of this check."""
    parser.add_argument("crates", metavar="CRATE", nargs="*", help="look at these crates alone")


def check(given: argparse.Namespace) -> str:
    """All files by all phrases."""
    looked_at = [path for path in paths(DOCUMENTS + OTHERS + IN_CRATES + TOOLS) if is_asked(path, given.crates)]
    found = [fault for path in looked_at for fault in faults(path)]
    if found:
        raise Failed("\n".join(["phrases with better words", *found]))
    return f"{len(looked_at)} files have none of {len(PHRASES)} phrases"
