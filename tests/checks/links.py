"""Whether the links of the documents lead somewhere: to a file here, and in it to a heading or a mark."""

import argparse
import re
from pathlib import Path
from typing import Iterator

from checks.running import Failed
from crates import TOP

PAGES = ("*.md", "docs/*.md", "examples/*.md")
LINK = re.compile(r"\]\(([^)\s]+)\)")
HEADING = re.compile(r"^#+ (.*)$", re.MULTILINE)
MARK = re.compile(r'<a id="([\w-]+)"></a>')
FENCED = re.compile(r"^```.*?^```$", re.MULTILINE | re.DOTALL)


def anchor_of(heading: str) -> str:
    """The name that a heading has in links."""
    return re.sub(r"[^\w\- ]", "", heading.lower()).replace(" ", "-")


def anchors(page: Path) -> set[str]:
    """The names in a document to which a link can lead."""
    text = FENCED.sub("", page.read_text(encoding="utf-8"))
    return {anchor_of(heading) for heading in HEADING.findall(text)} | set(MARK.findall(text))


def links(page: Path) -> Iterator[tuple[str, Path, str]]:
    """The links of a document to files here: as they are written, the file, and the name in it."""
    for link in LINK.findall(FENCED.sub("", page.read_text(encoding="utf-8"))):
        if "://" not in link:
            path, _, name = link.partition("#")
            yield link, (page.parent / path).resolve() if path else page, name


def add_options(_parser: argparse.ArgumentParser) -> None:
    """This check has no options."""


def check(_given: argparse.Namespace) -> str:
    """All links of all documents."""
    wrong, count = [], 0
    for page in sorted(path for pattern in PAGES for path in TOP.glob(pattern)):
        for link, file, name in links(page):
            count += 1
            if not file.exists():
                wrong.append(f"{page.relative_to(TOP)}: no file {link}")
            elif name and name not in anchors(file):
                wrong.append(f"{page.relative_to(TOP)}: no heading {link}")
    if wrong:
        raise Failed("\n".join(["links that lead nowhere", *wrong]))
    return f"{count} links of the documents"
