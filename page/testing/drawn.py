"""The page's pictures against those of tools/entry-history and tools/run-picture, of the same replies."""

import re
import subprocess
import tempfile
import xml.etree.ElementTree as ET
from collections import Counter
from collections.abc import Callable
from typing import Any

from common import Bad
from crates import TOP
from opened import Opened
from replies import replies_of

TOOLS = TOP / "tools"
# Examples and entries whose histories have each kind of mark, several processors, and several tables.
HISTORIES = (
    ("sharing.trace", 0x20),
    ("clear.trace", 0x20),
    ("protect.trace", 0x20),
    ("resize.trace", 0x20),
    ("resize.trace", 0x21),
    ("masks.trace", 0x20),
    ("cache.trace", 0x20),
    ("bulk-remove.trace", 0x20),
)
MAPS = ("sharing.trace", "resize.trace", "entries.trace", "linux-boot.trace")
MOST_COLUMNS = 1_000  # that the tool draws
CELL = 14
HEAT = ("#eaeef2", "#cde2f5", "#a3c9ea", "#73abdb", "#4389c8", "#1f68ae", "#0a4a8c", "#032a57")
GEOMETRY = {
    "polygon": ("points",),
    "circle": ("cx", "cy", "r"),
    "path": ("d",),
    "line": ("x1", "y1", "x2", "y2"),
    "rect": ("x", "y", "width", "height"),
    "text": ("x", "y"),
}
COLOURED = ("polygon", "line")  # and circles, but for hollow ones

Shape = tuple[str, ...]
Drawn = Counter[Shape]


def number(word: str) -> str:
    """A number as one text, however it was written."""
    return re.sub(r"\.0(?![0-9])", "", word)


def shape_of(tag: str, given: dict[str, str], words: str) -> Shape:
    """What a shape shows: its points, its colour where it has one of its own, and its words."""
    places = [number(given.get(name, "")) for name in GEOMETRY[tag]]
    colour = given.get("fill" if tag == "polygon" else "stroke", "") if tag in COLOURED else ""
    if tag == "circle":
        colour = given.get("stroke", given.get("fill", ""))
    if tag == "line" and "stroke-dasharray" not in given:
        colour = ""
    return (tag, *places, colour, words)


def by_tool(tool: str, words: list[str], replies: str) -> ET.Element:
    """The picture that a tool draws."""
    with tempfile.NamedTemporaryFile("w", suffix=".replies", encoding="ascii") as file:
        file.write(replies)
        file.flush()
        command = [str(TOOLS / tool), *words, file.name]
        ran = subprocess.run(command, capture_output=True, text=True, check=True)
    return ET.fromstring(ran.stdout)


def shapes_of_tool(root: ET.Element) -> Drawn:
    """The shapes of a tool's picture, without its paper and its title."""
    found: Drawn = Counter()
    for element in list(root)[2:]:
        tag = element.tag.rpartition("}")[2]
        if element.get("class") != "title":
            words = (element.text or "").strip() if tag == "text" else ""
            found[shape_of(tag, dict(element.attrib), words)] += 1
    return found


def shapes_of_page(opened: Opened, ident: str) -> Drawn:
    """The shapes of a picture of the page."""
    script = (
        f"[...document.querySelectorAll('#{ident} svg *')]"
        ".filter((it) => !['title', 'g'].includes(it.tagName))"
        ".map((it) => [it.tagName, Object.fromEntries([...it.attributes].map((a) => [a.name, a.value])),"
        " it.tagName === 'text' ? it.textContent : ''])"
    )
    shapes: list[tuple[str, dict[str, str], str]] = opened.value(script)
    return Counter(shape_of(tag, given, words) for tag, given, words in shapes)


def agree(one: Drawn, other: Drawn, words: str) -> None:
    """The same shapes, as often."""
    if one != other:
        ours, theirs = (list(it.items())[:4] for it in (one - other, other - one))
        raise Bad(f"{words}: the page alone has {ours}, the tool {theirs}")


def choose_entry(opened: Opened, entry: int) -> None:
    """Writes an entry into the history's field."""
    opened.put("entry", f"{entry:#x}", "change")


def histories(opened: Opened) -> None:
    """Each history has the points, the colours and the words of the tool's."""
    for name, entry in HISTORIES:
        opened.example(name)
        choose_entry(opened, entry)
        tool = by_tool("entry-history", [f"{entry:#x}"], opened.written())
        agree(shapes_of_page(opened, "history"), shapes_of_tool(tool), f"{name} {entry:#x}")


def long_history(opened: Opened) -> None:
    """The busiest entry of a boot that the tool draws, in several bands; and its changes alone."""
    opened.example("linux-boot.trace")
    replies = opened.written()
    counts = Counter(r.entry for reply, _ in replies_of(replies.splitlines()) for r in reply.of_table)
    busiest = sorted(counts, key=lambda it: (-counts[it], it))
    if int(opened.value("document.getElementById('entry').value"), 16) != busiest[0]:
        raise Bad("the page doesn't open with the busiest entry")
    entry = next(it for it in busiest if counts[it] <= MOST_COLUMNS)
    choose_entry(opened, entry)
    tool = by_tool("entry-history", [f"{entry:#x}"], replies)
    agree(shapes_of_page(opened, "history"), shapes_of_tool(tool), "all")
    opened.press("changes")
    tool = by_tool("entry-history", [f"{entry:#x}", "--changes"], replies)
    agree(shapes_of_page(opened, "history"), shapes_of_tool(tool), "changes")
    opened.press("changes")


# ---- the map


def cells_of(paths: list[tuple[int, str]]) -> dict[tuple[int, int], int]:
    """The colour of each cell by its column and row."""
    corners = [(level, int(x), int(y)) for level, path in paths for x, y in re.findall(r"M(\d+),(\d+)", path)]
    left, top = min(x for _, x, _ in corners), min(y for _, _, y in corners)
    return {((x - left) // CELL, (y - top) // CELL): level for level, x, y in corners}


def map_of_page(opened: Opened) -> dict[tuple[int, int], int]:
    """The cells that the page draws."""
    read = "(it) => [it.getAttribute('class'), it.getAttribute('d')]"
    script = f"[...document.querySelectorAll('#map path')].map({read})"
    paths: list[tuple[str, str]] = opened.value(script)
    return cells_of([(int(kind.removeprefix("heat-")), path) for kind, path in paths])


def map_of_tool(root: ET.Element) -> dict[tuple[int, int], int]:
    """The cells that the tool draws."""
    paths = [(it.get("fill", ""), it.get("d", "")) for it in root if it.tag.endswith("path")]
    cells = [(fill, path) for fill, path in paths if fill in HEAT and "h13v13h-13z" in path]
    return cells_of([(HEAT.index(fill), path) for fill, path in cells])


def scale_of_tool(root: ET.Element) -> list[str]:
    """The words beside the colours of the tool's scale."""
    boxes = [it for it in root if it.tag.endswith("rect")]
    found = [it for it in boxes if (it.get("width"), it.get("height")) == ("14", "12")]
    heights = {it.get("y") for it in found}
    if len(heights) != 1:
        raise Bad("the tool's picture has no scale")
    place = int(heights.pop() or 0) + 10
    texts = [it for it in root if it.tag.endswith("text") and it.get("y") == str(place)]
    return [it.text or "" for it in texts if float(it.get("x", "0")) > 190]


def maps(opened: Opened) -> None:
    """Each map has the cells, the colours and the scale of the tool's."""
    for name in MAPS:
        opened.example(name)
        root = by_tool("run-picture", [], opened.written())
        one, other = map_of_page(opened), map_of_tool(root)
        if one != other:
            differ = [(it, one.get(it), other[it]) for it in other if one.get(it) != other[it]]
            raise Bad(f"{name}: {differ[:5]}")
        scale = opened.texts("#scale span")
        if scale[:-1] != scale_of_tool(root):
            raise Bad(f"{name}: the scale is {scale[:-1]}, the tool's {scale_of_tool(root)}")


def slider(opened: Opened) -> None:
    """At each line the map names the busiest groups of the replies up to there."""
    opened.example("linux-boot.trace")
    replies = opened.written().splitlines()
    for line in (4, 1_000, 40_000, 92_582):
        opened.put("time", str(line))
        counts: Counter[int] = Counter()
        for reply, _ in replies_of(replies):
            if reply.line <= line:
                counts.update(r.entry // 8 for r in reply.of_table)
        busiest = sorted(counts.items(), key=lambda it: (-it[1], it[0]))[:5]
        wanted = ", ".join(f"{8 * group:#x} ({count:,})" for group, count in busiest)
        found = opened.text("busiest").partition(": ")[2]
        if found != wanted:
            raise Bad(f"line {line}: {found} in place of {wanted}")


TESTS: list[tuple[str, Callable[[Opened], Any]]] = [
    ("histories have the tool's points", histories),
    ("a long history has the tool's points", long_history),
    ("maps have the tool's cells", maps),
    ("the slider counts up to its line", slider),
]
