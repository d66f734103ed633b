"""Pictures as SVG: elements on a sheet, texts, and marks that tell apart without colour."""

import re
import xml.etree.ElementTree as ET
from typing import TextIO

WIDEST = 1_600  # pixels
# Characters that XML has no way to write.
UNWRITABLE = re.compile(r"[^\t\n\r\x20-\ud7ff\ue000-\ufffd\U00010000-\U0010ffff]")

# Colours that stay apart for the colour-blind (Okabe and Ito's).
GREEN, RED, BLUE, ORANGE, VIOLET, SKY = (
    "#009e73",
    "#d55e00",
    "#0072b2",
    "#e69f00",
    "#cc79a7",
    "#56b4e9",
)
INK, DIM, GREY, LIGHT, PALE = "#24292f", "#57606a", "#8c959f", "#d8dee4", "#f6f8fa"

STYLE = (
    f"text{{font:11px sans-serif;fill:{INK}}}.name{{font-size:12px}}.title{{font-size:16px;"
    f"font-weight:bold}}.head{{font-size:12px;font-weight:bold}}.mark{{fill:{RED};"
    f"font-weight:bold}}.small{{font-size:10px;fill:{DIM}}}.num{{font-family:monospace}}"
)


class Sheet:
    """An SVG element tree of a fixed width; its height is told when all is drawn."""

    def __init__(self, width: int) -> None:
        self.width = width
        self.root = ET.Element("svg", xmlns="http://www.w3.org/2000/svg")
        ET.SubElement(self.root, "style").text = STYLE
        self.paper = self.box(0, 0, width, 0, "#ffffff")

    def add(self, tag: str, text: str = "", /, **attributes: object) -> ET.Element:
        """A new element; underscores in names stand for hyphens."""
        named = {k.rstrip("_").replace("_", "-"): str(v) for k, v in attributes.items()}
        element = ET.SubElement(self.root, tag, named)
        element.text = writable(text) or None
        return element

    def text(self, words: str, x: float, y: float, kind: str = "", **more: object) -> None:
        """Words with their foot at y, of a kind that the sheet's style names."""
        more |= {"class_": kind} if kind else {}
        self.add("text", words, x=x, y=y, **more)

    def box(self, x: float, y: float, width: float, height: float, fill: str) -> ET.Element:
        """A filled rectangle."""
        return self.add("rect", x=x, y=y, width=width, height=height, fill=fill)

    def line(self, x1: float, y1: float, x2: float, y2: float, stroke: str, **more: object) -> None:
        """A straight line."""
        self.add("line", x1=x1, y1=y1, x2=x2, y2=y2, stroke=stroke, **more)

    def write(self, height: int, out: TextIO) -> None:
        """Writes the picture, cut at this height."""
        self.paper.set("height", str(height))
        self.root.set("width", str(self.width))
        self.root.set("height", str(height))
        self.root.set("viewBox", f"0 0 {self.width} {height}")
        ET.indent(self.root)
        ET.ElementTree(self.root).write(out, encoding="unicode")
        out.write("\n")


def writable(words: str) -> str:
    """Words in which a character that XML can't write stands as its escape in Python."""
    return UNWRITABLE.sub(lambda found: found[0].encode("unicode_escape").decode("ascii"), words)


def counted(count: int, word: str) -> str:
    """A count with its word, of which there may be one."""
    return f"{count:,} {word}" if count == 1 else f"{count:,} {word}s"


def tooltip(element: ET.Element, words: str) -> None:
    """Words that a browser shows where the pointer rests on the element."""
    ET.SubElement(element, "title").text = writable(words)
