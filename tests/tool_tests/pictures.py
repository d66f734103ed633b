"""What the tests of pictures share: receipts as replies write them, and what an SVG shows."""

import re
import xml.etree.ElementTree as ET
from dataclasses import dataclass
from pathlib import Path

from .support import ToolTest

WIDEST = 1_600  # pixels
NAMES = "{http://www.w3.org/2000/svg}"
RECEIPT = re.compile(r" (0x[0-9a-f]+)\.([0-9]+)\.([0-3])\.([a-z]+)")


@dataclass(frozen=True)
class Written:
    """A receipt as a line of replies has it."""

    line: int
    cpu: int
    call: str
    entry: int
    stamp: int
    bits: int
    answer: str

    def tooltip(self) -> str:
        """What a picture says of it."""
        return (
            f"line {self.line}, processor {self.cpu}: {self.call} {self.answer}; before: "
            f"stamp {self.stamp}, R {self.bits // 2}, C {self.bits % 2}"
        )


def written(replies: str) -> list[Written]:
    """The receipts of replies, in their order."""
    found = []
    for reply in replies.splitlines():
        head, _, receipts = reply.partition(" |")
        for entry, stamp, bits, answer in RECEIPT.findall(receipts):
            line, cpu, call = head.split()[:3]
            place = int(line), int(cpu), call, int(entry, 16)
            found.append(Written(*place, int(stamp), int(bits), answer))
    return found


def replies_of(path: Path) -> str:
    """The text of stored replies."""
    return path.read_text(encoding="ascii")


# Characters that a word of a foreign text can have and XML can't write, and how a picture shows them.
STRANGE = "".join(chr(code) for code in range(1, 32) if not chr(code).isspace())
SHOWN = "".join(f"\\x{ord(letter):02x}" for letter in STRANGE)


class PictureTest(ToolTest):
    """A test of a tool that draws."""

    def elements(self, svg: str, name: str) -> list[ET.Element]:
        """The picture's elements of this name; the picture is well-formed."""
        return ET.fromstring(svg).findall(f".//{NAMES}{name}")

    def texts(self, svg: str) -> list[str]:
        """The picture's words."""
        return [element.text or "" for element in self.elements(svg, "text")]

    def assert_receipts(self, svg: str, expected: list[Written]) -> None:
        """The picture has a mark, with its tooltip, for each of the receipts, and for no other."""
        self.assertTrue(expected)
        titles = [element.text for element in self.elements(svg, "title")]
        self.assertCountEqual(set(titles), [receipt.tooltip() for receipt in expected])

    def assert_within_edges(self, svg: str) -> None:
        """The picture is at most so wide, and no element begins past an edge, nor has a corner there."""
        root = ET.fromstring(svg)
        width, height = (int(root.attrib[name]) for name in ("width", "height"))
        self.assertLessEqual(width, WIDEST)
        for element in root.iter():
            x, y = (float(element.get(it) or element.get(f"c{it}") or 0) for it in "xy")
            inside = 0 <= x <= width - 6 and 0 <= y <= height - 4
            self.assertTrue(inside, f"{element.attrib} is outside {width} by {height}")
            for corner in re.findall(r"([-0-9.]+),([-0-9.]+)", element.get("points", "")):
                at = float(corner[0]), float(corner[1])
                self.assertTrue(0 <= at[0] <= width and 0 <= at[1] <= height, f"{at} of {element.attrib}")
