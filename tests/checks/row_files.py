"""The rows of crates/papr_rows/data: the cases that papr_rows and `tests/rows` run."""

import re
import tomllib
from dataclasses import dataclass
from typing import Any, Iterator, Union

from checks.running import Failed
from crates import CRATES

ROWS = CRATES / "papr_rows"
DATA = ROWS / "data"
PIECE = 4096  # of a source or a sink of which a row says nothing
REFUSED, READ_FAULT, WRITE_FAULT = 2, 3, 4  # statuses

FILE_KEYS = {"words", "also", "row"}
CASE_KEYS = {"words", "source", "sink", "status", "input", "output", "line", "reason"}
ROW_KEYS = CASE_KEYS | {"name", "also", "each_fault", "input_front", "cases"}
EDGE_KEYS = {"piece", "fault"}

NUMBER = re.compile(r"\{(0x[0-9a-f]+|[0-9]+)\+([0-9]+)\}")
Table = dict[str, Any]


@dataclass(frozen=True)
class Plain:
    """Bytes as they stand."""

    text: bytes

    def bytes(self) -> bytes:
        """The bytes."""
        return self.text


@dataclass(frozen=True)
class Copies:
    """A text so many times, in which `{8+2}` and `{0x8+2}` stand for numbers that grow by a step."""

    text: str
    times: int

    def bytes(self) -> bytes:
        """The copies, one after the other."""
        parts = NUMBER.split(self.text)

        def one(copy: int) -> Iterator[str]:
            for at in range(0, len(parts), 3):
                yield parts[at]
                if at + 2 < len(parts):
                    number = int(parts[at + 1], 0) + copy * int(parts[at + 2])
                    yield hex(number) if parts[at + 1].startswith("0x") else str(number)

        return "".join("".join(one(copy)) for copy in range(self.times)).encode()


Text = list[Union[Plain, Copies]]


@dataclass(frozen=True)
class Case:
    """Words and an input, and the status and the output that must come of them."""

    words: list[list[str]]  # the words, and others that are answered by the same
    source: tuple[int, int]  # the greatest piece, and the call that fails
    sink: tuple[int, int]
    input: Text
    status: int
    output: Text
    ends: bytes = b""  # the input ends after each of these bytes in turn, which come after the others
    each_fault: bool = False

    def runs(self) -> Iterator["Run"]:
        """The runs of the case."""
        inputs = [self.input + each_byte(self.ends[: end + 1]) for end in range(len(self.ends))]
        for words in self.words:
            for text in inputs or [self.input]:
                yield Run(words, self.source, self.sink, text, self.status, self.output)
            if self.each_fault:
                yield from self.faults(words)

    def faults(self, words: list[str]) -> Iterator["Run"]:
        """A run for each read and each write that fails, and one in which a further call would."""
        (read_piece, _), (write_piece, _) = self.source, self.sink
        output = bytes_of(self.output)
        reads = -(-len(bytes_of(self.input)) // read_piece) + 1  # the last one finds the end
        for call in range(1, reads + 1):
            yield Run(words, (read_piece, call), self.sink, self.input, READ_FAULT, [])
        taken: Text = []
        for at in range(0, len(output), write_piece):
            yield Run(words, self.source, (write_piece, len(taken) + 1), self.input, WRITE_FAULT, taken)
            taken = [*taken, Plain(output[at : at + write_piece])]
        source, sink = (read_piece, reads + 1), (write_piece, len(taken) + 1)
        yield Run(words, source, sink, self.input, self.status, taken)


@dataclass(frozen=True)
class Run:
    """A run of the program, and what must come of it."""

    words: list[str]
    source: tuple[int, int]
    sink: tuple[int, int]
    input: Text
    status: int
    output: Text


@dataclass(frozen=True)
class Row:
    """Cases under one name."""

    name: str
    cases: list[Case]

    def runs(self) -> Iterator[Run]:
        """The runs of its cases."""
        for case in self.cases:
            yield from case.runs()


def bytes_of(text: Text) -> bytes:
    """The bytes of a text."""
    return b"".join(piece.bytes() for piece in text)


def each_byte(text: bytes) -> Text:
    """A text with a piece for each byte."""
    return [Plain(bytes([byte])) for byte in text]


def text_of(said: Union[str, list[Union[str, Table]]]) -> Text:
    """A text, which is said whole or in pieces."""
    text: Text = []
    pieces: list[Union[str, Table]] = [said] if isinstance(said, str) else said
    for piece in pieces:
        if isinstance(piece, str):
            text += [Plain(piece.encode())] if piece else []
        elif "hex" in piece:
            text.append(Plain(bytes.fromhex(piece["hex"])))
        else:
            text.append(Copies(piece["text"], piece["times"]))
    return text


def calls_of(case: Table, row: Table, key: str) -> tuple[int, int]:
    """What a case or its row says of the calls of its source or its sink."""
    edge = case.get(key, row.get(key, {}))
    if edge.keys() - EDGE_KEYS:
        raise Failed(f"{row['name']}: unknown keys of its {key}")
    return edge.get("piece", PIECE), edge.get("fault", 0)


def wanted(row: Table, case: Table, front: Text) -> tuple[int, Text]:
    """The status and the output of a case."""
    said = case if case.keys() & {"output", "line", "reason"} else row
    if ("output" in said) == ("line" in said) or ("line" in said) != ("reason" in said):
        raise Failed(f"{row['name']}: one of an output, and of a line with a reason, is wanted")
    if "output" in said:
        return case.get("status", row.get("status", 0)), front + text_of(said["output"])
    return REFUSED, [Plain(f"papr: line {said['line']}: {said['reason']}\n".encode())]


def words_of(file: Table, row: Table, case: Table) -> list[list[str]]:
    """The words of a case."""
    own: list[str] = next(table["words"] for table in (case, row, file) if "words" in table)
    return [own, *row.get("also", file.get("also", []))]


def cases_of(file: Table, row: Table) -> Iterator[Case]:
    """The cases of a row."""
    if row.keys() - ROW_KEYS:
        raise Failed(f"{row['name']}: unknown keys {row.keys() - ROW_KEYS}")
    input_front, output_front = text_of(row.get("input_front", "")), text_of("")
    for case in row.get("cases", [{}]):
        if case.keys() - CASE_KEYS - {"each_end"}:
            raise Failed(f"{row['name']}: unknown keys {case.keys() - CASE_KEYS}")
        ends = case.get("each_end", "").encode()
        status, output = wanted(row, case, output_front)
        yield Case(
            words_of(file, row, case),
            calls_of(case, row, "source"),
            calls_of(case, row, "sink"),
            input_front + (text_of((case if "input" in case else row)["input"]) if not ends else []),
            status,
            output,
            ends,
            row.get("each_fault", False),
        )
        input_front = input_front + each_byte(ends)
        if ends.endswith(b"\n") and status == 0:
            output_front = output


def rows() -> list[Row]:
    """The rows of all files. Each has a name of its own, and a case."""
    found = []
    for path in sorted(DATA.glob("*.toml")):
        file = tomllib.loads(path.read_text(encoding="utf-8"))
        if file.keys() - FILE_KEYS:
            raise Failed(f"{path.name}: unknown keys {file.keys() - FILE_KEYS}")
        found += [Row(row["name"], list(cases_of(file, row))) for row in file["row"]]
    if len({row.name for row in found}) < len(found) or not all(row.cases for row in found):
        raise Failed("two rows have one name, or one has no cases")
    return found
