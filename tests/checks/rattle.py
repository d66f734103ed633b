"""The functions of all crates, by their sources in rt fmt's layout: signatures, clauses, what is public."""

import re
from dataclasses import dataclass, field
from pathlib import Path
from typing import Iterator, Optional

FUNCTION = re.compile(r'^( {0,4})(pub )?(?:const )?(?:extern "C" )?fn (\w+)')
OWNER = re.compile(r"^(?:pub )?(?:impl|trait)\b")
CLAUSE = re.compile(r"^\s+(requires|ensures)(?: (\w+))? \{")
EXPORT = re.compile(r"^pub use ([\w:]+)::(?:\{([^}]*)\}|(\w+));", re.M | re.S)
ENUM = re.compile(r"^pub enum (\w+) \{\n(.*?)^\}", re.M | re.S)
VARIANT = re.compile(r"^    ([A-Z]\w*)", re.M)
SIGNATURE, CLAUSES, BODY = "signature", "clauses", "body"


def without_generics(text: str) -> str:
    """The text without what stands between angle brackets."""
    out, depth = "", 0
    for before, letter in zip(" " + text, text):
        if letter == ">" and before != "-":
            depth -= 1
        elif letter == "<":
            depth += 1
        elif depth == 0:
            out += letter
    return out


def closing(text: str, start: int) -> int:
    """Where the brace is closed that opened before a place."""
    depth = 1
    for at in range(start, len(text)):
        depth += {"{": 1, "}": -1}.get(text[at], 0)
        if depth == 0:
            return at
    return len(text)


@dataclass(frozen=True)
class Owner:
    """An `impl` or a trait: its header, its type's or trait's name, and the trait that an `impl` meets."""

    header: str
    is_trait: bool
    name: str
    meets: str


def owner_of(header: str) -> Owner:
    """What a header says."""
    bare = without_generics(re.sub(r"^(pub )?(impl|trait)\b", "", header).rstrip("{ "))
    parts = [part.strip() for part in bare.split(" for ")]
    name = re.match(r"\w+", parts[-1])
    if name is None:
        raise ValueError(f"a header without a name: {header}")
    is_trait = re.match(r"(pub )?trait\b", header) is not None
    return Owner(header, is_trait, name.group(0), parts[0] if len(parts) == 2 else "")


@dataclass
class Clause:
    """A clause of a contract: its word, its name, and its text up to the function's body."""

    word: str
    label: str
    lines: str

    @property
    def name(self) -> str:
        """What a page calls it."""
        return self.label or self.word

    @property
    def text(self) -> str:
        """What stands between its braces."""
        start = self.lines.index("{") + 1
        return self.lines[start : closing(self.lines, start)]


@dataclass
class Function:
    """A function: where it is, the type or trait that has it, its name, its signature, clauses and body."""

    crate: str
    file: str
    owner: Optional[Owner]
    name: str
    is_pub: bool
    is_exported: bool = False
    signature: str = ""
    body: str = ""
    clauses: list[Clause] = field(default_factory=list)

    @property
    def path(self) -> str:
        """Its name behind that of its type or trait."""
        return f"{self.owner.name}::{self.name}" if self.owner else self.name

    @property
    def full_path(self) -> str:
        """Its path behind its crate."""
        return f"{self.crate}::{self.path}"

    @property
    def bounds(self) -> str:
        """Its signature behind that of the `impl` that it stands in."""
        return f"{self.owner.header if self.owner else ''} {self.signature}"


class FileReader:
    """Reads the functions of a file, line by line."""

    def __init__(self, crate: str, file: str) -> None:
        self.crate, self.file = crate, file
        self.functions: list[Function] = []
        self.owner: Optional[Owner] = None
        self.header = ""
        self.current: Optional[Function] = None
        self.part = ""

    def read(self, text: str) -> list[Function]:
        """The functions of a text."""
        for line in text.split("\n"):
            if re.match(r"\s*//", line):
                continue
            if self.header or OWNER.match(line):
                self.read_header(line)
            else:
                self.read_line(line)
        return self.functions

    def read_header(self, line: str) -> None:
        """A line of the head of an `impl` or a trait."""
        self.header += " " + line.strip()
        if line.endswith("{"):
            self.owner = owner_of(self.header.strip())
        if line.endswith(("{", "}")):
            self.header = ""

    def read_line(self, line: str) -> None:
        """A line outside of such heads."""
        if line == "}":
            self.owner = None
        head = FUNCTION.match(line)
        if head and (not head.group(1) or self.owner):
            owner = self.owner if head.group(1) else None
            self.current = Function(self.crate, self.file, owner, head.group(3), bool(head.group(2)))
            self.functions.append(self.current)
            self.part = SIGNATURE
        if self.current and self.part == BODY:
            self.read_body(self.current, line)
        elif self.current:
            self.read_contract(self.current, line)

    def read_body(self, function: Function, line: str) -> None:
        """A line of a body."""
        if line == ("    }" if function.owner else "}"):
            self.current = None
        else:
            function.body += line + "\n"

    def read_contract(self, function: Function, line: str) -> None:
        """A line of the signature or the clauses. A trait's function may end here, as may an empty one."""
        clause = CLAUSE.match(line)
        if clause:
            function.clauses.append(Clause(clause.group(1), clause.group(2) or "", line + "\n"))
            self.part = CLAUSES
        elif self.part == SIGNATURE:
            function.signature += " " + line.strip()
        else:
            function.clauses[-1].lines += line + "\n"
        ends = line.endswith(";") and self.owner and self.owner.is_trait
        if ends or self.part == SIGNATURE and line.endswith("{}"):
            self.current = None
        elif line.strip() == "{" or self.part == SIGNATURE and line.endswith("{"):
            self.part = BODY


def exported(crate: Path) -> set[str]:
    """The names that a crate's root exports of its modules."""
    path = crate / "src" / "lib.rt"
    if not path.exists():
        return {"main"}
    names = set()
    for _, several, one in EXPORT.findall(path.read_text(encoding="utf-8")):
        names |= {name.strip() for name in several.split(",") if name.strip()} if several else {one}
    return names


def is_exported(function: Function, names: set[str]) -> bool:
    """Whether a function is reached from outside of its crate by the exported names."""
    owner = function.owner
    if owner:
        return (function.is_pub or owner.is_trait or bool(owner.meets)) and owner.name in names
    return function.name in names and (function.is_pub or function.name == "main")


def sources(crate: Path) -> Iterator[Path]:
    """A crate's files in src/, but for tests'."""
    top = crate / "src"
    for path in sorted(top.rglob("*.rt")):
        if re.split(r"\W", str(path.relative_to(top)))[0] != "tests":
            yield path


def read_functions(root: Path) -> list[Function]:
    """All functions of all crates but for tests': a trait's methods with the trait and with each type."""
    functions = []
    for crate in sorted((root / "crates").iterdir()):
        names = exported(crate)
        for path in sources(crate):
            inside = str(path.relative_to(crate / "src"))
            for one in FileReader(crate.name, inside).read(path.read_text(encoding="utf-8")):
                one.is_exported = is_exported(one, names)
                functions.append(one)
    return functions


def read_variants(root: Path) -> dict[str, list[str]]:
    """The variants of each public enum, by its name; those of two enums of one name together."""
    enums: dict[str, list[str]] = {}
    for path in sorted(root.glob("crates/*/src/**/*.rt")):
        for name, body in ENUM.findall(path.read_text(encoding="utf-8")):
            enums.setdefault(name, []).extend(VARIANT.findall(body))
    return enums
