"""The definitions in the specs/ of all crates as their files have them, and what a text cites of them."""

import re
from dataclasses import dataclass, field
from pathlib import Path
from typing import Iterator, Optional

# A name: letters, digits, `_` and `'`, and parts behind a hyphen.
NAME = re.compile(r"[A-Za-z_ℕ][\w']*(?:-[\w'*+]+)*")
HEAD = re.compile(r"^(?:(?:abbrev|unfoldable|irreducible|pub|record|data)\s+)+([^\s:({]+)")
USE = re.compile(r"\s*(ghost )?use ")
IMPORT = re.compile(r"^\s*(?:ghost )?use (Rattle\.[\w.]+?)(?:\.\{([^}]*)\})?(?: as (\w+))?;?\s*$")
CONSTRUCTOR = re.compile(r"^ +([A-Za-z]\w*) :")
FIELD = re.compile(r"^ +pub (\w+) :")

UsePath = tuple[str, ...]  # of a `use`: crate, `specs`, module and name


@dataclass
class Definition:
    """A definition: where it is, its name, what it is, and its lines without sentences and blanks."""

    crate: str
    module: str
    name: str
    kind: str
    lines: list[str] = field(default_factory=list)

    @property
    def key(self) -> tuple[str, str, str]:
        """What tells it from all others."""
        return self.crate, self.module, self.name

    @property
    def is_type(self) -> bool:
        """Whether it is a type that has fields or constructors."""
        return self.kind in ("record", "data")

    @property
    def fields(self) -> dict[str, str]:
        """The public fields of a record, each with the line that it begins on."""
        found = {}
        for line in self.lines:
            head = FIELD.match(line)
            if head:
                found[head.group(1)] = line
        return found


@dataclass
class Imports:
    """What a file's `use` lines bring: names, and modules under a name."""

    names: dict[str, UsePath] = field(default_factory=dict)
    modules: dict[str, UsePath] = field(default_factory=dict)


@dataclass
class Module:
    """A file of definitions."""

    crate: str
    name: str
    imports: Imports
    definitions: dict[str, Definition] = field(default_factory=dict)
    constructors: dict[str, Definition] = field(default_factory=dict)

    def find(self, name: str) -> Optional[Definition]:
        """The definition of this name, or the type that has a constructor of it."""
        return self.definitions.get(name) or self.constructors.get(name)


def without_remark(line: str) -> str:
    """The line without a remark at its end."""
    at = 0 if line.startswith("--") else line.find(" --")
    return line if at < 0 else line[:at].rstrip()


def imports_of(text: str) -> Imports:
    """The imports of a file of definitions or of Rattle."""
    imports = Imports()
    for line in text.split("\n"):
        found = IMPORT.match(line)
        if not found:
            continue
        path, items, alias = found.groups()
        parts = tuple(path.split(".")[1:])
        if items is None:
            imports.modules[alias or parts[-1]] = parts
            continue
        for item in filter(None, map(str.strip, items.split(","))):
            name, _, other = item.partition(" as ")
            imports.names[other.strip() or name.strip()] = (*parts, name.strip())
    return imports


def module_of(path: Path, crate: str, name: str) -> Module:
    """The definitions of a file."""
    text = path.read_text(encoding="utf-8")
    module = Module(crate, name, imports_of(text))
    current: Optional[Definition] = None
    for whole in text.split("\n"):
        line = without_remark(whole.rstrip())
        if not line or USE.match(line) or line.startswith("pub mod "):
            continue
        head = HEAD.match(line)
        if head:
            kind = re.sub(r"\bpub\b", "", line[: head.start(1)]).strip()
            current = Definition(crate, name, head.group(1), kind)
            module.definitions[current.name] = current
        if current is None:
            continue
        current.lines.append(line)
        constructor = CONSTRUCTOR.match(line)
        if current.kind == "data" and constructor:
            module.constructors[constructor.group(1)] = current
    return module


@dataclass(frozen=True)
class Specs:
    """All modules of definitions, by crate and name."""

    modules: dict[tuple[str, str], Module]

    def of_crate(self, crate: str) -> Iterator[Definition]:
        """The definitions of a crate."""
        for module in self.modules.values():
            if module.crate == crate:
                yield from module.definitions.values()

    def at(self, path: UsePath) -> Optional[Definition]:
        """The definition that a path of a `use` names, if it is one of these."""
        if len(path) != 4 or path[1] != "specs":
            return None
        module = self.modules.get((path[0], path[2]))
        return module.find(path[3]) if module else None

    def meant(
        self, name: str, before: str, imports: Imports, home: Optional[Module]
    ) -> Optional[Definition]:
        """The definition that a name means behind this text, in the module `home` or outside of all."""
        if before.endswith("."):
            head = re.search(r"([A-Za-z_]\w*)\.$", before)
            module = imports.modules.get(head.group(1)) if head else None
            return self.at((*module, name)) if module else None
        own = home.find(name) if home else None
        if own or name not in imports.names:
            return own
        return self.at(imports.names[name])

    def cited(self, text: str, imports: Imports, home: Optional[Module]) -> Iterator[Definition]:
        """The definitions that a text cites."""
        text = re.sub(r'"[^"]*"', '""', text)
        for path in re.findall(r"Rattle\.([\w.]+)", text):
            found = self.at(tuple(path.split(".")))
            if found:
                yield found
        for word in NAME.finditer(text):
            found = self.meant(word.group(0), text[: word.start()], imports, home)
            if found:
                yield found


def read_specs(root: Path) -> Specs:
    """The definitions of all crates below a root's crates/."""
    modules = {}
    for top in sorted(root.glob("crates/*/specs")):
        for path in sorted(top.rglob("*.antt")):
            if path.name != "Lib.antt":
                crate, name = top.parent.name, ".".join(path.relative_to(top).with_suffix("").parts)
                modules[crate, name] = module_of(path, crate, name)
    return Specs(modules)
