"""The names that the sources declare, file by file, and the paths that git has."""

import re
from dataclasses import dataclass
from functools import cache, cached_property
from pathlib import Path
from typing import Iterator

from checks.rattle import read_functions, read_variants
from checks.tree import tracked
from crates import lines_of

# What declares a name, by the endings of the files in which it does.
RATTLE = (
    r"\b(?:fn|struct|enum|trait|type|const|static|mod|macro_rules!) (\w+)",
    r"^\s+(?:pub(?:\([\w ]+\))? )?(?:ghost )?(\w+): ",
    r"^    ([A-Z]\w*)(?:[({,].*)?$",
    r"^\s+(?:requires|ensures|law|invariant) (\w+) \{",
)
LOGIC = (
    r"^(?:(?:abbrev|unfoldable|irreducible|pub|record|data|module)\s+)+([^\s:({]+)",
    r"^ +(?:pub )?(\w+) : ",
    r"^([A-Za-z_][\w'-]*)(?: [({].*)? :",
)
FUNCTION = r"^(?:static )?(?:inline )?(?:const )?(?:struct )?\w+ \*?(\w+)\("
C = (r"\b(?:struct|enum) (\w+)", r"^#define (\w+)", FUNCTION)
HEADER = (*C, r"^    (PAPR_\w+) = ", r"\b(\w+)(?:\[\d+\])?[;,)]")
PYTHON = (r"^\s*(?:def|class) (\w+)", r"^(?:    )?([A-Z]\w+)(?:: [^=\n]+)? = ", r"^    (\w+): ")
BASH = (r"^(\w+)\(\) \{",)
DECLARED = {
    ".rt": RATTLE,
    ".rs": RATTLE,
    ".antt": LOGIC,
    ".h": HEADER,
    ".c": C,
    ".py": PYTHON,
    ".bash": BASH,
}
# A word that the program reads or writes, and a variable of the environment.
LITERALS = {
    ".rt": re.compile(r'"(\w+)"'),
    ".rs": re.compile(r'"(PAPR_[A-Z_]+)"'),
    ".py": re.compile(r'"(PAPR_[A-Z_]+)"'),
}
REMARK = re.compile(r"/\*.*?\*/", re.DOTALL)


def names_in(ending: str, text: str) -> frozenset[str]:
    """The names that a file with this ending declares."""
    bare = REMARK.sub("", text) if ending in (".h", ".c") else text
    patterns = DECLARED.get(ending, ())
    return frozenset(name for it in patterns for name in re.findall(it, bare, re.MULTILINE))


def ending_of(path: Path, text: str) -> str:
    """A file's ending; that of Python's files where its first line says so."""
    return ".py" if re.match(r"#!.*\bpython3", text) else path.suffix


@dataclass(frozen=True, eq=False)
class Declared:
    """What a tree has: paths, the names that each file declares, the program's words, and what types have."""

    paths: frozenset[str]
    of_file: dict[str, frozenset[str]]
    literals: frozenset[str]
    members: frozenset[tuple[str, str]]
    crates: frozenset[str]

    @cached_property
    def names(self) -> frozenset[str]:
        """All names of the tree: what is declared, the words, and files with and without their endings."""
        files = {Path(path).name for path in self.paths} | {Path(path).stem for path in self.paths}
        return frozenset().union(*self.of_file.values(), self.literals, files, self.crates)

    @cached_property
    def endings(self) -> frozenset[str]:
        """Each path, and what it ends with from each of its folders on."""
        parts = [path.split("/") for path in self.paths]
        return frozenset("/".join(it[at:]) for it in parts for at in range(len(it)))

    def has_path(self, path: str) -> bool:
        """Whether a file or folder has this path, or one that ends so."""
        return path.rstrip("/") in self.endings

    @cache
    def files(self, path: str) -> list[str]:
        """The files with names of a path below crates/: it itself, or those of a folder."""
        whole = f"crates/{path.rstrip('/')}"
        return [it for it in self.of_file if it == whole or it.startswith(f"{whole}/")]

    @cache
    def names_of(self, path: str) -> frozenset[str]:
        """The names of a file or folder below crates/, and its modules."""
        files = self.files(path)
        return frozenset(Path(it).stem for it in files).union(*(self.of_file[it] for it in files))

    def leads(self, first: str, second: str) -> bool:
        """Whether a crate declares the second name, or a type has it."""
        return (first, second) in self.members or first in self.crates and second in self.names_of(first)


def with_folders(names: list[str]) -> frozenset[str]:
    """These paths, and the folders in which they are."""
    return frozenset(names) | {str(folder) for name in names for folder in Path(name).parents}


def members_of(root: Path) -> Iterator[tuple[str, str]]:
    """Types and traits with each of their functions and variants."""
    for one in read_functions(root):
        if one.owner:
            yield one.owner.name, one.name
    for name, variants in read_variants(root).items():
        yield from ((name, variant) for variant in variants)


def crates_of(root: Path) -> Iterator[str]:
    """The crates, and those of the toolchain that they use."""
    for name, line in lines_of(root / "crates.txt").items():
        yield from (name, *line.partition(":")[2].split())


def read_declared(root: Path) -> Declared:
    """What the tree at a root has."""
    paths = tracked()
    of_file: dict[str, frozenset[str]] = {}
    literals: set[str] = set()
    for name in paths:
        path = root / name
        if path.suffix in DECLARED or not path.suffix:
            text = path.read_text(encoding="utf-8", errors="replace")
            ending = ending_of(path, text)
            of_file[name] = names_in(ending, text)
            literals.update(LITERALS[ending].findall(text) if ending in LITERALS else ())
    members = frozenset(members_of(root))
    return Declared(with_folders(paths), of_file, frozenset(literals), members, frozenset(crates_of(root)))
