"""The note that a tree passed the gate: `tools/gate` writes it, and a release reads it.

The note names the tree as git does, the kit of the toolchain and what `rt ci` said last; and it has a checksum of
each crate and of each file that was built. A release of anything else is refused.
"""

import hashlib
import json
import subprocess
from dataclasses import asdict, dataclass
from pathlib import Path

from built import NATIVE, of_machine
from common import Bad
from crates import CRATES, TOP, files_of, lines_of
from machines import OTHERS

NOTE = TOP / "out" / "gate.passed"
AGAIN = "run tools/gate"
SHOWN = 3  # names of files in a message


@dataclass(frozen=True)
class Passed:
    """What passed, and by what."""

    kit: str
    tree: str
    said: str  # the last line of `rt ci`
    crates: dict[str, str]
    built: dict[str, str]


def git(*words: str) -> str:
    """What git says of this checkout."""
    ran = subprocess.run(["git", "-C", str(TOP), *words], capture_output=True, text=True, check=False)
    if ran.returncode:
        raise Bad("this is no checkout of git with a commit, and a release is made of one")
    return ran.stdout.strip()


def clean_tree() -> str:
    """The name that git has for the tree, which has to be the committed one."""
    tree = git("rev-parse", "HEAD^{tree}")
    names = [line.split(maxsplit=1)[1] for line in git("status", "--porcelain").splitlines()]
    if names:
        more = ", .." if len(names) > SHOWN else ""
        raise Bad(f"the tree isn't the committed one: {', '.join(names[:SHOWN])}{more}")
    return tree


def sum_of(path: Path) -> str:
    """The SHA-256 of a file."""
    return hashlib.sha256(path.read_bytes()).hexdigest()


def sum_of_crate(name: str) -> str:
    """The SHA-256 of the list that sha256sum writes of a crate's files, in the order of their names' bytes."""
    found = sorted((path.relative_to(CRATES / name).as_posix(), path) for path in files_of(name))
    listed = "".join(f"{sum_of(path)}  {relative}\n" for relative, path in found)
    return hashlib.sha256(listed.encode()).hexdigest()


def built_here() -> dict[str, str]:
    """The checksum of each file that is built here. Those for another processor may be left out, all of them."""
    if NATIVE.lacking:
        raise Bad(f"{NATIVE.lacking[0].relative_to(TOP)} isn't built; {AGAIN}")
    others = [path for it in map(of_machine, OTHERS.values()) if not it.lacking for path in it.files]
    return {path.relative_to(TOP).as_posix(): sum_of(path) for path in (*NATIVE.files, *others)}


def passed_here(kit: str, said: str) -> Passed:
    """The note for the tree as it is."""
    crates = {name: sum_of_crate(name) for name in sorted(lines_of(TOP / "crates.txt"))}
    return Passed(kit, clean_tree(), said, crates, built_here())


def write(passed: Passed) -> None:
    """Leaves the note."""
    NOTE.parent.mkdir(exist_ok=True)
    NOTE.write_text(f"{json.dumps(asdict(passed), indent=1)}\n", encoding="utf-8")


def of_this_tree() -> Passed:
    """The note that is here, if it is of this tree and of what is built here."""
    tree = clean_tree()
    if not NOTE.is_file():
        raise Bad(f"no gate has passed here, and a release is of a tree whose gate did; {AGAIN}")
    found = Passed(**json.loads(NOTE.read_text(encoding="utf-8")))
    if found.tree != tree:
        raise Bad(f"the gate that passed here was of another tree, {found.tree[:12]} and not {tree[:12]}; {AGAIN}")
    here = built_here()
    for name, total in found.built.items():
        if here.get(name) != total:
            raise Bad(f"{name} isn't the one that the gate tested; {AGAIN}")
    return found
