"""The Rattle toolchain's compiler and linker: how a crate is proved and built, and a program linked."""

import subprocess
from dataclasses import dataclass
from pathlib import Path
from typing import Iterator

from common import Bad
from crates import CRATES, TOP, archive_of, is_program

LINKED = "x86_64-unknown-linux-gnu"  # what a program is linked for


@dataclass(frozen=True)
class Toolchain:
    """A kit of Rattle, by its folder."""

    kit: Path

    def name(self) -> str:
        """What tells this kit from any other."""
        return (self.kit / "KIT-ID").read_text(encoding="utf-8")

    def proving(self, name: str, line: str, built: Path, jobs: int) -> list[str]:
        """The command that proves a library and builds what the crates above it need of it.

        `line` is the crate's of crates.txt, and `built` holds the crates that it stands on, as the
        command writes them: with what they state, and without their proofs.
        """
        root = CRATES / name / "src" / "lib.rt"
        words = self.reading(name, root, line, built, jobs)
        return [*words, "--statements", "-o", f"{built / name}.rlib"]

    def compiling(self, name: str, line: str, built: Path, jobs: int) -> list[str]:
        """The command that proves a program and compiles it, with all that it reaches."""
        root = CRATES / name / "src" / "main.rt"
        words = self.reading(name, root, line, built, jobs)
        tools = ["--toolchain", f"{self.kit}/toolchain", "--backend", "llvm"]
        return [*words, *tools, "-o", f"{built / name}.o"]

    def archiving(self, name: str, line: str, built: Path, jobs: int) -> list[str]:
        """The command that proves a static library and compiles it, with all that it reaches."""
        root = CRATES / name / "src" / "lib.rt"
        words = self.reading(name, root, line, built, jobs)
        tools = ["--crate-type", "staticlib", "--toolchain", f"{self.kit}/toolchain", "--backend", "llvm"]
        return [*words, *tools, "-o", f"{built / archive_of(name)}"]

    def adding_heap(self, name: str, built: Path) -> list[str]:
        """The command that puts the heap's functions, which call malloc and free, into a static library."""
        return [f"{self.kit}/toolchain/bin/llvm-ar", "qcL", f"{built / archive_of(name)}", f"{self.kit}/c/liblibc_c.a"]

    def checking(self, name: str, line: str, built: Path, written: Path) -> list[str]:
        """The command that proves a crate by one job, writing each module that it checks below `written`."""
        root = CRATES / name / "src" / ("main.rt" if is_program(name) else "lib.rt")
        words = self.reading(name, root, line, built, 1)
        return [words[0], "check", *words[2:], "--incremental", str(written)]

    def linking(self, name: str, built: Path) -> list[str]:
        """The command that links a program that was compiled."""
        words = [f"{self.kit}/bin/rattle-link", "--target", LINKED]
        words += ["--toolchain", f"{self.kit}/toolchain", "-o", f"{built / name}"]
        return [*words, f"{built / name}.o", *(f"{self.kit}/c/{it}_c.a" for it in ("libos", "liblibc"))]

    def reading(self, name: str, root: Path, line: str, built: Path, jobs: int) -> list[str]:
        """What a proof reads: the crate, the libraries on its line, and the logic."""
        words = [f"{self.kit}/bin/rattle", "build", "--crate-name", name, str(root.relative_to(TOP))]
        words += ["--antt-project", f"{self.kit}/rattle/logic/antt-project.json"]
        words += ["--logic-built", f"{self.kit}/logic_built", "--jobs", str(jobs)]
        for rlib in self.libraries(line, built):
            words += ["--extern", f"{rlib.stem}={rlib}"]
        for folder in (self.kit / "rlibs", built):
            words += ["-L", f"dependency={folder}"]
        return words

    def libraries(self, line: str, built: Path) -> Iterator[Path]:
        """Where the libraries on a crate's line are: beside it, or in the kit, with std beside them."""
        for used in ("std", *line.partition(":")[2].split()):
            own = (CRATES / used).is_dir()
            yield (built if own else self.kit / "rlibs") / f"{used}.rlib"


def toolchain() -> Toolchain:
    """The toolchain whose `rt` is on the path: its first page lies at the top of its folder."""
    try:
        ran = subprocess.run(["rt", "doc"], capture_output=True, text=True, check=False)
    except FileNotFoundError as error:
        raise Bad("the Rattle toolchain (rt) isn't on the path; README.md says which kit of it") from error
    told = ran.stdout.split()
    if len(told) != 1 or not Path(told[0]).is_file():
        raise Bad("`rt doc` names no page, so the toolchain can't be found")
    return Toolchain(Path(told[0]).resolve().parent)
