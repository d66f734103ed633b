"""Programs for other processors: how they are compiled, and run by qemu."""

import unittest
from dataclasses import dataclass
from pathlib import Path
from typing import Optional

from .support import TOP, Test, missing, write_script


@dataclass(frozen=True)
class Emulated:
    """A processor that qemu has."""

    name: str
    tools: str  # the prefix of the cross compiler
    debian: str
    told: str  # how `readelf -h` names it

    @property
    def built(self) -> Path:
        """The folder of what is built for it."""
        return TOP / "out" / self.name

    @property
    def compiler(self) -> str:
        """The cross compiler."""
        return f"{self.tools}-gcc"

    @property
    def unready(self) -> str:
        """Which of the commands that the tests need isn't installed, or nothing."""
        found = missing(self.compiler, f"qemu-{self.name}")
        return f"{' and '.join(found)} is not installed" if found else ""

    @property
    def lacking(self) -> str:
        """Why nothing can be tested of it here, or nothing."""
        place, command = self.built / "papr", f"make {self.name}"
        built = "" if place.is_file() else f"nothing is built for {self.name}: {place} is missing ({command})"
        return self.unready or built

    def __str__(self) -> str:
        return self.name

    def needed(self, test: Test) -> Test:
        """Skips a test, or the tests of a class, where nothing is built for it or it can't be run."""
        return unittest.skipIf(self.lacking, self.lacking)(test)

    def emulated(self, program: Path, folder: Path, libraries: Optional[Path] = None) -> Path:
        """A script that runs a program for it, which finds its libraries in a folder."""
        words = f"-L '/usr/{self.tools}' -E LD_LIBRARY_PATH='{libraries or self.built}' '{program}'"
        text = f'#!/bin/sh\nexec qemu-{self.name} {words} "$@"\n'
        return write_script(folder / f"run-{self.name}-{program.name}", text)


AARCH64 = Emulated("aarch64", "aarch64-linux-gnu", "arm64", "AArch64")
PPC64LE = Emulated("ppc64le", "powerpc64le-linux-gnu", "ppc64el", "PowerPC64")
RISCV64 = Emulated("riscv64", "riscv64-linux-gnu", "riscv64", "RISC-V")
EMULATED = (AARCH64, PPC64LE, RISCV64)
