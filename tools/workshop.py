"""What is compiled of proved crates, for this processor and for others, and the modules of LLVM on the way.

The crates below are proved as ./papr proves them, and kept. What is made on the way stays in out/workshop.
"""

import fcntl
import os
import re
import shutil
import subprocess
from dataclasses import dataclass
from pathlib import Path
from typing import Optional

from common import Bad
from crates import CRATES, TOP, files_of, is_program, lines_of, uses_of, with_those_below
from progress import Progress, moving
from proving import BUILT, Builder, processors, prove_all
from schedule import NONE, Plan, efforts_of
from toolchain import Toolchain, toolchain

# The crates of the libraries for C: of the calls, of the table that threads share, and of the program on bytes. And the
# program's, and that of its tests.
CALLS, TABLE, BYTES, PROGRAM = "papr_c", "papr_shared", "papr_bytes", "papr_main"
TESTS = "papr_top_tests"
LOG, WORK = TOP / "out" / "workshop.log", TOP / "out" / "workshop"
TEXT_OF_MODULE = "-S -emit-llvm -x ir -O3 -Xclang -disable-llvm-passes".split()

# A clang that keeps each module of LLVM that it is given, and goes on as the kit's.
KEEPING_CLANG = """#!/bin/sh
cp module.bc '{kept}'
exec '{clang}' "$@"
"""


def run(words: list[str], given: str = "") -> str:
    """Runs a command, and gives what it says; where it fails, that is told."""
    try:
        ran = subprocess.run(words, cwd=TOP, input=given, capture_output=True, text=True, check=False)
    except FileNotFoundError as error:
        raise Bad(f"{words[0]} isn't here") from error
    if ran.returncode:
        raise Bad(f"{Path(words[0]).name} ended with {ran.returncode}:\n{(ran.stdout + ran.stderr)[-2_000:]}")
    return ran.stdout + ran.stderr


@dataclass(frozen=True)
class Workshop:
    """The kit, the libraries that proofs left, and a folder for what is made on the way."""

    kit: Toolchain
    built: Path
    work: Path

    @property
    def clang(self) -> str:
        """The kit's compiler."""
        return f"{self.kit.kit}/toolchain/bin/clang"

    @property
    def archiver(self) -> str:
        """The kit's maker of archives."""
        return f"{self.kit.kit}/toolchain/bin/llvm-ar"

    def keeping_toolchain(self, kept: Path) -> Path:
        """A folder of tools as the kit's, whose clang puts the module of LLVM where it is kept."""
        folder = self.work / f"toolchain-{kept.stem}"
        (folder / "bin").mkdir(parents=True, exist_ok=True)
        of_kit = self.kit.kit / "toolchain"
        for name in ("lib", "bin/ld.lld", "bin/llvm-ar", "bin/rattle-x64"):
            link = folder / name
            if not link.is_symlink():
                link.symlink_to(of_kit / name)
        clang = folder / "bin" / "clang"
        clang.write_text(KEEPING_CLANG.format(kept=kept, clang=self.clang), encoding="utf-8")
        clang.chmod(0o755)
        return folder

    def kept(self, crate: str, target: str) -> Path:
        """Where the module of LLVM is kept, of a crate that was compiled for a target."""
        return self.work / f"{crate}-{target or 'native'}.bc"

    def compiled(self, crate: str, target: str = "") -> Path:
        """Proves a crate and compiles it for a target: its static library without the heap, or its program unlinked.

        That of the crate of tests is the program that runs the test which it is given the name of.
        """
        kept = self.kept(crate, target)
        line = lines_of(TOP / "crates.txt")[crate]
        root, made = CRATES / crate / "src" / "lib.rt", kept.with_suffix(".a")
        kind = ["--crate-type", "staticlib"]
        if is_program(crate):
            root, made, kind = root.with_name("main.rt"), kept.with_suffix(".o"), ["--backend", "llvm"]
        elif crate == TESTS:
            made, kind = kept.with_suffix(".o"), ["--test", "--backend", "llvm"]
        words = self.kit.reading(crate, root, line, self.built, min(2, os.cpu_count() or 1))
        tools = self.keeping_toolchain(kept)
        words += [*kind, "--toolchain", str(tools)]
        words += ["--incremental", str(self.work / f"incremental-{crate}"), "-o", str(made)]
        try:
            said = run([*words, *(["--target", target] if target else [])])
        finally:
            # It has links, and the gate takes none below the sources' folder.
            shutil.rmtree(tools, ignore_errors=True)
        if not re.search(r"^logic=proved ", said, re.MULTILINE):
            raise Bad(f"{crate} isn't proved:\n{said[-2_000:]}")
        return made

    def module(self, crate: str, target: str = "") -> str:
        """Proves and compiles a crate, and gives the text of the module of LLVM on the way."""
        self.compiled(crate, target)
        kept = self.kept(crate, target)
        text = kept.with_suffix(".ll")
        of_target = [f"--target={target}"] if target else []
        run([self.clang, *of_target, *TEXT_OF_MODULE, str(kept), "-o", str(text)])
        return text.read_text(encoding="utf-8")

    def join(self, out: Path, *archives: Path) -> None:
        """Makes one archive of several."""
        out.parent.mkdir(parents=True, exist_ok=True)
        script = [f"create {out.resolve()}", *(f"addlib {it}" for it in archives), "save", "end", ""]
        run([self.archiver, "-M"], "\n".join(script))


def prove_below() -> None:
    """Proves the crates that the libraries for C and the program stand on, as far as that isn't kept, side by side."""
    lines = lines_of(TOP / "crates.txt")
    uses = uses_of(lines)
    order = with_those_below([used for name in (CALLS, TABLE, BYTES, PROGRAM) for used in uses[name]], uses)
    LOG.parent.mkdir(exist_ok=True)
    LOG.write_text("", encoding="utf-8")
    BUILT.mkdir(parents=True, exist_ok=True)
    lock = os.open(LOG.parent, os.O_RDONLY)
    try:
        # Another build in this checkout goes first.
        fcntl.flock(lock, fcntl.LOCK_EX)
        builder = Builder(toolchain(), lines, LOG, lock)
        anew = [name for name in order if not builder.is_kept(name)]
        efforts = {**dict.fromkeys(order, NONE), **efforts_of(anew, lines)}
        plan = Plan(uses, efforts, processors())
        progress = Progress(plan)
        progress.say(f"proving {len(anew)} of {len(order)} crates; log: {LOG}")
        with moving(progress):
            failed = prove_all(builder, plan, progress)
    finally:
        os.close(lock)
    if failed is not None:
        raise Bad(f"{failed} could not be proved; {LOG} says why")


def open_workshop(built: Optional[Path] = None) -> Workshop:
    """A place to build in, over the crates below, which are proved first unless their folder is named."""
    if built is None:
        prove_below()
        built = BUILT
    WORK.mkdir(parents=True, exist_ok=True)
    # Another build here goes first; the lock ends with this process.
    fcntl.flock(os.open(WORK, os.O_RDONLY), fcntl.LOCK_EX)
    return Workshop(toolchain(), built.resolve(), WORK)


def is_current(made: Path, *crates: str) -> bool:
    """Whether what was made of crates is there, and no file that they stand on is newer."""
    if not made.is_file():
        return False
    order = with_those_below([*crates], uses_of(lines_of(TOP / "crates.txt")))
    files = [file for name in order for file in files_of(name)]
    time = made.stat().st_mtime
    return all(file.stat().st_mtime <= time for file in (TOP / "crates.txt", *files))
