"""A checkout of git with the files of these sources, but few crates; what is built and the toolchain are stand-ins."""

import shutil
import subprocess
from pathlib import Path
from typing import Mapping, Optional

from .built import BYTES_SHARED, PROGRAM_TEXT, SHARED
from .emulator import EMULATED
from .stand_in import COMPILER, make_kit
from .support import PATIENCE, TOP, Ran, Word, run, write_script

KIT, SAID = "a kit", "3 passed, 0 failed"
CRATES = ("basics", "hpt_hash", "papr_c")
# A gate that says what `rt ci` says and more, does what MEANWHILE names, and ends with the status ENDS.
GATE = f"""\
#!/bin/sh
cd "$(dirname "$0")/.." || exit 1
echo "rt: basics proved"
echo "{SAID}"
echo "1234 passed, 0 failed"
eval "${{MEANWHILE-}}"
exit "${{ENDS-0}}"
"""
# What is built, by the variables of the Makefile.
NAMES = {
    "PROGRAM": Path("crates/papr_main/out/papr_main"),
    "LIBRARY": Path("crates/papr_c/out/libpapr_c.a"),
    "SHARED_TABLE": Path("crates/papr_shared/out/libpapr_shared.a"),
    "BYTES_LIBRARY": Path("crates/papr_bytes/out/libpapr_bytes.a"),
    "SHARED": Path("out/lib") / SHARED,
    "BYTES_SHARED": Path("out/lib") / BYTES_SHARED,
}
OTHERS = {
    machine.name: [
        Path("out") / machine.name / name
        for name in ("papr", "libpapr.a", "libpapr_shared.a", "libpapr_bytes.a", SHARED, BYTES_SHARED)
    ]
    for machine in EMULATED
}


def is_left_out(name: str) -> bool:
    """Whether a file is of a crate that the checkout doesn't have."""
    folder, _, rest = name.partition("/")
    return folder == "crates" and rest.partition("/")[0] not in CRATES


def listed() -> Optional[list[str]]:
    """The checkout's files, those of these sources that git has or that are new; none where there is no git."""
    words = ["git", "-C", str(TOP), "ls-files", "-z", "--cached", "--others", "--exclude-standard"]
    told = subprocess.run(words, stdout=subprocess.PIPE, text=True, timeout=PATIENCE, check=False)
    names = set(told.stdout.split("\0")) - {""}
    return sorted(name for name in names if not is_left_out(name)) if told.returncode == 0 else None


class Committed:
    """The checkout, in a folder of its own, and how its commands are run."""

    def __init__(self, folder: Path, names: list[str]) -> None:
        self.top, self.kit = folder / "a checkout", folder / "kit"
        for name in names:
            if (TOP / name).is_file():
                (self.top / name).parent.mkdir(parents=True, exist_ok=True)
                shutil.copy2(TOP / name, self.top / name, follow_symlinks=False)
        lines = (self.top / "crates.txt").read_text(encoding="utf-8").splitlines(keepends=True)
        kept = [line for line in lines if line.replace(":", " ").split()[0] in CRATES]
        (self.top / "crates.txt").write_text("".join(kept), encoding="utf-8")
        write_script(self.top / ".ci" / "run", GATE)
        make_kit(self.kit, COMPILER)
        self.git("init", "--quiet")
        self.git("add", "--all")
        self.git("commit", "--quiet", "--message", "All of it")

    def git(self, *words: str) -> str:
        """Runs git, as somebody at a fixed time."""
        moment = "2026-11-01T12:00:00Z"
        named = {f"GIT_{who}_{what}": "a" for who in ("AUTHOR", "COMMITTER") for what in ("NAME", "EMAIL")}
        dated = {"GIT_AUTHOR_DATE": moment, "GIT_COMMITTER_DATE": moment}
        ran = run("git", "-C", self.top, *words, environment={**named, **dated})
        if ran.status:
            raise OSError(f"git {words[0]}: {ran.err}")
        return ran.out.strip()

    def put(self, files: Mapping[str, Path]) -> None:
        """Puts files where they are built: those of NAMES, and a text for each that isn't given."""
        for variable, place in NAMES.items():
            path = write_script(self.top / place, PROGRAM_TEXT)
            if variable in files:
                shutil.copy(files[variable], path)
        (self.top / "out" / "build.kit").write_text(f"{KIT}\n", encoding="ascii")

    def put_other(self, name: str) -> None:
        """Puts what is built here for another processor where it is built, or texts that stand for it."""
        for place in OTHERS[name]:
            write_script(self.top / place, f"{name} {place.name} GLIBC_2.34\n")
            if (TOP / place).is_file():
                shutil.copy(TOP / place, self.top / place)

    @property
    def note(self) -> Path:
        """What the gate leaves."""
        return self.top / "out" / "gate.passed"

    def run(self, *command: Word, **variables: str) -> Ran:
        """Runs a command of the checkout, with the stand-in for the toolchain on the path."""
        path = f"{self.kit}/bin:/usr/bin:/bin"
        return run(self.top / command[0], *command[1:], environment={"PATH": path, **variables})

    def gate(self, **variables: str) -> Ran:
        """Runs the gate."""
        return self.run("tools/gate", **variables)

    def release(self, **variables: str) -> Ran:
        """Makes a release, without a toolchain on the path."""
        variables = {"PATH": "/usr/bin:/bin", **variables}
        return run("make", "-s", "-C", self.top, "release", environment=variables)

    @property
    def released(self) -> Path:
        """Where the release is."""
        return self.top / "out" / "dist"


def without_make(text: str) -> str:
    """What a command said, without what make says of it."""
    return "".join(line for line in text.splitlines(keepends=True) if not line.startswith("make: "))
