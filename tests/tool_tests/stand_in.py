"""A checkout with few crates, and a stand-in for the toolchain, which proves nothing."""

import contextlib
import os
import shutil
import signal
import subprocess
import tempfile
import time
from pathlib import Path
from typing import Callable, Optional

from .support import TOOLS, TOP, Ran, Word, run, write_script

# Each crate with what stands behind its name in crates.txt. The program stands on low, mid and trace_runner, and the
# libraries for C on low and beside.
LINES = {
    "low": "",
    "mid": ": low",
    "trace_runner": " may_wait=2: low",
    "beside": ": low",
    "papr_c": " staticlib: beside",
    "papr_shared": " staticlib: beside",
    "papr_bytes": " staticlib: beside",
    "papr_main": ": mid trace_runner",
}
IN_PROGRAM = ["low", "mid", "trace_runner", "papr_main"]
STATIC = ["papr_c", "papr_shared", "papr_bytes"]
IN_LIBRARIES = ["low", "beside", *STATIC]

PATIENCE = 120  # seconds that something is waited for

# A compiler that takes SLOW seconds, and for a crate that has a file called `slow` SLOWER more. It fails where the
# crate has a file called `fails` or a library that it names isn't there, kills itself where there is one called
# `killed`, and fills the disk where there is one called `full`. It writes down its beginning, with its process, and
# its end.
COMPILER = """\
#!/usr/bin/env bash
echo "rattle $*"
echo "the allocator's delay: ${MIMALLOC_PURGE_DELAY-none}"
echo "begin $3 $$" >>"$(dirname "$0")/times"
name=$3 folder=$(dirname "$4")
while [ $# -gt 2 ]; do
    [ "$1" != --extern ] || [ -d "${2#*=}" ] || { echo "no library $2"; exit 2; }
    shift
done
sleep "${SLOW:-0}"
[ ! -e "$folder/slow" ] || sleep "${SLOWER:-0}"
[ ! -e "$folder/fails" ] || { echo "a goal stands open"; exit 1; }
[ ! -e "$folder/killed" ] || kill -s KILL $$
[ ! -e "$folder/full" ] || ln -s /dev/full "${2%.rlib}.stamp"
echo "end $name" >>"$(dirname "$0")/times"
case $2 in
    *.rlib) mkdir -p "$2" ;;
    *.a) echo "an archive over $name" >"$2" ;;
    *) : >"$2" ;;
esac
"""
# Makes a program that says its words and its input, and ends with the status 7 or that of ENDS.
LINKER = """\
#!/usr/bin/env bash
while [ "$1" != -o ]; do shift; done
[ -f "$3" ] && printf '#!/bin/sh\\necho "ran $*"; cat; exit "${ENDS:-7}"\\n' >"$2" && chmod +x "$2"
"""
# Adds the name of what it is given to an archive.
ARCHIVER = """\
#!/usr/bin/env bash
echo "and $3" >>"$2"
"""


def make_kit(kit: Path, compiler: str) -> None:
    """A toolchain's folder, with this compiler."""
    (kit / "rlibs" / "std.rlib").mkdir(parents=True)
    (kit / "KIT-ID").write_text("a kit\n")
    (kit / "START-HERE.md").touch()
    write_script(kit / "bin" / "rt", f'#!/bin/sh\n[ "$*" = doc ] && echo {kit}/START-HERE.md\n')
    write_script(kit / "bin" / "rattle", compiler)
    write_script(kit / "bin" / "rattle-link", LINKER)
    write_script(kit / "toolchain" / "bin" / "llvm-ar", ARCHIVER)


class Checkout:
    """The checkout and its toolchain, below a test's folder."""

    def __init__(self, folder: Path) -> None:
        self.top, self.kit, self.times = folder / "checkout", folder / "kit", folder / "kit" / "bin" / "times"
        self.built, self.log = self.top / ".git" / "papr-build", self.top / "out" / "build.log"
        self.program = self.top / "crates" / "papr_main" / "out" / "papr_main"
        self.archives = {name: self.top / "crates" / name / "out" / f"lib{name}.a" for name in STATIC}
        self.tools = f"{self.kit}/bin:/usr/bin:/bin"
        (self.top / "tools").mkdir(parents=True)
        for file in (TOP / "papr", TOOLS / "build", *TOOLS.glob("*.py"), *TOOLS.glob("*.*sh")):
            shutil.copy(file, self.top / file.relative_to(TOP))
        for name in LINES:
            self.source(name).parent.mkdir(parents=True)
            self.source(name).write_text(f"// {name}\n")
        (self.top / "crates.txt").write_text("".join(f"{name}{rest or ':'}\n" for name, rest in LINES.items()))
        make_kit(self.kit, COMPILER)

    def source(self, name: str) -> Path:
        """A crate's root file."""
        return self.top / "crates" / name / "src" / ("main.rt" if name == "papr_main" else "lib.rt")

    def be_of_git(self) -> None:
        """Makes the checkout one of git, which keeps what a build proves."""
        (self.top / ".git").mkdir()

    def change(self, name: str, text: str = "// more\n") -> None:
        """Adds a text to a crate's source, later than what was built by the clock of files."""
        self.source(name).write_text(self.source(name).read_text() + text)
        self.touch(name)

    def add(self, name: str, file: str, text: str) -> None:
        """Adds a file to a crate, later than what was built by the clock of files."""
        time.sleep(0.01)
        added = self.top / "crates" / name / file
        added.parent.mkdir(exist_ok=True)
        added.write_text(text)

    def touch(self, name: str) -> None:
        """Makes a crate's source newer than what was built."""
        time.sleep(0.01)
        self.source(name).touch()

    def environment(self, **changes: str) -> dict[str, str]:
        """The variables with which the stand-in is found."""
        return {"PATH": self.tools, **changes}

    def papr(self, *words: Word, given: str = "", **variables: str) -> Ran:
        """Runs the wrapper."""
        return run(self.top / "papr", *words, given=given, environment=self.environment(**variables))

    def build(self, *words: str, **variables: str) -> Ran:
        """Runs the build by itself."""
        return run(self.top / "tools" / "build", *words, environment=self.environment(**variables))

    def begin(self, *command: Word, **variables: str) -> "Begun":
        """Begins a command of the checkout, with slow proofs."""
        return Begun(self, command, self.environment(**{"SLOW": "60", **variables}))

    def logged(self) -> str:
        """What the build's log has."""
        return self.log.read_text()

    def proved(self) -> list[str]:
        """The crates that the last build had the compiler prove, in the log's order."""
        return [line.split()[3] for line in self.logged().splitlines() if line.startswith("rattle ")]

    def steps(self) -> list[str]:
        """What the compiler wrote down: `begin NAME` and `end NAME`."""
        return [" ".join(line.split()[:2]) for line in self.times.read_text().splitlines()]

    def compilers(self) -> list[int]:
        """The processes of the compilers that began."""
        lines = self.times.read_text().splitlines() if self.times.is_file() else []
        return [int(line.split()[2]) for line in lines if line.startswith("begin ")]


class Begun:
    """A command that goes on, in a session of its own."""

    def __init__(self, checkout: Checkout, command: tuple[Word, ...], variables: dict[str, str]) -> None:
        self.checkout = checkout
        said, self.said = tempfile.mkstemp(dir=checkout.kit)
        self.ran = subprocess.Popen(
            [str(word) for word in command],
            env={**os.environ, **variables},
            stdin=subprocess.DEVNULL,
            stdout=subprocess.PIPE,
            stderr=said,
            start_new_session=True,
            text=True,
        )
        os.close(said)

    def wait_for_proofs(self, count: int = 1) -> None:
        """Waits until so many proofs have begun."""
        wait_until(lambda: len(self.checkout.compilers()) >= count)

    def wait_for(self, words: str) -> None:
        """Waits until the command has said these words on standard error."""
        wait_until(lambda: words in Path(self.said).read_text())

    def builder(self) -> int:
        """The process of tools/build that the wrapper began."""
        named = str(self.checkout.top / "tools" / "build").encode()
        for folder in Path("/proc").glob("[0-9]*"):
            # Any other process may end meanwhile.
            with contextlib.suppress(ProcessLookupError, FileNotFoundError):
                if os.getsid(int(folder.name)) == self.ran.pid and named in (folder / "cmdline").read_bytes():
                    return int(folder.name)
        raise AssertionError("no build runs")

    def end(self, number: signal.Signals, process: Optional[int] = None) -> Ran:
        """Sends a signal to the command, or to another process, and waits until the command has ended."""
        os.kill(self.ran.pid if process is None else process, number)
        return self.ended()

    def ended(self) -> Ran:
        """How the command ended."""
        out, _ = self.ran.communicate(timeout=PATIENCE)
        return Ran(self.ran.returncode, out, Path(self.said).read_text())


def wait_until(is_so: Callable[[], bool]) -> None:
    """Waits until something is so, or the patience has an end."""
    until = time.monotonic() + PATIENCE
    while not is_so() and time.monotonic() < until:
        time.sleep(0.02)


def is_running(process: int) -> bool:
    """Whether a process runs, and isn't just waiting to be counted."""
    try:
        told = Path(f"/proc/{process}/stat").read_text()
    except (FileNotFoundError, ProcessLookupError):
        return False
    return told.rpartition(")")[2].split()[0] != "Z"
