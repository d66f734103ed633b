"""What the checks share: where things are, how a check ends, and how it runs the program."""

import argparse
import os
import subprocess
from dataclasses import dataclass
from pathlib import Path
from typing import Callable, Optional, Protocol, Sequence

import common  # noqa: F401  (it finds the package papr)
import papr
from crates import TOP

EXAMPLES = TOP / "examples"
BUILT = TOP / "crates" / "papr_main" / "out" / "papr_main"
REFUSED = 2  # the program's status for an input that it refuses, with a line that begins so:
REFUSAL = "papr: "


class Failed(Exception):
    """What a check looks for isn't so."""


class Skipped(Exception):
    """What a check needs isn't here."""


class Check(Protocol):
    """A check: a module that has these."""

    def add_options(self, parser: argparse.ArgumentParser) -> None:
        """Adds the options of this check."""

    def check(self, given: argparse.Namespace) -> str:
        """Says what was looked at and found right. Raises `Failed` or `Skipped` otherwise."""


def need_library() -> None:
    """Skips a check whose runs call the library for C, if it isn't built."""
    try:
        papr.library_version()
    except papr.LibraryMissing as error:
        raise Skipped(f"{error}; make library makes it") from error


@dataclass(frozen=True)
class Ended:
    """How a run ended: its status, its output and its message."""

    status: int
    out: bytes
    message: bytes

    @property
    def text(self) -> str:
        """The output as a text."""
        return self.out.decode("ascii")


@dataclass(frozen=True)
class Program:
    """The program that a check runs."""

    path: Path

    def run(
        self,
        words: Sequence[str],
        given: bytes,
        before: Sequence[str] = (),
        limits: Optional[Callable[[], None]] = None,
        timeout: Optional[float] = None,
    ) -> Ended:
        """Runs it on an input. `before` is a command that runs it; `limits` is called in its process."""
        ran = subprocess.run(
            [*before, str(self.path), *words],
            input=given,
            capture_output=True,
            preexec_fn=limits,
            timeout=timeout,
            check=False,
        )
        return Ended(ran.returncode, ran.stdout, ran.stderr)


def add_program(parser: argparse.ArgumentParser) -> None:
    """The option that names the program."""
    told = "papr; where it is left out, the one of these sources"
    parser.add_argument("--program", type=Path, default=BUILT, help=told)


def program_of(given: argparse.Namespace) -> Program:
    """The program that was named. It has to be there."""
    path: Path = given.program
    if not os.access(path, os.X_OK):
        raise Failed(f"there is no program {path}; ./papr builds it")
    return Program(path.resolve())


def traces() -> list[Path]:
    """The traces of examples/, each with its replies beside it."""
    return sorted(EXAMPLES.glob("*.trace"))


def replies_to(trace: Path) -> Path:
    """The replies of an example."""
    return trace.with_suffix(".replies")
