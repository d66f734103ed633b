"""What the tools share: messages, places, and how a tool ends."""

import argparse
import errno
import io
import os
import signal
import subprocess
import sys
import traceback
from pathlib import Path
from typing import Callable, Optional

HERE = Path(__file__).resolve().parent
# The Python package papr: installed it stands beside the tools, and in a checkout here.
sys.path.insert(1, str(HERE.parent / "bindings" / "python"))
# The tool's name in messages: `papr why` where the command papr began it, else that of its file.
NAME = os.environ.pop("PAPR_NAME", "") or os.path.basename(sys.argv[0])
STANDARD_OUTPUT = "standard output"


class Bad(Exception):
    """An argument or an input with which a tool can't do its work."""

    status = 2


class Missing(Bad):
    """Something that a tool needs isn't there."""

    status = 127


class Unwritten(Bad):
    """An output that can't be written."""

    status = 4


def closed(name: str) -> OSError:
    """The error of a stream that is closed from the start, for which Python has no file."""
    return OSError(errno.EBADF, os.strerror(errno.EBADF), name)


class ClosedOutput(io.TextIOBase):
    """Standard output where it is closed: nothing can be written to it."""

    def write(self, _text: str) -> int:
        """Fails."""
        raise Unwritten(f"{STANDARD_OUTPUT}: {os.strerror(errno.EBADF)}")


def page(name: str) -> Path:
    """A page of the documents: beside the tools in a checkout, or where `make install` put it."""
    places = [HERE.parent / "docs" / name, HERE.parent / "doc" / "papr" / "docs" / name]
    for place in places:
        if place.is_file():
            return place
    raise Bad(f"{name} is missing; looked for {' and '.join(map(str, places))}")


def program() -> str:
    """The proved program: that of these sources, which is built where it has to be, or the installed one."""
    launcher, installed = HERE.parent / "papr", HERE.parent.parent / "libexec" / "papr" / "papr"
    if launcher.is_file():
        told = subprocess.run([launcher, "--program"], stdout=subprocess.PIPE, text=True, check=False)
        if told.returncode != 0:
            raise Bad("there is no program: it couldn't be built")
        return told.stdout.rstrip("\n")
    if not installed.is_file():
        raise Bad(f"there is no program: {installed} is missing")
    return str(installed)


def parser_of(description: str, epilog: str) -> argparse.ArgumentParser:
    """A parser of arguments, which calls the tool by its name in messages."""
    return argparse.ArgumentParser(prog=NAME, description=description, epilog=epilog)


def note(words: object) -> None:
    """A line on standard error, unless that is closed."""
    if sys.stderr is not None:
        print(f"{NAME}: {words}", file=sys.stderr)


def settle_output() -> None:
    """Has standard output tell if it is closed, and escape what its encoding lacks."""
    if sys.stdout is None:
        sys.stdout = ClosedOutput()
    elif isinstance(sys.stdout, io.TextIOWrapper):
        sys.stdout.reconfigure(errors="backslashreplace")


def fault_of(error: Exception) -> str:
    """An error of the tool itself: which it is, and the last line of these sources that it comes from."""
    frames = traceback.extract_tb(error.__traceback__)
    own = [frame for frame in frames if HERE.parent in Path(frame.filename).resolve().parents]
    place = own[-1] if own else frames[-1]
    said = str(error).partition("\n")[0][:200]
    return f"an error in {Path(place.filename).name}, line {place.lineno}: {type(error).__name__}: {said}"


def ended(work: Callable[[], Optional[int]]) -> int:
    """Does a tool's work to its end, at which all is written; the answer is the exit status."""
    try:
        status = work() or 0
    except SystemExit as early:  # help, or words that aren't taken
        status = early.code if isinstance(early.code, int) else Bad.status
    sys.stdout.flush()
    return status


def drop_output() -> None:
    """Has nothing more written to standard output, not by the end of Python either."""
    if not isinstance(sys.stdout, ClosedOutput):
        os.dup2(os.open(os.devnull, os.O_WRONLY), sys.stdout.fileno())


def status_of(error: Exception) -> int:
    """Says which error ended the work, and gives the exit status."""
    if isinstance(error, BrokenPipeError):
        # The reader has what it wanted: no answer is given, and nothing is said.
        drop_output()
        return 128 + signal.SIGPIPE
    if isinstance(error, OSError) and error.filename is None:
        # (An input's errors have its name.)
        drop_output()
        note(f"{STANDARD_OUTPUT}: {error.strerror or error}")
        return Unwritten.status
    if isinstance(error, OSError):
        note(f"{error.filename}: {error.strerror}")
    elif isinstance(error, MemoryError):
        note("there is not enough memory")
    else:
        note(error if isinstance(error, Bad) else fault_of(error))
    return error.status if isinstance(error, Bad) else Bad.status


def run_tool(work: Callable[[], Optional[int]]) -> int:
    """Does a tool's work. The answer is the exit status: that of `Bad` and a message where it can't be done.

    An error that no tool expects ends so too: other statuses are answers of some tools.
    """
    settle_output()
    try:
        return ended(work)
    except KeyboardInterrupt:
        return 128 + signal.SIGINT
    except Exception as error:
        return status_of(error)
