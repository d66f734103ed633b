"""Files that a tool writes: whole, or not at all."""

import errno
import os
import secrets
import signal
import stat
import sys
from argparse import ArgumentTypeError
from contextlib import contextmanager, suppress
from pathlib import Path
from types import FrameType
from typing import Iterator, Optional, TextIO, Union

from common import STANDARD_OUTPUT, Unwritten

AS_IT_IS = ("-", "/dev/stdout")  # names of standard output
ENDING = (signal.SIGHUP, signal.SIGTERM)  # an interrupt is an exception
MODE, OWN_MODE = 0o666, 0o600  # of a new file, before the umask, and of one that gets the mode of another

Name = Union[str, Path]


def read_output(word: str) -> str:
    """The file that an option names for output."""
    if not word:
        raise ArgumentTypeError("the name of a file is empty")
    return word


def found(path: Name) -> Optional[os.stat_result]:
    """What a path leads to, or nothing."""
    try:
        return os.stat(path)
    except FileNotFoundError:
        return None
    except OSError as error:
        raise Unwritten(f"{path}: {error.strerror}") from error


def place_of(path: Name) -> Path:
    """Where the file lies that a path leads to."""
    if str(path).endswith("/"):
        raise Unwritten(f"{path}: Is a directory")
    return Path(os.path.realpath(path))


@contextmanager
def removed_at_signals(file: Path) -> Iterator[None]:
    """Where a signal ends the tool meanwhile, the file is removed before."""

    def end(number: int, _frame: Optional[FrameType]) -> None:
        file.unlink(missing_ok=True)
        signal.signal(number, signal.SIG_DFL)
        os.kill(os.getpid(), number)

    heard = [number for number in ENDING if signal.getsignal(number) == signal.SIG_DFL]
    for number in heard:
        signal.signal(number, end)
    try:
        yield
    finally:
        for number in heard:
            signal.signal(number, signal.SIG_DFL)


def make_part(part: Path, place: Path) -> int:
    """A new file, open, with the mode of the file at the place, or the usual one."""
    before = place.lstat() if os.path.lexists(place) else None
    has_mode = before is not None and stat.S_ISREG(before.st_mode)
    made = os.open(part, os.O_WRONLY | os.O_CREAT | os.O_EXCL, OWN_MODE if has_mode else MODE)
    if before is not None and has_mode:
        # (Not every file system has modes.)
        with suppress(OSError):
            os.fchmod(made, stat.S_IMODE(before.st_mode))
    return made


@contextmanager
def replacing(place: Path, name: Name) -> Iterator[tuple[Path, int]]:
    """A new file beside a place, open: it takes the place at the end, or is removed where anything fails.

    Nobody can foresee its name, and it is new. Messages call the place by this name.
    """
    part = place.with_name(f".papr.{os.getpid()}.{secrets.token_hex(8)}")
    try:
        with removed_at_signals(part):
            made = make_part(part, place)
            try:
                yield part, made
                part.replace(place)
            except BaseException:
                part.unlink(missing_ok=True)
                raise
    except OSError as error:
        raise Unwritten(f"{name}: {error.strerror}") from error


@contextmanager
def whole(place: Path, name: Name) -> Iterator[TextIO]:
    """A text that takes a place at the end; a link there isn't followed."""
    with replacing(place, name) as (_part, made), open(made, "w", encoding="utf-8") as out:
        yield out


@contextmanager
def text_at(path: Name) -> Iterator[TextIO]:
    """The text of the file that a path leads to. A device or a pipe can't be replaced, and is written as it comes."""
    there = found(path)
    if there is None or stat.S_ISREG(there.st_mode):
        with whole(place_of(path), path) as out:
            yield out
        return
    try:
        with open(path, "w", encoding="utf-8") as out:
            yield out
    except BrokenPipeError:
        raise
    except OSError as error:
        raise Unwritten(f"{path}: {error.strerror}") from error


@contextmanager
def output(path: Optional[str]) -> Iterator[TextIO]:
    """What an option names for output, or standard output where it names none or `-`."""
    if path is not None and path not in AS_IT_IS:
        with text_at(path) as out:
            yield out
    elif sys.stdout is None:
        raise Unwritten(f"{STANDARD_OUTPUT}: {os.strerror(errno.EBADF)}")
    else:
        yield sys.stdout
