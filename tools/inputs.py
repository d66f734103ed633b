"""Inputs of the tools: a file or standard input, expanded where its bytes say that it is compressed."""

import bz2
import gzip
import io
import lzma
import shutil
import subprocess
import sys
import zlib
from contextlib import contextmanager
from tempfile import TemporaryFile
from typing import IO, Any, BinaryIO, Callable, ContextManager, Iterator, Optional, TextIO

from common import Bad, closed

STANDARD_INPUT = "standard input"
FRONT = 4096  # bytes that are looked at
UNNAMED = "/*stdin*\\ : "  # what zstd calls its standard input
DAMAGED = (EOFError, lzma.LZMAError, zlib.error, OSError)


class Behind(io.RawIOBase):
    """A stream whose first bytes were looked at: they come first, and then its rest."""

    def __init__(self, front: bytes, rest: IO[bytes], name: str) -> None:
        super().__init__()
        self._front, self._rest, self._name = front, rest, name

    def readable(self) -> bool:
        """It can be read."""
        return True

    def readinto(self, buffer: memoryview) -> int:  # type: ignore[override]
        """Reads some bytes; an error of reading has the input's name."""
        data = self._front[: len(buffer)]
        if data:
            self._front = self._front[len(data) :]
        else:
            data = read_some(self._rest, len(buffer), self._name)
        buffer[: len(data)] = data
        return len(data)


def read_some(stream: IO[bytes], count: int, name: str) -> bytes:
    """At most so many bytes, and none at the end alone."""
    try:
        return stream.read1(count) if isinstance(stream, io.BufferedReader) else stream.read(count)
    except DAMAGED as error:
        raise Bad(f"{name}: {getattr(error, 'strerror', None) or error}") from error


def fronted(stream: IO[bytes], name: str) -> tuple[bytes, BinaryIO]:
    """The first bytes of a stream, and a stream that has them still."""
    front = b""
    while len(front) < FRONT and (data := read_some(stream, FRONT - len(front), name)):
        front += data
    # (The end that a terminal told isn't asked for again.)
    rest = stream if len(front) == FRONT else io.BytesIO()
    return front, io.BufferedReader(Behind(front, rest, name))


# ---- what is compressed


@contextmanager
def by_zstd(packed: BinaryIO, name: str) -> Iterator[IO[bytes]]:
    """What the command zstd expands: Python has no module for it."""
    if shutil.which("zstd") is None:
        raise Bad(f"{name}: zstd, which expands it, isn't installed")
    with TemporaryFile() as copy, TemporaryFile() as said:
        shutil.copyfileobj(packed, copy)
        copy.seek(0)
        with subprocess.Popen(["zstd", "-dcq"], stdin=copy, stdout=subprocess.PIPE, stderr=said) as process:
            assert process.stdout is not None
            try:
                yield process.stdout
            finally:
                process.stdout.close()
                if process.wait() > 0:
                    said.seek(0)
                    message = said.readline().decode("ascii", "replace").strip()
                    raise Bad(f"{name}: {message.removeprefix(UNNAMED)}")


def by_module(opened: Callable[[BinaryIO], Any]) -> Callable[[BinaryIO, str], ContextManager[IO[bytes]]]:
    """What a module of Python expands."""

    @contextmanager
    def expanded(packed: BinaryIO, _name: str) -> Iterator[IO[bytes]]:
        with opened(packed) as stream:
            yield stream

    return expanded


# The first bytes of what is compressed.
EXPANDERS: dict[bytes, Callable[[BinaryIO, str], ContextManager[IO[bytes]]]] = {
    b"\xfd7zXZ": by_module(lzma.open),
    b"\x1f\x8b\x08": by_module(gzip.open),
    **{b"BZh%d" % level: by_module(bz2.open) for level in range(1, 10)},
    b"(\xb5/\xfd": by_zstd,
}


def is_binary(front: bytes) -> bool:
    """Whether these first bytes are those of no text, as grep and git say it: one of them is 0."""
    return b"\0" in front


# ---- an input


def name_of(path: Optional[str]) -> str:
    """What messages call an input."""
    return STANDARD_INPUT if path is None or path == "-" else path


@contextmanager
def stored_bytes(path: Optional[str]) -> Iterator[IO[bytes]]:
    """The file's bytes as they are, or those of standard input where no file or `-` is named."""
    if name_of(path) is path:
        with open(path, "rb") as stream:
            yield stream
    elif sys.stdin is None:
        raise closed(STANDARD_INPUT)
    else:
        yield sys.stdin.buffer


@contextmanager
def bytes_of(path: Optional[str]) -> Iterator[BinaryIO]:
    """The bytes of a file or of standard input, expanded."""
    name = name_of(path)
    with stored_bytes(path) as stored:
        front, stream = fronted(stored, name)
        found = next((EXPANDERS[mark] for mark in EXPANDERS if front.startswith(mark)), None)
        if found is None:
            yield stream
            return
        with found(stream, name) as expanded:
            yield io.BufferedReader(Behind(b"", expanded, name))


@contextmanager
def bytes_of_text(path: Optional[str]) -> Iterator[BinaryIO]:
    """The bytes of a text, expanded; what is binary is refused."""
    with bytes_of(path) as stream:
        front, text = fronted(stream, name_of(path))
        if is_binary(front):
            raise Bad(f"{name_of(path)} is not a text")
        yield text


@contextmanager
def text_of(path: Optional[str], newline: Optional[str] = None) -> Iterator[TextIO]:
    """The text of a file or of standard input, which is ASCII whatever the locale is."""
    with bytes_of_text(path) as stream:
        text = io.TextIOWrapper(stream, encoding="ascii", newline=newline)
        try:
            yield text
        except UnicodeDecodeError as error:
            byte = error.object[error.start]
            raise Bad(f"{name_of(path)} has the byte {byte:#04x}, which isn't ASCII") from error
        finally:
            text.detach()
