"""What the tests share: the libraries, where they are built, the guest's memory, and a Python of a script's own."""

import gc
import os
import subprocess
import sys
import unittest
from collections.abc import Iterator
from contextlib import contextmanager
from pathlib import Path
from typing import Any, Callable, TypeVar
from unittest.mock import patch

from papr import Grant, LibraryMissing
from papr._library import bytes_library, calls_library, shared_table_library

TOP = Path(__file__).resolve().parents[3]
EXAMPLES = TOP / "examples"
# Main storage, and the registers of a device.
GRANTS = [Grant(0x40000000, 0x5000000000, 0x3000, True), Grant(0, 0x2000000000, 0x100000)]
# What a script begins with that runs short of memory: leave() leaves it so many bytes more than it has.
SHORT_OF_MEMORY = """
import resource, papr

def size():
    with open("/proc/self/statm") as words:
        return int(words.read().split()[0]) * resource.getpagesize()

def leave(more):
    most = resource.getrlimit(resource.RLIMIT_AS)[1]
    resource.setrlimit(resource.RLIMIT_AS, (size() + more if more else most, most))
"""

Test = TypeVar("Test", bound=Callable[..., Any])


def needs(library: Callable[[], object]) -> Callable[[Test], Test]:
    """Skips a test, or the tests of a class, where a library can't be loaded."""
    try:
        library()
    except LibraryMissing as error:
        return unittest.skip(f"{error} (make library)")
    return lambda test: test


needs_calls, needs_bytes = needs(calls_library), needs(bytes_library)
needs_shared_table = needs(shared_table_library)
needs_limits = unittest.skipUnless(sys.platform == "linux", "the limit of memory is that of Linux")


def text_of(name: str) -> str:
    """The text of an example."""
    return (EXAMPLES / name).read_text(encoding="ascii")


def said_by(test: unittest.TestCase, script: str) -> str:
    """What a script writes in a Python of its own, which must end well and write nothing else."""
    words = [sys.executable, "-c", script]
    variables = {**os.environ, "PYTHONPATH": os.pathsep.join(sys.path)}
    ran = subprocess.run(words, env=variables, capture_output=True, text=True, check=False)
    test.assertEqual((ran.returncode, ran.stderr), (0, ""))
    return ran.stdout


@contextmanager
def well_finalised(test: unittest.TestCase) -> Iterator[None]:
    """What is left in this block is collected at its end, and none of it raises while it is finalised."""
    raised: list[str] = []
    with patch("sys.unraisablehook", lambda told: raised.append(f"{told.object}: {told.exc_value}")):
        yield
        gc.collect()
    test.assertEqual(raised, [])
