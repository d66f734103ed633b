"""What the tests of the tools share: where things are, how a command is run, and what is asserted of it."""

import difflib
import filecmp
import os
import shutil
import signal
import subprocess
import tempfile
import unittest
from dataclasses import dataclass
from pathlib import Path
from typing import Any, Callable, Iterable, Mapping, Optional, TypeVar, Union

TOP = Path(__file__).resolve().parents[2]
TOOLS, EXAMPLES, DOCS, DATA = TOP / "tools", TOP / "examples", TOP / "docs", TOP / "tests" / "data"
VERSION = (TOP / "VERSION").read_text(encoding="ascii").strip()
MAJOR = VERSION.split(".", maxsplit=1)[0]
PROGRAM = Path(os.environ.get("PAPR_PROGRAM", TOP / "crates/papr_main/out/papr_main"))
LIBRARY = Path(os.environ.get("PAPR_LIBRARY", TOP / "crates/papr_c/out/libpapr_c.a"))
SHARED_TABLE = Path(os.environ.get("PAPR_SHARED_TABLE", TOP / "crates/papr_shared/out/libpapr_shared.a"))
BYTES_LIBRARY = Path(os.environ.get("PAPR_BYTES_LIBRARY", TOP / "crates/papr_bytes/out/libpapr_bytes.a"))

PATIENCE = 900  # seconds that a command may take
SHOWN = 60  # lines of a difference
A_TRACE = "this is a trace; run it first: papr run TRACE > REPLIES"  # what tools say that read replies

Word = Union[str, Path]
Text = Union[str, bytes, Path]
Test = TypeVar("Test", bound=Callable[..., Any])


def hear_signals() -> None:
    """Has a signal that this process was begun to ignore end what the tests begin, as at a terminal."""
    for number in (signal.SIGHUP, signal.SIGINT, signal.SIGTERM):
        if signal.getsignal(number) == signal.SIG_IGN:
            signal.signal(number, signal.SIG_DFL)


hear_signals()


@dataclass(frozen=True)
class Ran:
    """How a command ended, and what it wrote."""

    status: int
    out: str
    err: str


def environment_with(**changes: str) -> dict[str, str]:
    """This process's environment, with these variables changed; no tool leaves byte code behind."""
    return {**os.environ, "PYTHONDONTWRITEBYTECODE": "1", **changes}


def run(
    *command: Word,
    given: Text = "",
    folder: Optional[Path] = None,
    environment: Optional[Mapping[str, str]] = None,
) -> Ran:
    """Runs a command, whose standard input is a text, or a file's.

    `environment` has the variables that differ from this process's. In what the command wrote, bytes that
    aren't UTF-8 are escaped.
    """
    data = given.read_bytes() if isinstance(given, Path) else given
    ended = subprocess.run(
        [str(word) for word in command],
        input=data.encode() if isinstance(data, str) else data,
        stdout=subprocess.PIPE,
        stderr=subprocess.PIPE,
        cwd=folder,
        env=environment_with(**(environment or {})),
        timeout=PATIENCE,
        check=False,
    )
    return Ran(ended.returncode, decoded(ended.stdout), decoded(ended.stderr))


def run_bytes(*command: Word) -> bytes:
    """What a command that must end well writes, where that is no text."""
    words = [str(word) for word in command]
    return subprocess.run(words, stdout=subprocess.PIPE, timeout=PATIENCE, check=True).stdout


def decoded(data: bytes) -> str:
    """The text of what a command wrote."""
    return data.decode("utf-8", "backslashreplace")


def write_script(path: Path, text: str) -> Path:
    """A file that can be run, in a folder that is made where it is missing."""
    path.parent.mkdir(parents=True, exist_ok=True)
    path.write_text(text, encoding="utf-8")
    path.chmod(0o755)
    return path


def missing(*commands: str) -> list[str]:
    """Those of the commands that aren't installed."""
    return [command for command in commands if shutil.which(command) is None]


def needs(*commands: str) -> Callable[[Test], Test]:
    """Skips a test, or the tests of a class, where one of the commands isn't installed."""
    lacking = missing(*commands)
    return unittest.skipIf(lacking, f"{' and '.join(lacking)} is not installed")


def needs_built(path: Path, what: str, command: str) -> Callable[[Test], Test]:
    """Skips a test, or the tests of a class, where this isn't built, which the command builds."""
    return unittest.skipUnless(path.is_file(), f"{what} is not built: {path} is missing ({command})")


needs_program = needs_built(PROGRAM, "the program", "./papr")
needs_library = needs_built(LIBRARY, "the library for C", "make library")
needs_shared_table = needs_built(SHARED_TABLE, "the shared table", "make library")
needs_bytes_library = needs_built(BYTES_LIBRARY, "the program on bytes", "make library")


def for_each(*values: object) -> Callable[[Test], Test]:
    """Makes of a test one for each value, which it takes and has at its name's end."""
    if not values:
        raise ValueError("a test of no value")

    def mark(test: Test) -> Test:
        vars(test)["values_of_test"] = values
        return test

    return mark


def difference(expected: str, got: str) -> str:
    """The first lines in which the texts differ."""
    lines = difflib.unified_diff(
        expected.splitlines(keepends=True), got.splitlines(keepends=True), "expected", "got"
    )
    return "".join(line for line, _ in zip(lines, range(SHOWN)))


class ToolTest(unittest.TestCase):
    """A test with a temporary folder of its own, and assertions of how a command ended."""

    folder: Path

    def __init_subclass__(cls) -> None:
        """Makes the tests that `for_each` asks for."""
        super().__init_subclass__()
        for name, test in list(vars(cls).items()):
            values: Iterable[object] = getattr(test, "values_of_test", ())
            for value in values:
                words = value if isinstance(value, tuple) else (value,)
                ending = "_".join(str(word).replace("-", "_").strip("_") for word in words)
                setattr(cls, f"{name}_{ending}", with_value(test, value))
            if values:
                delattr(cls, name)

    def setUp(self) -> None:
        """Makes the folder, which is taken away with all that is in it."""
        work = tempfile.TemporaryDirectory(prefix="papr-test-")
        self.addCleanup(work.cleanup)
        self.folder = Path(work.name)

    def assert_text(self, got: str, expected: str) -> None:
        """The two texts are the same."""
        if got != expected:
            self.fail(f"the texts differ\n{difference(expected, got)}")

    def assert_ran(
        self, ran: Ran, out: Optional[str] = "", status: int = 0, err: Optional[str] = ""
    ) -> None:
        """The command ended with the status and wrote just these texts; a text that is None may be any."""
        told = f"it wrote {ran.out[:2000]!r}, and as a message {ran.err[-2000:]!r}"
        self.assertEqual(ran.status, status, told)
        if err is not None:
            self.assert_text(ran.err, err)
        if out is not None:
            self.assert_text(ran.out, out)

    def assert_refused(self, ran: Ran, message: str, out: str = "") -> None:
        """Status 2 and just this line as the message, behind the usage where there is one."""
        self.assertEqual(ran.status, 2, f"status {ran.status}: {ran.out[:200]}{ran.err[-2000:]}")
        usage, _, last = ran.err.rstrip("\n").rpartition("\n")
        self.assertEqual(last, message)
        if usage:
            self.assertTrue(usage.startswith("usage: "), f"more than the message: {usage}")
        self.assert_text(ran.out, out)

    def assert_help(self, tool: Path) -> None:
        """The tool has help, under its name."""
        ran = run(tool, "--help")
        self.assert_ran(ran, out=None)
        self.assertTrue(ran.out.startswith(f"usage: {tool.name} "), ran.out[:200])

    def assert_same_file(self, got: Path, expected: Path) -> None:
        """The files have the same bytes."""
        if got.read_bytes() != expected.read_bytes():
            texts = [decoded(path.read_bytes()) for path in (expected, got)]
            self.fail(f"{got} is not as {expected}\n{difference(texts[0], texts[1])}")

    def assert_same_folder(self, got: Path, expected: Path) -> None:
        """The folders have the same files, with the same bytes."""
        names = [sorted(str(path.relative_to(it)) for path in it.rglob("*")) for it in (got, expected)]
        self.assertEqual(names[0], names[1])
        files = [name for name in names[1] if (expected / name).is_file()]
        _same, differing, unread = filecmp.cmpfiles(got, expected, files, shallow=False)
        self.assertEqual((differing, unread), ([], []))


def with_value(test: Callable[..., None], value: object) -> Callable[[unittest.TestCase], None]:
    """The test for this value."""

    def test_for_value(self: unittest.TestCase) -> None:
        test(self, value)

    test_for_value.__doc__ = test.__doc__
    return test_for_value
