"""What the tests of installed tools share: a tree into which `make` put them, with the program."""

import os
import tempfile
from pathlib import Path
from typing import ClassVar

from .support import PROGRAM, TOP, Ran, Text, ToolTest, Word, needs, needs_program, run

COMMANDS = (
    "papr-from-qemu",
    "papr-history",
    "papr-picture",
    "papr-receipts",
    "papr-why",
    "papr-bad-line",
    "papr-find-order",
    "papr-cut",
    "papr-entries",
    "papr-decode",
    "papr-groups",
    "papr-diff",
)
FORMATS = ("papr-trace", "papr-replies")


def make(target: str, tree: Path, *words: str) -> None:
    """Installs into a tree, or takes away; an error where make fails or says anything."""
    ran = run("make", "-s", "-C", TOP, target, f"DESTDIR={tree}", "PREFIX=/usr", *words)
    if (ran.status, ran.out, ran.err) != (0, "", ""):
        raise OSError(f"make {target}: status {ran.status}: {ran.out}{ran.err}")


@needs("make")
@needs_program
class InstalledTest(ToolTest):
    """A test that runs commands from a tree of their own, where the program is on the path."""

    commands: ClassVar[Path]

    @classmethod
    def setUpClass(cls) -> None:
        """Installs the program and the tools, once for the class."""
        super().setUpClass()
        work = tempfile.TemporaryDirectory(prefix="papr-tree-")
        cls.addClassCleanup(work.cleanup)
        make("install-program", Path(work.name), f"PROGRAM={PROGRAM}")
        cls.commands = Path(work.name) / "usr" / "bin"

    def run_installed(self, *command: Word, given: Text = "") -> Ran:
        """Runs an installed command."""
        path = f"{self.commands}:{os.environ['PATH']}"
        return run(self.commands / command[0], *command[1:], given=given, environment={"PATH": path})
