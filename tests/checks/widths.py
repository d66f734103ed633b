"""The columns of code, definitions and proofs: at most 100, but for imports and `#[tactic(..)]`, which rt fmt writes
on one line. Definitions and proofs also stand as tools/lay-out-antt wraps them.

Fails where a line is wider, or where the tool would change a file.
"""

import argparse
import subprocess
import sys
from pathlib import Path

from checks.running import Failed
from crates import CRATES, TOP, lines_of

TOOL = TOP / "tools" / "lay-out-antt"
WIDTH = 100
ON_ONE_LINE = ("use ", "pub use ", "ghost use ", "#[tactic(")


def laid_out_files(crate: str) -> list[Path]:
    """The files of a crate's definitions and proofs."""
    return [path for part in ("specs", "proofs") for path in sorted((CRATES / crate / part).rglob("*.antt"))]


def is_laid_out(crate: str) -> bool:
    """Whether the tool would change no file of a crate."""
    files = laid_out_files(crate)
    command = [sys.executable, "-B", str(TOOL), "--check", *map(str, files)]
    return not files or subprocess.run(command, capture_output=True, check=False).returncode == 0


def is_wide(line: str) -> bool:
    """Whether a line is wider than it may be."""
    return len(line) > WIDTH and not line.lstrip().startswith(ON_ONE_LINE)


def wide_lines(crate: str) -> list[str]:
    """The lines of a crate that are wider than they may be, by file and number."""
    files = [*laid_out_files(crate), *sorted((CRATES / crate / "src").rglob("*.rt"))]
    return [
        f"{path.relative_to(TOP)}:{number}"
        for path in files
        for number, line in enumerate(path.read_text(encoding="utf-8").splitlines(), 1)
        if is_wide(line)
    ]


def add_options(_: argparse.ArgumentParser) -> None:
    """There are none."""


def check(_: argparse.Namespace) -> str:
    """Looks at each line of each crate, and asks the tool."""
    crates = [*lines_of(TOP / "crates.txt")]
    wide = [place for crate in crates for place in wide_lines(crate)]
    if wide:
        raise Failed(f"lines of more than {WIDTH} columns: {', '.join(wide)}")
    unlike = [crate for crate in crates if not is_laid_out(crate)]
    if unlike:
        raise Failed(f"not as tools/lay-out-antt lays it out: {', '.join(sorted(unlike))}")
    return f"the lines of {len(crates)} crates"
