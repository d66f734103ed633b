"""The scripts beside the proved program, by mypy, ruff or else flake8, and shellcheck.

Looks at the scripts of Python and of the shell in .ci/, bench/, bindings/, completions/, examples/, page/, tests/,
tools/ and at the top, by the settings in pyproject.toml; at a file that scripts source, with them. A tool that isn't
installed is left out with a word.
"""

import argparse
import os
import shutil
import subprocess
import sys
import tomllib
from pathlib import Path
from typing import Iterator, Optional, Sequence

from checks.running import Failed, Skipped
from crates import TOP

FOLDERS = (".ci", "bench", "bindings", "completions", "examples", "page", "tests", "tools")
LEFT_OUT = {"__pycache__", "out", "target"}
PYTHON, SHELL = "python", "shell"
# Debian's python3-mypy is a module of its own Python and has no command.
MYPY = (["mypy"], [sys.executable, "-m", "mypy"], ["/usr/bin/python3", "-m", "mypy"])
RUFF = (["ruff"], [sys.executable, "-m", "ruff"])
FLAKE8 = (["flake8"], [sys.executable, "-m", "flake8"])
WITH_SPACES = "E203,W503"  # what flake8 says of slices and operators that are set as its own rules want them
SHELLCHECK = (["shellcheck"],)
# The tools see no module of this repository among their own.
ENVIRONMENT = {name: value for name, value in os.environ.items() if name != "PYTHONPATH"}


def kind_of(path: Path) -> str:
    """What a file is written in, as far as it is looked at here."""
    if path.suffix == ".py":
        return PYTHON
    if path.suffix == ".bash":
        return SHELL
    with open(path, "rb") as text:
        first = text.readline(80)
    if not first.startswith(b"#!"):
        return ""
    return PYTHON if b"python3" in first else SHELL if first.endswith(b"sh\n") else ""


def files() -> Iterator[Path]:
    """All files that may be scripts."""
    yield from (path for path in sorted(TOP.iterdir()) if path.is_file())
    for folder in FOLDERS:
        for path in sorted((TOP / folder).rglob("*")):
            if path.is_file() and not LEFT_OUT & set(path.parts):
                yield path


def command_of(ways: Sequence[list[str]]) -> Optional[list[str]]:
    """How a tool is called here."""
    for way in ways:
        if shutil.which(way[0]):
            told = subprocess.run([*way, "--version"], capture_output=True, env=ENVIRONMENT, check=False)
            if told.returncode == 0:
                return way
    return None


def run(ways: Sequence[list[str]], words: Sequence[str], scripts: Sequence[str]) -> Optional[bool]:
    """Whether a tool finds nothing to say of these scripts; none where it isn't here."""
    command = command_of(ways)
    if command is None:
        print(f"{ways[0][0]} is not here")
        return None
    told = subprocess.run([*command, *words, *scripts], cwd=TOP, env=ENVIRONMENT, check=False)
    is_clean = told.returncode == 0
    print(f"{ways[0][0]}: {len(scripts)} files, {'clean' if is_clean else 'not clean'}", flush=True)
    return is_clean


def run_style(scripts: Sequence[str]) -> dict[str, Optional[bool]]:
    """What ruff says of these scripts, or flake8 by the same settings if ruff isn't here."""
    by_ruff = run(RUFF, ["check", "--quiet"], scripts)
    if by_ruff is not None:
        return {"ruff": by_ruff}
    settings = tomllib.loads((TOP / "pyproject.toml").read_text(encoding="utf-8"))["tool"]["ruff"]
    rules = ",".join(settings["lint"]["select"])
    words = ["--isolated", f"--max-line-length={settings['line-length']}", f"--select={rules}"]
    by_flake8 = run(FLAKE8, [*words, f"--extend-ignore={WITH_SPACES}"], scripts)
    return {"flake8": by_flake8} if by_flake8 is not None else {"ruff or flake8": None}


def add_options(_parser: argparse.ArgumentParser) -> None:
    """This check has no options."""


def check(_given: argparse.Namespace) -> str:
    """Each tool on the scripts that it is for."""
    scripts: dict[str, list[str]] = {PYTHON: [], SHELL: [], "": []}
    for path in files():
        scripts[kind_of(path)].append(str(path.relative_to(TOP)))
    ends = {
        "mypy": run(MYPY, [], scripts[PYTHON]),
        **run_style(scripts[PYTHON]),
        "shellcheck": run(SHELLCHECK, ["-x", "-S", "warning"], scripts[SHELL]),
    }
    unclean = [name for name, is_clean in ends.items() if is_clean is False]
    if unclean:
        raise Failed(f"not clean by {' and '.join(unclean)}")
    clean = [name for name, is_clean in ends.items() if is_clean]
    if not clean:
        raise Skipped("neither mypy nor ruff nor flake8 nor shellcheck is here")
    missing = [name for name, is_clean in ends.items() if is_clean is None]
    without = f"; without {' and '.join(missing)}" if missing else ""
    counts = f"{len(scripts[PYTHON])} scripts of Python and {len(scripts[SHELL])} of the shell"
    return f"{counts}, clean by {' and '.join(clean)}{without}"
