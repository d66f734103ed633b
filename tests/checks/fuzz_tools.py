"""Inputs of the tools that are wrong in all ways.

Changes replies, traces, sets, images, logs of QEMU, tables of KVM and recordings, which are those of examples/ and of
the tests, draws the tools' words, and runs each tool on them. A tool has to end with one of its statuses; with 2 or 4
only if a message that begins with its name says why; never by an error of its own; and in bounded time. A text differs
from itself never, and a tool that fails has written no file. Most runs are in this process, and some are processes of
their own. The files of a run that fails are kept in the folder that is told.
"""

import argparse
import importlib.machinery
import importlib.util
import io
import random
import shutil
import signal
import subprocess
import sys
import tempfile
import time
import traceback
from collections import Counter
from dataclasses import dataclass
from pathlib import Path
from types import FrameType, ModuleType
from typing import Any, Callable, Optional

import common
from checks.running import Failed, Program, add_program, need_library, program_of
from checks.tool_cases import Case, Cases
from crates import TOP

TOOLS = TOP / "tools"
FOLDERS = {"judge-recording": TOOLS / "qemu-papr"}
ANSWERS = {"diff", "why", "bad-line", "judge-recording", "find-order"}  # tools for which 1 is an answer
# Tools that ask the launcher for the program.
BY_PROGRAM = {"why", "groups", "bad-line", "judge-recording", "find-order"}
REFUSED, UNDECIDED, UNWRITTEN = 2, 3, 4
SECONDS = 10  # of the processor for a run here
PATIENCE = 120  # seconds for one that is a process
APART = 0.4  # of the time is for processes


class TookLong(BaseException):
    """A run takes too long."""


@dataclass(frozen=True)
class Told:
    """How a run ended: its status, and both texts."""

    status: int
    out: bytes
    message: str


def fault_of(case: Case, told: Told) -> str:
    """What is wrong with how a run ended."""
    statuses = {0, REFUSED, UNWRITTEN} | ({1} if case.tool in ANSWERS else set())
    statuses |= {UNDECIDED} if case.tool == "find-order" else set()
    if told.status not in statuses:
        return f"status {told.status}: {told.message[-300:]!r}"
    if "Traceback" in told.message or ": an error in " in told.message:
        return f"an error of its own: {told.message[-300:]!r}"
    last = told.message.rstrip("\n").rpartition("\n")[2]
    if told.status in (REFUSED, UNWRITTEN) and case.tool != "judge-recording" and not last.startswith(f"{case.tool}: "):
        return f"no message: {told.message[-300:]!r}"
    if case.tool == "diff" and case.words[-1] == case.words[-2] and told.status == 1:
        return "the text differs from itself"
    if told.status and case.written and Path(case.written).exists():
        return "a file is left behind"
    return ""


def loaded(tool: str) -> ModuleType:
    """A tool as a module."""
    path = FOLDERS.get(tool, TOOLS) / tool
    name = f"tool_{tool.replace('-', '_')}"
    loader = importlib.machinery.SourceFileLoader(name, str(path))
    spec = importlib.util.spec_from_loader(name, loader)
    assert spec is not None
    module = importlib.util.module_from_spec(spec)
    sys.modules[name] = module
    loader.exec_module(module)
    return module


def end_late(_number: int, _frame: Optional[FrameType]) -> None:
    """Ends a run that takes too long."""
    raise TookLong


class Here:
    """The tools as modules of this process."""

    def __init__(self, program: Program) -> None:
        sys.dont_write_bytecode = True
        self._program = str(program.path)
        self._modules: dict[str, Any] = {}
        signal.signal(signal.SIGVTALRM, end_late)

    def main_of(self, tool: str) -> Callable[[], Optional[int]]:
        """What a tool does. The program is the one that was named."""
        if tool not in self._modules:
            self._modules[tool] = loaded(tool)
            for module in (self._modules[tool], sys.modules.get("judging"), sys.modules.get("asking")):
                if module is not None and hasattr(module, "program"):
                    setattr(module, "program", lambda: self._program)
        main: Callable[[], Optional[int]] = self._modules[tool].main
        return main

    def run(self, case: Case) -> Told:
        """How a case ends."""
        main = self.main_of(case.tool)
        before = sys.stdin, sys.stdout, sys.stderr, sys.argv, common.NAME
        out, message = io.BytesIO(), io.StringIO()
        sys.stdin = io.TextIOWrapper(io.BytesIO(case.given), encoding="utf-8")
        sys.stdout, sys.stderr = io.TextIOWrapper(out, encoding="utf-8", write_through=True), message
        sys.argv, common.NAME = [case.tool, *case.words], case.tool
        signal.setitimer(signal.ITIMER_VIRTUAL, SECONDS)
        try:
            status = common.run_tool(main)
        except SystemExit as ended:
            status = ended.code if isinstance(ended.code, int) else 1
        except TookLong:
            status = -signal.SIGVTALRM
        except Exception:
            status = 1
            message.write(traceback.format_exc())
        finally:
            signal.setitimer(signal.ITIMER_VIRTUAL, 0)
            written = out.getvalue()
            sys.stdin, sys.stdout, sys.stderr, sys.argv, common.NAME = before
        return Told(status, written, message.getvalue())


def run_apart(case: Case) -> Told:
    """How a case ends as a process of its own."""
    command = [str(FOLDERS.get(case.tool, TOOLS) / case.tool), *case.words]
    ran = subprocess.run(command, input=case.given, capture_output=True, timeout=PATIENCE, check=False)
    return Told(ran.returncode, ran.stdout, ran.stderr.decode("utf-8", "backslashreplace"))


class Fuzz:
    """The cases that were tried, and how they ended."""

    def __init__(self, program: Program, seed: int, kept: Path) -> None:
        self.here, self.kept = Here(program), kept
        self.draw = random.Random(seed)
        self.ends: Counter[str] = Counter()
        self.failed = self.apart = 0

    def try_case(self, run: Callable[[Case], Told], has_program: bool) -> None:
        """Tries a case, whose files are kept if it fails."""
        folder = Path(tempfile.mkdtemp(dir=self.kept))
        case = Cases(self.draw, folder).any()
        if has_program or case.tool not in BY_PROGRAM:
            told = run(case)
            fault = fault_of(case, told)
            self.ends[f"{case.tool} {told.status}"] += 1
            if fault:
                self.failed += 1
                (folder / "given").write_bytes(case.given)
                print(f"{folder}: {case.tool} {case.words}: {fault}")
                return
        shutil.rmtree(folder)

    def try_for(self, seconds: float) -> None:
        """Tries cases for so long: first here, and then as processes."""
        end = time.monotonic() + seconds
        while time.monotonic() < end - seconds * APART:
            self.try_case(self.here.run, has_program=True)
        while time.monotonic() < end:
            self.try_case(run_apart, has_program=False)
            self.apart += 1


def add_options(parser: argparse.ArgumentParser) -> None:
    """The options of this check."""
    add_program(parser)
    parser.add_argument("--seconds", type=float, default=40, help="40 where it is left out")
    parser.add_argument("--seed", type=int, default=1, help="1 where it is left out")


def check(given: argparse.Namespace) -> str:
    """Changed inputs, for some time. Tools that decode entries load the library."""
    need_library()
    kept = Path(tempfile.mkdtemp(prefix="papr-fuzz-tools-"))
    fuzz = Fuzz(program_of(given), given.seed, kept)
    fuzz.try_for(given.seconds)
    print(f"seed {given.seed}: " + ", ".join(f"{count} {name}" for name, count in sorted(fuzz.ends.items())))
    counts = f"{sum(fuzz.ends.values())} runs, some {fuzz.apart} as processes, {fuzz.failed} failed"
    if fuzz.failed:
        raise Failed(counts)
    kept.rmdir()
    return counts
