"""Proving crates side by side, by the toolchain, and keeping what those above them need."""

import hashlib
import os
import resource
import shutil
import signal
import subprocess
import tempfile
import threading
import time
from concurrent.futures import FIRST_COMPLETED, Future, ThreadPoolExecutor, wait
from contextlib import suppress
from pathlib import Path
from typing import Callable, Optional

from common import Bad
from crates import CRATES, TOP, WITH_HEAP, files_of, is_program, is_static, uses_of, with_those_below
from progress import Progress
from schedule import Plan
from toolchain import Toolchain

MEMORY = 2_500_000_000  # bytes that the largest of the proofs takes
# A proof lays out its tables by the address space that it may have. In less of it they lie closer together
# in memory, and a proof is faster by a tenth.
ADDRESS_SPACE = 20_000_000_000  # bytes
# What is freed the compiler's allocator gives back to the system after a second, and soon asks for as much
# again. Where it keeps it, proofs side by side are faster by a tenth, in 2 hundredths more memory.
KEEPING_FREED = {"MIMALLOC_PURGE_DELAY": "-1"}
# `rt ci` refuses the sources that a built library holds, wherever else they lie in a checkout.
IN_GIT = (TOP / ".git").is_dir()
BUILT = (TOP / ".git" if IN_GIT else TOP / "out") / "papr-build"


def processors() -> int:
    """How many proofs this machine makes side by side."""
    return max(1, min(len(os.sched_getaffinity(0)), free_memory() // MEMORY))


class Builder:
    """Proves crates by the toolchain, and ends what it began when it is left.

    `lock` is the open file by which no two builds run at a time. Proofs hold it too: where a build
    is killed, the next one waits for those that go on.
    """

    def __init__(self, kit: Toolchain, lines: dict[str, str], log: Path, lock: int) -> None:
        self.kit, self.lines, self.built, self.log, self.lock = kit, lines, BUILT, log, lock
        self.uses = uses_of(lines)
        self.stamps: dict[str, str] = {}
        self.running: set[subprocess.Popen[bytes]] = set()
        self.is_ended = False
        self.guard = threading.Lock()

    def __enter__(self) -> "Builder":
        return self

    def __exit__(self, *_: object) -> None:
        with self.guard:
            self.is_ended = True
            for ran in self.running:
                with suppress(ProcessLookupError):
                    os.killpg(ran.pid, signal.SIGTERM)

    def stamp(self, name: str) -> str:
        """A sum of all that a crate's proof rests on; the crates below it have theirs already."""
        below = [self.stamps[it] for it in self.uses[name]]
        told = hashlib.sha256(repr((self.kit.name(), self.lines[name], below)).encode())
        for file in sorted(files_of(name)):
            told.update(repr((str(file.relative_to(CRATES)), file.read_bytes())).encode())
        return told.hexdigest()

    def stamp_of(self, name: str) -> Path:
        """Where the sum is of that which is kept of a crate."""
        return self.built / f"{name}.stamp"

    def is_kept(self, name: str) -> bool:
        """Whether what is kept of a crate is of these sources; to be asked of those below it before."""
        stamp, kept = self.stamp(name), self.stamp_of(name)
        self.stamps[name] = stamp
        return kept.is_file() and kept.read_text(encoding="utf-8") == stamp

    def prove(self, name: str, jobs: int) -> bool:
        """Proves a crate if what is kept of it is of other sources, and tells whether it is proved."""
        if self.is_kept(name):
            return True
        stamp, kept = self.stamps[name], self.stamp_of(name)
        kept.unlink(missing_ok=True)
        command = self.command_of(name)
        status = self.run(name, command(name, self.lines[name], self.built, jobs))
        if status == -signal.SIGKILL and jobs > 1:
            # Most likely for memory.
            status = self.run(name, command(name, self.lines[name], self.built, 1))
        if is_program(name) and status == 0:
            status = self.run(f"link {name}", self.kit.linking(name, self.built))
        if name in WITH_HEAP and status == 0:
            status = self.run(f"heap of {name}", self.kit.adding_heap(name, self.built))
        if status == 0:
            write(kept, stamp, "w")
        return status == 0

    def take_over(self, name: str) -> bool:
        """Keeps the library that the gate left beside a crate, and tells whether there is one of these sources.

        `rt ci` makes it of a crate that it proved. One that `rt lib` made has a file `stamp` beside it,
        and isn't taken. To be asked of the crates below before: a library fits those that it was made over.
        """
        self.stamps[name] = self.stamp(name)
        left = CRATES / name / "out" / "rlib"
        rlib, kept = left / f"{name}.rlib", self.built / f"{name}.rlib"
        if (left / "stamp").exists() or not rlib.is_dir():
            return False
        made = rlib.stat().st_mtime
        if any(f.stat().st_mtime > made for it in with_those_below([name], self.uses) for f in files_of(it)):
            return False
        self.stamp_of(name).unlink(missing_ok=True)
        shutil.rmtree(kept, ignore_errors=True)
        shutil.copytree(rlib, kept, copy_function=os.link)
        write(self.stamp_of(name), self.stamps[name], "w")
        return True

    def command_of(self, name: str) -> Callable[[str, str, Path, int], list[str]]:
        """The toolchain's command for a crate of its kind."""
        if is_program(name):
            return self.kit.compiling
        return self.kit.archiving if is_static(self.lines[name]) else self.kit.proving

    def run(self, name: str, words: list[str]) -> int:
        """Runs a command, puts its words into the log once it has ended, and gives its status."""
        with tempfile.TemporaryFile("w+", errors="replace") as said:
            with self.guard:
                if self.is_ended:
                    return -signal.SIGTERM
                ran = subprocess.Popen(
                    words,
                    cwd=TOP,
                    env={**KEEPING_FREED, **os.environ},
                    stdin=subprocess.DEVNULL,
                    stdout=said,
                    stderr=subprocess.STDOUT,
                    pass_fds=[self.lock],
                    start_new_session=True,  # so that what it began can be ended with it
                )
                self.running.add(ran)
            began = time.monotonic()
            status = ran.wait()
            took = round(time.monotonic() - began)
            said.seek(0)
            with self.guard:
                self.running.remove(ran)
                write(self.log, f"== {name}\n{said.read()}status {status}, {took} s\n", "a")
        return status


def write(path: Path, text: str, mode: str) -> None:
    """Writes a text, and names the file where that fails."""
    try:
        with open(path, mode, encoding="utf-8") as file:
            file.write(text)
    except OSError as error:
        raise Bad(f"{path}: {error.strerror}") from error


def prove_all(builder: Builder, plan: Plan, progress: Progress) -> Optional[str]:
    """Proves the crates of a plan and links a program; gives the name of a crate that failed."""
    limit_address_space()
    running: dict[Future[bool], str] = {}
    with ThreadPoolExecutor(plan.most) as pool, builder:
        while plan.waiting or running:
            for name, jobs in plan.begin().items():
                progress.began(name, jobs)
                running[pool.submit(builder.prove, name, jobs)] = name
            for ended in wait(running, return_when=FIRST_COMPLETED).done:
                name = running.pop(ended)
                if not ended.result():
                    return name
                plan.end(name)
                progress.proved(name)
    return None


def limit_address_space() -> None:
    """Limits what this process and those that it begins may have, if they may have more."""
    limits = resource.getrlimit(resource.RLIMIT_AS)
    given = [it for it in limits if it != resource.RLIM_INFINITY]
    resource.setrlimit(resource.RLIMIT_AS, (min([ADDRESS_SPACE, *given]), limits[1]))


def free_memory() -> int:
    """The bytes of memory that are free for use."""
    with open("/proc/meminfo", encoding="ascii") as told:
        found = dict(line.split(":") for line in told)
    return 1024 * int(found["MemAvailable"].split()[0])
