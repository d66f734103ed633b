"""Runs the checks: one that is named, with its options, or all of them side by side."""

import argparse
import os
import subprocess
import sys
import time
from concurrent.futures import ThreadPoolExecutor, as_completed
from typing import Optional, Sequence

from checks import (
    call_table,
    calls,
    chains,
    declarations,
    fail_alloc,
    fuzz,
    fuzz_python,
    fuzz_tools,
    heads,
    judged,
    levels,
    limits,
    links,
    lint,
    names,
    numbers,
    phrases,
    reach,
    refusals,
    rows,
    sets,
    sizes,
    standard,
    tree,
    widths,
    words,
)
from checks.running import Check, Failed, Skipped

# In the order in which they begin where all are run: those that take longest come first.
CHECKS: dict[str, Check] = {
    "fuzz": fuzz,
    "fuzz-tools": fuzz_tools,
    "fuzz-python": fuzz_python,
    "chains": chains,
    "lint": lint,
    "sets": sets,
    "judged": judged,
    "limits": limits,
    "fail-alloc": fail_alloc,
    "refusals": refusals,
    "calls": calls,
    "reach": reach,
    "levels": levels,
    "declarations": declarations,
    "call-table": call_table,
    "heads": heads,
    "names": names,
    "numbers": numbers,
    "sizes": sizes,
    "standard": standard,
    "rows": rows,
    "tree": tree,
    "words": words,
    "widths": widths,
    "phrases": phrases,
    "links": links,
}
PROGRAM = "tests/check"
PASSED, FAILED, SKIPPED = "pass", "FAIL", "skip"


def run_here(name: str, given: argparse.Namespace) -> int:
    """Runs a check, ends its text with a line that says how it went, and gives the exit status."""
    try:
        word, said = PASSED, CHECKS[name].check(given)
    except Failed as reason:
        word, said = FAILED, str(reason)
    except Skipped as reason:
        word, said = SKIPPED, str(reason)
    print(f"{word} {name}: {said}", flush=True)
    return 1 if word == FAILED else 0


def run_apart(name: str) -> tuple[str, str]:
    """Runs a check in a process of its own: how it went, and what to show of it."""
    begun = time.monotonic()
    ran = subprocess.run(
        [sys.executable, "-m", "checks", name],
        stdout=subprocess.PIPE,
        stderr=subprocess.STDOUT,
        text=True,
        check=False,
    )
    seconds = f"{time.monotonic() - begun:.1f} s"
    *_, last = ["", *ran.stdout.splitlines()]
    if ran.returncode == 0 and last.startswith((PASSED, SKIPPED)):
        return last.split()[0], f"{last} ({seconds})"
    return FAILED, f"== {name} failed ({seconds})\n{ran.stdout.rstrip()}\n=="


def run_all() -> int:
    """Runs all checks side by side, and gives the exit status."""
    words = []
    with ThreadPoolExecutor(os.cpu_count()) as pool:
        for ended in as_completed([pool.submit(run_apart, name) for name in CHECKS]):
            word, shown = ended.result()
            words.append(word)
            print(shown, flush=True)
    counts = f"{words.count(PASSED)} passed, {words.count(FAILED)} failed"
    print(counts + (f", {words.count(SKIPPED)} skipped" if SKIPPED in words else ""))
    return 1 if FAILED in words else 0


def arguments(words: Optional[Sequence[str]]) -> argparse.Namespace:
    """The name of a check, and its options."""
    parser = argparse.ArgumentParser(
        prog=PROGRAM,
        usage=f"{PROGRAM} [-h] [NAME [OPTION..]]",
        description="Checks of what no proof covers.",
    )
    names = parser.add_subparsers(
        dest="name", metavar="NAME", help="without a name all are run", prog=PROGRAM
    )
    for name, module in sorted(CHECKS.items()):
        about = module.__doc__ or ""
        one = names.add_parser(
            name,
            help=about.splitlines()[0],
            description=about,
            formatter_class=argparse.RawDescriptionHelpFormatter,
        )
        module.add_options(one)
    return parser.parse_args(words)


def main(words: Optional[Sequence[str]] = None) -> int:
    """Runs what the words say, and gives the exit status."""
    given = arguments(words)
    return run_here(given.name, given) if given.name else run_all()


if __name__ == "__main__":
    sys.exit(main())
