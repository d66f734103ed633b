"""Whether the tree stands alone.

No file that git has is what a build left, and none names a folder of one machine, or something outside by its
number.
"""

import argparse
import re
import subprocess

from checks.running import Failed, Skipped
from crates import TOP

FOREIGN = re.compile(rb"/(?:work|root|home)/|\b[Ii]ssues? #?\d+")
BUILT = ("out", "__pycache__")


def tracked() -> list[str]:
    """The files that git has."""
    listed = subprocess.run(["git", "-C", TOP, "ls-files", "-z"], capture_output=True, text=True, check=False)
    if listed.returncode != 0:
        raise Skipped("this is no checkout of git")
    return [name for name in listed.stdout.split("\0") if name and (TOP / name).is_file()]


def faults(name: str) -> list[str]:
    """What is wrong with a file."""
    found = [f"{name} is what a build left"] if set(BUILT) & set(name.split("/")) else []
    for number, line in enumerate((TOP / name).read_bytes().split(b"\n"), 1):
        foreign = FOREIGN.search(line)
        if foreign:
            found.append(f"{name}:{number} has `{foreign.group(0).decode()}`")
    return found


def add_options(_parser: argparse.ArgumentParser) -> None:
    """This check has no options."""


def check(_given: argparse.Namespace) -> str:
    """Each file of the tree."""
    names = tracked()
    found = [fault for name in names for fault in faults(name)]
    if found:
        raise Failed("\n".join(["not as it may stand anywhere", *found]))
    return f"{len(names)} files, each as it may stand anywhere"
