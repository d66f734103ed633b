"""What is built here, or what stands for it where it isn't, by the variables of the Makefile."""

import re
from pathlib import Path
from typing import Mapping

from .support import BYTES_LIBRARY, LIBRARY, PROGRAM, SHARED_TABLE, TOP, VERSION, Word, run, write_script

HERE = {"PROGRAM": PROGRAM, "LIBRARY": LIBRARY, "SHARED_TABLE": SHARED_TABLE, "BYTES_LIBRARY": BYTES_LIBRARY}
SHARED, BYTES_SHARED = f"libpapr.so.{VERSION}", f"libpapr_bytes.so.{VERSION}"
# The shared objects, each with the archives that it is made of.
OBJECTS = {"SHARED": (SHARED, ("LIBRARY", "SHARED_TABLE")), "BYTES_SHARED": (BYTES_SHARED, ("BYTES_LIBRARY",))}
HEADERS = {"LIBRARY": "papr.h", "SHARED_TABLE": "papr_shared.h", "BYTES_LIBRARY": "papr_bytes.h"}
# A program that stands for papr, and names symbols of the C library; and the function of each archive.
PROGRAM_TEXT = "#!/bin/sh\n# GLIBC_2.9 GLIBC_2.34\necho stand-in\n"
FUNCTIONS = {"LIBRARY": "papr_version", "SHARED_TABLE": "papr_give_up", "BYTES_LIBRARY": "papr_bytes_call"}
FUNCTION_TEXT = "#include <string.h>\nvoid *{}(void *at, size_t n) {{ return memset(at, 0, n); }}\n"


def must_run(*words: Word) -> None:
    """Runs a command that must end well."""
    ran = run(*words)
    if (ran.status, ran.err) != (0, ""):
        raise OSError(f"{words[0]}: status {ran.status}: {ran.err}")


def make_archive(folder: Path, variable: str) -> Path:
    """An archive that stands for that of a library."""
    source, compiled, made = (folder / f"{variable}.{ending}" for ending in ("c", "o", "a"))
    source.write_text(FUNCTION_TEXT.format(FUNCTIONS[variable]), encoding="ascii")
    must_run("cc", "-O2", "-fPIC", "-c", source, "-o", compiled)
    must_run("ar", "rcsD", made, compiled)
    return made


def make_shared(folder: Path, archives: Mapping[str, Path]) -> dict[str, Path]:
    """The shared objects that these archives make, as far as the archives are there."""
    made = {}
    for variable, (name, parts) in OBJECTS.items():
        found = [archives[part] for part in parts if archives[part].is_file()]
        if len(found) == len(parts):
            made[variable] = folder / name
            must_run(TOP / "tools" / "shared-library", *found, made[variable])
    return made


def declared(*libraries: str) -> list[str]:
    """The functions that the headers of libraries declare, and don't define themselves."""
    texts = [(TOP / "include" / HEADERS[variable]).read_text(encoding="ascii") for variable in libraries]
    return sorted(set(re.findall(r"(?m)^(?!static ).*\b(papr_[a-z_0-9]+)\(", "".join(texts))))


def make_stand_ins(folder: Path) -> dict[str, Path]:
    """What stands for all that is built."""
    archives = {variable: make_archive(folder, variable) for variable in FUNCTIONS}
    return {"PROGRAM": write_script(folder / "program", PROGRAM_TEXT), **archives, **make_shared(folder, archives)}


def make_built(folder: Path) -> dict[str, Path]:
    """What is built here, or what stands for it, with the shared objects of these archives."""
    found = {**make_stand_ins(folder), **{variable: path for variable, path in HERE.items() if path.is_file()}}
    return {**found, **make_shared(folder, found)}


def words_of(files: Mapping[str, Path]) -> list[str]:
    """The words by which make takes these files and builds none of them."""
    return [f"{variable}={path}" for variable, path in files.items()]
