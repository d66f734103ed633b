"""The files that are built of the sources and belong to a release, for each kind of processor."""

from dataclasses import dataclass
from pathlib import Path

from crates import CRATES, TOP, archive_of
from machines import Machine

VERSION = (TOP / "VERSION").read_text(encoding="ascii").strip()
SHARED, BYTES_SHARED = f"libpapr.so.{VERSION}", f"libpapr_bytes.so.{VERSION}"


@dataclass(frozen=True)
class Built:
    """The program and the libraries for one kind of processor."""

    machine: str
    program: Path
    archive: Path
    table_archive: Path
    bytes_archive: Path
    shared: Path
    bytes_shared: Path

    @property
    def variables(self) -> dict[str, Path]:
        """Each by the variable that names it to make."""
        return {
            "PROGRAM": self.program,
            "LIBRARY": self.archive,
            "SHARED_TABLE": self.table_archive,
            "BYTES_LIBRARY": self.bytes_archive,
            "SHARED": self.shared,
            "BYTES_SHARED": self.bytes_shared,
        }

    @property
    def files(self) -> list[Path]:
        """All of them."""
        return list(self.variables.values())

    @property
    def lacking(self) -> list[Path]:
        """Those that aren't there."""
        return [path for path in self.files if not path.is_file()]


def of_machine(machine: Machine) -> Built:
    """The files for another processor, for which all is built into one folder."""
    names = ("papr", "libpapr.a", "libpapr_shared.a", "libpapr_bytes.a", SHARED, BYTES_SHARED)
    return Built(machine.name, *(TOP / "out" / machine.name / name for name in names))


def of_crate(name: str, file: str) -> Path:
    """A file that is built of a crate."""
    return CRATES / name / "out" / file


NATIVE = Built(
    "x86_64",
    of_crate("papr_main", "papr_main"),
    of_crate("papr_c", archive_of("papr_c")),
    of_crate("papr_shared", archive_of("papr_shared")),
    of_crate("papr_bytes", archive_of("papr_bytes")),
    TOP / "out" / "lib" / SHARED,
    TOP / "out" / "lib" / BYTES_SHARED,
)
