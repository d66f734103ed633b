"""Builds the package as a wheel, for build-wheel and for pip: the same bytes each time, from these sources alone."""

import base64
import hashlib
import re
import tomllib
import zipfile
from pathlib import Path
from typing import Any, Mapping, Optional

HERE = Path(__file__).resolve().parent
LICENCES = [HERE.parents[1] / name for name in ("LICENSE-APACHE", "LICENSE-MIT")]
TAG = "py3-none-any"
BEGIN_OF_TIME = (1980, 1, 1, 0, 0, 0)  # the earliest that a zip file can say
A_FILE = 0o100644

Files = dict[str, bytes]


def version() -> str:
    """The version, which the package itself says."""
    found = re.search(r'^__version__ = "([^"]+)"$', (HERE / "papr" / "__init__.py").read_text("utf-8"), re.MULTILINE)
    if found is None:
        raise ValueError("papr/__init__.py has no version")
    return found[1]


def metadata() -> str:
    """What a package index shows of the package."""
    project = tomllib.loads((HERE / "pyproject.toml").read_text("utf-8"))["project"]
    lines = [
        "Metadata-Version: 2.1",
        f"Name: {project['name']}",
        f"Version: {version()}",
        f"Summary: {project['description']}",
        f"License: {project['license']['text']}",
        f"Requires-Python: {project['requires-python']}",
        "Description-Content-Type: text/markdown",
    ]
    about: str = (HERE / project["readme"]).read_text("utf-8")
    return "\n".join(lines) + "\n\n" + about


def files_of_wheel() -> Files:
    """The files of the wheel but for the list of them."""
    info = f"papr-{version()}.dist-info"
    about = f"Wheel-Version: 1.0\nGenerator: papr\nRoot-Is-Purelib: true\nTag: {TAG}\n"
    modules = [*sorted((HERE / "papr").glob("*.py")), HERE / "papr" / "py.typed"]
    return {
        **{f"papr/{path.name}": path.read_bytes() for path in modules},
        f"{info}/METADATA": metadata().encode(),
        f"{info}/WHEEL": about.encode(),
        **{f"{info}/licenses/{path.name}": path.read_bytes() for path in LICENCES},
    }


def record_of(files: Files, name: str) -> bytes:
    """The list of the files, each with its hash and its size, and of itself, without."""
    lines = []
    for path, data in files.items():
        digest = base64.urlsafe_b64encode(hashlib.sha256(data).digest()).rstrip(b"=").decode()
        lines.append(f"{path},sha256={digest},{len(data)}\n")
    return "".join([*lines, f"{name},,\n"]).encode()


def build_wheel(
    wheel_directory: str,
    config_settings: Optional[Mapping[str, Any]] = None,
    metadata_directory: Optional[str] = None,
) -> str:
    """Writes the wheel into a folder that is there, and gives its name; pip calls this."""
    files, name = files_of_wheel(), f"papr-{version()}-{TAG}.whl"
    listed = f"papr-{version()}.dist-info/RECORD"
    files[listed] = record_of(files, listed)
    # Stored, since what compresses a file differs from one Python to another.
    with zipfile.ZipFile(Path(wheel_directory) / name, "w", zipfile.ZIP_STORED) as wheel:
        for path, data in files.items():
            item = zipfile.ZipInfo(path, BEGIN_OF_TIME)
            item.create_system, item.external_attr = 3, A_FILE << 16  # as on Unix
            wheel.writestr(item, data)
    return name
