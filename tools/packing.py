"""Packing a folder so that the same files give the same bytes: no time, owner, order or setting of a machine is in."""

import hashlib
import io
import lzma
import tarfile
from pathlib import Path

PRESET = 9  # of xz


def member(path: Path, name: str, time: int) -> tarfile.TarInfo:
    """What a tarball says of a file, a link or a folder: modes alone, and one time for all."""
    info = tarfile.TarInfo(name)
    info.mtime = time
    info.uname = info.gname = "root"
    if path.is_symlink():
        info.type, info.linkname, info.mode = tarfile.SYMTYPE, str(path.readlink()), 0o777
    elif path.is_dir():
        info.type, info.mode = tarfile.DIRTYPE, 0o755
    else:
        info.size = path.stat().st_size
        info.mode = 0o755 if path.stat().st_mode & 0o100 else 0o644
    return info


def tarball(folder: Path, time: int) -> bytes:
    """A tarball of a folder, under its name, with its files in the order of their names."""
    written = io.BytesIO()
    with tarfile.open(fileobj=written, mode="w", format=tarfile.GNU_FORMAT) as packed:
        for path in (folder, *sorted(folder.rglob("*"))):
            info = member(path, path.relative_to(folder.parent).as_posix(), time)
            packed.addfile(info, io.BytesIO(path.read_bytes()) if info.isreg() else None)
    return written.getvalue()


def pack(folder: Path, time: int, out: Path) -> None:
    """Writes a folder as a tarball that xz packed."""
    out.write_bytes(lzma.compress(tarball(folder, time), preset=PRESET))


def sums(files: list[Path]) -> str:
    """The files' checksums, as sha256sum writes them, in the order of their names."""
    named = sorted((path.name, hashlib.sha256(path.read_bytes()).hexdigest()) for path in files)
    return "".join(f"{total}  {name}\n" for name, total in named)
