"""Files that are put whole: each has what it had before, or all that it is to have, whatever ends the program."""

import os
from contextlib import suppress
from pathlib import Path

UNFINISHED = ".new"  # behind the name of a file that isn't in its place yet


def replace(path: Path, data: str | bytes, *, mode: int = 0o666, to_disk: bool = True) -> None:
    """Puts a file in the place of what was there. `to_disk` says that it is to be there behind a power failure too,
    for which the disk is waited for. `OSError` where the disk doesn't take it, and then what was there stays, but
    where the folder alone can't be brought to the disk."""
    new = path.with_name(path.name + UNFINISHED)
    try:
        _write(new, data.encode() if isinstance(data, str) else data, mode, to_disk)
        os.replace(new, path)
    except OSError:
        with suppress(OSError):
            new.unlink()
        raise
    if to_disk:
        flush(path.absolute().parent)


def _write(path: Path, data: bytes, mode: int, to_disk: bool) -> None:
    """Writes a file without a buffer, which would write its rest once more as it is closed where it found no room."""
    handle = os.open(path, os.O_WRONLY | os.O_CREAT | os.O_TRUNC | os.O_CLOEXEC, mode)
    try:
        rest = memoryview(data)
        while rest:
            rest = rest[os.write(handle, rest) :]
        if to_disk:
            os.fsync(handle)
    finally:
        os.close(handle)


def flush(path: Path) -> None:
    """Brings a file, or the names in a folder, to the disk."""
    handle = os.open(path, os.O_RDONLY)
    try:
        os.fsync(handle)
    finally:
        os.close(handle)
