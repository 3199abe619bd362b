"""A folder is one scribe's alone, as long as that runs: whoever else wants it is told who has it."""

import fcntl
import os
import socket
from collections.abc import Iterator
from contextlib import contextmanager, suppress
from pathlib import Path

from . import whole

NAME = "scribe.lock"
LONGEST = 1000  # bytes of a holder's name


class Held(Exception):
    """Another scribe has the folder."""


@contextmanager
def held(folder: Path, who: str) -> Iterator[None]:
    """Has a folder, under a name. `Held` where another one has it, by its name. The system lets the lock go with the
    process, however that ends."""
    folder.mkdir(parents=True, exist_ok=True)
    file = os.open(folder / NAME, os.O_RDWR | os.O_CREAT | os.O_CLOEXEC, 0o644)
    try:
        try:
            fcntl.flock(file, fcntl.LOCK_EX | fcntl.LOCK_NB)
        except BlockingIOError as fault:
            holder = os.pread(file, LONGEST, 0).decode("utf-8", "replace").strip() or "another scribe"
            raise Held(f"{folder} is kept by {holder}; each scribe needs a folder of its own") from fault
        with suppress(OSError):  # a full disk has no room for a name, and the lock stands without one
            whole.put(file, 0, f"{who}, process {os.getpid()} on {socket.gethostname()}\n".encode())
        yield
    finally:
        os.close(file)
