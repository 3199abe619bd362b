"""What is in the store of a server, also while the server has it, and whether its disk takes more."""

import os
import re
import shutil
import sqlite3
import subprocess
import tempfile
from collections.abc import Iterator
from contextlib import closing, contextmanager, suppress
from pathlib import Path

from ficsd_companions.accounts import records
from ficsd_companions.cli.program import explained

ROOM = 65536  # bytes; some records of a store
TRIES = 5  # to copy a store while nothing is put into it

Marks = list[tuple[int, int]]


class Unreadable(Exception):
    """What `check` says of a store that isn't good."""


def counts(program: str, path: Path) -> tuple[int, int]:
    """How many accounts and adjourned games the store has."""
    words = [*explained(program), "check", "--store", str(path)]
    done = subprocess.run(words, stdin=subprocess.DEVNULL, capture_output=True, text=True)
    found = re.fullmatch(r"ok: (\d+) accounts, (\d+) games\n", done.stdout)
    if not found:
        raise Unreadable(done.stdout.strip() or done.stderr.strip() or f"`check` ended with {done.returncode}")
    return int(found[1]), int(found[2])


def log_of(path: Path) -> Path:
    """The file in which SQLite has what isn't in the store's yet."""
    return path.with_name(path.name + "-wal")


def is_copied(path: Path, copy: Path) -> bool:
    """Copies the store and its log: whether nothing was put into them meanwhile, so that the two belong together."""
    before = marks(path)
    shutil.copyfile(path, copy)
    log_of(copy).unlink(missing_ok=True)
    if log_of(path).exists():
        shutil.copyfile(log_of(path), log_of(copy))
    return marks(path) == before


@contextmanager
def copied(path: Path, folder: Path) -> Iterator[sqlite3.Connection]:
    """A copy of the file and its log in a folder, opened by SQLite."""
    with tempfile.TemporaryDirectory(dir=folder) as inner:
        copy = Path(inner, "club.db")
        any(is_copied(path, copy) for _ in range(TRIES))
        with closing(sqlite3.connect(copy)) as base:
            yield base


def names_of_accounts(base: sqlite3.Connection) -> set[str]:
    """The names of the accounts, in small letters."""
    keys = base.execute("SELECT key FROM records WHERE key < ?", (records.GAMES_FROM,)).fetchall()
    return {key[1:].decode("ascii", "replace") for key, in keys}


def numbers_of_games(base: sqlite3.Connection) -> set[int]:
    keys = base.execute("SELECT key FROM records WHERE key >= ?", (records.GAMES_FROM,)).fetchall()
    return {int.from_bytes(key[1:], "big") for key, in keys}


def players_of_games(base: sqlite3.Connection, but: set[int]) -> list[tuple[str, ...]]:
    """The players of each game that is on the shelf, in the order of the numbers, but for those numbers."""
    rows = base.execute("SELECT key, record FROM records WHERE key >= ? ORDER BY key", (records.GAMES_FROM,))
    games = [records.read_game(key, record) for key, record in rows]
    return [it.names for it in games if it.number not in but]


def count_of_games(base: sqlite3.Connection) -> int:
    found: tuple[int] = base.execute("SELECT count(*) FROM records WHERE key >= ?", (records.GAMES_FROM,)).fetchone()
    return found[0]


def marks(path: Path) -> Marks:
    """What changes with each record that is put."""
    found = []
    for it in (path, log_of(path)):
        with suppress(FileNotFoundError):
            stat = it.stat()
            found.append((stat.st_size, stat.st_mtime_ns))
    return found


def why_no_room(path: Path) -> str | None:
    """Why the disk takes no more bytes in the store's folder; nothing where it does."""
    try:
        with tempfile.TemporaryFile(dir=path.resolve().parent, buffering=0) as file:
            file.write(os.urandom(ROOM))
            os.fsync(file.fileno())
    except OSError as error:
        return error.strerror
    return None


def free_mebibytes(path: Path) -> int:
    """How much room is left in the store's folder for who serves."""
    disk = os.statvfs(path.resolve().parent)
    return disk.f_bavail * disk.f_frsize // 2**20
