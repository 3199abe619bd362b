"""What is in a store: read from the store itself, or from a copy of it while a server has it."""

import sqlite3
import tempfile
from collections.abc import Callable, Iterator
from contextlib import closing, contextmanager
from pathlib import Path
from typing import TypeVar

from ficsd_companions.watch.shelf import is_copied

from . import records
from .faults import Refused, said_in_words
from .records import Account, Game

Read = TypeVar("Read")
TRIES = 20  # to copy a store while nothing is put into it


class Reading:
    """The records of a store, which is open as a database; `path` is where it lies."""

    path: Path
    base: sqlite3.Connection

    def check_table(self) -> None:
        """Refuses a database that is no store."""
        columns = [(name, kind) for _, name, kind, *_ in self.base.execute("PRAGMA table_info(records)")]
        if columns != [("key", "BLOB"), ("record", "BLOB")]:
            raise Refused(f"{self.path} isn't a store of ficsd: it has no such table of records")

    def rows(
        self, wanted: str, read: Callable[[bytes, bytes], Read], what: str = "record", values: tuple[bytes, ...] = ()
    ) -> list[Read]:
        """The records that a condition names, oldest first: a row keeps its place for as long as it is there."""
        line = f"SELECT key, {what} FROM records WHERE {wanted} ORDER BY rowid"
        with said_in_words(self.path):
            rows = self.base.execute(line, values).fetchall()
        try:
            return [read(*row) for row in rows]
        except records.BadRecord:
            raise Refused(f"{self.path} has a bad record; `ficsd check --store` names it") from None

    def accounts(self) -> list[Account]:
        return sorted(self.rows("key < x'67'", records.read_account), key=lambda it: it.name.lower())

    def games(self) -> list[Game]:
        """The heads of the games, without their half-moves, of which a store may have a gigabyte."""
        return self.rows("key >= x'67'", records.read_game, f"substr(record, 1, {records.MOST_OF_A_HEAD})")

    def games_of(self, name: str) -> list[Game]:
        """The games that a player is in, oldest first."""
        return [it for it in self.games() if it.has(name)]


class Copy(Reading):
    """A copy that is open."""

    def __init__(self, path: Path, base: sqlite3.Connection) -> None:
        self.path, self.base = path, base


@contextmanager
def copied(path: Path) -> Iterator[Copy]:
    """A copy of the store and its log, among files of a moment, where nobody else reads it."""
    path = path.resolve()
    if not path.is_file():
        raise Refused(f"there is no store at {path}")
    with said_in_words(path), tempfile.TemporaryDirectory() as folder:
        it = Path(folder, "club.db")
        if not any(is_copied(path, it) for _ in range(TRIES)):
            raise Refused(f"{path}: the server put something into it all the while; try it again")
        with closing(sqlite3.connect(it)) as base:
            copy = Copy(path, base)
            copy.check_table()
            yield copy
