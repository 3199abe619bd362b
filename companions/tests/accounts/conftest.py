"""Stores that the kit spells byte by byte, and `fics_accounts` over them."""

import shutil
import sqlite3
import subprocess
import tempfile
from collections.abc import Iterable
from contextlib import closing
from pathlib import Path

import pytest

from tests.kit import paths, records
from tests.kit.records import Row
from tests.kit.running import ended

ENDS = ("", "-wal", ".before", ".before.new", ".before.new-journal")  # of the names of a store's files
NAMES = ("Ann", "Ben", "Cat", "Dan")


def beside(path: Path, end: str) -> Path:
    return path.with_name(path.name + end)


def rows_of(path: Path) -> list[Row]:
    """The rows of a store, oldest first; they are read from a copy of its files, so that these stay as they are."""
    with tempfile.TemporaryDirectory() as folder:
        copy = Path(folder, "club.db")
        for end in ("", "-wal"):
            if beside(path, end).exists():
                shutil.copy(beside(path, end), beside(copy, end))
        with closing(sqlite3.connect(copy)) as base:
            return base.execute("SELECT key, record FROM records ORDER BY rowid").fetchall()


def checked(path: Path) -> str:
    """What the server's program says of a store."""
    return ended(paths.program, "check", "--store", path).stdout.strip()


def pair(number: int, names: Iterable[str]) -> Row:
    """The key and the record of a pair of two half-moves on each board."""
    head = b"\x02G\x02" + (3).to_bytes(2, "big") + (0).to_bytes(2, "big")
    return records.game_key(number), head + b"".join(map(records.name_text, names)) + records.around(2, 2)


def fischer(number: int, white: str, black: str) -> Row:
    """The key and the record of a game of Fischer random that has begun with no half-move."""
    head = b"\x03G" + (518).to_bytes(2, "big") + (0).to_bytes(2, "big") * 2
    return records.game_key(number), head + records.name_text(white) + records.name_text(black) + b"\0\0"


def small_rows() -> list[Row]:
    """Four accounts and five games: number 5 lies longest, since a game gets the least number that is free."""
    return [
        *(records.account(it, "secret") for it in NAMES),
        records.game(5, "Ann", "Ben", ["e2e4"]),
        records.game(1, "Ben", "Cat", ["d2d4", "d7d5"]),
        pair(2, ("Cat", "Dan", "Ann", "Ben")),
        fischer(3, "Dan", "Ann"),
        records.game(4, "Cat", "Dan", records.MOVES),
    ]


class Store:
    """A store of small_rows, in the form in which a server leaves it; `program` is what checks it for the tool, where
    that isn't the server's."""

    def __init__(self, path: Path) -> None:
        self.path, self.rows = path, small_rows()
        self.before = beside(path, ".before")
        self.program: Path | str | None = None
        self.fill(self.rows)

    def fill(self, rows: Iterable[Row]) -> None:
        """Makes it anew."""
        for end in ENDS:
            beside(self.path, end).unlink(missing_ok=True)
        records.make_store(self.path, rows)
        with closing(sqlite3.connect(self.path)) as base:
            base.execute("PRAGMA journal_mode = WAL")

    def tool(self, *words: str, given: str = "", ahead: Iterable[str] = ()) -> subprocess.CompletedProcess[str]:
        """Runs the tool over it; `ahead` are the words of a program that runs it."""
        tool = paths.companion("fics_accounts"), "--store", self.path, "--program", self.program or paths.program
        return ended(*ahead, *tool, *words, given=given)

    def done(self, *words: str, given: str = "") -> None:
        """The tool makes a change; the copy has what was there before."""
        before = rows_of(self.path)
        it = self.tool(*words, given=given)
        assert it.returncode == 0, it.stderr
        assert rows_of(self.before) == before

    def refused(self, *words: str, given: str = "", said: str, status: int = 1) -> None:
        """The tool refuses, says so, and the store is as it was."""
        before = rows_of(self.path)
        it = self.tool(*words, given=given)
        assert (it.returncode, said in it.stderr) == (status, True), it.stderr
        assert rows_of(self.path) == before


@pytest.fixture
def store(tmp_path: Path) -> Store:
    return Store(tmp_path / "club.db")
