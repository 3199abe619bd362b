"""Which stores are taken, how their files stay, and what becomes of a store that `check` doesn't find good."""

import os
import sqlite3
import subprocess
import sys
from contextlib import closing
from pathlib import Path

import pytest

from tests.kit import paths, records

from .conftest import Store, checked, rows_of

READS = """
import sqlite3, sys
base = sqlite3.connect(sys.argv[1], isolation_level=None)
base.execute('BEGIN')
base.execute('SELECT * FROM records').fetchall()
print('has it', flush=True)
sys.stdin.read()
"""


class TestTaken:
    def test_no_store(self, store: Store) -> None:
        store.path = store.path.with_name("none.db")
        it = store.tool("list")
        assert (it.returncode, "there is no store" in it.stderr, store.path.exists()) == (1, True, False)
        for content in (b"", b"no database" * 1000):
            store.path.write_bytes(content)
            it = store.tool("list")
            assert (it.returncode, it.stderr.count("\n")) == (1, 1), it.stderr

    def test_bad_records(self, store: Store) -> None:
        for row in (
            (b"aeve", b"\x01A\x03Eve" + b"x" * 31),
            (b"aeve", b"\x01A\x03Fay" + b"x" * 32),
            (b"zzz", b""),
            (b"aeve", b"\x01A\x63Eve"),
            (b"g", b"\x01G\x00"),
        ):
            store.fill([*store.rows, row])
            store.refused("password", "ann", given="a\na\n", said="bad record")
        store.fill([*store.rows, records.game(6, "Ann", "Ben", ["e2e5"])])
        store.refused("password", "ann", given="a\na\n", said="bad record 67")

    def test_another_table(self, store: Store) -> None:
        store.path.unlink()
        with closing(sqlite3.connect(store.path)) as base:
            base.execute("CREATE TABLE records (key TEXT PRIMARY KEY, record TEXT)")
        for words in (["list"], ["password", "ann"]):
            it = store.tool(*words, given="a\na\n")
            assert (it.returncode, "isn't a store of ficsd" in it.stderr) == (1, True), it.stderr

    @pytest.mark.root
    def test_files_stay_as_they_are(self, store: Store) -> None:
        store.path.chmod(0o640)
        os.chown(store.path, 12345, 12346)
        before = store.path.stat()
        store.done("rename", "ann", "Xenia")
        for it in (store.path, store.before):
            stat = it.stat()
            assert (stat.st_uid, stat.st_gid, stat.st_mode & 0o777) == (12345, 12346, 0o640)
        assert store.path.stat().st_ino == before.st_ino
        assert sorted(os.listdir(store.path.parent)) == ["club.db", "club.db.before"]

    def test_another_sqlite(self, store: Store) -> None:
        """Another process reads it: in this one, reading the files for a comparison would give up its locks."""
        words = [sys.executable, "-c", READS, str(store.path)]
        with subprocess.Popen(words, stdin=subprocess.PIPE, stdout=subprocess.PIPE, text=True) as other:
            assert other.stdin and other.stdout
            assert other.stdout.readline() == "has it\n"
            store.refused("password", "ann", given="a\na\n", said="database is locked")
            store.refused("password", "ann", given="a\na\n", said="Stop the server first")
            assert store.tool("list").stdout.splitlines()[-1].startswith("4 accounts ")
            other.stdin.close()
        store.done("password", "ann", given="a\na\n")

    def test_no_checker(self, store: Store) -> None:
        store.program = "/nowhere/ficsd"
        store.refused("password", "ann", given="a\na\n", said="can't be run")


CHANGES = (["rename", "ann", "Xenia"], ["clear", "--player", "Ann", "--yes"])
# finds a bad record at its second call, and from then on can't be run where a file says so
CHECKER = """#!/bin/sh
echo >>{folder}/calls
[ $(wc -l <{folder}/calls) != 2 ] || {{ echo 'bad record 61'; exit 5; }}
[ $(wc -l <{folder}/calls) = 1 ] || [ ! -e {folder}/full ] || exit 6
exec {program} "$@"
"""


class TestCheck:
    """What `check` says decides: here by a program that says at its second call what the test wants."""

    @pytest.fixture
    def folder(self, store: Store) -> Path:
        folder = store.path.parent
        store.program = folder / "check"
        store.program.write_text(CHECKER.format(folder=folder, program=paths.program), encoding="utf-8")
        store.program.chmod(0o755)
        return folder

    @pytest.mark.parametrize("words", CHANGES)
    def test_the_copy_comes_back(self, store: Store, folder: Path, words: list[str]) -> None:
        store.refused(*words, said="bad record 61\nThe store is again as it was")
        assert checked(store.path) == "ok: 4 accounts, 5 games"

    def test_the_copy_cannot_come_back(self, store: Store, folder: Path) -> None:
        (folder / "full").touch()
        it = store.tool("rename", "ann", "Xenia")
        assert (it.returncode, f"lies in {store.before}" in it.stderr) == (3, True), it.stderr
        assert rows_of(store.before) == store.rows

    def test_a_bad_store_is_left_alone(self, store: Store, folder: Path) -> None:
        (folder / "calls").write_text("\n", encoding="utf-8")
        store.refused("rename", "ann", "Xenia", said="bad record 61\nNothing was changed")
        assert not store.before.exists()
