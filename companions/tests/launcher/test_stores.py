"""Stores of `ficsd`: whose they are, which are none, and what is said of those that can't be had."""

import os
import shutil
import socket
import sqlite3
import subprocess
import sys
import tempfile
from collections.abc import Iterator
from contextlib import closing
from pathlib import Path

import pytest

from tests.kit import paths, records
from tests.kit.link import Link
from tests.kit.ports import free_port
from tests.kit.running import Run, ended

LAUNCHER = paths.TOP / "tools" / "launch" / "run"
NOBODY = 65534
READING = ("check", "pgn", "examine")
HOLDS = """
import sqlite3, sys
base = sqlite3.connect(sys.argv[1], isolation_level=None)
base.execute('BEGIN EXCLUSIVE')
print('has it', flush=True)
sys.stdin.read()
"""
# tables that aren't a store's: what each gives way in stands behind it
OTHERS = (
    "CREATE TABLE records (key TEXT PRIMARY KEY NOT NULL, record TEXT NOT NULL) STRICT",  # texts
    "CREATE TABLE records (key INTEGER PRIMARY KEY, record TEXT)",  # numbers
    "CREATE TABLE records (key BLOB PRIMARY KEY NOT NULL, record BLOB NOT NULL)",  # no STRICT
    "CREATE TABLE records (key BLOB NOT NULL, record BLOB NOT NULL) STRICT",  # no key
    "CREATE TABLE records (key BLOB PRIMARY KEY NOT NULL, record BLOB) STRICT",  # records that are none
    "CREATE TABLE records (key BLOB PRIMARY KEY NOT NULL, record BLOB NOT NULL, more BLOB) STRICT",  # a third column
    "CREATE VIEW records AS SELECT x'00' AS key, x'00' AS record",  # no table
    "PRAGMA encoding = 'UTF-16'; " + records.TABLE,
    "PRAGMA auto_vacuum = FULL; " + records.TABLE,
)


def words_of(command: str, store: Path) -> tuple[object, ...]:
    """The words of a command over a store; a server's address is nowhere, so that it ends at once."""
    more: dict[str, tuple[object, ...]] = {
        "serve": ("--port", free_port(), "--bind", "192.0.2.1"),
        "examine": ("--game", 1),
    }
    return command, "--store", store, *more.get(command, ())


def said(
    command: str, store: Path, ahead: tuple[object, ...] = (), program: Path | None = None, env: dict[str, str] = {}
) -> tuple[int, str]:
    """The status of a command by the launcher, and what it says on the standard error."""
    words = ahead + (LAUNCHER, "--called", "./ficsd", program or paths.program, *words_of(command, store))
    done = ended(*words, env={**os.environ, **env})
    return done.returncode, done.stderr


def made(store: Path, script: str) -> Path:
    with closing(sqlite3.connect(store)) as base:
        base.executescript(script)
    return store


def mode(path: Path) -> int:
    return path.stat().st_mode & 0o777


@pytest.mark.parametrize("name", ("club.db", "made.db"))
def test_nobody_else_reads_a_store(tmp_path: Path, name: str) -> None:
    """Neither a new one nor the log of one that is there, whatever the mask of who starts the server."""
    store, port = tmp_path / name, free_port()
    if name == "made.db":
        made(store, records.TABLE).chmod(0o600)
    words = "sh", "-c", 'umask 022; exec "$@"', "sh", LAUNCHER, paths.program, "serve", "--port", port
    server = Run(*words, "--store", store)
    try:
        server.begin()
        link = Link(port)
        link.say("Ann", "register tuna")
        link.until("^Ok")
        assert (mode(store), mode(store.with_name(name + "-wal"))) == (0o600, 0o600)
        link.link.close()
    finally:
        server.terminate()


class TestWhy:
    """Each cause has its word."""

    @pytest.mark.parametrize("command", READING)
    def test_missing(self, tmp_path: Path, command: str) -> None:
        store = tmp_path / "none.db"
        assert said(command, store) == (
            4,
            f"ficsd: status 4: the store can't be had (missing): there is no file {store}\n",
        )

    def test_missing_folder(self, tmp_path: Path) -> None:
        status, text = said("serve", tmp_path / "none" / "club.db")
        assert (status, f"(missing): there is no folder {tmp_path}/none" in text) == (4, True), text

    @pytest.mark.parametrize("command", ("serve", *READING))
    @pytest.mark.parametrize("content", (b"no database" * 1000, b"SQLite format 2\0" + bytes(4096)))
    def test_no_database(self, tmp_path: Path, command: str, content: bytes) -> None:
        store = tmp_path / "club.db"
        store.write_bytes(content)
        status, text = said(command, store)
        assert (status, f"(no database): {store} is no database of SQLite" in text) == (4, True), text
        assert store.read_bytes() == content

    @pytest.mark.parametrize("command", ("serve", "check"))
    def test_a_folder_is_no_database(self, tmp_path: Path, command: str) -> None:
        status, text = said(command, tmp_path)
        assert (status, f"(no database): {tmp_path} is no file" in text) == (4, True), text

    def test_damaged(self, tmp_path: Path) -> None:
        store = made(tmp_path / "club.db", records.TABLE)
        store.write_bytes(store.read_bytes()[:3000])
        status, text = said("serve", store)
        assert (status, f"(damaged): {store}: " in text) == (4, True), text

    def test_locked(self, tmp_path: Path) -> None:
        store = made(tmp_path / "club.db", records.TABLE)
        words = [sys.executable, "-c", HOLDS, str(store)]
        with subprocess.Popen(words, stdin=subprocess.PIPE, stdout=subprocess.PIPE, text=True) as other:
            assert other.stdin and other.stdout
            assert other.stdout.readline() == "has it\n"
            status, text = said("serve", store)
            other.stdin.close()
        assert (status, "(locked): " in text, f"(process {other.pid}) has {store} open" in text) == (4, True, True)

    def test_another_server_has_it(self, tmp_path: Path) -> None:
        store, port = tmp_path / "club.db", free_port()
        server = Run(paths.program, "serve", "--port", port, "--store", store)
        server.begin()
        try:
            status, text = said("serve", store)
            assert (status, f"(process {server.id}) has {store} open" in text) == (4, True), text
        finally:
            server.end()

    @pytest.mark.root
    @pytest.mark.parametrize("command", ("serve", *READING))
    def test_not_permitted(self, reachable: Path, command: str) -> None:
        """Another user is told whose the store is."""
        store = made(reachable / "club.db", records.TABLE)
        store.chmod(0o600)
        shutil.copy(paths.program, reachable / "program")
        ahead = "setpriv", "--reuid", NOBODY, "--regid", NOBODY, "--clear-groups"
        status, text = said(command, store, ahead, reachable / "program")
        assert status == 4
        assert "(not permitted): nobody may not read" in text and f"{store}, which root has, with mode 600" in text


@pytest.fixture
def reachable() -> Iterator[Path]:
    """A folder that other users reach."""
    with tempfile.TemporaryDirectory() as folder:
        Path(folder).chmod(0o755)
        yield Path(folder)


class TestAnotherTable:
    """A table that is no store's, which the program alone would serve: registrations were answered and lost."""

    @pytest.mark.parametrize("script", OTHERS)
    def test_it_is_refused(self, tmp_path: Path, script: str) -> None:
        store = made(tmp_path / "club.db", script)
        before = store.read_bytes()
        for command in ("serve", *READING):
            status, text = said(command, store)
            assert (status, "(another table): " in text) == (4, True), (command, text)
        assert (store.read_bytes(), os.listdir(tmp_path)) == (before, ["club.db"])

    @pytest.mark.parametrize("script", (records.TABLE, "CREATE TABLE other (it)", ""))
    def test_a_store_is_none(self, tmp_path: Path, script: str) -> None:
        """Nor is a database without a table of records, or an empty one."""
        status, text = said("check", made(tmp_path / "club.db", script))
        assert (status, text) == (0, "")
        status, text = said("serve", tmp_path / "club.db")
        assert status == 8, text


class TestUnderSystemd:
    """What can't pass ends with a status by which the unit isn't started again; what may pass doesn't."""

    @pytest.fixture
    def env(self, tmp_path: Path) -> Iterator[dict[str, str]]:
        with socket.socket(socket.AF_UNIX, socket.SOCK_DGRAM) as link:
            link.bind(str(tmp_path / "notify"))
            yield {"NOTIFY_SOCKET": str(tmp_path / "notify")}

    def test_what_stays(self, tmp_path: Path, env: dict[str, str]) -> None:
        store = tmp_path / "club.db"
        store.write_bytes(b"no database" * 1000)
        assert said("serve", store, env=env)[0] == 78
        store.unlink()
        assert said("serve", made(store, OTHERS[0]), env=env)[0] == 78
        assert said("serve", tmp_path / "none" / "club.db", env=env)[0] == 78

    def test_what_may_pass(self, tmp_path: Path, env: dict[str, str]) -> None:
        store = made(tmp_path / "club.db", records.TABLE)
        words = [sys.executable, "-c", HOLDS, str(store)]
        with subprocess.Popen(words, stdin=subprocess.PIPE, stdout=subprocess.PIPE, text=True) as other:
            assert other.stdin and other.stdout
            assert other.stdout.readline() == "has it\n"
            assert said("serve", store, env=env)[0] == 4
            other.stdin.close()

    @pytest.mark.parametrize("unit", ("ficsd", "fics_server@"))
    def test_units_rest_by_that(self, unit: str) -> None:
        text = (paths.TOP / "tools" / "pack" / "systemd" / f"{unit}.service").read_text(encoding="utf-8")
        line = next(it for it in text.splitlines() if it.startswith("RestartPreventExitStatus="))
        assert {"78", "5", "1"} <= set(line.partition("=")[2].split()) and "4" not in line.split("=")[1].split()
