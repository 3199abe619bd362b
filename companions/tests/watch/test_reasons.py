"""Why a store can't be looked at is said in words, where the program lies as it is installed."""

from pathlib import Path

from tests.kit import paths
from tests.kit.running import ended


def test_a_store_that_is_none(tmp_path: Path) -> None:
    done = ended(paths.TOP / "tools/pack/install", "--program", paths.program, "--prefix", "usr", tmp_path / "root")
    assert done.returncode == 0, done.stderr
    bin, store = tmp_path / "root/usr/bin", tmp_path / "club.db"
    store.write_bytes(b"no database" * 1000)
    watched = ended(bin / "fics_watch", "--store", store)
    assert (watched.returncode, f"(no database): {store} is no database of SQLite" in watched.stdout) == (1, True)
    store.unlink()
    watched = ended(bin / "fics_watch", "--store", store)
    assert (watched.returncode, f"(missing): there is no file {store}" in watched.stdout) == (1, True)


def test_a_program_that_cannot_be_run(tmp_path: Path) -> None:
    """A line, and no traceback."""
    store, program = tmp_path / "club.db", tmp_path / "program"
    program.write_bytes(b"none")
    for name, words in (
        ("fics_watch", ("--store", store)),
        ("fics_bot", ("--server", "localhost:1", "--name", "Eve", "--engine", "house:1")),
        ("fics_director", ("--server", "localhost:1", "--file", tmp_path / "evening", "--chief", "Ann")),
    ):
        done = ended(paths.companion(name), *words, "--program", program)
        assert done.returncode != 0 and "Traceback" not in done.stderr, (name, done.stderr)
        assert str(program) in done.stdout + done.stderr, (name, done.stdout, done.stderr)
