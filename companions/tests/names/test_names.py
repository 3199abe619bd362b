"""The names are those that have an account at that moment, and a list is there whole or not at all."""

import os
import signal
from pathlib import Path

import pytest
from ficsd_companions.names import run
from ficsd_companions.names.known import Names

from ficslink.member import Member
from tests.kit import paths, records
from tests.kit.running import Run, Server, async_wait_until, ended, wait_until


def test_a_store(tmp_path: Path) -> None:
    store = tmp_path / "club.db"
    records.make_store(store, [records.account("Ann", "x"), records.game(1, "Ben", "Cat", ["e2e4"])])
    names = Names(store)
    assert names.known() == {"ann"}
    assert (names.has("ANN"), names.has("Ben")) == (True, False)


async def test_a_store_beside_its_server(server: Server) -> None:
    """Whoever registers is known once it is kept."""
    assert server.store
    names = Names(Path(server.store))
    assert names.known() == set()
    async with await Member.enter("127.0.0.1", server.port, "Ann") as ann:
        await ann.register("secret")

        async def is_known() -> bool:
            return names.has("Ann") is True

        assert await async_wait_until(is_known)
        assert names.known() == {"ann"}


def test_a_list(tmp_path: Path) -> None:
    file = tmp_path / "accounts"
    file.write_text("", encoding="utf-8")
    names = Names(file)
    assert names.known() == set()
    file.write_text("Ann\n\n ben \n", encoding="utf-8")
    assert names.known() == {"ann", "ben"}


def test_a_file_that_isnt_there_or_is_no_store(tmp_path: Path) -> None:
    names = Names(tmp_path / "club.db")
    assert names.known() is None and names.has("Ann") is None
    (tmp_path / "club.db").write_bytes(b"SQLite format 3\0 and no more")
    assert names.known() is None
    (tmp_path / "club.db").write_bytes(b"Ann\n")
    assert names.has("Ann") is True


def test_the_list_follows_the_store(tmp_path: Path) -> None:
    store, to = tmp_path / "club.db", tmp_path / "accounts"
    records.make_store(store, [records.account("Ann", "x")])
    follower = Run(paths.companion("fics_names"), "--store", store, "--to", to)
    try:
        assert wait_until(lambda: to.exists() and to.read_text() == "ann\n", unless=follower.has_told_all)
        store.unlink()
        records.make_store(store, [records.account(it, "x") for it in ("Ann", "Ben")])
        assert wait_until(lambda: to.read_text() == "ann\nben\n", unless=follower.has_told_all)
        assert follower.terminate(signal.SIGTERM) == 0
    finally:
        follower.end()


def test_once(tmp_path: Path) -> None:
    store, to = tmp_path / "club.db", tmp_path / "accounts"
    words = paths.companion("fics_names"), "--store", store, "--to", to, "--once"
    assert ended(*words).returncode == 1
    assert not to.exists()
    records.make_store(store, [records.account("Ann", "x")])
    assert ended(*words).returncode == 0
    assert to.read_text() == "ann\n"


def test_a_list_that_cant_be_written_leaves_the_one_that_is_there(
    tmp_path: Path, monkeypatch: pytest.MonkeyPatch
) -> None:
    to = tmp_path / "accounts"
    run.write(to, frozenset({"ann"}))

    def full(_descriptor: int) -> None:
        raise OSError(28, "No space left on device")

    monkeypatch.setattr(os, "fsync", full)
    with pytest.raises(OSError):
        run.write(to, frozenset({"ann", "ben"}))
    assert to.read_text() == "ann\n"
    assert [it.name for it in tmp_path.iterdir()] == ["accounts"]
