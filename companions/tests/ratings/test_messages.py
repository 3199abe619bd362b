"""A message is there whole once it is kept, on a full disk too; and goes once it was handed on."""

import errno
import os
import subprocess
from collections.abc import Iterator
from contextlib import suppress
from datetime import datetime
from pathlib import Path

import pytest
from ficsd_companions.ratings.messages import MOST_FOR_EACH, Box, Full, Taken

WHEN = datetime(2026, 11, 30, 20, 15)


def at(minute: int) -> datetime:
    return WHEN.replace(minute=minute)


class Kept:
    """A folder of messages, and who has it."""

    def __init__(self, folder: Path) -> None:
        self.folder, self.box = folder, Box(folder)

    def anew(self) -> dict[str, list[str]]:
        """What waits for whom, as the next program finds it."""
        self.box.close()
        self.box = Box(self.folder)
        return {name: list(map(str, its)) for name, its in self.box.waiting.items()}


@pytest.fixture
def kept(tmp_path: Path) -> Iterator[Kept]:
    it = Kept(tmp_path / "messages")
    yield it
    it.box.close()


def test_messages_are_kept_in_their_order(kept: Kept) -> None:
    kept.box.keep("Ben", "Ann", "second", at(16))
    kept.box.keep("Cat", "ann", "first", at(15))
    kept.box.keep("Ben", "Cat", 'see you "on" Friday', at(17))
    assert kept.anew() == {
        "ann": ["Message of Cat, 2026-11-30 20:15: first", "Message of Ben, 2026-11-30 20:16: second"],
        "cat": ['Message of Ben, 2026-11-30 20:17: see you "on" Friday'],
    }


def test_nobody_else_reads_them(kept: Kept) -> None:
    kept.box.keep("Ben", "Ann", "first", at(15))
    [file] = kept.folder.iterdir()
    assert (file.stat().st_mode & 0o777, kept.folder.stat().st_mode & 0o777) == (0o600, 0o700)


def test_what_was_handed_on_is_gone(kept: Kept) -> None:
    kept.box.keep("Ben", "Ann", "first", at(15))
    kept.box.keep("Ben", "Ann", "second", at(16))
    kept.box.remove(kept.box.waiting["ann"][0])
    assert kept.anew() == {"ann": ["Message of Ben, 2026-11-30 20:16: second"]}
    kept.box.remove(kept.box.waiting["ann"][0])
    assert kept.anew() == {} and list(kept.folder.iterdir()) == []


def test_at_most_twenty_wait_for_each(kept: Kept) -> None:
    assert MOST_FOR_EACH == 20
    for minute in range(20):
        kept.box.keep("Ben", "Ann", "x", at(minute))
    with pytest.raises(Full):
        kept.box.keep("Cat", "ANN", "one more", at(30))
    kept.box.keep("Ben", "Cat", "x", at(30))
    assert len(kept.anew()["ann"]) == 20
    kept.box.remove(kept.box.waiting["ann"][0])
    kept.box.keep("Cat", "Ann", "there is room", at(31))


@pytest.mark.parametrize("call", ("open", "write", "fsync", "replace"))
def test_a_disk_that_doesnt_take_it_has_nothing_of_it(kept: Kept, monkeypatch: pytest.MonkeyPatch, call: str) -> None:
    kept.box.keep("Ben", "Ann", "kept", at(15))

    def full(*_words: object, **_named: object) -> None:
        raise OSError(errno.ENOSPC, os.strerror(errno.ENOSPC))

    with monkeypatch.context() as patch:
        patch.setattr(os, call, full)
        with pytest.raises(OSError):
            kept.box.keep("Ben", "Ann", "lost", at(16))
    assert [it.text for it in kept.box.waiting["ann"]] == ["kept"]
    assert len(list(kept.folder.iterdir())) == 1
    assert kept.anew() == {"ann": ["Message of Ben, 2026-11-30 20:15: kept"]}


def test_what_was_cut_off_is_none(kept: Kept) -> None:
    """As by a kill: nobody was told that it is kept."""
    kept.box.keep("Ben", "Ann", "kept", at(15))
    (kept.folder / "ann-1.new").write_text('{"sender": "Ben", "to"', encoding="utf-8")
    (kept.folder / "ann-2.json").write_text("something else", encoding="utf-8")
    assert kept.anew() == {"ann": ["Message of Ben, 2026-11-30 20:15: kept"]}
    assert not (kept.folder / "ann-1.new").exists() and (kept.folder / "ann-2.json").exists()


def test_a_folder_is_one_programs_alone(kept: Kept) -> None:
    with pytest.raises(Taken):
        Box(kept.folder)
    kept.anew()


@pytest.mark.root
def test_over_a_small_disk_that_is_full(tmp_path: Path) -> None:
    """Until it is full each message is kept whole, and then none; once there is room it goes on."""
    disk = tmp_path / "disk"
    disk.mkdir()
    subprocess.run(["mount", "-t", "tmpfs", "-o", "size=64k,nr_inodes=64", "tmpfs", disk], check=True)
    kept, there, filler = Kept(disk / "messages"), [], disk / "filler"
    try:
        for step in range(17):
            with open(filler, "ab", buffering=0) as file, suppress(OSError):
                file.write(b"x" * 4096)
            name = f"ann{'abcdefghijklmnopq'[step]}"
            try:
                kept.box.keep("Ben", name, "y" * 600, at(step))
                there.append(name)
            except OSError as fault:
                assert fault.errno == errno.ENOSPC
        assert 0 < len(there) < 17
        assert sorted(kept.anew()) == sorted(there)
        assert all(it.suffix == ".json" for it in kept.folder.iterdir())
        filler.unlink()
        kept.box.keep("Ben", "Zoe", "y" * 600, at(40))
        assert sorted(kept.anew()) == sorted([*there, "zoe"])
    finally:
        kept.box.close()
        subprocess.run(["umount", disk], check=True)
