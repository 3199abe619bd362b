"""A file that is put whole."""

import errno
import os
from pathlib import Path

import pytest
from ficsd_companions.cli.replacing import replace

from tests.kit.small_disk import PAGE, small_disk


def test_the_new_one_stands_in_the_place_of_the_old(tmp_path: Path) -> None:
    path = tmp_path / "list"
    for text in ("one\ntwo\n", "é\n", ""):
        replace(path, text)
        assert path.read_text(encoding="utf-8") == text
        assert os.listdir(tmp_path) == ["list"]


def test_nobody_else_reads_what_is_private(tmp_path: Path) -> None:
    path = tmp_path / "letter"
    replace(path, b"hm", mode=0o600)
    assert path.stat().st_mode & 0o777 == 0o600


def test_where_it_cant_be_put_the_old_one_stays(tmp_path: Path) -> None:
    path = tmp_path / "list"
    replace(path, "old")
    (tmp_path / "list.new").mkdir()
    with pytest.raises(IsADirectoryError):
        replace(path, "new")
    assert path.read_text(encoding="utf-8") == "old"


@pytest.mark.root
def test_a_full_disk_has_the_old_one_and_nothing_beside_it(tmp_path: Path) -> None:
    with small_disk(tmp_path / "disk") as disk:
        path = disk.folder / "list"
        replace(path, "old")
        disk.fill()
        with pytest.raises(OSError) as fault:
            replace(path, bytes(3 * PAGE))
        assert fault.value.errno == errno.ENOSPC
        assert sorted(os.listdir(disk.folder)) == ["filler", "list"]
        assert path.read_text(encoding="utf-8") == "old"
