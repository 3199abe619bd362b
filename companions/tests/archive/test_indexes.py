"""The index: each game once, whatever becomes of the files; nothing is read twice; nothing that isn't the archive's."""

import os
from collections.abc import Iterator
from dataclasses import dataclass
from pathlib import Path
from unittest import mock

import pytest
from ficsd_companions.archive import files, index
from ficsd_companions.archive.index import Index

from .archives import game, put


@dataclass
class Looked:
    """A folder of an archive, and its index."""

    folder: Path
    index: Index

    def links(self) -> list[str]:
        """The links of all games, once it was looked for what is new."""
        with mock.patch.object(index, "AT_LEAST_SECONDS", 0):
            self.index.refresh()
        return [it.link for day in self.index.known_days for it in self.index.days[day]]

    def names(self) -> dict[str, list[str]]:
        return {name: [it.link for it in player.games] for name, player in self.index.players.items()}


@pytest.fixture
def archive(tmp_path: Path) -> Looked:
    folder = tmp_path / "games"
    folder.mkdir()
    return Looked(folder, Index(folder))


def test_a_folder_that_nobody_has_made(archive: Looked) -> None:
    archive.folder.rmdir()
    assert archive.links() == []
    put(archive.folder, game(1))
    assert archive.links() == ["2026-11-30/1"]


def test_a_folder_that_is_a_link_of_the_file_system(archive: Looked) -> None:
    put(archive.folder, game(1))
    link = archive.folder.parent / "link"
    archive.index = Index(link)
    assert archive.links() == []
    link.symlink_to(archive.folder)
    assert archive.links() == ["2026-11-30/1"]


def test_games_of_all_files(archive: Looked) -> None:
    put(archive.folder, game(2) + game(1, "Cat"))
    put(archive.folder, game(3, Variant="Crazyhouse"), ending="-crazyhouse.pgn")
    put(archive.folder, game(7, day="2026-12-01"), "2026-12-01")
    put(archive.folder, game(9, day="2025-01-02"), "2025-01-02", "-begun.pgn")
    assert archive.links() == ["2025-01-02/9", "2026-11-30/1", "2026-11-30/2", "2026-11-30/3", "2026-12-01/7"]
    assert archive.names()["cat"] == ["2026-11-30/1"]
    assert archive.names()["ann"] == ["2025-01-02/9", "2026-11-30/2", "2026-11-30/3", "2026-12-01/7"]
    kept = archive.index.game("2026-11-30", 3)
    assert (kept.white, kept.variant, kept.control, kept.half_moves, kept.time) == (
        "Ann",
        "crazyhouse",
        "300+3",
        2,
        "20:15",
    )
    assert archive.index.game("2026-11-30", 4) is None
    assert archive.index.days_beside("2026-11-30") == ("2025-01-02", "2026-12-01")
    assert archive.index.days_beside("2026-11-29") == ("2025-01-02", "2026-11-30")


def test_a_text_stands_where_it_is_said_to_stand(archive: Looked) -> None:
    put(archive.folder, "".join(game(n, movetext=f"{n}. é" * n) for n in range(1, 20)))
    archive.links()
    for n in range(1, 20):
        span = archive.index.game("2026-11-30", n).span
        assert files.bytes_of(*span).decode() == game(n, movetext=f"{n}. é" * n)


def test_a_file_that_grows_is_read_from_its_end_on(archive: Looked) -> None:
    put(archive.folder, "".join(game(n) for n in range(1, 51)))
    assert len(archive.links()) == 50
    put(archive.folder, game(51))
    with mock.patch.object(index, "games_of", side_effect=files.games_of) as read:
        assert len(archive.links()) == 51
        assert len(archive.links()) == 51
    [(words, _)] = read.call_args_list
    assert words[1] > 49 * len(game(1))


def test_cut_anywhere(archive: Looked) -> None:
    """As much of a file as is there, and the rest once it comes."""
    text = (game(1) + game(2, Variant="Bughouse", Partner="2026-11-30/1") + game(3)).encode()
    ends = [text.index(f'[Link "2026-11-30/{n}"]'.encode()) for n in (1, 2, 3)]
    for cut in range(0, len(text), 11):
        file = put(archive.folder, "")
        file.write_bytes(text[:cut])
        archive.links()
        known = [it.number for it in archive.index.days.get("2026-11-30", [])]
        assert known == list(range(1, len(known) + 1))
        assert len(known) <= sum(it < cut for it in ends)
        with open(file, "ab") as out:
            out.write(text[cut:])
        assert len(archive.links()) == 3, cut
        file.unlink()
        assert (archive.links(), archive.names(), archive.index.count) == ([], {}, 0)


def test_a_file_that_was_changed_is_read_anew(archive: Looked) -> None:
    file = put(archive.folder, game(1) + game(2))
    assert len(archive.links()) == 2
    file.write_text(game(1, "Cathy") + game(2) + game(3))
    assert len(archive.links()) == 3
    assert archive.names()["cathy"] == ["2026-11-30/1"]
    assert archive.names()["ann"] == ["2026-11-30/2", "2026-11-30/3"]
    os.truncate(file, len(game(1, "Cathy")))
    assert archive.links() == ["2026-11-30/1"]
    assert archive.index.player("ben").tally == {"chess": [0, 1, 0, 0]}
    assert archive.index.player("ann") is None


def test_a_file_that_is_gone(archive: Looked) -> None:
    put(archive.folder, game(1))
    put(archive.folder, game(2, "Cat", Variant="Chess960"), ending="-fischer.pgn").rename(archive.folder / "away")
    put(archive.folder, game(2, "Cat", Variant="Chess960"), ending="-fischer.pgn")
    assert len(archive.links()) == 2
    (archive.folder / "2026" / "2026-11-30-fischer.pgn").unlink()
    assert archive.links() == ["2026-11-30/1"]
    assert "cat" not in archive.names()


def test_what_is_no_game_of_the_scribes(archive: Looked) -> None:
    put(
        archive.folder,
        'hello\n\n\n[Event "x"]\n\n1. e4 *\n\n'
        + game(1).replace("Link", "Lnk")
        + game(0)
        + game(2, day="2026-11-29")
        + game(3, Variant="Suicide")
        + game(4, white="")
        + game(5)
        + game(5, "Cat"),
    )
    assert archive.links() == ["2026-11-30/5"]
    assert archive.names() == {"ann": ["2026-11-30/5"], "ben": ["2026-11-30/5"]}


def test_other_files_and_links_of_the_file_system(archive: Looked) -> None:
    outside = put(archive.folder.parent / "outside", game(1))
    year = archive.folder / "2026"
    year.mkdir()
    (year / "2026-11-30.pgn").symlink_to(outside)
    (archive.folder / "2025").symlink_to(outside.parent)
    for name in ("notes.pgn", "2026-11-30.pgn.bak", "2026-11-30-Über.pgn", "2026-1-3.pgn"):
        (year / name).write_text(game(1))
    for name in ("waiting", "running", "20x6"):
        (archive.folder / name).mkdir()
        (archive.folder / name / "2026-11-30.pgn").write_text(game(1))
    (year / "2026-11-29.pgn").mkdir()
    assert archive.links() == []


def test_names_in_any_letters(archive: Looked) -> None:
    put(archive.folder, game(1, 'Müller, \\"Hans\\"', "<b>x</b>") + game(2, "ANN", "Ben"))
    put(archive.folder, game(3, "Ann", "Ann"), ending="-begun.pgn")
    archive.links()
    assert archive.index.game("2026-11-30", 1).players == ('Müller, "Hans"', "<b>x</b>")
    assert archive.names()["ann"] == ["2026-11-30/2", "2026-11-30/3"]


def test_pairs(archive: Looked) -> None:
    put(
        archive.folder,
        game(1, Variant="Bughouse", Partner="2026-11-30/2")
        + game(2, "Cat", "Dan", Variant="Bughouse", Partner="2026-11-30/1"),
        ending="-bughouse.pgn",
    )
    pair = '[Event "x"]\n[LinkA "2026-11-30/1"]\n\n1A. e4 1-0\n\n'
    file = put(archive.folder, pair, ending="-bughouse.bpgn")
    archive.links()
    assert files.bytes_of(*archive.index.pairs["2026-11-30/1"]).decode() == pair
    file.unlink()
    archive.links()
    assert archive.index.pairs == {}


def test_looked_at_once_a_second(archive: Looked) -> None:
    put(archive.folder, game(1))
    archive.index.refresh()
    put(archive.folder, game(2))
    archive.index.refresh()
    assert archive.index.count == 1


def test_what_can_not_be_read_for_a_moment(archive: Looked, caplog: pytest.LogCaptureFixture) -> None:
    """Nothing is forgotten meanwhile, it is said once, and read later."""
    put(archive.folder, game(1))
    archive.links()
    put(archive.folder, game(2))
    fault = OSError(24, "Too many open files")
    for module, call in ((index, "games_of"), (os, "scandir")):
        caplog.clear()
        with mock.patch.object(module, call, side_effect=fault):
            assert (archive.links(), archive.links()) == (["2026-11-30/1"], ["2026-11-30/1"]), call
        assert [it.name for it in caplog.records] == ["fics_web"]
        archive.index._tell("")
    assert len(archive.links()) == 2


def test_a_read_that_breaks_off(archive: Looked, caplog: pytest.LogCaptureFixture) -> None:
    """What was read of a file before it couldn't be read on comes once, and later."""
    put(archive.folder, game(1) + game(2))

    def broken(path: str, start: int) -> Iterator[tuple[int, bytes, bytes]]:
        yield next(files.games_of(path, start))
        raise OSError(5, "Input/output error")

    with mock.patch.object(index, "games_of", side_effect=broken):
        assert archive.links() == []
    assert [it.name for it in caplog.records] == ["fics_web"]
    assert archive.links() == ["2026-11-30/1", "2026-11-30/2"]


def test_pieces_of_any_size(tmp_path: Path) -> None:
    text = "".join(game(n) for n in range(1, 8))
    file = put(tmp_path, text)
    for size in (7, 64, 300, 1 << 18):
        with mock.patch.object(files, "PIECE", size):
            found = list(files.games_of(str(file), 0))
        assert b"".join(head + movetext for _, head, movetext in found).decode() == text, size
        assert [at for at, *_ in found] == [n * len(game(1)) for n in range(7)]


def test_what_has_no_end_is_given_up(tmp_path: Path) -> None:
    file = put(tmp_path, "[" + "x" * 5000 + game(1))
    with mock.patch.object(files, "MOST_OF_A_GAME", 1000), mock.patch.object(files, "PIECE", 100):
        assert list(files.games_of(str(file), 0)) == []
