"""The evening's games out of an archive."""

import os
from dataclasses import dataclass
from datetime import datetime
from pathlib import Path

import pytest

from ficsd_companions.director import games
from ficsd_companions.director.evening import Evening, Pair

ANN_BEN, CAT_ANN, BEN_CAT = Pair("Ann", "Ben"), Pair("Cat", "Ann"), Pair("Ben", "Cat")
BEGUN = datetime(2026, 11, 30, 20, 0, 0)


def game(white: str, black: str, result: str, time: str, moves: str = "1. e4", day: str = "2026.11.30") -> str:
    return (
        f'[Event "casual"]\n[Date "{day}"]\n[White "{white}"]\n[Black "{black}"]\n[Result "{result}"]\n'
        f'[Time "{time}"]\n\n{moves} {result}\n\n'
    )


@dataclass
class Place:
    """An archive, the file of an evening's games, and the evening."""

    archive: Path
    file: Path
    evening = Evening(
        ["Ann", "Ben", "Cat"],
        True,
        [[BEN_CAT], [ANN_BEN], [CAT_ANN]],
        3,
        {ANN_BEN: "1-0", CAT_ANN: "1/2-1/2", BEN_CAT: "0-1"},
    )

    def keep(self, name: str, *texts: str) -> None:
        (self.archive / "2026" / name).write_text("".join(texts))

    def begin(self) -> None:
        games.begin(self.file)
        os.utime(self.file, (BEGUN.timestamp(), BEGUN.timestamp()))

    def has(self, seen: dict[Pair, str]) -> bool:
        return games.are_there(self.file, self.archive, self.evening, seen)


@pytest.fixture
def place(tmp_path: Path) -> Place:
    (tmp_path / "archive" / "2026").mkdir(parents=True)
    return Place(tmp_path / "archive", tmp_path / "evening.pgn")


def test_those_of_the_evening_in_the_order_of_the_rounds(place: Place) -> None:
    wanted = [game("Ben", "Cat", "0-1", "20:01:00"), game("Ann", "Ben", "1-0", "20:20:00", "1. d4")]
    place.keep("2026-11-29.pgn", game("Cat", "Ann", "1/2-1/2", "21:00:00", day="2026.11.29"))
    place.keep(
        "2026-11-30.pgn",
        game("Ann", "Ben", "1-0", "19:59:59"),  # before it began
        game("Ann", "Ben", "0-1", "20:05:00"),  # another result than that which stands
        game("Ben", "Ann", "1-0", "20:06:00"),  # other colours
        game("Zoe", "Ann", "1-0", "20:07:00"),
        game("Cat", "Ann", "1/2-1/2", "19:00:00"),  # before it began, and the only one of these two
        wanted[1],
        wanted[0],
    )
    place.begin()
    assert games.write(place.file, place.archive, place.evening) == 2
    assert place.file.read_text() == "".join(wanted)


def test_those_that_were_watched_are_waited_for_where_their_results_stand(place: Place) -> None:
    place.begin()
    assert not place.has({BEN_CAT: "0-1"})
    assert place.has({ANN_BEN: "0-1"}), "who directs has ruled otherwise"
    place.keep("2026-11-30.pgn", game("Ben", "Cat", "0-1", "20:01:00"))
    assert place.has({BEN_CAT: "0-1"})
    assert not place.has({BEN_CAT: "0-1", CAT_ANN: "1/2-1/2"})
    place.file.write_text("other games")
    assert place.has({CAT_ANN: "1/2-1/2"})


def test_a_file_with_games_stays(place: Place) -> None:
    place.file.write_text("other games")
    assert games.write(place.file, place.archive, place.evening) == 0
    assert place.file.read_text() == "other games"


def test_a_folder_that_cant_be_reached_is_no_empty_one(place: Place, tmp_path: Path) -> None:
    place.begin()
    assert not place.has({BEN_CAT: "0-1"}), "an empty one has no games"
    (tmp_path / "a_file").touch()
    for there in (tmp_path / "nowhere", tmp_path / "a_file"):
        with pytest.raises(OSError):
            games.are_there(place.file, there, place.evening, {BEN_CAT: "0-1"})
        with pytest.raises(OSError):
            games.write(place.file, there, place.evening)
        assert place.file.read_text() == ""
