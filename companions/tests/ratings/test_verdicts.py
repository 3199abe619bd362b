"""Which games are rated in which pool, and why others aren't."""

import pytest

from tests.archive.archives import put

from .conftest import Rated
from .evenings import MOVES, pair, rated

DAY = "2026-11-30"
BEGUN = "rnbqkbnr/pppp1ppp/8/4p3/4P3/8/PPPP1PPP/RNBQKBNR w KQkq - 0 2"


@pytest.mark.parametrize(
    "control, pool",
    (
        ("179", "bullet"),
        ("120+1", "bullet"),  # 160
        ("60+3", "blitz"),  # 180
        ("180", "blitz"),
        ("300+4", "blitz"),  # 460
        ("480", "rapid"),
        ("300+5", "rapid"),  # 500
        ("900+14", "rapid"),  # 1460
        ("900+15", "classical"),  # 1500
        ("5400+30", "classical"),
        ("-", "classical"),
    ),
)
def test_the_pool_by_the_estimate_of_forty_moves(archive: Rated, control: str, pool: str) -> None:
    put(archive.folder, rated(1, TimeControl=control))
    assert archive.verdicts() == [f"rated, {pool}"]


def test_variants_have_pools_of_their_own(archive: Rated) -> None:
    put(archive.folder, rated(1, Variant="Crazyhouse"))
    put(archive.folder, rated(2, Variant="Chess960", TimeControl="-"))
    put(archive.folder, pair(3, ["Ann", "Ben", "Cat", "Dan"], "1-0", DAY))
    assert archive.verdicts() == ["rated, crazyhouse", "rated, fischer", "rated, bughouse", "rated, bughouse"]


@pytest.mark.parametrize(
    "tags, said",
    (
        ({"result": "*"}, "it has no result"),
        ({"movetext": "1. e4 {[%emt 0:00:00]} e5 {[%emt 0:00:00]}"}, "it has fewer than two moves"),
        ({"TimeControl": "?"}, "its time control can't be read"),
        ({"WhiteAccount": "no"}, "Ann had no account"),
        ({"BlackAccount": "no"}, "Ben had no account"),
        ({"BlackAccount": ""}, "nothing says whether Ben had an account"),
        ({"BlackAccount": "perhaps"}, "nothing says whether Ben had an account"),
        ({"white": "GuestABCD", "WhiteAccount": ""}, "GuestABCD had no account"),
        ({"black": "House"}, "House is a program"),
        ({"black": "ann"}, "Ann is in it twice"),
        ({"Variant": "Bughouse"}, "the game of the other board doesn't stand beside it"),
    ),
)
def test_why_a_game_isnt_rated(archive: Rated, tags: dict[str, str], said: str) -> None:
    put(archive.folder, rated(1, **tags))
    assert archive.verdicts() == [f"not rated: {said}"]
    assert archive.now() == {}


def test_the_second_move_begins_with_the_third_half_move(archive: Rated) -> None:
    put(archive.folder, rated(1, movetext="1. e4 {[%emt 0:00:00]} e5 {[%emt 0:00:00]} 2. Nf3 {[%emt 0:00:01]}"))
    assert archive.verdicts() == ["rated, blitz"]


def test_what_was_played_before_the_scribe_came_counts_among_the_moves(archive: Rated) -> None:
    put(archive.folder, rated(1, movetext="2. Nf3 {[%emt 0:00:01]}", SetUp="1", FEN=BEGUN))
    put(archive.folder, rated(2, movetext="1. e4 {[%emt 0:00:00]}", SetUp="1", FEN=BEGUN.replace("0 2", "0 1")))
    assert archive.verdicts() == ["rated, blitz", "not rated: it has fewer than two moves"]


def test_a_day_that_is_none(archive: Rated) -> None:
    put(archive.folder, rated(1, day="2026-99-99"), "2026-99-99")
    put(archive.folder, rated(1))
    assert archive.verdicts("2026-99-99") == ["not rated: its day isn't one of the calendar"]
    assert set(archive.now()) == {("blitz", "Ann"), ("blitz", "Ben")}


def test_files_beside_the_games_say_what_these_dont(archive: Rated) -> None:
    put(archive.folder, rated(1, WhiteAccount="", BlackAccount=""))
    put(archive.folder, rated(2, "Cat", "Stocky"))
    put(archive.folder, rated(3, "Cat", "Ann", WhiteAccount="no"))
    assert archive.verdicts()[1] == "rated, blitz"
    (archive.folder / "accounts").write_text("ann\nBEN\n\ncat\n", encoding="utf-8")
    (archive.folder / "programs").write_text("stocky\n", encoding="utf-8")
    assert archive.verdicts() == ["rated, blitz", "not rated: Stocky is a program", "not rated: Cat had no account"]
    assert set(archive.now()) == {("blitz", "Ann"), ("blitz", "Ben")}
    (archive.folder / "accounts").unlink()
    assert archive.now() == {}


def test_a_pair_is_one_game_for_each_of_four(archive: Rated) -> None:
    put(archive.folder, pair(1, ["Ann", "Ben", "Cat", "Dan"], "1-0", DAY), ending="-bughouse.pgn")
    figures = archive.now()
    assert figures["bughouse", "Ann"] == figures["bughouse", "Dan"]
    assert figures["bughouse", "Ben"] == figures["bughouse", "Cat"]
    assert figures["bughouse", "Ann"][0] > 1500 > figures["bughouse", "Ben"][0]
    assert {it.games for it in archive.ratings.standings("Ann")} == {1}


def test_a_pair_whose_boards_dont_belong_together(archive: Rated) -> None:
    its = {"Variant": "Bughouse", "movetext": MOVES}
    put(archive.folder, rated(1, "Ann", "Ben", "1-0", **its, Partner=f"{DAY}/2"))
    put(archive.folder, rated(2, "Cat", "Dan", "1-0", **its, Partner=f"{DAY}/1"))  # both Whites can't have won
    put(archive.folder, rated(3, "Ann", "Ben", "1-0", **its, Partner=f"{DAY}/2"))
    assert archive.verdicts() == ["not rated: the game of the other board doesn't stand beside it"] * 3


def test_a_guest_at_one_board_of_a_pair_is_one_at_both(archive: Rated) -> None:
    text = pair(1, ["Ann", "Ben", "Cat", "Dan"], "1-0", DAY)
    first, _, second = text.partition("\n\n[Event")
    second = second.replace('[BlackAccount "yes"]', '[BlackAccount "no"]')
    put(archive.folder, f"{first}\n\n[Event{second}")
    assert archive.verdicts() == ["not rated: Dan had no account"] * 2
