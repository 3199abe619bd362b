"""A game as it is told, without a link: offers, what is taken back, promoted men, clocks, and words of moves."""

import dataclasses
import time
from typing import Any

import pytest

from ficslink import lines
from ficslink.board import Board
from ficslink.game import OWN, Game, Offer
from ficslink.terms import Terms

LINE = (
    "<12> rnbqkbnr pppppppp -------- -------- -------- -------- PPPPPPPP RNBQKBNR W -1 1 1 1 1 0 1 "
    "Ann Ben 1 2 12 39 39 120 120 1 none (0:00) none 0"
)
START = Board.parsed(LINE)
assert START
EMPTY = ("--------",) * 8


def board(ply: int, long: str = "P/e2-e4", **changed: Any) -> Board:
    """The board behind so many half-moves."""
    number, side = ply // 2 + 1, "WB"[ply % 2]
    return dataclasses.replace(START, number=number, side=side, long=long, relation=1 - ply % 2 * 2, **changed)


def ranks_with(man: str, square: str) -> tuple[str, ...]:
    """A board that is empty but for one man."""
    ranks = list(EMPTY)
    file = "abcdefgh".index(square[0])
    ranks[8 - int(square[1])] = "-" * file + man + "-" * (7 - file)
    return tuple(ranks)


def game(*boards: Board, variant: str = "chess") -> Game:
    it = Game(1, "Ann", "Ben", Terms(2, 12, variant), OWN, "white")
    for one in (START, *boards):
        it.hear_board(one)
    return it


def test_whose_turn_it_is() -> None:
    it = game()
    assert (it.is_my_turn, it.is_opponents_turn, it.opponent) == (True, False, "Ben")
    it.hear_board(board(1))
    assert (it.is_my_turn, it.is_opponents_turn) == (False, True)
    it.hear(lines.parse("{Game 1 (Ann vs. Ben) Ben resigns} 1-0"))
    assert (it.is_my_turn, it.is_opponents_turn, it.is_over, it.won) == (False, False, True, True)


def test_what_is_taken_back_is_gone() -> None:
    it = game(board(1, "P/e2-e4"), board(2, "P/e7-e5"), board(3, "N/g1-f3"))
    assert it.moves() == ["e2e4", "e7e5", "g1f3"]
    it.hear(lines.parse("2 taken back."))
    assert it.hear_board(board(1, "P/e2-e4"))
    assert (it.moves(), it.board.ply) == (["e2e4"], 1)


def test_a_board_that_is_told_again() -> None:
    it = game(board(1), board(2, "P/e7-e5"))
    assert not it.hear_board(board(2, "P/e7-e5"))
    assert (it.moves(), it.is_whole) == (["e2e4", "e7e5"], True)


def test_who_looks_on_later_has_no_whole_game() -> None:
    it = Game(1, "Ann", "Ben", None, "watched")
    it.hear_board(board(7))
    assert not it.is_whole
    it.hear_board(board(9))  # one between them wasn't told
    assert len(it.boards) == 1


def test_offers_stand_until_they_are_answered() -> None:
    it = game(board(1), board(2))
    for who, *offer in (("Ben", "draw"), ("Ann", "abort"), ("Ben", "takeback", 2), ("Ann", "takeback", 1)):
        it.hear_offer(Offer(who, *offer))
    it.hear_board(board(3))  # Ann has moved: what Ben offers goes, and every takeback
    assert it.offers == [Offer("Ann", "abort")]
    it.hear_offer(Offer("Ben", "adjourn"))
    it.hear_offer(Offer("Ben", "draw"))
    it.hear(lines.OfferDeclined("Ann"))  # the earliest of another's
    assert it.offers == [Offer("Ann", "abort"), Offer("Ben", "draw")]
    it.hear_offer(Offer("Ann", "takeback", 2))
    it.hear_offer(Offer("Ann", "takeback", 3))
    assert it.offers[-1:] == [Offer("Ann", "takeback", 3)]
    assert len(it.offers) == 3
    it.hear(lines.TakenBack(3))
    assert it.offers == [Offer("Ann", "abort"), Offer("Ben", "draw")]


def test_clocks() -> None:
    it = game()
    assert (it.left("white"), it.left("black")) == (120.0, 120.0)
    it._since -= 50  # the first half-move of each colour is free
    assert it.left("white") == 120.0
    it.hear_board(board(1))
    it.hear_board(board(2, white_left=100))
    it._since -= 30
    assert it.left("white") == pytest.approx(70, abs=20)
    assert it.left("white") < 70.0
    assert it.left("black") == 120.0
    it._since -= 100
    assert it.left("white") < 0
    untimed = Game(1, "Ann", "Ben", Terms(0, 0, "chess"), OWN, "white")
    untimed.hear_board(dataclasses.replace(START, minutes=0, increment=0))
    assert untimed.left("white") is None


def test_a_board_that_is_shown_again_doesnt_wind_the_clock() -> None:
    it = game(board(1), board(2))
    it._since = time.monotonic() - 40
    it.hear_board(board(2))
    assert it.left("white") < 81


def test_moves_in_the_spelling_of_engines() -> None:
    it = game(board(1, "P/e2-e4"), board(2, "o-o-o"), board(3, "o-o"), board(4, "P/b2-a1=N"), board(5, "N/@@-f6"))
    assert it.moves() == ["e2e4", "e8c8", "e1g1", "b2a1n", "N@f6"]
    it.hear_board(board(6, "N/g8-f6", short="Nxf6#"))
    assert it.words()[-1] == "Nxf6#"
    it.boards.pop()
    assert it.moves(by_rook=True) == ["e2e4", "e8a8", "e1h1", "b2a1n", "N@f6"]
    it = game(board(1, "o-o"), board(2, "o-o-o"), variant="fischer 468")  # RBBNNKRQ
    assert it.moves() == ["f1g1", "f8c8"]
    assert it.moves(by_rook=True) == ["f1g1", "f8a8"]


def test_words_for_the_moves_of_engines() -> None:
    it = game()
    for move, word in (
        ("e2e4", "e2e4"),
        ("e7e8q", "e7e8=q"),
        ("b2a1n", "b2a1=n"),
        ("P@e4", "P@e4"),
        ("Nf3", "Nf3"),
        ("e1h1", "O-O"),
        ("e1a1", "O-O-O"),
        ("e1g1", "e1g1"),
        ("a1h1", "a1h1"),
        ("O-O", "O-O"),
    ):
        assert it.word(move) == word
    it = game(board(1))
    assert [it.word("e8h8"), it.word("e8a8"), it.word("e1h1")] == ["O-O", "O-O-O", "e1h1"]


def test_promoted_men_in_crazyhouse() -> None:
    ranks = list(EMPTY)
    ranks[0] = "-Q--k---"
    last = board(3, "P/a7-b8=Q", ranks=tuple(ranks))
    it = game(board(1, "P/b6-a7"), board(2, "K/d8-e8"), last, variant="crazyhouse")
    assert it.fen().split(" ")[0] == "1Q~2k3/8/8/8/8/8/8/8[]"
    it.hear(lines.parse("<b1> game 1 white [PN] black [Q] <- N"))
    assert it.fen().split(" ")[0] == "1Q~2k3/8/8/8/8/8/8/8[PNq]"
    ranks[0], ranks[1] = "----k---", "-Q------"
    it.hear_board(board(4, "K/e8-e8", ranks=tuple(ranks)))
    it.hear_board(board(5, "Q/b8-b7", ranks=tuple(ranks)))
    assert it.fen().split(" ")[0] == "4k3/1Q~6/8/8/8/8/8/8[PNq]"
    ranks[1] = "-r------"
    it.hear_board(board(6, "R/b1-b7", ranks=tuple(ranks)))
    assert it.fen().split(" ")[0] == "4k3/1r6/8/8/8/8/8/8[PNq]"


def test_draws_that_may_be_claimed() -> None:
    assert game(board(1, quiet=100)).may_claim_draw
    assert not game(board(1, quiet=99)).may_claim_draw
    assert not game(board(1, quiet=100), variant="crazyhouse").may_claim_draw
    places = (ranks_with("N", "g1"), ranks_with("N", "f3"))

    def repeated(times, **last):
        boards = [board(n, ranks=places[n % 2]) for n in range(1, 4 * times)]
        return game(*boards, board(4 * times, ranks=places[0], **last)).may_claim_draw

    assert not game(*(board(n, ranks=places[n % 2]) for n in range(1, 5))).may_claim_draw
    assert repeated(2)
    assert not repeated(2, white_short=False)
    assert repeated(2, double_push=4)  # no pawn is there that could capture


def test_a_double_push_counts_beside_a_pawn_alone() -> None:
    pushed = list(EMPTY)
    pushed[3] = "---Pp---"
    beside = dataclasses.replace(START, ranks=tuple(pushed), double_push=4)
    assert beside.repeated != dataclasses.replace(beside, double_push=-1).repeated
    pushed[3] = "P---p---"
    apart = dataclasses.replace(beside, ranks=tuple(pushed))
    assert apart.repeated == dataclasses.replace(apart, double_push=-1).repeated


def test_a_board_is_a_line() -> None:
    assert isinstance(START, Board)
    assert isinstance(START, lines.News)
