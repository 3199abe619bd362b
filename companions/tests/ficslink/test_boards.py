"""Board lines by their fields, and positions as FENs. Expected values were written down by hand, from the page, from
RULES.md and from the standard of FEN; `whole` compares the FENs of whole games with those of engines."""

import dataclasses

import pytest

from ficslink import lines
from ficslink.arrays import array
from ficslink.board import Board
from ficslink.terms import Terms

LINE = (
    "<12> rnbqkb-r pppp-ppp -----n-- ----p--- ----P--- -----N-- PPPP-PPP RNBQK--R B 3 1 0 0 1 7 12 Ann Ben -1 2 13 "
    "38 39 119 -4 15 P/e7-e8=Q (0:03) exd8=Q+ 1"
)
FIELDS = {
    "ranks": ("rnbqkb-r", "pppp-ppp", "-----n--", "----p---", "----P---", "-----N--", "PPPP-PPP", "RNBQK--R"),
    "side": "B",
    "double_push": 3,
    "white_short": True,
    "white_long": False,
    "black_short": False,
    "black_long": True,
    "quiet": 7,
    "game": 12,
    "white": "Ann",
    "black": "Ben",
    "relation": -1,
    "minutes": 2,
    "increment": 13,
    "white_material": 38,
    "black_material": 39,
    "white_left": 119,
    "black_left": -4,
    "number": 15,
    "long": "P/e7-e8=Q",
    "took": "(0:03)",
    "short": "exd8=Q+",
    "black_below": True,
}
START = (
    "<12> rnbqkbnr pppppppp -------- -------- -------- -------- PPPPPPPP RNBQKBNR W -1 1 1 1 1 0 1 Ann Ben 1 2 12 "
    "39 39 120 120 1 none (0:00) none 0"
)


def line_of(ranks, rest, number=1):
    """A board line of ranks between slashes, of side, double push, rights and quiet half-moves, and of a number."""
    return f"<12> {ranks.replace('/', ' ')} {rest} 1 Ann Ben 1 2 12 39 39 120 120 {number} none (0:00) none 0"


def test_each_field_by_its_name() -> None:
    board = lines.parse(LINE)
    assert isinstance(board, Board)
    assert {it.name: getattr(board, it.name) for it in dataclasses.fields(Board)} == FIELDS
    assert str(board) == LINE


def test_what_follows_from_the_fields() -> None:
    board = lines.parse(LINE)
    assert (board.turn, board.ply, board.is_timed) == ("black", 29, True)
    assert (board.left("white"), board.left("black")) == (119, -4)
    assert (board.man("a8"), board.man("f6"), board.man("e1"), board.man("e2")) == ("r", "n", "K", "-")
    assert dict(board.men())["f3"] == "N"
    assert len(list(board.men())) == 31


def test_what_is_no_board_line() -> None:
    fields = LINE.split(" ")
    wrongs = (
        "<13> rnbqkb-x pppp-pp -----n--- - --0----- 12345678 RNBQKBNRR _ w 8 2 -1 x 01 -1 x An A1 2 -1 x 01 1.5 "
        "--4 1e 0 P/e9-e4 (0:60) e9 2"
    )
    assert len(wrongs.split(" ")) == 31
    for place, wrong in enumerate(wrongs.split(" ")):
        assert isinstance(
            lines.parse(" ".join(fields[:place] + [wrong] + fields[place + 1 :])), lines.Unknown
        ), f"field {place + 1} {wrong}"
    for other in (LINE + " 1", LINE + " ", LINE.rpartition(" ")[0], LINE.replace(" ", "  ", 1), LINE[1:]):
        assert isinstance(lines.parse(other), lines.Unknown), other


def test_fens_of_chess() -> None:
    assert lines.parse(START).fen() == "rnbqkbnr/pppppppp/8/8/8/8/PPPPPPPP/RNBQKBNR w KQkq - 0 1"
    rows = (
        (
            "rnbqkbnr/pppppppp/--------/--------/----P---/--------/PPPP-PPP/RNBQKBNR",
            "B 4 1 1 1 1 0",
            1,
            "rnbqkbnr/pppppppp/8/8/4P3/8/PPPP1PPP/RNBQKBNR b KQkq e3 0 1",
        ),
        (
            "rnbqkbnr/pp-ppppp/--------/--p-----/----P---/--------/PPPP-PPP/RNBQKBNR",
            "W 2 1 1 1 1 0",
            2,
            "rnbqkbnr/pp1ppppp/8/2p5/4P3/8/PPPP1PPP/RNBQKBNR w KQkq c6 0 2",
        ),
        (
            "r---k--r/--------/-----Q--/-------p/--------/--------/--------/-K-R----",
            "B -1 0 0 1 0 49",
            60,
            "r3k2r/8/5Q2/7p/8/8/8/1K1R4 b k - 49 60",
        ),
        (
            "----k---/--------/--------/--------/--------/--------/--------/R---K---",
            "W -1 0 1 0 0 100",
            120,
            "4k3/8/8/8/8/8/8/R3K3 w Q - 100 120",
        ),
        (
            "----k---/--------/--------/--------/--------/--------/--------/R---K---",
            "W -1 0 0 0 0 0",
            9,
            "4k3/8/8/8/8/8/8/R3K3 w - - 0 9",
        ),
    )
    for ranks, rest, number, fen in rows:
        assert lines.parse(line_of(ranks, rest, number)).fen() == fen


def test_rights_by_file_where_the_array_isnt_the_usual_one() -> None:
    ranks = "bbqnnrkr/pppppppp/--------/--------/--------/--------/PPPPPPPP/BBQNNRKR"
    for rest, rights in (("W -1 1 1 1 1 0", "HFhf"), ("W -1 0 1 1 0 0", "Fh"), ("W -1 0 0 0 0 0", "-")):
        assert (
            lines.parse(line_of(ranks, rest)).fen(array="BBQNNRKR")
            == f"bbqnnrkr/pppppppp/8/8/8/8/PPPPPPPP/BBQNNRKR w {rights} - 0 1"
        )
    # king and rooks stand as in chess: then the letters are those of chess
    ranks = "rbnqknbr/pppppppp/--------/--------/--------/--------/PPPPPPPP/RBNQKNBR"
    assert (
        lines.parse(line_of(ranks, "W -1 1 1 1 0 0")).fen(array="RBNQKNBR")
        == "rbnqknbr/pppppppp/8/8/8/8/PPPPPPPP/RBNQKNBR w KQk - 0 1"
    )


def test_hands_in_brackets_and_promoted_men() -> None:
    board = lines.parse(START)
    assert board.fen(hands=("PPN", "")).split(" ")[0].partition("[")[2] == "PPN]"
    assert board.fen(hands=("", "PQ")).split(" ")[0] == "rnbqkbnr/pppppppp/8/8/8/8/PPPPPPPP/RNBQKBNR[pq]"
    assert (
        board.fen(hands=("", ""), promoted=frozenset({"d1", "b8"})).split(" ")[0]
        == "rn~bqkbnr/pppppppp/8/8/8/8/PPPPPPPP/RNBQ~KBNR[]"
    )


def test_arrays_by_their_numbers() -> None:
    assert array(518) == "RNBQKBNR"
    assert array(468) == "RBBNNKRQ"  # the example of RULES.md
    arrays = [array(it) for it in range(960)]
    assert len(set(arrays)) == 960
    for it in arrays:
        assert "".join(sorted(it)) == "BBKNNQRR", it
        assert it.index("R") < it.index("K") < it.rindex("R"), it
        assert (it.index("B") + it.rindex("B")) % 2 == 1, it  # one on each colour
    for number in (-1, 960):
        with pytest.raises(ValueError):
            array(number)


def test_terms() -> None:
    for text, terms in (
        ("2 12 chess", Terms(2, 12, "chess")),
        ("0 0 fischer 518", Terms(0, 0, "fischer 518")),
        ("600 600 bughouse black", Terms(600, 600, "bughouse", "black")),
    ):
        assert Terms.parsed(text) == terms
        assert str(terms) == text
    for text in (
        "601 0 chess",
        "0 601 chess",
        "1 0 fischer 960",
        "1 0 fischer",
        "1 0 chess red",
        "1 0 draughts",
        "01 0 chess",
        "1 chess",
        "1 0 chess ",
        "",
    ):
        assert Terms.parsed(text) is None, text
    assert (Terms(0, 0, "fischer 7").array, Terms(0, 0, "chess").array) == (7, None)
    assert [Terms(0, it, "crazyhouse").is_timed for it in (0, 1)] == [False, True]
    assert [Terms(0, 0, it).has_hands for it in ("chess", "crazyhouse", "bughouse", "fischer 1")] == [
        False,
        True,
        True,
        False,
    ]
