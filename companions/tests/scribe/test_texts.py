"""A record as PGN and a pair as BPGN, to the letter."""

from datetime import timedelta

from collections.abc import Iterable

from ficsd_companions.scribe import bpgn, pgn
from ficsd_companions.scribe.record import HalfMove, Place, Record

from .boards import NOON, board, listed

GAME = """[Event "Casual game"]
[Site "chess.example.org"]
[Date "2026.11.30"]
[Round "-"]
[White "Ann"]
[Black "Ben"]
[Result "1-0"]
[Time "12:00:00"]
[TimeControl "300"]
[Termination "normal"]
[Link "2026-11-30/17"]

1. e4 {[%clk 0:05:00] [%emt 0:00:00]} e5 {[%clk 0:05:00] [%emt 0:00:00]} 2. Nf3
{[%clk 0:04:56] [%emt 0:00:04]} Nc6 {[%clk 0:04:53] [%emt 0:00:07]}
{Ben resigns} 1-0

"""
LATE = """[TimeControl "300"]
[Termination "unterminated"]
[SetUp "1"]
[FEN "rnbqkbnr/pppppppp/8/8/4P3/8/PPPP1PPP/RNBQKBNR b KQkq e3 0 1"]
[Link ""]

1... e5 {[%clk 0:05:00] [%emt 0:00:00]} 2. Nf3 {[%clk 0:04:56] [%emt 0:00:04]}
*
"""
PAIR = """[Event "Casual bughouse game"]
[Site "chess.example.org"]
[Date "2026.11.30"]
[WhiteA "Ann"]
[BlackA "Ben"]
[WhiteB "Cat"]
[BlackB "Dan"]
[TimeControl "300"]
[Result "1-0"]
[Termination "normal"]
[LinkA "2026-11-30/17"]
[LinkB "2026-11-30/18"]

1A. e4{300} 1B. e4{300} 1a. e5{300} {Ben resigns} 1-0

"""


def record(
    variant: str = "5 0 chess", plies: Iterable[int] = (), game: int = 1, white: str = "Ann", black: str = "Ben"
) -> Record:
    it = listed(variant, game, white, black)
    made = Record(it.game, it.white, it.black, it.terms, NOON)
    for ply in plies:
        made.hear(board(ply, it.game, it.white, it.black))
    return made


class TestTexts:
    def test_game(self) -> None:
        it = record(plies=range(5))
        it.end("Ben resigns", "1-0", NOON + timedelta(minutes=1))
        it.link = "2026-11-30/17"
        assert pgn.text(it, "chess.example.org") == GAME

    def test_come_to_late(self) -> None:
        it = record()
        it.first, it.last = str(board(1)), Place.of(board(1))
        it.hear(board(2))
        it.hear(board(3))
        assert pgn.text(it, "").endswith(LATE + "\n")

    def test_time_controls(self) -> None:
        rows = (("0 0 chess", "-"), ("5 0 chess", "300"), ("2 12 chess", "120+12"), ("0 3 chess", "10+3"))
        for terms, wanted in rows:
            assert pgn.time_control(record(terms)) == wanted

    def test_terminations(self) -> None:
        rows = (
            ("Ann checkmated", "normal"),
            ("Ben resigns", "normal"),
            ("drawn by repetition", "normal"),
            ("Ann forfeits on time", "time forfeit"),
            ("drawn by time", "time forfeit"),
            ("Ben forfeits by disconnection", "abandoned"),
            ("aborted", "abandoned"),
            ("", "unterminated"),
        )
        for reason, wanted in rows:
            assert pgn.termination(reason) == wanted

    def test_variants(self) -> None:
        assert '[Variant "Crazyhouse"]' in pgn.text(record("5 0 crazyhouse"), "")
        fischer = pgn.text(record("5 0 fischer 0"), "")
        assert (
            '[Variant "Chess960"]\n[SetUp "1"]\n[FEN "bbqnnrkr/pppppppp/8/8/8/8/PPPPPPPP/BBQNNRKR w HFhf - 0 1"]'
            in fischer
        )

    def test_hours(self) -> None:
        assert [pgn.clock(it) for it in ("0:00", "0:04", "59:59", "60:00", "125:07")] == [
            "0:00:00",
            "0:00:04",
            "0:59:59",
            "1:00:00",
            "2:05:07",
        ]

    def test_clocks_that_ran_out_and_games_without(self) -> None:
        assert pgn.times(HalfMove(3, "Nf3", "N/g1-f3", "0:04", -7)) == "{[%clk 0:00:00] [%emt 0:00:04]}"
        assert pgn.times(HalfMove(3, "Nf3", "N/g1-f3", "0:04", None)) == "{[%emt 0:00:04]}"
        assert pgn.times(HalfMove(3, "Nf3", "N/g1-f3", "70:04", 7265)) == "{[%clk 2:01:05] [%emt 1:10:04]}"

    def test_lines_are_short_and_comments_whole(self) -> None:
        text = pgn.text(record(plies=range(5)), "")
        assert max(map(len, text.splitlines())) < 80
        for line in text.splitlines():
            assert line.count("{") == line.count("}")

    def test_pair(self) -> None:
        first, second = record("5 0 bughouse", (0, 1, 2)), record(
            "5 0 bughouse", (0, 1), game=2, white="Cat", black="Dan"
        )
        first.end("Ben resigns", "1-0", NOON)
        second.end("partner's game ended", "0-1", NOON)
        first.link, second.link = "2026-11-30/17", "2026-11-30/18"
        order = [("A", first.half_moves[0]), ("B", second.half_moves[0]), ("A", first.half_moves[1])]
        assert bpgn.text(first, second, order, "chess.example.org") == PAIR

    def test_pair_of_which_one_board_was_come_to_late(self) -> None:
        """The other one is known from the usual array on, and has no FEN."""
        first, second = record("5 0 bughouse", (1, 2)), record("5 0 bughouse", (3, 4), game=2)
        text = bpgn.text(first, second, [("A", it) for it in first.half_moves], "")
        assert '[SetUp "1"]\n[FENB "rnbqkbnr/pppp1ppp/8/4p3/4P3/5N2/PPPP1PPP/RNBQKB1R b KQkq - 0 2"]\n\n1A. e4' in text
        assert "FENA" not in text
