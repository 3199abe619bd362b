"""Lines of games by hand."""

from datetime import datetime

from ficslink.board import Board
from ficslink.lines import GameListed, GameOver
from ficslink.terms import Terms

NOON = datetime(2026, 11, 30, 12, 0, 0)
RANKS = "rnbqkbnr pppppppp -------- -------- -------- -------- PPPPPPPP RNBQKBNR"
# an opening by hand: the ranks behind each half-move, who is to move, the double push, the long and the short form
OPENING = (
    (RANKS, "W", -1, "none", "none"),
    ("rnbqkbnr pppppppp -------- -------- ----P--- -------- PPPP-PPP RNBQKBNR", "B", 4, "P/e2-e4", "e4"),
    ("rnbqkbnr pppp-ppp -------- ----p--- ----P--- -------- PPPP-PPP RNBQKBNR", "W", 4, "P/e7-e5", "e5"),
    ("rnbqkbnr pppp-ppp -------- ----p--- ----P--- -----N-- PPPP-PPP RNBQKB-R", "B", -1, "N/g1-f3", "Nf3"),
    ("r-bqkbnr pppp-ppp --n----- ----p--- ----P--- -----N-- PPPP-PPP RNBQKB-R", "W", -1, "N/b8-c6", "Nc6"),
)
LEFT = ((300, 300), (300, 300), (300, 300), (296, 300), (296, 293))
TOOK = ("0:00", "0:00", "0:00", "0:04", "0:07")


def board(ply: int, game: int = 1, white: str = "Ann", black: str = "Ben") -> Board:
    """The board line of the opening behind so many half-moves."""
    ranks, side, pushed, long, short = OPENING[ply]
    white_left, black_left = LEFT[ply]
    return parsed(
        f"<12> {ranks} {side} {pushed} 1 1 1 1 0 {game} {white} {black} 0 5 0 39 39 {white_left} {black_left} "
        f"{1 + ply // 2} {long} ({TOOK[ply]}) {short} 0"
    )


def parsed(line: str) -> Board:
    """The board of a board line."""
    it = Board.parsed(line)
    assert it, line
    return it


def listed(variant: str = "5 0 chess", game: int = 1, white: str = "Ann", black: str = "Ben") -> GameListed:
    terms = Terms.parsed(variant)
    assert terms, variant
    return GameListed(game, white, black, terms)


def over(reason: str, result: str, game: int = 1, white: str = "Ann", black: str = "Ben") -> GameOver:
    return GameOver(game, white, black, reason, result)
