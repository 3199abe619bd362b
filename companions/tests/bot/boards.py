"""Board lines and games, written down by hand."""

from collections.abc import Sequence
from typing import Any

from ficslink import Board, Terms
from ficslink.game import OWN, Game

START = "rnbqkbnr pppppppp -------- -------- -------- -------- PPPPPPPP RNBQKBNR"


def line(
    ranks: str = START,
    side: str = "W",
    push: int = -1,
    rights: str = "1 1 1 1",
    quiet: int = 0,
    number: int = 1,
    long: str = "none",
    short: str = "none",
    material: str = "39 39",
    relation: int = 1,
) -> str:
    """A board line of game 1, in which Ann has White."""
    return (
        f"<12> {ranks} {side} {push} {rights} {quiet} 1 Ann Ben {relation} 5 0 {material} 300 300 "
        f"{number} {long} (0:00) {short} 0"
    )


def board(**fields: Any) -> Board:
    """A board."""
    read = Board.parsed(line(**fields))
    assert read, line(**fields)
    return read


def game(variant: str = "chess", boards: Sequence[Board] = (), hands: tuple[str, str] | None = None) -> Game:
    """An own game."""
    return Game(1, "Ann", "Ben", Terms(5, 0, variant), OWN, "white", list(boards) or [board()], hands)
