"""Games between tabs, or whoever is used as a tab is, at a server that plays by itself."""

import asyncio
from collections.abc import Callable

from .tabs import Tab

KNIGHTS = ("Nf3", "Nf6", "Ng1", "Ng8")
WORD, RELATION = 29, 19  # fields of a board line

Player = tuple[str, Tab]  # who is in, and its tab


def name(colour: str, n: int) -> str:
    """A handle: letters alone."""
    return f"{colour}{chr(97 + n // 26)}{chr(97 + n % 26)}"


def is_board(relation: int, word: str) -> Callable[[str], bool]:
    """Whether a line is a board behind that half-move, as this one sees it."""

    def fits(line: str) -> bool:
        fields = line.split(" ")
        return fields[0] == "<12>" and (fields[RELATION], fields[WORD]) == (str(relation), word)

    return fits


async def seat(white: Player, black: Player, terms: str = "5 0 white") -> None:
    """Begins a game of two who are in."""
    assert await white[1].ask(f"match {black[0]} {terms}") == ["Ok."]
    await black[1].told(lambda it: it.startswith(f"Challenge: {white[0]} "))
    await black[1].send(f"accept {white[0]}")
    await asyncio.gather(white[1].told(is_board(1, "none")), black[1].told(is_board(-1, "none")))
