"""The lines of docs/BOTS.md that make a board of python-chess, over whole games; skipped where that isn't installed."""

import random
import re
from collections.abc import Callable
from typing import Any

import pytest

from ficslink import Game, lines
from ficslink.events import Began, Ended, Turn
from tests.ficslink.conftest import Evening, until
from tests.kit.paths import TOP

chess = pytest.importorskip("chess")
LINES = re.compile(r"```python\n(import chess\n.*?)```", re.DOTALL)
HALF_MOVES = 60
SEED = 67


@pytest.fixture
def board_of() -> Callable[[Game], Any]:
    """The function of the page."""
    found = LINES.search((TOP / "docs" / "BOTS.md").read_text(encoding="utf-8"))
    assert found, "the page has no such lines"
    made: dict[str, Any] = {}
    exec(found[1], made)
    function: Callable[[Game], Any] = made["board_of"]
    return function


@pytest.mark.parametrize("terms", ["0 0", "0 0 crazyhouse", "0 0 fischer 468"])
async def test_each_move_that_it_allows_is_taken(evening: Evening, board_of: Callable[[Game], Any], terms: str) -> None:
    white, black = await evening.enter("Ann", "Ben")
    draw = random.Random(SEED)
    await white.do(f"match Ben {terms} white")
    await until(black, lines.Challenge)
    await black.do("accept")
    games = [(await until(it, Began)).game for it in (white, black)]
    for ply in range(HALF_MOVES):
        mover, game = (white, black)[ply % 2], games[ply % 2]
        if isinstance(await until(mover, Turn, Ended), Ended):
            break
        board = board_of(game)
        assert board.ply() == ply
        assert {chess.square_name(at): man.symbol() for at, man in board.piece_map().items()} == dict(game.board.men())
        await mover.move(game, draw.choice(list(board.legal_moves)).uci())
