"""A hundred tabs play at once: each line is answered, and each board and each tell comes once and in order."""

import asyncio

import pytest

from tests.kit.go_between import GoBetween
from tests.kit.running import Server

from .evenings import KNIGHTS, WORD, Player, is_board, name, seat
from .tabs import Tabs

pytestmark = pytest.mark.slow

PAIRS = 50
HALF_MOVES = 60


async def play(white: Player, black: Player) -> None:
    await seat(white, black)
    for n in range(HALF_MOVES):
        (mover_name, mover), (_, other) = (white, black) if n % 2 == 0 else (black, white)
        word = KNIGHTS[n % 4]
        answer = await mover.ask(word)
        assert is_board(-1, word)(answer[-1]), answer
        offer = f"{mover_name} offers to take back {n + 1}."
        assert offer in await mover.ask(f"takeback {n + 1}")
        await other.told(is_board(1, word))
        await other.told(offer.__eq__)
    for who in (white, black):
        answers = await who[1].ask("games")
        assert f"{white[0]} {black[0]} 5 0 chess" in " ".join(answers)
        heard = who[1].heard
        offers = [it.rpartition(" ")[2] for it in heard if "offers to take back" in it]
        assert offers == [f"{n + 1}." for n in range(HALF_MOVES)]
        words = [it.split(" ")[WORD] for it in heard if it.startswith("<12>")]
        assert words == ["none"] + [KNIGHTS[n % 4] for n in range(HALF_MOVES)]


async def test_a_hundred_tabs(server: Server, go_between: GoBetween, tabs: Tabs) -> None:
    whites, blacks = ([name(it, n) for n in range(PAIRS)] for it in ("White", "Black"))
    opened = await tabs.open_all(whites + blacks)
    pairs = list(zip(zip(whites, opened[:PAIRS]), zip(blacks, opened[PAIRS:])))
    await asyncio.gather(*(play(*it) for it in pairs))
    print(
        f"{2 * PAIRS} tabs, {PAIRS * HALF_MOVES} half-moves and as many offers: "
        f"{go_between.seconds():.1f} s of a processor in the go-between, "
        f"{server.seconds():.1f} s in the server"
    )
