"""How long a half-move takes from its line to the opponent's board: by the go-between, and beside it by plain links in
the same run; and what those who wait cost."""

import asyncio
import random
import statistics
import time
from collections.abc import Awaitable, Callable, Iterable, Sequence

import pytest

from tests.kit.go_between import GoBetween
from tests.kit.running import Server

from .evenings import KNIGHTS, Player, is_board, name, seat
from .plain import PlainTab
from .tabs import Tab, Tabs

pytestmark = [pytest.mark.slow, pytest.mark.usefixtures("goes_first")]

HALF_MOVES = {1: 80, 64: 12}  # of each pair, by the number of pairs of each kind
THINKS = {1: (0.2, 0.6), 64: (1, 3)}  # seconds
AT_MOST = 2  # of the plain links' delay
A_TURN = 10  # milliseconds, that a busy machine may take beside them
PAIRS = 64
COST_SECONDS = 10

Opener = Callable[[list[str]], Awaitable[Sequence[Tab]]]


class Evening:
    """Tabs and plain links at one server."""

    def __init__(self, server: Server, go_between: GoBetween, tabs: Tabs) -> None:
        self.programs = go_between, server
        self.port, self.tabs = server.port, tabs

    async def plain(self, names: Iterable[str]) -> list[PlainTab]:
        """Plain links that are in, under these names."""
        names = list(names)
        links = [await PlainTab.open(self.port) for _ in names]
        await asyncio.gather(*(link.enter(it) for link, it in zip(links, names)))
        return links

    async def cost(self, what: str) -> None:
        """The processor time of both programs while nobody sends a line."""
        before = [it.seconds() for it in self.programs]
        await asyncio.sleep(COST_SECONDS)
        shares = [100 * (it.seconds() - b) / COST_SECONDS for it, b in zip(self.programs, before)]
        print(f"{what}: {shares[0]:.1f} % of a processor in the go-between, {shares[1]:.1f} % in the server")


@pytest.fixture
def evening(server: Server, go_between: GoBetween, tabs: Tabs) -> Evening:
    return Evening(server, go_between, tabs)


async def play(white: Player, black: Player, pairs: int) -> list[float]:
    """The delays of a game's half-moves, in seconds."""
    await seat(white, black)
    dice = random.Random(white[0])
    delays = []
    for n in range(HALF_MOVES[pairs]):
        (_, mover), (_, other) = (white, black) if n % 2 == 0 else (black, white)
        await asyncio.sleep(dice.uniform(*THINKS[pairs]))
        seen = asyncio.create_task(sees(other, KNIGHTS[n % 4]))
        begin = time.perf_counter()
        await mover.ask(KNIGHTS[n % 4])
        delays.append(await seen - begin)
    return delays


async def sees(tab: Tab, word: str) -> float:
    await tab.told(is_board(1, word))
    return time.perf_counter()


async def pairs(kind: str, count: int, opener: Opener) -> list[tuple[Player, Player]]:
    whites, blacks = ([name(colour + kind, n) for n in range(count)] for colour in ("White", "Black"))
    links = await opener(whites + blacks)
    return list(zip(zip(whites, links[:count]), zip(blacks, links[count:])))


async def both(evening: Evening, count: int) -> None:
    by_page = await pairs("W", count, evening.tabs.open_all)
    plainly = await pairs("P", count, evening.plain)
    delays = await asyncio.gather(*(play(*it, count) for it in by_page + plainly))
    medians = []
    for kind, part in (("by the go-between", delays[:count]), ("by plain links", delays[count:])):
        values = sorted(1000 * it for one in part for it in one)
        medians.append(statistics.median(values))
        print(
            f"{count} pairs {kind}: median {medians[-1]:.0f} ms, nine of ten below "
            f"{values[len(values) * 9 // 10]:.0f} ms, {len(values)} half-moves"
        )
    assert medians[0] < AT_MOST * medians[1] + A_TURN


async def test_1_pair(evening: Evening) -> None:
    await both(evening, 1)


async def test_64_pairs(evening: Evening) -> None:
    await both(evening, PAIRS)


async def test_a_tab_against_a_plain_link(evening: Evening) -> None:
    """Half-moves of a plain link, beside those of a plain pair."""
    names = ["Tab", "Plain", "Cat", "Dan"]
    (tab,) = await evening.tabs.open_all(names[:1])
    people = list(zip(names, [tab, *await evening.plain(names[1:])]))
    mixed, plain = await asyncio.gather(play(*people[:2], 1), play(*people[2:], 1))
    seen, plainly = (1000 * statistics.median(it[1::2]) for it in (mixed, plain))
    print(f"a tab sees a plain link's half-move: median {seen:.0f} ms; a plain link: {plainly:.0f} ms")
    assert seen < AT_MOST * plainly + A_TURN


async def test_what_waiting_costs(evening: Evening) -> None:
    people = await pairs("W", PAIRS, evening.tabs.open_all)
    await evening.cost(f"{2 * PAIRS} tabs in the lobby")
    for white, black in people:
        await seat(white, black)
    await evening.cost(f"{PAIRS} of them wait for the other {PAIRS}")
    for tab in evening.tabs.opened:
        await tab.close()
    names = [[name(colour, n) for n in range(PAIRS)] for colour in ("Tab", "Plain")]
    tabs, links = await evening.tabs.open_all(names[0]), await evening.plain(names[1])
    await evening.cost(f"{PAIRS} tabs and {PAIRS} plain links in the lobby")
    for link, tab in zip(zip(names[1], links), zip(names[0], tabs)):
        await seat(link, tab)
    await evening.cost(f"these {PAIRS} tabs wait for the {PAIRS} plain links")
