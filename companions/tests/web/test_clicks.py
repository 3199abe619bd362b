"""How long a half-move takes from its click to the opponent's board, in two windows, and beside it from its line to the
opponent's board by plain links in the same run.

Held to a bound is how much later the opponent has the board than the mover: that the page and the browser take the
longer where a machine has much else to do comes in both of these moments. So that a page that is slow for both is seen
too, the whole from the click on has a bound of its own, which is wide enough for such a machine."""

import asyncio
import random
import statistics
import time
from collections.abc import Iterator
from typing import NamedTuple

import pytest

from .browser import Evening, Window
from .evenings import KNIGHTS, is_board, seat
from .plain import PlainTab
from .priority import first
from .test_delay import AT_MOST

pytestmark = [pytest.mark.browser, pytest.mark.slow]

HALF_MOVES = 60
REST_SECONDS = 0.5
THINKS = (0.1, 0.4)  # seconds
WHOLE_AT_MOST = 2  # times that of plain links
SQUARES = (("g1", "f3"), ("g8", "f6"), ("f3", "g1"), ("f6", "g8"))
NOTES_CLICKS = """const now = () => performance.timeOrigin + performance.now();
addEventListener("click", () => { window.clicked = now(); }, true);
window.seen = {};
new MutationObserver((changes) => changes.forEach(({ target }) => {
  window.seen[`${target.dataset.square} ${target.dataset.man ?? ""}`] = now();
})).observe(document.querySelector('[data-board="main"]'), { subtree: true, attributeFilter: ["data-man"] });"""


class Delay(NamedTuple):
    """Of one half-move, in milliseconds: from its beginning to the opponent's board, and how much later that comes than
    the mover has it."""

    whole: float
    later: float


def by_click(mover: Window, other: Window, start: str, end: str) -> Delay:
    man = mover.man(start)
    for it in (mover, other):
        it.script("window.seen = {}")
    mover.move(start, end)
    time.sleep(REST_SECONDS)  # nothing is asked of the windows meanwhile, which would hold them up
    for it in (mover, other):
        it.sees_man(man, end)
    here, there = (it.script("return window.seen[arguments[0]]", f"{end} {man}") for it in (mover, other))
    return Delay(there - mover.script("return window.clicked"), there - here)


class PlainPair:
    """Two plain links at a board, beside the windows."""

    def __init__(self, loop: asyncio.AbstractEventLoop, port: int) -> None:
        self.loop = loop
        self.links = loop.run_until_complete(self.seated(port))

    async def seated(self, port: int) -> list[PlainTab]:
        links = [await PlainTab.open(port) for _ in "ab"]
        pair = list(zip(("Cat", "Dan"), links))
        for name, link in pair:
            await link.enter(name)
        await seat(*pair)
        return links

    def move(self, turn: int, word: str) -> Delay:
        return self.loop.run_until_complete(self.moved(*self.links[::turn], word))

    async def moved(self, mover: PlainTab, other: PlainTab, word: str) -> Delay:
        begin = time.perf_counter()
        seen = asyncio.create_task(self.sees(other, word))
        await mover.ask(word)
        here = time.perf_counter()
        there = await seen
        return Delay(1000 * (there - begin), 1000 * (there - here))

    @staticmethod
    async def sees(tab: PlainTab, word: str) -> float:
        await tab.told(is_board(1, word))
        return time.perf_counter()


@pytest.fixture
def loop() -> Iterator[asyncio.AbstractEventLoop]:
    it = asyncio.new_event_loop()
    yield it
    it.close()


def test_one_pair(evening: Evening, loop: asyncio.AbstractEventLoop) -> None:
    ann, ben = evening.game()
    for it in (ann, ben):
        it.script(NOTES_CLICKS)
    with first():
        plain = PlainPair(loop, evening.server.port)
        dice = random.Random(1)
        windows, links = [], []
        for n in range(HALF_MOVES):
            turn = 1 if n % 2 == 0 else -1
            time.sleep(dice.uniform(*THINKS))
            windows.append(by_click(*(ann, ben)[::turn], *SQUARES[n % 4]))
            time.sleep(dice.uniform(*THINKS))
            links.append(plain.move(turn, KNIGHTS[n % 4]))
    for what, delays in (("from click to board", windows), ("by plain links", links)):
        whole = sorted(it.whole for it in delays)
        print(
            f"{what}: median {statistics.median(whole):.0f} ms, nine of ten below "
            f"{whole[len(whole) * 9 // 10]:.0f} ms, {statistics.median(it.later for it in delays):.0f} ms behind the "
            f"mover, {len(whole)} half-moves"
        )
    later, plainly = (statistics.median(it.later for it in delays) for delays in (windows, links))
    assert later < AT_MOST * plainly
    in_all, plainly_in_all = (statistics.median(it.whole for it in delays) for delays in (windows, links))
    assert in_all < WHOLE_AT_MOST * plainly_in_all
