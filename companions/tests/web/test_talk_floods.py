"""A move's board is drawn in time beside many who talk: guests at their full budget, and one who floods the server past
the go-between. Told and held to a bound is how long it takes by the clock, in the browser, from the click to the
opponent's board."""

import statistics
import sys

import pytest

from tests.kit.running import Run

from . import talkers
from .browser import Evening, Window
from .priority import first
from .test_clicks import NOTES_CLICKS, SQUARES, by_click

pytestmark = [pytest.mark.browser, pytest.mark.slow]

GUESTS, HALF_MOVES = 32, 40
MEDIAN, EVER = 200, 1000  # milliseconds


def timed(ann: Window, ben: Window, count: int) -> list[float]:
    """How long half-moves take, in milliseconds, the shortest first."""
    delays = [by_click(*(ann, ben)[:: 1 if n % 2 == 0 else -1], *SQUARES[n % 4]).whole for n in range(count)]
    return sorted(delays)


def in_words(delays: list[float]) -> str:
    half, nine, last = statistics.median(delays), delays[len(delays) * 9 // 10], delays[-1]
    return f"median {half:.0f} ms, nine of ten below {nine:.0f}, the slowest {last:.0f}, {len(delays)} half-moves"


@pytest.mark.parametrize("floods", [False, True])
@pytest.mark.words("--tabs-from-one", 2 * GUESTS)
def test_a_move_beside_many_who_talk(evening: Evening, floods: bool) -> None:
    ann, ben = evening.game()
    for it in (ann, ben):
        it.script(NOTES_CLICKS)
    with first():
        calm = timed(ann, ben, 12)
        ports = evening.go_between.port, GUESTS, evening.server.port if floods else 0
        run = Run(sys.executable, talkers.__file__, *ports)
        try:
            run.begin()
            delays = timed(ann, ben, HALF_MOVES)
            run.terminate()
        finally:
            run.end()
    *counts, cut = run.until(r"^(\d+) (\d+) (\[.*\])$", run.out).groups()
    sent, said = map(int, counts)
    what = f"{GUESTS} guests who talk" + (f", and {sent} lines past the go-between" if floods else "")
    print(f"\nbeside {what}, {said} said: {in_words(delays)}; calm {in_words(calm)}")
    assert said >= GUESTS
    assert not floods or sent > 10_000
    assert cut == "[]"
    assert all(it.text("#me") == it.name and it.is_seen("#board") for it in (ann, ben))
    assert statistics.median(delays) < MEDIAN
    assert delays[-1] < EVER
