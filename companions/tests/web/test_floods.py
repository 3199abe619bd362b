"""No tab keeps another one waiting, whatever it sends, and a flood is closed with a reason.

How long an answer takes is told as a clock has it, and as the processor time that the go-between took for others and it
meanwhile: where the machine has time for it the two are the same, and where it hasn't the second says what the
go-between is to blame for. By the clock it is held to what answers take in the same run while nobody does harm."""

import asyncio
import statistics
import time

import pytest

from .answering import harming, serving, take
from .played import Played
from .tabs import PATIENCE, Tab

pytestmark = [pytest.mark.words("--tabs-from-one", 64), pytest.mark.usefixtures("goes_first")]

SECONDS = 6
MEASURES = 3  # at most, of which one has to hold: the machine's other work makes an answer later, and never sooner
AT_MOST, EVER = 0.05, 0.2  # seconds of processor time, for nine of ten answers and for all
# by the clock, of what answers take at the median of a calm run: at the median, and for nine of ten
MEDIAN_AT_MOST, NINE_AT_MOST = 10, 30
FLOOD = "4007 a flood: more than "


def said(delays: list[float]) -> str:
    """Delays, the shortest first, in words."""
    half, nine, last = (1000 * it for it in (statistics.median(delays), delays[len(delays) * 9 // 10], delays[-1]))
    return f"median {half:.1f} ms, nine of ten below {nine:.1f}, the slowest {last:.1f}"


async def timed(played: Played, tab: Tab, seconds: float) -> tuple[list[float], list[float]]:
    """How long answers take meanwhile, in seconds by the clock and by the go-between's processor time, each the
    shortest first."""
    end = time.monotonic() + seconds
    delays, costs = [], []
    while time.monotonic() < end:
        begin, cost = time.perf_counter(), played.go_between.exact_seconds()
        await tab.ask("who")
        delays.append(time.perf_counter() - begin)
        costs.append(played.go_between.exact_seconds() - cost)
        await asyncio.sleep(0.1)  # a question ten times a second
    return sorted(delays), sorted(costs)


def is_soon(delays: list[float], alone: list[float]) -> bool:
    """Whether answers come nearly as soon as in a calm run."""
    calm = statistics.median(alone)
    nine = delays[len(delays) * 9 // 10]
    return statistics.median(delays) < MEDIAN_AT_MOST * calm and nine < NINE_AT_MOST * calm


async def beside(played: Played, kind: str, tabs: int, patience: float = SECONDS) -> list[str]:
    """Checks the delays of a tab's answers beside hostile tabs: what these were told."""
    tab, end = await played.entered()
    take(end.writer.transport, b"")
    async with serving(played):
        for _ in range(MEASURES):
            alone, _ = await timed(played, tab, 2)
            run, written = await harming(played, kind, tabs, patience)
            assert await written.readline() == b"ready\n"
            delays, costs = await timed(played, tab, SECONDS)
            told = [it for it in (await run.communicate())[0].decode().splitlines() if it]
            print(f"\n{tabs} of {kind}: {said(delays)}; processor {said(costs)}; alone {said(alone)}", flush=True)
            if is_soon(delays, alone):
                break
    assert is_soon(delays, alone), f"{said(delays)}, and alone {said(alone)}"
    assert costs[len(costs) * 9 // 10] < AT_MOST
    assert costs[-1] < EVER
    return told


async def check(played: Played, kind: str, tabs: int) -> None:
    told = await beside(played, kind, tabs, patience=PATIENCE)
    assert len(told) >= tabs
    assert all(it.startswith(FLOOD) for it in told), told


async def test_pings_of_1(played: Played) -> None:
    await check(played, "pings", 1)


async def test_pings_of_32(played: Played) -> None:
    await check(played, "pings", 32)


async def test_pongs_of_32(played: Played) -> None:
    await check(played, "pongs", 32)


async def test_empty_lines_of_1(played: Played) -> None:
    await check(played, "lines", 1)


async def test_empty_lines_of_32(played: Played) -> None:
    await check(played, "lines", 32)


async def test_long_lines_of_32(played: Played) -> None:
    await check(played, "long-lines", 32)


async def test_fragments_of_32(played: Played) -> None:
    await check(played, "fragments", 32)


async def test_40_lines_a_second_of_32(played: Played) -> None:
    """No flood as yet."""
    assert await beside(played, "steady-lines", 32) == []


async def test_requests_of_32(played: Played) -> None:
    """No tabs: as many requests as an address may make, as fast as they are taken."""
    await beside(played, "requests-again", 32)


async def test_bodies_of_100_that_come_again(played: Played) -> None:
    """Each sends a body without end, and another one once it is cut off."""
    await beside(played, "bodies-again", 100)


async def test_pings_of_32_that_come_again(played: Played) -> None:
    await beside(played, "pings-again", 32)
