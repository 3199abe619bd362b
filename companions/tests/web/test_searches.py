"""Who looks through the whole archive keeps nobody's line waiting, by the clock."""

import asyncio
import statistics
from collections.abc import AsyncIterator
from contextlib import asynccontextmanager
from pathlib import Path

import pytest

from tests.archive.archives import game, put
from tests.kit.go_between import FROM_ONE

from .answering import serving, take
from .asked import asked
from .played import Played
from .test_floods import MEASURES, SECONDS, said, timed

pytestmark = pytest.mark.usefixtures("goes_first")

GAMES, DAYS, ADDRESSES = 20_000, 20, 40
SEARCH = "/games/found.json?result=*"  # finds none, so that all games are looked through
MEDIAN_AT_MOST, NINE_AT_MOST = 0.04, 0.15  # seconds


@pytest.fixture
def archive(tmp_path: Path) -> Path:
    folder = tmp_path / "archive"
    folder.mkdir()
    for day in range(1, DAYS + 1):
        name = f"2025-01-{day:02}"
        numbers = range(1, GAMES // DAYS + 1)
        put(folder, "".join(game(n, f"P{n % 97}", f"Q{n % 89}", day=name) for n in numbers), name)
    return folder


@pytest.fixture
def words(archive: Path) -> tuple[object, ...]:
    return *FROM_ONE, "--archive", archive


@asynccontextmanager
async def searching(played: Played) -> AsyncIterator[list[int]]:
    """One search behind the other from each of forty addresses; the statuses of their answers."""
    statuses: list[int] = []

    async def search(address: str) -> None:
        while True:
            statuses.append((await asked(played.go_between.port, SEARCH, source=address)).status)

    tasks = [asyncio.create_task(search(f"127.0.1.{n}")) for n in range(1, ADDRESSES + 1)]
    try:
        yield statuses
    finally:
        for it in tasks:
            it.cancel()
        await asyncio.gather(*tasks, return_exceptions=True)


async def test_a_line_beside_forty_searches(played: Played) -> None:
    tab, end = await played.entered()
    take(end.writer.transport, b"")
    assert (await asked(played.go_between.port, SEARCH)).status == 200  # all of it is read
    async with serving(played):
        for _ in range(MEASURES):
            alone, _ = await timed(played, tab, 2)
            async with searching(played) as statuses:
                delays, _ = await timed(played, tab, SECONDS)
            print(f"\n{len(statuses)} searches: {said(delays)}; alone {said(alone)}", flush=True)
            nine = delays[len(delays) * 9 // 10]
            if statistics.median(delays) < MEDIAN_AT_MOST and nine < NINE_AT_MOST:
                break
    assert statistics.median(delays) < MEDIAN_AT_MOST and nine < NINE_AT_MOST, said(delays)
    assert len(statuses) > ADDRESSES and set(statuses) == {200}
