"""An engine as a program: what it is told, and what it does wrong."""

import time
from collections.abc import AsyncIterator, Awaitable, Callable
from pathlib import Path

import pytest

from ficsd_companions.bot import clock, uci
from ficsd_companions.bot.house import House, HouseFault
from tests.bot.engines import engine
from tests.kit import paths

SHORT = clock.Budget(1.0, 1.0, 0, True, 0.3, 0.6)
Begun = Callable[..., Awaitable[uci.Engine]]


@pytest.fixture
async def begun(tmp_path: Path) -> AsyncIterator[Begun]:
    """Begins an engine of a kind, ready for a game of chess."""
    drivers = []

    async def begin(kind: str, **settings: str) -> uci.Engine:
        drivers.append(uci.Engine(str(engine(tmp_path, kind)), settings))
        await drivers[-1].begin()
        await drivers[-1].begin_game("chess")
        return drivers[-1]

    yield begin
    for driver in drivers:
        await driver.end()


async def test_a_half_move_and_its_value(begun: Begun, tmp_path: Path) -> None:
    driver = await begun("worse")
    assert await driver.best("startpos moves e2e4", False, SHORT) == uci.Found("a7a6", -50)
    told = (tmp_path / "worse.count.go").read_text()
    assert told == "go wtime 1000 btime 1000 winc 0 binc 0\n"


def test_what_it_is_told_of_clocks() -> None:
    timed = clock.Budget(9.0, 20.5, 2, True, 5.0, 8.0)
    assert uci.go(True, timed) == "go wtime 9000 btime 20500 winc 2000 binc 2000"
    assert uci.go(False, timed) == "go wtime 20500 btime 9000 winc 2000 binc 2000"
    assert uci.go(True, clock.budget(None, None, 0)) == "go movetime 3000"


async def test_its_options(begun: Begun, tmp_path: Path) -> None:
    await begun("better", **{"Skill Level": "3"})
    said = (tmp_path / "better.count.options").read_text()
    assert "setoption name Skill Level value 3\n" in said
    with pytest.raises(uci.NoEngine, match="has no option Contempt"):
        await begun("worse", Contempt="1")


async def test_variants(begun: Begun, tmp_path: Path) -> None:
    driver = await begun("better")
    await driver.begin_game("crazyhouse")
    await driver.begin_game("fischer")
    said = (tmp_path / "better.count.options").read_text().splitlines()
    assert said[-4:] == [
        "setoption name UCI_Variant value crazyhouse",
        "setoption name UCI_Chess960 value false",
        "setoption name UCI_Variant value chess",
        "setoption name UCI_Chess960 value true",
    ]


def test_values() -> None:
    assert [uci.value_of("cp", -31), uci.value_of("mate", 2), uci.value_of("mate", -1), uci.value_of("mate", 0)] == [
        -31,
        99_998,
        -99_999,
        -100_000,
    ]


async def test_its_faults(begun: Begun) -> None:
    rows = (
        ("nonsense", uci.EngineFault, "no half-move"),
        ("silent", uci.EngineFault, "answers nothing within"),
        ("always dies", uci.Died, "with status 3, behind 'no more'"),
        ("floods", uci.EngineFault, "a line of more"),
    )
    for kind, fault, said in rows:
        driver = await begun(kind)
        with pytest.raises(fault, match=said):
            await driver.best("startpos", True, SHORT)


async def test_an_engine_that_doesnt_stop_is_left_in_time(begun: Begun) -> None:
    driver = await begun("silent")
    began = time.monotonic()
    with pytest.raises(uci.EngineFault):
        await driver.best("startpos", True, SHORT)
    assert time.monotonic() - began < 0.6 + 5


async def test_what_is_no_engine(tmp_path: Path) -> None:
    for it in ("/nonexistent/engine", "there-is-no-such-engine", str(tmp_path)):
        with pytest.raises(uci.NoEngine):
            uci.path_of(it)
    driver = uci.Engine("/bin/true", {})
    with pytest.raises(uci.Died):
        await driver.begin()
    await driver.end()


# the house's search, by the server's own program: the positions' answers are plain to see


async def test_mate_in_one() -> None:
    house = House(str(paths.program), 3)
    answer = await house.best("chess", "chess\nf2f3\ne7e5\ng2g4\n", 5.0)
    assert answer.word == "d8h4"
    assert answer.value > 9_000_000


async def test_men_that_hang() -> None:
    house = House(str(paths.program), 1)
    answer = await house.best("chess", "chess\ne2e4\ne7e5\nd1h5\ng8f6\nh5e5\n", 5.0)
    assert answer.value == -100, "a pawn is lost, and the check is answered"
    answer = await house.best("chess", "chess\ne2e4\nd7d5\nd1g4\n", 5.0)
    assert (answer.word, answer.value) == ("c8g4", 900)


async def test_crazyhouse_and_fischer() -> None:
    house = House(str(paths.program), 4)
    assert (await house.best("crazyhouse", "crazyhouse\n", 0.0)).value == 0
    assert (await house.best("fischer", "fischer 0\n", 0.0)).value == 0


async def test_what_it_cant_read_is_a_fault() -> None:
    house = House(str(paths.program), 2)
    with pytest.raises(HouseFault, match="status 7 and said 'bad line 2'"):
        await house.best("chess", "chess\ne2e5\n", 1.0)
    with pytest.raises(HouseFault, match="can't be run"):
        await House("/nonexistent", 2).best("chess", "chess\n", 1.0)
    with pytest.raises(HouseFault):
        await House("/bin/cat", 2).best("chess", "chess\n", 1.0)


async def test_a_search_that_takes_too_long_is_ended(tmp_path: Path) -> None:
    slow = tmp_path / "slow"
    slow.write_text('#!/bin/sh\ncat >/dev/null\n[ "$2" = 1 ] && { echo "e2e4 0"; exit; }\nexec sleep 60\n')
    slow.chmod(0o755)
    began = time.monotonic()
    answer = await House(str(slow), 3).best("chess", "chess\n", 1.0)
    assert answer.word == "e2e4"
    assert time.monotonic() - began < 20
