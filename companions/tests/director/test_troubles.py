"""A director that is killed goes on, wherever it is."""

import asyncio
import itertools
from pathlib import Path

from tests.director.conftest import Evening, table_of
from tests.kit import paths
from tests.kit.played import Door
from tests.kit.running import PATIENCE, Run, async_wait_until

EIGHT = ("Ann", "Ben", "Cat", "Dan", "Eve", "Fay", "Guy", "Hal")


async def test_in_each_phase(evening: Evening) -> None:
    """Killed at each line that it writes, and once in each round while a game runs: as players join, behind the start,
    as rounds open, and behind results."""
    evening.direct()

    def is_enough() -> bool:
        return sum(it.startswith("result ") for it in evening.lines()) == 6

    killing = asyncio.create_task(evening.kill_again_and_again(is_enough))
    await evening.come("Ann", "Ben", "Cat", "Dan")
    await evening.begin(4)
    kills = await killing
    shown = await evening.end()
    assert shown == [["1", "Ann", "3/3"], ["2", "Ben", "2/3"], ["3", "Cat", "1/3"], ["4", "Dan", "0/3"]]
    assert table_of(evening.file) == [
        ["1", "Ann", "3", "6"],
        ["2", "Ben", "3", "4"],
        ["3", "Cat", "3", "2"],
        ["4", "Dan", "3", "0"],
    ]
    lines = evening.lines()
    assert sorted(set(lines)) == sorted(lines)
    assert len(lines) == 4 + 1 + 3 + 6
    assert kills >= 8


async def test_while_a_game_is_adjourned(evening: Evening) -> None:
    """The next one watches the game where it goes on, and takes its result."""
    evening.direct("--absent", "5")
    await evening.come_with_accounts("Ann", "Ben")
    evening.players["Ben"].adjourns = True
    await evening.begin(2)
    await evening.until(lambda: "adjourned" in evening.log())
    evening.director.end()
    evening.direct("--absent", "5")
    ben = await evening.come_back("Ben")
    await ben.say("resume ann")
    assert await evening.end() == [["1", "Ann", "1/1"], ["2", "Ben", "0/1"]]
    assert evening.lines() == ["join Ann", "join Ben", "start", "round 1", "result Ann Ben 1-0"]


async def test_all_troubles_of_an_evening(evening: Evening) -> None:
    """Eight have joined. Hal never comes, Guy leaves in the second round, a game of Ben's is adjourned as he leaves,
    and goes on once he is back; and the director is killed at each line that it writes."""
    words = ("--absent", "0.25")
    evening.direct(*words)
    await evening.come_with_accounts(*EIGHT)
    evening.players["Ben"].adjourns = True
    await evening.until_joined(len(EIGHT))
    await evening.go("Hal")
    killing = asyncio.create_task(evening.kill_again_and_again(lambda: "round 7" in evening.lines(), *words))
    others = [asyncio.create_task(it) for it in (guy_leaves(evening), ben_comes_again(evening))]
    await evening.begin(len(EIGHT))
    await asyncio.gather(*others)
    kills = await killing
    shown = await evening.end()
    assert kills >= 20
    look_at_results(evening)
    table = table_of(evening.file)
    scores = [(place, name, *score.split("/")) for place, name, score in shown]
    assert [(place, name, count) for place, name, count, _ in table] == [(it[0], it[1], it[3]) for it in scores]
    assert [int(halves) for *_, halves in table] == [int(2 * float(it[2])) for it in scores]


async def guy_leaves(evening: Evening) -> None:
    await evening.until(lambda: "round 2" in evening.lines())
    await evening.go("Guy")


async def ben_comes_again(evening: Evening) -> None:
    await evening.until(lambda: bool(evening.players["Ben"].adjourned_with))
    other = evening.players["Ben"].adjourned_with
    # it is told to begin anew, since that a game is adjourned isn't in the file
    ben = await evening.come_back("Ben", obeys=False)

    def goes_on() -> bool:
        return any(it.boards[0].ply for it in ben.member.own_games) or ben.games > 0

    async with asyncio.timeout(PATIENCE):
        while not goes_on():  # the game can be resumed once the other one was told that it is adjourned
            await ben.say(f"resume {other}")
            await async_wait_until(goes_on, seconds=1)
    ben.obeys = True


def look_at_results(evening: Evening) -> None:
    """Each two have one result, but for the two who weren't there: who is there beats those who aren't, and else the
    one who comes earlier in the alphabet wins. Of Guy's results those before he left may be of games."""
    winners: dict[tuple[str, ...], str] = {}
    for line in evening.lines():
        if line.startswith("result "):
            _, white, black, score = line.split()
            pair = tuple(sorted((white, black)))
            assert pair not in winners
            winners[pair] = {"1-0": white, "0-1": black}[score]
    winners.pop(("Guy", "Hal"), None)
    assert winners == {it: it[0] for it in itertools.combinations(EIGHT, 2) if it != ("Guy", "Hal")}, evening.log()


async def test_a_server_that_ends_as_the_director_comes(tmp_path: Path) -> None:
    """It comes again, as it does where none is there."""
    door = Door()
    await door.open()
    where = "--server", f"127.0.0.1:{door.port}", "--file", tmp_path / "evening.tourney", "--program", paths.program
    director = Run(paths.companion("fics_director"), *where, "--chief", "Zoe")
    try:
        end = await door.opened()
        assert await end.line() == "Director"
        end.close()
        await door.end()
        director.until("not in yet, next try in 1 seconds: the server has closed the link")
        assert director.process.poll() is None
    finally:
        director.end()
        door.close()
