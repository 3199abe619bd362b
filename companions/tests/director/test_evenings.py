"""Evenings over a server, to their tables."""

import pytest

from tests.director.conftest import Evening, table_of
from tests.kit import paths
from tests.kit.running import Run, async_wait_until

EIGHT = ("Ann", "Ben", "Cat", "Dan", "Eve", "Fay", "Guy", "Hal")


async def test_eight(evening: Evening) -> None:
    """Eight players to their table without a hand; each beats those behind it in the alphabet."""
    evening.direct("--channel", "7")
    await evening.come(*EIGHT)
    await evening.begin(8)
    assert await evening.end() == [[str(place), name, f"{8 - place}/7"] for place, name in enumerate(EIGHT, 1)]
    assert table_of(evening.file) == [
        [str(place), name, "7", str(2 * (8 - place))] for place, name in enumerate(EIGHT, 1)
    ]
    assert [evening.players[it].games for it in EIGHT] == [7] * 8, evening.log()


async def test_one_never_comes_and_one_leaves(evening: Evening) -> None:
    evening.direct("--absent", "0.1")
    evening.file.write_text("")
    await evening.come("Ann", "Ben", "Cat", "Dan")
    await evening.until_joined(4)
    await evening.go("Cat")
    await evening.begin(4)
    await evening.until(lambda: "round 2" in evening.lines())
    await evening.go("Ann")
    await evening.end()
    points = {name: int(halves) for _, name, _, halves in table_of(evening.file)}
    # Dan loses to Ann in the first round, and to Ben; against Cat, who never comes, and later Ann, each who is there
    # wins
    assert "result Ben Cat 1-0" in evening.lines()
    assert points == {"Ann": 2, "Ben": 6, "Cat": 0, "Dan": 2}
    assert "Ann - Cat isn't played" in evening.log() + evening.log().replace("Cat - Ann", "Ann - Cat")


async def test_both_away_half_a_point(evening: Evening) -> None:
    evening.direct("--absent", "0.05", "--both-away", "half")
    await evening.come("Ann", "Ben")
    await evening.begin(2)
    for name in ("Ann", "Ben"):
        evening.players[name].obeys = False
    await evening.go("Ann", "Ben")
    await evening.end()
    assert table_of(evening.file) == [["1", "Ann", "1", "1"], ["2", "Ben", "1", "1"]]


async def test_games_of_the_evening(evening: Evening) -> None:
    """By --pgn the game that was played, out of the archive of a scribe."""
    archive, games = evening.folder / "archive", evening.folder / "evening.pgn"
    scribe = Run(paths.companion("fics_scribe"), "--server", evening.server.address, "--archive", archive)
    try:
        evening.direct("--pgn", games, "--archive", archive)
        await evening.come("Ann", "Ben")
        assert await async_wait_until(evening.players["Ann"].sees_guests)
        await evening.begin(2)
        await evening.end()
        written = games.read_text()
        assert written.count('[White "Ann"]\n[Black "Ben"]\n[Result "1-0"]') == 1, written
        assert "{Ben resigns} 1-0" in written
    finally:
        scribe.end()


async def test_an_archive_that_cant_be_reached(evening: Evening) -> None:
    """Before the evening that is told, and the director doesn't come; at its end, behind the table."""
    archive, games = evening.folder / "archive", evening.folder / "evening.pgn"
    evening.direct("--pgn", games, "--archive", archive)
    assert evening.director.rest() == 1
    evening.director.until(f"^fics_director: the archive can't be used: .*{archive}")
    archive.mkdir()
    evening.direct("--pgn", games, "--archive", archive)
    await evening.come("Ann", "Ben")
    await evening.begin(2)
    archive.rmdir()
    await evening.until(evening.director.has_told_all)
    assert evening.director.rest() == 1
    assert "The round robin is over." in evening.log()
    evening.director.until(f"^fics_director: the evening is over, and its games can't be written: .*{archive}")


async def test_adjourned_and_resumed(evening: Evening) -> None:
    evening.direct("--absent", "5")
    await evening.come_with_accounts("Ann", "Ben")
    evening.players["Ben"].adjourns = True
    await evening.begin(2)
    await evening.until(lambda: evening.players["Ann"].was_told("Type: resume ben"))
    ben = await evening.come_back("Ben")
    await ben.say("resume ann")
    await evening.end()
    assert evening.lines()[-1] == "result Ann Ben 1-0"


@pytest.mark.parametrize("line", ["match ben 5 0 black", "match ben 3 0 white"])
async def test_wrong_colours_and_terms(evening: Evening, line: str) -> None:
    """A game with other colours or on other terms is told at once, and doesn't count."""
    evening.direct()
    await evening.come("Ann", "Ben")
    evening.players["Ann"].first_line = line
    await evening.begin(2)
    await evening.end()
    assert evening.lines() == ["join Ann", "join Ben", "start", "round 1", "result Ann Ben 1-0"]
    for name in ("Ann", "Ben"):
        assert evening.players[name].was_told("This game doesn't count")


async def test_the_chief_overrules(evening: Evening) -> None:
    evening.direct()
    await evening.come("Ann", "Ben", "Cat")
    for name in ("Ann", "Ben", "Cat"):
        evening.players[name].obeys = False
    await evening.begin(3)
    await evening.until(lambda: "round 1" in evening.lines())
    zoe, ann = evening.players["Zoe"], evening.players["Ann"]
    await ann.say("tell Director result ben cat 0-1")
    await evening.until(lambda: ann.was_told("That is for who directs."))
    await zoe.say("tell Director result cat ben 1-0")
    await evening.until(lambda: zoe.was_told("No round has Cat with White"))
    await zoe.say("tell Director result ben cat 0-1")
    await evening.until(lambda: "round 2" in evening.lines())
    await zoe.say("tell Director result ben cat 1/2-1/2")
    await evening.until(lambda: "result Ben Cat 1/2-1/2" in evening.lines())
    assert "result Ben Cat 0-1" not in evening.lines()
    await zoe.say("tell Director result Ann Ben 1-0")
    await evening.until(lambda: "round 3" in evening.lines())
    await zoe.say("tell Director result Cat Ann 1-0")
    assert await evening.end() == [["1", "Cat", "1.5/2"], ["2", "Ann", "1/2"], ["3", "Ben", "0.5/2"]]
