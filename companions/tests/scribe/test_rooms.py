"""Room to look on: how many links come, and what becomes of games for which there is none."""

import asyncio
from unittest import mock

import pytest

from ficsd_companions.cli.words import Address
from ficsd_companions.scribe.archive import Archive
from ficsd_companions.scribe.scribe import Scribe
from ficsd_companions.scribe.watcher import MOST_GAMES, Watcher, desk_of
from ficslink.answer import Answer
from ficslink.errors import RefusalError
from ficslink.line import Line
from ficslink.refusals import Refusal

from .boards import board, listed

TURNS = 4  # of the loop, in which a guest comes or is refused


def refusal(what: Refusal) -> RefusalError:
    return RefusalError(what.value, what.word)


class Fake(Watcher):
    """A watcher without a link, which sees whatever it is to look on at."""

    is_in = True

    async def observe(self, game: int) -> bool:
        self.desks.add(desk_of(game))
        return True


class Roomy(Scribe):
    """A scribe that sees whatever there is, by as many links as are free."""

    def __init__(self, archive: Archive) -> None:
        super().__init__(Address("here", 1), "Scribe", None, archive, 0.02)
        self.free = 256
        self.tried: list[str] = []

    async def enter(self, name: str) -> Watcher:
        self.tried.append(name)
        if not self.free:
            raise refusal(Refusal.HALL_FULL)
        self.free -= 1
        self.watchers.append(Fake(self.told, self.shown))
        return self.watchers[-1]

    async def look_at(self, count: int) -> int:
        """Looks at so many games until no other link comes; at how many desks it looks on then."""
        games = [listed(game=2 * desk - 1) for desk in range(1, count + 1)]
        first = self.watchers[0] if self.watchers else await self.come()
        links = 0
        with mock.patch.object(first, "games", return_value=games):
            while links < len(self.watchers):
                links = len(self.watchers)
                await self.look()
                for _ in range(TURNS):
                    await asyncio.sleep(0)
            await self.look()
            await asyncio.gather(*self.observing.values())
        return sum(len(it.desks) for it in self.watchers)


@pytest.fixture
def scribe(archive: Archive) -> Roomy:
    return Roomy(archive)


async def test_as_many_links_as_games_ask_for(scribe: Roomy) -> None:
    for count, links in ((1, 1), (MOST_GAMES, 1), (MOST_GAMES + 1, 2), (4 * MOST_GAMES, 4)):
        assert await scribe.look_at(count) == count
        assert len(scribe.watchers) == links
    assert scribe.tried == ["Scribe", "guest", "guest", "guest"]


async def test_the_hall_is_full(scribe: Roomy, caplog: pytest.LogCaptureFixture) -> None:
    """What there is room for is seen, at each look; one more link is tried for once, and again behind a pause, which
    grows."""
    scribe.free = 1
    pauses = []

    async def sleep(seconds: float) -> None:
        if seconds >= 1:
            pauses.append(seconds)
        await given_sleep(0)

    given_sleep = asyncio.sleep
    with mock.patch("asyncio.sleep", sleep):
        for _ in range(40):
            assert await scribe.look_at(40) == MOST_GAMES
    assert pauses[:8] == [1, 2, 4, 8, 16, 32, 60, 60]
    assert "next try in 1 seconds: refused 25 HallFull" in caplog.messages[0]
    scribe.free = 1
    assert await scribe.look_at(40) == 40


async def test_others_look_on_while_one_waits(scribe: Roomy, caplog: pytest.LogCaptureFixture) -> None:
    scribe.free = 1
    for _ in range(5):
        await scribe.look_at(40)
    assert scribe.tried == ["Scribe", "guest"]
    assert "no further link yet" in caplog.text
    assert scribe.guest
    scribe.guest.cancel()


SHOWN = Answer((board(2, 7),), (), "fics% ")
UNOBSERVED = Answer((), (), "fics% ")
ALREADY, FULL, NO_GAME, NOT_THERE = map(
    refusal, (Refusal.ALREADY_WATCHING, Refusal.LIST_FULL, Refusal.NO_SUCH_GAME, Refusal.NOT_WATCHING)
)


@pytest.mark.parametrize(
    "answers, wanted",
    [
        ([SHOWN, ALREADY], True),
        ([ALREADY], True),
        ([SHOWN, SHOWN, ALREADY], True),
        ([NO_GAME, NOT_THERE], False),
        ([SHOWN] * 4 + [NOT_THERE], False),
        ([SHOWN] * 4 + [UNOBSERVED], False),  # it began to look on with the last answer
        ([SHOWN, FULL], True),  # it looks on at 32, of which this is one
        ([FULL, UNOBSERVED, SHOWN, FULL], True),  # and did so already, until `unobserve`
        ([FULL, NOT_THERE] * 4 + [NOT_THERE], False),
    ],
)
async def test_answers(answers: list[Answer | RefusalError], wanted: bool) -> None:
    """Whether a link looks on, by what `observe` is answered."""
    shown: list[tuple[int, Line]] = []
    watcher = Watcher(lambda line: None, lambda desk, line: shown.append((desk, line)))
    with mock.patch.object(watcher, "ask", side_effect=answers) as ask:
        assert await watcher.observe(7) == wanted
    assert wanted or ask.await_args == mock.call("unobserve 7")
    assert watcher.desks == ({4} if wanted else set())
    assert shown == [(4, SHOWN.lines[0])] * answers.count(SHOWN)
