"""Desks as a link is told of them: games that run, games that had ended before one came, and ends that are told
meanwhile."""

import asyncio

import pytest

from ficsd_companions.cli.words import Address
from ficsd_companions.scribe.archive import Archive
from ficsd_companions.scribe.scribe import Scribe
from ficsd_companions.scribe.watcher import Watcher, desk_of
from ficslink.line import Line

from .archived import games_of, half_moves_of
from .boards import board, listed, over


class Fake(Watcher):
    """A watcher without a link, that is told lines as it asks to look on, and then looks on or doesn't."""

    is_in = True
    lines: tuple[Line, ...] = ()
    looks_on = True

    async def observe(self, game: int) -> bool:
        self.desks.add(desk_of(game))
        self.hear(self.lines)
        if not self.looks_on:
            self.desks.discard(desk_of(game))
        return self.looks_on


class TestDesks:
    @pytest.fixture(autouse=True)
    def begin(self, archive: Archive) -> None:
        self.archive = archive
        self.scribe = Scribe(Address("here", 1), "Scribe", None, archive, 0.02)
        self.link = Fake(self.scribe.told, self.scribe.shown)
        self.scribe.watchers.append(self.link)

    async def look(self, *lines: Line, looks_on: bool = True, game: int = 1) -> None:
        """A look by which one asks for a game."""
        self.link.lines, self.link.looks_on = lines, looks_on
        self.scribe.take_list([listed(game=game)])
        self.scribe.observing[desk_of(game)] = asyncio.create_task(self.scribe.observe(desk_of(game), game))
        await self.scribe.observing[desk_of(game)]
        await self.scribe.disk.do()

    async def hear(self, *lines: Line) -> None:
        self.link.hear(lines)
        await self.scribe.disk.do()

    def kept(self) -> list[list[str]]:
        return [half_moves_of(text) for _, text in games_of(self.archive.folder)]

    def journals(self) -> list[int]:
        """How many there are of games that run, and that wait."""
        return [len(list(it.iterdir())) for it in (self.archive.running, self.archive.waiting)]

    async def test_a_game_that_runs(self) -> None:
        await self.look(board(1))
        assert self.journals() == [1, 0]
        await self.hear(board(2), over("Ann resigns", "0-1"))
        assert (self.kept(), self.journals()) == ([["e4", "e5"]], [0, 0])

    async def test_shown_again_behind_its_end(self) -> None:
        """A desk is listed until all have heard of the end, and who asks for it is shown its board."""
        await self.look(board(1))
        await self.hear(over("Ann resigns", "0-1"))
        for _ in range(3):
            await self.look(board(1), board(1), looks_on=False)
        assert (self.kept(), self.journals()) == ([["e4"]], [0, 0])

    async def test_adjourned_and_shown_again(self) -> None:
        await self.look(board(2))
        await self.hear(board(3), over("adjourned", "*"))
        await self.look(board(3), looks_on=False)
        assert (self.kept(), self.journals()) == ([], [0, 1])
        await self.look(board(3, game=7), game=7)
        await self.hear(board(4, game=7), over("Ben resigns", "1-0", 7))
        assert (self.kept(), self.journals()) == ([["Nf3", "Nc6"]], [0, 0])

    async def test_its_end_is_told_behind_the_answer(self) -> None:
        await self.look(board(1), over("Ann resigns", "0-1"))
        assert (self.kept(), self.scribe.seen) == ([["e4"]], set())
        await self.look(board(1), looks_on=False)
        assert (self.kept(), self.journals()) == ([["e4"]], [0, 0])

    async def test_another_game_begins_meanwhile(self) -> None:
        """Of the same two: what was shown before is of the game that had ended. Of two others: so too."""
        for before in (board(4), board(4, white="Cat", black="Dan")):
            first = board(0)
            self.scribe.take_list([listed()])
            self.link.hear((before, first))
            self.scribe.shown(1, first)
            await self.look()
            await self.hear(board(1), over("Ann resigns", "0-1"))
        assert (self.kept(), self.journals()) == ([["e4"]] * 2, [0, 0])

    async def test_a_list_of_other_terms(self) -> None:
        """The same two begin anew with another time, and the list that is known is of the game before."""
        self.scribe.take_list([listed("3 0 crazyhouse")])
        self.link.desks.add(1)
        self.link.hear((board(0),))
        self.scribe.seen.add(1)
        self.scribe.begin(1)
        assert self.journals() == [0, 0]
        self.scribe.take_list([listed()])
        await self.hear(board(1), over("Ann resigns", "0-1"))
        assert (self.kept(), self.journals()) == ([["e4"]], [0, 0])

    async def test_the_link_is_lost(self, caplog: pytest.LogCaptureFixture) -> None:
        """What it saw waits; of a game without a half-move nothing is kept."""
        await self.look(board(1))
        self.scribe.drop(self.link)
        assert (self.journals(), self.scribe.seen) == ([0, 1], set())
        self.link.desks.clear()
        await self.look(board(0), game=3)
        self.scribe.drop(self.link)
        assert caplog.text.count("a link is lost") == 2
        assert self.journals() == [0, 1]
