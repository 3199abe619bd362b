"""A link of the scribe's, over which it looks on at up to 32 games, and is told of them."""

import asyncio
from collections.abc import Callable
from contextlib import suppress

from ficslink.answer import Answer
from ficslink.board import Board
from ficslink.errors import LinkError, RefusalError
from ficslink.line import Line
from ficslink.lines import Entered, GameListed, GameOver, Hands, HandsCame
from ficslink.link import Link
from ficslink.observing import looks_on

MOST_GAMES = 32  # at which a session may look on
Told = Callable[[Line], None]
Shown = Callable[[int, Line], None]


def desk_of(game: int) -> int:
    """The desk of a game; a desk of bughouse has two games."""
    return (game + 1) // 2


class Watcher:
    """A session that looks on. What it hears of games goes to `told`, in the order in which it comes; `shown` is told,
    once more, of the first board of a desk at which it looks on anew."""

    is_full = False

    def __init__(self, told: Told, shown: Shown) -> None:
        self._told, self._shown = told, shown
        self._link: Link | None = None
        self.name = ""
        self.desks: set[int] = set()

    async def room(self) -> None:
        """What is told is taken at once."""

    def hear(self, lines: tuple[Line, ...]) -> None:
        """Takes the lines of a part; the link calls it."""
        for line in lines:
            if isinstance(line, Entered):
                self.name = line.who
            elif isinstance(line, (Board, Hands, HandsCame, GameOver)):
                if isinstance(line, GameOver):
                    self.desks.discard(desk_of(line.game))
                self._told(line)

    async def come(self, host: str, port: int, name: str, password: str | None) -> None:
        """Connects and goes in, deaf to what isn't of games. A `LinkError` where that can't be."""
        link = await Link.open(host, port, listener=self)
        try:
            answer = await link.ask(name)
            if not answer.all(Entered):
                await link.ask(password or "")
            await asyncio.gather(*(link.ask(f"set {it} 0") for it in ("open", "shout", "seek")))
        except BaseException:
            await link.close()
            raise
        self._link, self.desks = link, set()

    @property
    def is_in(self) -> bool:
        return self._link is not None and self._link.is_open

    @property
    def why(self) -> str:
        """Why the link is closed."""
        return self._link.why if self._link else "not in"

    @property
    def room_left(self) -> int:
        """At how many more desks it may look on."""
        return MOST_GAMES - len(self.desks) if self.is_in else 0

    async def ask(self, line: str) -> Answer:
        """Says a line; its answer."""
        if not self._link:
            raise LinkError("not in")
        return await self._link.ask(line)

    async def games(self) -> list[GameListed]:
        """The games that are listed now."""
        return (await self.ask("games")).all(GameListed)

    async def observe(self, game: int) -> bool:
        """Looks on at a game; whether it does. Where it isn't told so it surely doesn't: a game that began there with
        the last answer is to show its first board to who asks anew."""
        desk = desk_of(game)
        self.desks.add(desk)
        does = await looks_on(self.ask, game, lambda answer: self._shown(desk, answer.lines[0]))
        if not does:
            with suppress(RefusalError):
                await self.ask(f"unobserve {game}")
            self.desks.discard(desk)
        return does

    async def leave(self) -> None:
        if self._link:
            with suppress(LinkError):  # it is closed already
                await self._link.ask("quit")
            await self._link.close()
