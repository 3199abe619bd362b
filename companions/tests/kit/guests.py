"""Members that a test plays by hand, over the client library."""

import asyncio
from collections.abc import Callable

from ficslink import Game, Line, LinkError, Refusal, RefusalError
from ficslink.events import Began, Ended, Event, Moved
from ficslink.lines import Tell
from ficslink.member import Member

from .running import PATIENCE, async_wait_until
from .steps import steady


class Guest:
    """A member, and all that has happened to it."""

    def __init__(self, member: Member) -> None:
        self.member = member
        self.events: list[Event] = []
        self.changed = asyncio.Condition()
        self.taking = asyncio.create_task(self.take())

    @classmethod
    async def enter(cls, port: int, name: str, password: str | None = None) -> "Guest":
        """A guest that is in; one with a password has an account."""
        guest = cls(await Member.enter("127.0.0.1", port, name, password))
        if password and not guest.member.is_registered:
            await guest.member.register(password)
        return guest

    async def take(self) -> None:
        try:
            async for event in self.member.events():
                async with self.changed:
                    self.events.append(event)
                    self.changed.notify_all()
        except LinkError:
            pass

    async def until(self, fits: Callable[[Event], bool], what: str) -> Event:
        """Waits until an event fits, or something else is so; the last such event."""
        try:
            async with asyncio.timeout(PATIENCE), self.changed:
                while not (found := [it for it in self.events if fits(it)]):
                    await self.changed.wait()
                return found[-1]
        except TimeoutError:
            raise AssertionError(f"not {what}: {[described(it) for it in self.events]}") from None

    async def does(self, line: str) -> list[str]:
        """Sends a line; the texts of its answer."""
        return [str(it) for it in (await self.member.do(line)).lines]

    # ---- what it waits for ----

    async def hears(self, line: str) -> None:
        """Waits until that line has come."""
        await self.until(lambda it: str(it) == line, f"told {line!r}")

    async def tell(self, part: str) -> None:
        """Waits until it is told something with these words."""
        await self.until(lambda it: isinstance(it, Tell) and part in it.text, f"told {part!r}")

    async def game(self) -> Game:
        """Waits until a game begins."""
        event = await self.until(lambda it: isinstance(it, Began) and not it.game.is_over, "in a game")
        assert isinstance(event, Began)
        return event.game

    async def ended(self, game: Game) -> tuple[str, str]:
        """Waits until a game is over; how."""
        await self.until(lambda it: isinstance(it, Ended) and it.game is game, "over")
        return game.reason, game.result

    async def turn(self, game: Game, ply: int | None = None) -> None:
        """Waits until it is to move, perhaps behind so many half-moves."""

        def is_it(event: Event) -> bool:
            is_of_game = isinstance(event, (Began, Moved)) and event.game is game
            return is_of_game and game.is_my_turn and ply in (None, game.board.ply)

        await self.until(is_it, f"to move behind {ply}")

    async def answered(self, line: str, fits: Callable[[list[str]], bool]) -> list[str]:
        """Sends a line until its answer fits; that answer."""
        texts: list[str] = []

        async def is_so() -> bool:
            texts[:] = await self.does(line)
            return fits(texts)

        assert await async_wait_until(is_so), f"{line} is answered {texts}"
        return texts

    # ---- what it does ----

    async def challenges(self, terms: str = "5 0 white", name: str = "House") -> Game:
        """Challenges the bot; the game that begins. That another game is over the bot hears a moment later."""

        async def is_asked() -> bool:
            try:
                await self.does(f"match {name} {terms}")
            except RefusalError as refusal:
                if refusal.refusal is not Refusal.PLAYING:
                    raise
                return False
            return True

        assert await async_wait_until(is_asked), f"{name} plays on"
        return await self.game()

    async def plays(self, game: Game, *words: str) -> None:
        """Makes half-moves, each once it is to move."""
        for word in words:
            await self.turn(game)
            ply = game.board.ply
            await self.member.move(game, word)
            await self.until(lambda _: game.board.ply > ply or game.is_over, f"behind {word}")

    async def plays_on(self, game: Game, half_moves: int) -> list[str]:
        """Makes so many half-moves, each once it is to move, whatever the other side has played; their words."""
        words = []
        for _ in range(half_moves):
            await self.turn(game)
            words.append(steady(game.board))
            await self.plays(game, words[-1])
        return words

    async def leave(self) -> None:
        await self.member.leave()
        await self.taking


def described(event: Event) -> str:
    """An event, in a few words."""
    board = event.game.board.short if hasattr(event, "game") else ""
    return str(event) if isinstance(event, Line) else f"{type(event).__name__} {board}"
