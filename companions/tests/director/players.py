"""Players who do what the director tells them: Black mates by the fool's mate, or resigns where White is to win."""

import asyncio
import re
from contextlib import suppress

from ficslink import Game, LinkError, lines
from ficslink.events import Ended, Turn
from ficslink.member import Member
from tests.kit.running import async_wait_until

TYPE = re.compile(r"(?:T|t)ype: (match .*|resume .*|abort)$")
MATE = ("f3", "e5", "g4", "Qh4")
THINKS = 0.4  # seconds, before each half-move, in which a director sees a game that has just begun


class Player:
    """One whose name comes earlier in the alphabet beats those behind it."""

    member: Member

    def __init__(self, port: int, name: str, password: str | None = None) -> None:
        self.port, self.name, self.password = port, name, password
        self.told: list[str] = []
        self.obeys, self.adjourns = True, False
        self.adjourned_with: str | None = None
        self.first_line: str | None = None  # typed in the place of the first line that it is told to type
        self.games = 0

    async def come(self) -> None:
        self.member = await Member.enter("127.0.0.1", self.port, self.name, self.password, settings=["set shout 0"])
        self.playing = asyncio.create_task(self.play())

    async def go(self) -> None:
        self.playing.cancel()
        await asyncio.gather(self.playing, return_exceptions=True)
        await self.member.leave()

    async def say(self, line: str) -> None:
        """Says a line, which may be refused."""
        with suppress(LinkError):
            await self.member.do(line)

    async def sees_guests(self) -> bool:
        """Whether a guest is in the hall, as a scribe is one."""
        return any(it.who.startswith("Guest") for it in (await self.member.do("who")).all(lines.Player))

    def was_told(self, part: str) -> bool:
        """Whether the director has told it something with these words."""
        return any(part in it for it in self.told)

    async def join(self) -> None:
        """Joins until it is told that it has, since a director may be gone."""
        while not self.was_told("have joined"):
            await self.say("tell Director join")
            await async_wait_until(lambda: self.was_told("have joined"), seconds=1)

    async def play(self) -> None:
        async for event in self.member.events():
            match event:
                case lines.Tell("Director", text):
                    self.told.append(text)
                    typed = TYPE.search(text)
                    if typed and self.obeys:
                        line, self.first_line = self.first_line or typed[1], None
                        await self.say(line)
                case lines.Challenge(who, _) if self.obeys:
                    await self.say(f"accept {who}")
                case lines.ResumeAsked(who) if self.obeys:
                    await self.say(f"resume {who}")
                case Turn(game):
                    await self.move(game)
                case Ended(game):
                    self.games += 1

    async def move(self, game: Game) -> None:
        await asyncio.sleep(THINKS)
        ply = game.board.ply
        with suppress(LinkError):
            if self.adjourns and ply == 1:
                self.adjourns, self.adjourned_with = False, game.opponent
                await self.member.leave()  # by which the game is adjourned
            elif game.colour == "black" and game.opponent < self.name:
                await self.member.act(game, "resign")
            else:
                await self.member.move(game, MATE[ply])
