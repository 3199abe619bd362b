"""Players, who move at once and by chance, and their games from the challenge to the end."""

import asyncio
from contextlib import suppress
from dataclasses import dataclass
from random import Random

from ficsd_companions.bot.last_resort import tried
from ficslink import LinkError, Refusal, RefusalError
from ficslink.link import Link

from .moves import words
from .seen import Eye, Seen

PATIENCE = 120.0
AGAIN = 0.05  # seconds, before what was refused is tried again
# a name that is still in, somebody who still plays, no desk
PASS_BY_WAITING = {Refusal.HANDLE_TAKEN, Refusal.PLAYING, Refusal.NO_CHALLENGE, Refusal.NO_DESK}
GAME_IS_OVER = {Refusal.GAME_OVER, Refusal.NOT_PLAYING}


class Player:
    """Somebody at a link. A giver of a simul goes to the game before it acts there."""

    def __init__(self, place: tuple[str, int], name: str, password: str = "", gives: bool = False) -> None:
        self.place, self.name, self.password, self.gives = place, name, password, gives
        self.eye = Eye()
        self._acting = asyncio.Lock()

    async def enter(self) -> None:
        while True:
            self.link = await Link.open(*self.place, listener=self.eye, patience=PATIENCE)
            try:
                answer = await self.link.ask(self.name)
                break
            except RefusalError as refusal:
                await self.link.close()
                if refusal.refusal not in PASS_BY_WAITING:
                    raise
                await asyncio.sleep(AGAIN)
        if answer.prompt == "password: ":
            await self.link.ask(self.password)
        elif self.password:
            await self.link.ask(f"register {self.password}")
        if self.gives:
            await self.link.ask("simopen")

    async def say(self, line: str, opponent: str = "") -> None:
        if not (self.gives and opponent):
            await self.link.ask(line)
            return
        async with self._acting:
            await self.link.ask(f"goboard {opponent}")
            await self.link.ask(line)

    async def hears(self, holds) -> None:
        """Waits until it was told something."""
        async with asyncio.timeout(PATIENCE):
            await self.eye.until(holds)

    async def leave(self) -> None:
        with suppress(LinkError):
            await self.link.ask("quit")
        await self.link.close()
        self.eye.leaves()


@dataclass(frozen=True)
class Manner:
    """How games are played: whether a player waits until it has heard of the half-move before, and for how many
    seconds at the mean it thinks then."""

    hears: bool = True
    thinks: float = 0.0


class Game:
    """A game: one board, or the two of bughouse."""

    def __init__(self, boards: list[tuple[Player, Player]], variant: str, dice: Random, manner: Manner) -> None:
        self.boards, self.dice, self.manner = boards, dice, manner
        self.players = [it for board in boards for it in board]
        self.witnesses = list(self.players)  # who hears of the end
        self.seen: dict[Player, list[Seen]] = {}
        self.made = 0
        self.end, self.length = self._plan()
        self.takebacks = (
            {self.length // 2} if len(boards) == 1 and not self.is_of_simul and dice.random() < 0.15 else ()
        )
        time = "0 1" if self.end == self.flag else dice.choice(("0 0", "5 0", "2 12", "15 5", "0 20"))
        self.terms = f"{time} {variant}"

    @property
    def is_of_simul(self) -> bool:
        return any(it.gives for it in self.players)

    def _plan(self):
        """How it ends where nobody mates before, and behind how many half-moves."""
        kinds = {self.resign: 40, self.draw: 15, self.abort: 5, self.play_on: 0 if self.manner.thinks else 8}
        if not self.is_of_simul:
            kinds |= {self.quit: 10, self.flag: 1 if len(self.boards) == 1 else 0}
        if all(it.password for it in self.players) and len(self.boards) == 1:
            kinds |= {self.adjourn: 25}
        [end] = self.dice.choices(list(kinds), kinds.values())
        longest = 12 if self.manner.thinks else 40
        return end, self.dice.choice([it for it in (1, 2, 3, 5, 8, 12, 20, 30, 40) if it <= longest])

    # ---- from its beginning to its end ----

    async def play(self) -> list[list[Seen]]:
        """Plays on to its end; what its witnesses saw of each board."""
        while not self.is_over:
            if self.made >= self.length:
                await self.end()
            elif self.made in self.takebacks:
                await self.take_back()
            else:
                await self.half_move()
        for it in self.witnesses:
            await it.hears(lambda: all(seen.result for seen in self.seen[it]))
        return [[self.seen[it][at] for it in self.witnesses] for at in range(len(self.boards))]

    @property
    def is_over(self) -> bool:
        return any(self.seen[it][0].result for it in self.witnesses)

    async def begin(self) -> None:
        white, black = self.boards[0]
        if len(self.boards) > 1:
            await self.find_partners()
        while True:
            for it in self.players:
                await it.say("")  # who has heard of the end of the last game has no place any more
            try:
                await white.say(f"match {black.name} {self.terms} white")
                await black.say(f"accept {white.name}")
                break
            except RefusalError as refusal:
                if refusal.refusal not in PASS_BY_WAITING:
                    raise
            await asyncio.sleep(AGAIN)
        await self.find()

    async def find_partners(self) -> None:
        """Those on the same side, where they aren't partners yet: who has left has none any more."""
        (one, two), (three, four) = self.boards
        for it, other in ((one, four), (two, three)):
            with suppress(RefusalError):
                await it.say(f"partner {other.name}")
                await other.say(f"partner {it.name}")

    async def find(self) -> None:
        names = [(white.name, black.name) for white, black in self.boards]
        for it in self.players:
            await it.hears(lambda: all(it.eye.running(*pair) for pair in names))
            self.seen[it] = [it.eye.running(*pair) for pair in names]

    # ---- half-moves ----

    async def half_move(self) -> None:
        """Makes a half-move at a board where there is one, or ends the game."""
        for at in self.dice.sample(range(len(self.boards)), len(self.boards)):
            latest = self.latest(at)
            mover, other = self.boards[at] if latest.board.side == "W" else reversed(self.boards[at])
            if self.manner.hears:
                await mover.hears(lambda: self.is_over or self.seen[mover][at].board.ply >= latest.board.ply)
                await asyncio.sleep(self.dice.expovariate(1 / self.manner.thinks) if self.manner.thinks else 0)
            if self.is_over or await self.moves(mover, other, latest):
                return
        await self.resign()

    def latest(self, at: int) -> Seen:
        """A board as the one of its players saw it who has heard more of it."""
        return max((self.seen[it][at] for it in self.boards[at]), key=lambda it: it.board.ply)

    async def moves(self, mover: Player, other: Player, seen: Seen) -> bool:
        """Tries words until the server takes one; whether it does."""
        hand = seen.hands_behind(seen.board.ply)[0 if seen.board.side == "W" else 1]
        for word in (*words(seen.board, hand, self.dice), *tried(seen.board, hand)):
            try:
                await mover.say(word, other.name)
                self.made += 1
                return True
            except RefusalError as refusal:
                if refusal.refusal in GAME_IS_OVER:
                    await mover.say("")
                    return True
        return False

    async def take_back(self) -> None:
        """Both agree to take one or two half-moves back, where there are so many."""
        self.takebacks = ()
        one, other = self.boards[0]
        count = min(self.dice.choice((1, 2)), len(self.seen[one][0].half_moves))
        if count:
            await one.say(f"takeback {count}")
            await other.say("accept")
            await one.say("")

    # ---- ends ----

    async def resign(self) -> None:
        await self._say_to_opponent(self.dice.choice(self.players), "resign")

    async def _say_to_opponent(self, player: Player, line: str) -> None:
        opponent = next(other for pair in self.boards for it, other in (pair, pair[::-1]) if it is player)
        with suppress(RefusalError):  # it is over already, as where the last half-move was mate
            await player.say(line, opponent.name)
        await player.say("")

    async def draw(self) -> None:
        for it in self.players:
            await self._say_to_opponent(it, "draw")

    async def abort(self) -> None:
        for it in self.players:
            await self._say_to_opponent(it, "abort")

    async def play_on(self) -> None:
        self.length, self.end = self.made + 60, self.resign

    async def quit(self) -> None:
        """One leaves. Where all have accounts the game is adjourned by that, and goes on."""
        gone = self.dice.choice(self.players)
        await gone.say("")
        if self.is_over:
            return
        await gone.leave()
        self.witnesses.remove(gone)
        for it in self.witnesses:
            await it.hears(lambda: all(seen.result for seen in self.seen[it]))
        await gone.enter()
        if self.seen[self.witnesses[0]][0].reason == "adjourned":
            self.witnesses.append(gone)
            await self.resume()

    async def adjourn(self) -> None:
        for it in self.players:
            await self._say_to_opponent(it, "adjourn")
        for it in self.players:
            await it.hears(lambda: self.seen[it][0].result)
        if self.seen[self.players[0]][0].reason == "adjourned":
            await self.resume()

    async def resume(self) -> None:
        one, other = self.players
        await asyncio.sleep(self.dice.uniform(0, 1))
        while True:
            try:
                await one.say(f"resume {other.name}")
                await other.say(f"resume {one.name}")
                break
            except RefusalError as refusal:
                if refusal.refusal not in PASS_BY_WAITING:
                    raise
            await asyncio.sleep(AGAIN)
        await self.find()
        self.length, self.end = self.made + self.dice.choice((0, 1, 2, 10, 30)), self.resign

    async def flag(self) -> None:
        """Waits until the clock of who is to move has fallen."""
        latest = self.latest(0)
        if len(latest.half_moves) < 2:  # the first half-move of each is free
            await self.play_on()
            return
        caller = self.boards[0][latest.board.side == "W"]
        while not self.is_over:
            with suppress(RefusalError):
                await caller.say("flag")
            await asyncio.sleep(0.5)
