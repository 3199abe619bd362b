"""Who thinks in one game: its engine, and where that fails the house's search."""

import asyncio
from collections.abc import Sequence
from dataclasses import dataclass, replace

from ficslink.game import Game

from . import clock, openings, position
from .clock import Budget
from .house import House, HouseFault
from .journal import say
from .uci import Died, Engine, EngineFault, NoEngine

STAND_IN_SECONDS = 1.0  # for a half-move in the place of one of the engine's


@dataclass(frozen=True)
class Thought:
    """A half-move in the server's spelling or in an engine's, and its value for who moves, in hundredths of a pawn,
    where one is known."""

    word: str
    value: int | None
    is_engines: bool  # whether the game's own engine found it, and not what stands in for it


@dataclass(frozen=True)
class Brain:
    """What the operator has chosen to think with: an engine's file and its settings, or the house's search alone."""

    house: House | None
    path: str | None = None
    settings: Sequence[tuple[str, str]] = ()


class Thinker:
    """The thinking of one game. `faults` counts what its engine did wrong."""

    def __init__(self, brain: Brain, name: str, level: int | None = None) -> None:
        self.brain, self.name, self.level = brain, name, level
        self.engine: Engine | None = None
        self.faults = 0
        self.games = 1  # that are played beside each other

    async def prepare(self, kind: str) -> None:
        """Has an engine ready for the game, where none is."""
        if self.engine or not self.brain.path:
            return
        engine = Engine(self.brain.path, dict(self.brain.settings))
        try:
            await engine.begin()
            await engine.begin_game(kind)
        except BaseException:
            engine.kill()
            raise
        self.engine = engine

    async def think(self, game: Game, led: Sequence[str], games: int) -> Thought | None:
        """What to play, beside so many games; none where nobody has an answer. An engine that died is started again,
        and asked once more, all within the budget of this half-move."""
        self.games = games
        given = clock.of(game, self.games)
        if not self.brain.path:
            if word := self.opening(game, led):
                return Thought(word, None, True)
            return await self.ask_house(game, led, clock.share(given))
        end = asyncio.get_running_loop().time() + self.patience_with(given).fail
        try:
            try:
                return await self.ask_engine(game, end)
            except Died as death:
                say(f"{self.name}: {death}, and is started again; the board is {game.fen()}")
                return await self.ask_engine(game, end)
        except (EngineFault, NoEngine) as fault:
            return await self.stand_in(str(fault), game, led)

    @staticmethod
    def opening(game: Game, led: Sequence[str]) -> str | None:
        """How the house goes on in the opening, where it knows one."""
        words = position.words_of(game, led) if position.kind_of(game) == "chess" else None
        return None if words is None else openings.next_word(words)

    async def ask_engine(self, game: Game, end: float) -> Thought:
        """What the engine finds until a moment of the loop's time. Where its thought is broken off it is ended, since
        it would answer later."""
        text, is_white = position.for_uci(game), game.board.side == "W"
        await self.prepare_until(end, position.kind_of(game))
        engine, self.engine = self.engine, None
        assert engine
        left = max(clock.LEAST, end - asyncio.get_running_loop().time())
        given = self.patience_with(clock.of(game, self.games))
        try:
            found = await engine.best(text, is_white, replace(given, fail=min(given.fail, left)))
        except BaseException:
            engine.kill()
            raise
        self.engine = engine
        return Thought(found.move, found.value, True)

    async def prepare_until(self, end: float, kind: str) -> None:
        """Has an engine ready by that moment; one that hangs as it starts is ended."""
        begun = asyncio.get_running_loop().time()
        try:
            async with asyncio.timeout_at(end):
                await self.prepare(kind)
        except TimeoutError as fault:
            raise EngineFault(f"the engine isn't ready within {end - begun:.1f} seconds") from fault

    def patience_with(self, given: Budget) -> Budget:
        """The budget of an engine, which is waited for half as long behind each of its faults."""
        part = 0.5**self.faults
        return replace(given, stop=max(clock.LEAST, given.stop * part), fail=max(2 * clock.LEAST, given.fail * part))

    async def stand_in(self, what: str, game: Game, led: Sequence[str]) -> Thought | None:
        """The house's half-move in the place of the engine's, which has done something wrong. The engine is started
        anew for the next half-move."""
        self.faults += 1
        say(f"{self.name}: {what}; the board is {game.fen()}")
        self.drop()
        return await self.ask_house(game, led, STAND_IN_SECONDS)

    async def ask_house(self, game: Game, led: Sequence[str], seconds: float) -> Thought | None:
        """What the house's search finds; none where there is none, or where it doesn't know how the game began."""
        text, given = position.for_house(game, led), clock.of(game, self.games)
        if not self.brain.house or text is None:
            return None
        most = given.own if given.is_timed else clock.UNTIMED_PATIENCE
        try:
            kind, wanted = position.kind_of(game), min(seconds, most / 2)
            answer = await self.brain.house.best(kind, text, wanted, max(2.0, most), self.level)
        except HouseFault as fault:
            say(f"{self.name}: {fault}; the board is {game.fen()}")
            return None
        return Thought(answer.word, answer.value, self.brain.path is None)

    def drop(self) -> None:
        """Ends the engine at once."""
        if self.engine:
            self.engine.kill()
            self.engine = None

    async def end(self) -> None:
        """Ends the engine, behind the game."""
        engine, self.engine = self.engine, None
        if engine:
            await engine.end()
