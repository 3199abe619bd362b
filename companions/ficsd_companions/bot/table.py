"""One game that the bot plays: it thinks when it is to move, answers offers, claims what the rules give, and calls the
flag."""

import asyncio
import time
from collections.abc import Awaitable, Callable
from contextlib import suppress

from ficslink import LinkError, NoGame, Refusal, RefusalError
from ficslink.game import Game, Offer
from ficslink.member import Member

from . import position
from .journal import say
from .last_resort import tried
from .memory import Memory
from .thinker import Brain, Thinker, Thought

# the word is no allowed move, or none at all
ILLEGAL = frozenset(
    {
        Refusal.AMBIGUOUS,
        Refusal.LEAVES_KING,
        Refusal.CASTLE_FORBIDDEN,
        Refusal.NO_DROPS,
        Refusal.NOT_IN_HAND,
        Refusal.OCCUPIED,
        Refusal.END_RANK,
        Refusal.NO_PIECE,
        Refusal.CANNOT_REACH,
        Refusal.UNKNOWN,
        Refusal.BAD_ARGUMENTS,
    }
)
MOST_FAULTS = 3  # of the engine, behind which the bot offers to abort
HOUSE_DRAWS = 20  # so many half-moves at least were made where the house agrees to a draw
ABORT_PLIES = 2  # so many half-moves at most were made where it agrees to abort
FLAG_SECONDS = 1.0  # so long behind its fall it calls the flag, and between two calls
IDLE_HINT, IDLE_LEAVE = 300.0, 600.0  # seconds for which it waits for the other's first half-move
STUCK_SECONDS = 60.0  # where no half-move can be made any more it waits so long for a draw


def cause(fault: LinkError | None) -> Refusal | None:
    """The refusal that a fault is, if it is one of those that are known."""
    return fault.refusal if isinstance(fault, RefusalError) else None


class Table:
    """A game, from the first board that was told."""

    def __init__(self, member: Member, brain: Brain, memory: Memory, game: Game, level: int | None = None) -> None:
        self.member, self.memory, self.game = member, memory, game
        self.thinker = Thinker(brain, str(self), level)
        self.draws_from = 0 if brain.path else HOUSE_DRAWS  # the half-move from which on it agrees to a draw
        self.kept = memory.recall(game)
        self.led = list(self.kept.words)
        self.value: int | None = None  # of the last position in which it thought, in hundredths of a pawn
        self.has_taken_back = self.has_offered_abort = self.was_reminded = False
        self.claimed: int | None = None  # the half-move behind which it has claimed a draw
        self.since = self.called = time.monotonic()  # when the board came; when the flag was called
        self.stuck: float | None = None  # since when the server takes no half-move any more
        self.task: asyncio.Task[None] | None = None

    def __str__(self) -> str:
        return f"game {self.game.number} with {self.game.opponent}"

    # ---- what is sent ----

    async def send(self, line: str) -> LinkError | None:
        """Sends a line of this game; why it isn't taken, if it isn't."""
        return await self.refused(self.member.act(self.game, line))

    async def refused(self, sending: Awaitable[object]) -> LinkError | None:
        """The refusal with which a sending ends, if it does. A game that is over refuses all."""
        try:
            await sending
        except (RefusalError, NoGame) as refusal:
            return refusal
        return None

    async def tell(self, text: str) -> None:
        """Tells the opponent something; one who doesn't hear it is told nothing."""
        await self.refused(self.member.do(f"tell {self.game.opponent} {text}"))

    # ---- the board ----

    def moved(self) -> None:
        """A board has come: it thinks, or waits; what it thought about before is dropped."""
        self.since = time.monotonic()
        self.memory.note(self.kept, self.game, self.led)
        self.drop_task()
        self.task = asyncio.create_task(self.guarded(self.act))

    async def guarded(self, act: Callable[[], Awaitable[None]]) -> None:
        """Does something; a fault of it is told, and the game goes on by a half-move that the server takes."""
        try:
            await act()
        except LinkError as fault:
            say(f"{self}: {fault}")
        except Exception as fault:
            say(f"{self}: {type(fault).__name__}: {fault}; the board is {self.game.fen()}")
            with suppress(LinkError):
                if self.game.is_my_turn:
                    await self.try_words()

    async def act(self) -> None:
        """Claims a draw where the rules give one, and moves where it is to move. Its own half-move brings a board, by
        which this ends: what is to be done behind it is done there."""
        game = self.game
        await self.offer_abort()
        if self.claimed != game.board.ply and (game.may_claim_draw or game.is_my_turn and position.is_dead(game)):
            self.claimed = game.board.ply
            await self.send("draw")
        if game.is_my_turn:
            await self.move()
        elif game.is_opponents_turn:
            await self.thinker.prepare(position.kind_of(game))

    async def move(self) -> None:
        """Thinks, and makes a half-move, unless what it thought about has been taken back meanwhile."""
        board = self.game.board
        thought = await self.thinker.think(self.game, self.led, len(self.member.own_games))
        if thought and thought.is_engines:
            self.value = thought.value
            if self.is_offered("draw") and self.takes_draw():
                await self.send("draw")
        if self.game.board.position != board.position:
            return
        is_done = thought is not None and await self.play(thought)
        if thought and thought.is_engines and not is_done:
            what = f"it answers {thought.word}, which is refused"
            stand_in = await self.thinker.stand_in(what, self.game, self.led)
            is_done = stand_in is not None and await self.play(stand_in)
        if not is_done:
            await self.try_words()

    async def offer_abort(self) -> None:
        """Offers to abort, where the engine has failed too often."""
        if self.thinker.faults >= MOST_FAULTS and not self.has_offered_abort:
            self.has_offered_abort = True
            await self.tell("My engine has failed several times; I offer to abort.")
            await self.send("abort")

    async def play(self, thought: Thought) -> bool:
        """Makes a half-move; whether there is nothing else to try: it is made, or none can be."""
        refusal = cause(await self.refused(self.member.move(self.game, thought.word)))
        if refusal is Refusal.TOO_MANY_MOVES and self.stuck is None:
            self.stuck = time.monotonic()
            await self.send("draw")
        return refusal not in ILLEGAL

    async def try_words(self) -> None:
        """Tries words until the server takes one."""
        say(f"{self}: any half-move that the server takes; the board is {self.game.fen()}")
        white, black = self.game.hands or ("", "")
        for word in tried(self.game.board, white if self.game.colour == "white" else black):
            if cause(await self.refused(self.member.move(self.game, word))) not in ILLEGAL:
                return

    # ---- offers ----

    def is_offered(self, kind: str) -> bool:
        """Whether the opponent's offer of that kind stands."""
        return any((it.who, it.kind) == (self.game.opponent, kind) for it in self.game.offers)

    def takes_draw(self) -> bool:
        """Whether it agrees to a draw: where it doesn't stand better, as far as it knows. The house plays first."""
        return self.value is not None and self.value <= 0 and self.game.board.ply >= self.draws_from

    async def answer(self, offer: Offer, is_closing: bool) -> None:
        """Answers the opponent's offer."""
        if offer.kind == "draw":
            await self.answer_draw()
        elif offer.kind == "takeback":
            await self.answer_takeback(offer.half_moves)
        elif offer.kind == "adjourn" or self.game.board.ply <= ABORT_PLIES or self.has_offered_abort or is_closing:
            await self.send(offer.kind)
        else:
            await self.decline("I abort before the second move alone.")

    async def answer_draw(self) -> None:
        """Agrees to a draw or declines it; where it thinks just now, behind its thought."""
        if self.takes_draw() and not self.game.is_my_turn:
            await self.send("draw")
        elif not self.game.is_my_turn:
            await self.decline()

    async def answer_takeback(self, half_moves: int) -> None:
        """Agrees to the first takeback of a game."""
        if self.has_taken_back:
            await self.decline("I take back once in a game.")
        elif not await self.send(f"takeback {half_moves}"):
            self.has_taken_back = True

    async def decline(self, why: str = "") -> None:
        """Turns an offer down."""
        if not await self.send("decline") and why:
            await self.tell(why)

    # ---- time ----

    async def tick(self) -> None:
        """Looks at the clocks, about twice a second."""
        now, game = time.monotonic(), self.game
        waited = now - self.since
        left = game.left("black" if game.colour == "white" else "white")
        if game.is_opponents_turn and left is not None and left < -FLAG_SECONDS and now - self.called > FLAG_SECONDS:
            self.called = now
            await self.send("flag")
        if self.stuck is not None and now - self.stuck > STUCK_SECONDS:
            await self.send("resign")
        if game.is_opponents_turn and game.board.ply < 2:
            await self.remind(waited)

    async def remind(self, waited: float) -> None:
        """Reminds an opponent who makes no first half-move, for which no clock runs, and leaves the game at last."""
        if waited > IDLE_LEAVE:
            await self.send("resign")
        elif waited > IDLE_HINT and not self.was_reminded:
            self.was_reminded = True
            await self.tell(f"It is your move. I wait {round((IDLE_LEAVE - IDLE_HINT) / 60)} minutes more.")
            await self.send("abort")

    # ---- the end ----

    def drop_task(self) -> None:
        """Drops what it thinks about."""
        if self.task and self.task is not asyncio.current_task():
            self.task.cancel()
        self.task = None

    async def leave(self) -> None:
        """Nothing more comes of this game. One that was adjourned is kept for another day."""
        self.drop_task()
        if self.game.reason and self.game.result and not self.may_go_on:
            self.memory.forget(self.kept)
        await self.thinker.end()

    @property
    def may_go_on(self) -> bool:
        """Whether the game may go on another day: it was adjourned, or the link was lost."""
        return self.game.result == "*" and self.game.reason != "aborted"
