"""A member: who is in under a name, keeps the games that it is told, and comes again behind a lost link."""

import asyncio
import logging
import random
import re
from collections.abc import AsyncIterator, Sequence
from types import TracebackType

from . import texts
from .answer import Answer
from .board import Board
from .errors import BadLine, Closed, LinkError, NoGame, NoServer, PasswordWanted, RefusalError
from .events import Began, CameAgain, Ended, Event, LinkLost, Moved, Offered, Turn
from .game import OWN, PARTNERS, WATCHED, Game, offer_of
from .line import Line, Listed, News, Reply, Unknown
from .lines import Continuing, Creating, Entered, GameListed, GameOver, Goodbye, Hands, OfferDeclined, TakenBack
from .link import PATIENCE, Link
from .observing import looks_on
from .refusals import WAITABLE
from .stream import Stream
from .terms import Terms

GUEST = "guest"
SQUARE = "[a-h][1-8]"
MOVE = re.compile(
    rf"{SQUARE}-?{SQUARE}(?:=?[qrbnQRBN])?|[PNBRQ]@{SQUARE}|[Oo0]-[Oo0](?:-[Oo0])?[+#]?"
    rf"|[NBRQK][a-h]?[1-8]?x?{SQUARE}[+#]?|(?:[a-h]x)?{SQUARE}(?:=[qrbnQRBN])?[+#]?"
)
UNOBSERVE = re.compile(r"\s*uno\w*\s+(\d+)\s*", re.IGNORECASE)

logger = logging.getLogger("ficslink")


class Member:
    """A member. `async with await Member.enter(host, port, "House") as member:` leaves at the end.

    Two things run beside each other: events are taken by `async for event in member.events()`, and whatever one does
    is awaited, in the same task or in others.
    """

    def __init__(
        self,
        host: str,
        port: int,
        name: str | None,
        password: str | None,
        *,
        stamped: bool,
        settings: Sequence[str],
        longest_pause: float,
        patience: float,
    ) -> None:
        self._place = host, port
        self._handle, self._password = name or GUEST, password
        self._stamped, self._settings = stamped, settings
        self._longest_pause, self._patience = longest_pause, patience
        self.name = ""
        self.is_registered = False  # whether the name has an account, as the last entrance showed
        self.games: dict[int, Game] = {}
        self._announced: dict[int, Creating | Continuing] = {}
        self._listed: dict[int, GameListed] = {}
        self._changed: dict[Game, None] = {}  # the games of which a board came in this part, in order
        self._at: Game | None = None  # the game at which one acts
        self._acting = asyncio.Lock()
        self._events: Stream[Event] = Stream()
        self._link: Link | None = None
        self._has_left = False
        self._keeping: asyncio.Task[None] | None = None

    @classmethod
    async def enter(
        cls,
        host: str,
        port: int,
        name: str | None = None,
        password: str | None = None,
        *,
        stamped: bool = False,
        settings: Sequence[str] = (),
        longest_pause: float = 60.0,
        patience: float = PATIENCE,
    ) -> "Member":
        """Goes in under a name, or as a guest without one. `settings` are lines that are said behind each entrance, as
        `set shout 0`. `NoServer` where there is none, `RefusalError` where the login is refused, `PasswordWanted` where
        the name has an account and no password is given."""
        member = cls(
            host,
            port,
            name,
            password,
            stamped=stamped,
            settings=settings,
            longest_pause=longest_pause,
            patience=patience,
        )
        await member._come()
        member._keeping = asyncio.create_task(member._keep())
        return member

    async def __aenter__(self) -> "Member":
        return self

    async def __aexit__(
        self, kind: type[BaseException] | None, error: BaseException | None, trace: TracebackType | None
    ) -> None:
        await self.leave()

    # ---- what is so ----

    @property
    def own_games(self) -> list[Game]:
        """The games that one plays, in the order of their numbers."""
        return [game for _, game in sorted(self.games.items()) if game.role == OWN]

    @property
    def is_in(self) -> bool:
        """Whether lines can be sent now."""
        return self._link is not None and self._link.is_open

    async def events(self) -> AsyncIterator[Event]:
        """What happens, each once and in order. It ends once one has left; where one can't come again, the reason is
        raised. Where many events wait, no more is read before they are taken, unless an answer is due."""
        async for event in self._events:
            yield event

    # ---- acting ----

    async def do(self, line: str) -> Answer:
        """Sends a line; its answer. Errors as those of `Link.ask`. Where it acts on a game (a move, an offer, `resign`)
        and one plays several, that is the present one: `act` goes to a game before."""
        if not self._link:
            raise Closed("not in")
        answer = await self._link.ask(line)
        if gone := UNOBSERVE.fullmatch(line):
            self._forget(int(gone[1]))
        return answer

    async def act(self, game: Game, line: str) -> Answer:
        """Sends a line that acts on one of one's own games: as `draw`, `resign`, `accept`, `takeback 2`, `flag`. Who
        plays several goes to that game before it. `NoGame` where it is over, or no own one."""
        async with self._acting:
            if len(self.own_games) > 1:
                await self._go_to(game)
            if game.is_over or self.games.get(game.number) is not game or game.role != OWN:
                raise NoGame(f"game {game.number} is over or no own one")
            self._at = game
            try:
                return await self.do(line)
            finally:
                self._at = None

    async def move(self, game: Game, word: str) -> Answer:
        """Makes a half-move, in the server's spelling or in that of engines. `RefusalError` where it isn't allowed,
        `BadLine` where the word is none of a move."""
        if not MOVE.fullmatch(word):
            raise BadLine(f"{texts.shown(word)!r} is no word of a move")
        return await self.act(game, game.word(word))

    async def _go_to(self, game: Game) -> None:
        """Makes a game the present one, for who gives a simul."""
        await self.do(f"goboard {game.opponent}")
        alike = [it for it in self.own_games if it.opponent == game.opponent]
        for _ in alike[1:] and self.own_games:
            shown = (await self.do("refresh")).all(Board)
            if shown and shown[0].game == game.number:
                return
            await self.do("simnext")

    async def observe(self, game: int | str) -> Answer:
        """Looks on at a game, by its number or by a player. Its terms are asked for before it."""
        await self._ask_for_terms()
        return await self.do(f"observe {game}")

    async def watch(self, game: int) -> bool:
        """Looks on at a game by its number; whether one does, which the answer of `observe` alone doesn't say."""
        await self._ask_for_terms()
        does = await looks_on(self.do, game)
        if not does:
            self._forget(game)
        return does

    async def _ask_for_terms(self) -> None:
        self._listed = {it.game: it for it in (await self.do("games")).all(GameListed)}

    async def unobserve(self, game: int) -> Answer:
        """Looks on there no longer."""
        return await self.do(f"unobserve {game}")

    async def register(self, password: str) -> Answer:
        """Makes an account of the name. One comes again with this password from now on."""
        answer = await self.do(f"register {password}")
        self._handle, self._password, self.is_registered = self.name, password, True
        return answer

    async def leave(self) -> None:
        """Leaves by `quit`. A running game is adjourned by that where both have accounts, and else lost."""
        self._has_left = True
        if self._link:
            try:
                await self._link.ask("quit")
            except LinkError:
                pass  # it is closed already, and that is what is wanted
            await self._link.close()
        if self._keeping:
            self._keeping.cancel()
            await asyncio.gather(self._keeping, return_exceptions=True)
        self._break_off("left")
        self._events.end()

    # ---- coming in ----

    async def _come(self) -> None:
        """Connects, and goes in."""
        link = await Link.open(*self._place, self._stamped, listener=self, patience=self._patience)
        try:
            answer = await link.ask(self._handle)
            self.is_registered = answer.prompt == texts.PASSWORD
            if self.is_registered:
                if not self._password:
                    raise PasswordWanted(f"{self._handle} has an account, and so a password is wanted")
                answer = await link.ask(self._password)
            if not answer.all(Entered):
                raise NoServer("the server doesn't say under which name one is in")
            self._link = link
            for line in self._settings:
                await link.ask(line)
        except BaseException:
            await link.close()
            raise

    async def _keep(self) -> None:
        """Comes again whenever the link is lost, until one has left, or can't come any more."""
        while self._link and not self._has_left:
            await self._link.ended()
            if self._has_left:
                break
            self._break_off("the link was lost")
            self._events.put(LinkLost(self._link.why))
            logger.warning("link lost: %s", texts.shown(self._link.why))
            try:
                await self._come_again()
            except LinkError as error:
                self._events.end(error)
                return
            self._events.put(CameAgain(self.name))
        self._events.end()

    async def _come_again(self) -> None:
        """Tries with growing pauses, as long as waiting may help."""
        pause = 1.0
        while True:
            await asyncio.sleep(min(pause, self._longest_pause) * random.uniform(0.5, 1))
            try:
                await self._come()
                return
            except RefusalError as refusal:
                if refusal.refusal not in WAITABLE:
                    raise
                why: LinkError = refusal
            except PasswordWanted:
                raise
            except LinkError as error:
                why = error
            logger.info("not in yet: %s", texts.shown(str(why)))
            pause *= 2

    def _break_off(self, why: str) -> None:
        for game in self.games.values():
            game.break_off(why)
        self.games.clear()
        self._announced.clear()

    # ---- what is told ----

    @property
    def is_full(self) -> bool:
        """Whether so many events wait that no more is to be read."""
        return self._events.is_full

    async def room(self) -> None:
        """Waits until events were taken."""
        await self._events.room()

    def hear(self, lines: tuple[Line, ...]) -> None:
        """Takes the lines of a part; the link calls it. Whose turn it is shows behind all of them: behind a board stand
        its men in hand, and the end of its game."""
        for line in lines:
            self._events.put(*self._happens(line))
        self._events.put(*(Turn(it) for it in self._changed if it.is_my_turn))
        self._changed.clear()

    def _happens(self, line: Line) -> list[Event]:
        """What happens by a line."""
        if isinstance(line, Board):
            return self._shown(line)
        if isinstance(line, (Creating, Continuing)):
            self._announced[line.game] = line
            return []
        if isinstance(line, GameOver):
            return self._over(line)
        if isinstance(line, Hands) and line.game in self.games:
            self.games[line.game].hear(line)
            return []
        if isinstance(line, Entered):
            self.name = line.who
        if isinstance(line, Goodbye):
            self._has_left = True
        if isinstance(line, (Reply, Listed)):
            return []
        return self._at_board(line)

    def _at_board(self, line: Line) -> list[Event]:
        """What happens by a line that names no game, but a player at one, or nobody."""
        offer = offer_of(line)
        who = offer.who if offer else line.who if isinstance(line, OfferDeclined) else ""
        if offer or who or isinstance(line, TakenBack):
            game = self._game_with(who)
            if game and offer:
                game.hear_offer(offer)
                return [Offered(game, offer)]
            if game:
                game.hear(line)
        if isinstance(line, Unknown):
            logger.warning("a line that isn't known: %s", texts.shown(line.text))
        return [line] if isinstance(line, (News, Unknown)) else []

    def _game_with(self, who: str) -> Game | None:
        """The game of which a line tells: that at which one acts, or the first in which that player plays, own games
        before others; where nobody is named, the own one."""
        if self._at and (not who or who in (self._at.white, self._at.black)):
            return self._at
        games = sorted(self.games.values(), key=lambda it: (it.role != OWN, it.role != PARTNERS, it.number))
        return next((it for it in games if not who or who in (it.white, it.black)), None)

    def _shown(self, board: Board) -> list[Event]:
        game = self.games.get(board.game)
        is_new = not game or (game.white, game.black) != (board.white, board.black)
        if not game or is_new:
            game = self.games[board.game] = self._game_of(board)
        if not game.hear_board(board):
            return []
        self._changed[game] = None
        return [Began(game) if is_new else Moved(game, board)]

    def _game_of(self, board: Board) -> Game:
        """The game of its first board."""
        told = self._announced.pop(board.game, None) or self._listed.get(board.game)
        is_it = told is not None and (told.white, told.black) == (board.white, board.black)
        terms: Terms | None = told.terms if told and is_it else None
        is_own = self.name in (board.white, board.black)
        role = OWN if is_own else PARTNERS if is_it and not isinstance(told, GameListed) else WATCHED
        colour = None if not is_own else "white" if board.white == self.name else "black"
        return Game(board.game, board.white, board.black, terms, role, colour)

    def _over(self, line: GameOver) -> list[Event]:
        self._announced.pop(line.game, None)
        game = self.games.pop(line.game, None)
        if not game:
            return [line]
        game.hear(line)
        return [Ended(game)]

    def _forget(self, number: int) -> None:
        """Looks on at a game no longer."""
        game = self.games.get(number)
        if game and game.role == WATCHED:
            del self.games[number]
            game.break_off("not looked on at any more")
