"""One link: its login, what its client has set, and the answers that are due to it, in their order."""

from collections import deque
from collections.abc import Callable, Iterable
from enum import Enum, auto

from ficslink.board import MINE
from ficslink.lines import Entered, GameListed, Refused, listed, parse
from ficslink.refusals import Refusal
from ficslink.stamps import ACKNOWLEDGEMENT
from ficslink.terms import Terms
from ficslink.texts import LOGIN, PASSWORD, READY, Part, Parts

from ficsd_companions.limits.budget import Budget
from ficsd_companions.limits.hearing import LEFT_OUT_SECONDS, Hearing
from ficsd_companions.limits.saying import Saying

from . import texts, typed
from .boards import Board, Game, Role
from .request import Render, Request
from .shared import Shared
from .standing import Offers, Seeks
from .told import Told
from .wire import Lines, unsealed

SEAL_GREETINGS = (b"TIMESTAMP|", b"TIMESEAL2|")
BLOCK_START, BLOCK_BREAK, BLOCK_END = "\x15", "\x16", "\x17"
MOST_WAITING, MOST_WAITING_BYTES = 256, 32768  # lines of the client


class Stage(Enum):
    """How far a link has come."""

    GREETING = auto()  # nothing came of the server yet
    NAME = auto()  # a name is wanted
    ASKED = auto()  # the server has a name, or a password, and hasn't answered
    PASSWORD = auto()
    RETURN = auto()  # it is in, once the client has typed a further line
    IN = auto()
    OVER = auto()


OPEN = (Stage.NAME, Stage.PASSWORD, Stage.RETURN, Stage.IN)  # in which lines of the client are taken


class Session:
    """One link, without its sockets: `to_client` and `to_server` take text, `end_to_server` says that no more comes,
    and `later` takes seconds and a call that is to be made then."""

    def __init__(
        self,
        shared: Shared,
        to_client: Callable[[str], object],
        to_server: Callable[[str], object],
        end_to_server: Callable[[], object],
        later: Callable[[float, Callable[[], object]], object],
        guesses: Budget | None = None,
        saying: Saying | None = None,
    ) -> None:
        self.shared, self.to_client, self.to_server = shared, to_client, to_server
        self.end_to_server, self.later, self.guesses = end_to_server, later, guesses
        self.saying, self.hearing = saying or Saying(), Hearing()
        self.wrong_password: Callable[[], object] = lambda: None  # which is told of each
        self.name = self.typed_name = ""
        self.stage = Stage.GREETING
        self.with_password = self.client_has_ended = self.tells_later = False
        self.is_sealed: bool | None = None  # none until the first line has come
        self.ahead: deque[str] = deque()  # lines of the client that weren't taken yet
        self.held: list[str] = []  # news that came before the client was told that it is in
        self.lines, self.parts, self.told = Lines(), Parts(), Told(self)
        self.settings: dict[str, str] = {}
        self.variables = {"seek": "1", "open": "1", "shout": "1", "style": "12"}
        self.lists: dict[str, list[str]] = {"channel": [], "censor": [], "noplay": []}
        self.aliases: dict[str, str] = {}
        self.last_told = ""  # by a `tell`
        self.offers, self.seeks = Offers(self), Seeks(self)
        self.games: dict[int, Game] = {}
        self.last_game: Game | None = None  # of one's own, which is over
        self.listed: dict[int, tuple[str, str, Terms]] = {}  # the games of the server's last list
        self.queue: deque[Request] = deque()  # the client's lines whose answers aren't sent yet
        self.owed: deque[Request] = deque()  # what is answered next
        self.question: Request | None = None  # the go-between's own

    @property
    def is_in(self) -> bool:
        return bool(self.name)

    @property
    def is_behind(self) -> bool:
        """Whether so much of what the client sent waits for its turn or its answer that no more should be taken."""
        waiting = sum(len(line) for it in self.queue for line in it.asks) + sum(map(len, self.ahead))
        return len(self.queue) + len(self.ahead) > MOST_WAITING or waiting > MOST_WAITING_BYTES

    def is_set(self, name: str) -> bool:
        return self.settings.get(name, "0") != "0"

    # ---- bytes in ----

    def from_client(self, piece: bytes) -> None:
        """Takes bytes of the client."""
        for line in self.lines.of(piece):
            plain = unsealed(line)
            if self.is_sealed is None:
                self.is_sealed = plain is not None and plain.startswith(SEAL_GREETINGS)
                if self.is_sealed:
                    continue
            if self.is_sealed and plain is not None:
                line = plain
            if not (self.is_sealed and line == ACKNOWLEDGEMENT):
                self.ahead.append(line.decode("latin-1"))
        self.to_client(self.lines.telnet.answers().decode("latin-1"))
        self.go_on()

    def client_is_gone(self) -> None:
        """The client sends no more: the server is told so behind the last line."""
        self.client_has_ended = True
        self.go_on()

    def go_on(self) -> None:
        """Takes the lines that wait, as far as the login lets them."""
        while self.ahead and self.stage in OPEN:
            self.take(self.ahead.popleft())
        if self.client_has_ended and not self.ahead:
            self.end_to_server()

    def take(self, line: str) -> None:
        """Takes a line of the client."""
        if self.stage in (Stage.NAME, Stage.PASSWORD):
            return self.try_login(line)
        is_return = self.stage is Stage.RETURN
        if is_return:
            self.enter("(U)")
        if line or not is_return:
            typed.take(self, line)

    def try_login(self, line: str) -> None:
        """Sends a name, or a password in its time, so that nobody tries many."""
        self.with_password = self.stage is Stage.PASSWORD
        if not self.with_password:
            self.typed_name = line
        elif line != line.strip(" "):
            return self.put_text(texts.PASSWORD_BLANKS + "\n\n" + PASSWORD)
        self.stage = Stage.ASKED
        seconds = self.guesses.promise() if self.with_password and self.guesses else 0
        if seconds:
            self.later(seconds, lambda: self.to_server(line + "\n"))
        else:
            self.to_server(line + "\n")

    def from_server(self, piece: bytes) -> None:
        """Takes bytes of the server."""
        for part in self.parts.of(piece):
            if self.stage in (Stage.GREETING, Stage.ASKED):
                self.answered_login(part)
            elif self.stage is Stage.RETURN:
                self.held += self.hearing.heard(part.lines)
            else:
                self.answered(Part(self.hearing.heard(part.lines), part.prompt))
        self.go_on()
        self.tell_left_out_later()

    def server_is_gone(self) -> None:
        """Tells what came last of the server."""
        lines = self.parts.left()
        if not self.is_in:
            self.put(lines)
        else:
            self.put([""] + self.told.all(self.held + lines))
        self.stage = Stage.OVER

    # ---- the login ----

    def answered_login(self, part: Part) -> None:
        """Takes the server's first part, or its answer to a name or a password."""
        for n, line in enumerate(map(parse, part.lines), 1):
            if isinstance(line, Entered):
                return self.entered(line.who, part.lines[n:])
        if part.prompt == PASSWORD:
            self.stage = Stage.PASSWORD
            return self.put_text(texts.IS_REGISTERED.format(name=self.typed_name) + "\n" + PASSWORD)
        text = "".join(it + "\n" for it in part.lines)
        if self.stage is Stage.GREETING:
            text = texts.BANNER
        elif part.lines and isinstance(refused := parse(part.lines[0]), Refused):
            known = refused.refusal.refusal
            if known is Refusal.WRONG_PASSWORD:
                self.wrong_password()
            text = texts.LOGIN_REFUSALS.get(known, text) if known else text
            text = text.format(name=self.typed_name) + self.drop_ahead()
        self.stage = Stage.NAME
        self.put_text(text + "\n" + LOGIN if text else LOGIN)

    def entered(self, name: str, news: list[str]) -> None:
        """The server has let the client in. Who has no password is told so, and is asked for a further line."""
        self.name, self.held = name, news
        if self.with_password:
            if self.guesses:
                self.guesses.give_back()
            return self.enter("")
        text = texts.AS_GUEST if self.typed_name.lower() == "guest" else texts.AS_NEW
        self.stage = Stage.RETURN
        self.put_text(text.format(name=self.name))

    def drop_ahead(self) -> str:
        """Drops what was sent ahead behind a name or a password that was refused: the server, which asks for a name
        now, would take a password for one, and everybody could read it. What the client is told of it."""
        dropped = any(self.ahead)
        self.ahead.clear()
        return texts.NOT_TAKEN if dropped else ""

    def enter(self, title: str) -> None:
        """The client is in: tells it so, and what came meanwhile."""
        self.stage = Stage.IN
        news, self.held = self.told.all(self.held), []
        self.put_text(texts.STARTING.format(name=self.name, title=title))
        self.put(news)
        self.put_text(READY)

    # ---- answers ----

    def ask(self, request: Request) -> None:
        """Sends a request's lines to the server. It is answered behind those before it."""
        if why := next(filter(None, map(self.saying.refusal, request.asks)), None):
            request = Request(request.tag, request.code, [], lambda _: [str(why)])
        self.queue.append(request)
        for line in request.asks:
            self.owed.append(request)
            self.to_server(line + "\n")
        self.flush()

    def answered(self, part: Part) -> None:
        """Takes a part of the server: news, or the answer that is due next."""
        if part.is_news or not self.owed:
            return self.tell(self.told.all(part.said))
        request = self.owed.popleft()
        own = request.own(part.lines)
        request.answers.append(part.lines[:own])
        request.news += self.told.all(part.lines[own:])
        if request is self.question:
            self.question = None
            self.tell(request.render(request.answers) + request.news)
        else:
            self.flush()

    def flush(self) -> None:
        """Sends the answers that are whole, in their order."""
        while self.queue and self.queue[0].is_answered:
            request = self.queue.popleft()
            lines = request.render(request.answers)
            if request.tag is None:
                self.put(lines)
            else:
                self.put_text(f"{BLOCK_START}{request.tag}{BLOCK_BREAK}{request.code}{BLOCK_BREAK}")
                self.put(lines)
                self.put_text(BLOCK_END + "\n")
            self.put(request.news)
            self.put_text(READY)

    def tell(self, news: list[str]) -> None:
        """Sends what came without a line of the client's; nothing where nothing did."""
        if news:
            self.put([""] + news)
            self.put_text(READY)

    def tell_left_out_later(self) -> None:
        """Tells in a moment how much talk was left out."""
        if self.hearing.count and not self.tells_later:
            self.tells_later = True
            self.later(LEFT_OUT_SECONDS, self.tell_left_out)

    def tell_left_out(self) -> None:
        self.tells_later = False
        if self.stage is Stage.IN:
            self.tell(self.hearing.left_out())
        elif self.stage is not Stage.OVER:
            self.tell_left_out_later()

    def put(self, lines: Iterable[str]) -> None:
        self.put_text("".join(it + "\n" for it in lines))

    def put_text(self, text: str) -> None:
        if text:
            self.to_client(text.replace("\n", "\n\r"))

    # ---- questions of its own ----

    @property
    def may_ask(self) -> bool:
        """Whether it may ask the server something of its own: no such question waits for its answer."""
        return self.stage is Stage.IN and not self.client_has_ended and not self.question

    def ask_for_seeks(self) -> None:
        """Asks which seeks still stand, for a client that is told of those that are gone: the server doesn't tell."""
        if self.may_ask and self.is_set("seekremove") and self.seeks.known:
            self.put_question("sought", lambda answers: self.seeks.learn(answers[0]))

    def put_question(self, line: str, render: Render) -> None:
        """Sends a line of its own, of whose answer the client is told only what `render` and the news say."""
        self.question = Request(None, 0, [line], render)
        self.owed.append(self.question)
        self.to_server(line + "\n")

    # ---- games ----

    def begin(self, game: Game) -> None:
        self.games[game.number] = game

    def game_of(self, board: Board) -> Game:
        """The game of a board line; one that nobody told of is taken from the line."""
        game = self.games.get(board.game)
        if not game or (game.white, game.black) != (board.white, board.black):
            players = board.white, board.black
            white, black, terms = self.listed.get(board.game, ("", "", None))
            if not terms or (white, black) != players:
                terms = Terms(board.minutes, board.increment, "chess")
            game = Game(board.game, *players, terms, Role.MINE if self.name in players else Role.WATCHED)
            self.begin(game)
        return game

    def present(self) -> Game | None:
        """The game that one plays, or else one at which one looks on."""
        return next(iter(self.by_role()), None)

    def by_role(self) -> list[Game]:
        """The games, one's own before others."""
        return sorted(self.games.values(), key=lambda it: it.role is not Role.MINE)

    def played(self) -> list[Game]:
        """One's own games that were shown."""
        return [it for it in self.games.values() if it.role is Role.MINE and it.boards]

    def board_to_move(self) -> Board | None:
        """The board of a move that is typed now, as its player sees it: where one plays one game, is to move in it, and
        nothing that was typed before waits for its answer; else none."""
        mine = self.played()
        if len(mine) != 1 or self.queue:
            return None
        board = mine[0].boards[-1]
        return board if board.relation == MINE else None

    def game_with(self, name: str) -> Game | None:
        """The game in which that one plays, one's own before others."""
        return next((it for it in self.by_role() if name in (it.white, it.black)), None)

    def learn_games(self, lines: Iterable[str]) -> None:
        """Takes the server's list of games."""
        self.listed = {}
        for line in lines:
            row = listed(line, "games")
            if isinstance(row, GameListed):
                self.listed[row.game] = row.white, row.black, row.terms
