"""What the server says without being asked, put into FICS's words."""

from collections.abc import Sequence
from functools import lru_cache
from typing import TYPE_CHECKING

from ficslink import lines
from ficslink.game import offer_of
from ficslink.line import Line, News, Unknown
from ficslink.terms import Terms

from . import texts
from .boards import Board, Game, Role, fields_of, kind_of

if TYPE_CHECKING:
    from .session import Session

HAND = "<b1>"  # with which a line of the men in hand begins


@lru_cache(512)
def read(line: str) -> Line:
    """A line of the server; many are told the same ones."""
    return Board.parsed(line) or Unknown(line) if line.startswith("<12> ") else lines.parse(line)


def board_of(line: str) -> Board:
    """The board of a board line."""
    board = read(line)
    assert isinstance(board, Board)
    return board


def is_news(line: str) -> bool:
    """Whether a line is news; the rows of a board in text may be what a command prints."""
    told = read(line)
    return isinstance(told, News) and not isinstance(told, (lines.TextRank, lines.TextTurn))


def is_board(line: str) -> bool:
    """Whether it is a board line."""
    return isinstance(read(line), Board)


def offer_text(giver: str, taker: str, terms: Terms) -> str:
    """A challenge as FICS tells it."""
    kind = kind_of(terms)
    colour = f" [{terms.colour}]" if terms.colour else ""
    if kind == "untimed":
        return f"{giver} (----){colour} {taker} (----) unrated untimed"
    wild = " Loaded from wild/fr" if kind == "wild/fr" else ""
    times = f"{terms.minutes} {terms.increment}"
    return f"{giver} (----){colour} {taker} (----) unrated {kind.split('/')[0]} {times}{wild}"


def row(name: str, **fields: object) -> list[str]:
    """The lines of a row of the table."""
    return texts.TOLD[name].format(**fields).split("\n")


class Told:
    """The news of one session."""

    def __init__(self, session: "Session") -> None:
        self.session = session

    def all(self, said: Sequence[str]) -> list[str]:
        """The lines that the client is sent for these. FICS tells the men in hand behind each board of a variant that
        has them; the server does where they have changed."""
        told = []
        for line, following in zip(said, [*said[1:], ""]):
            told += self.one(line)
            board = read(line)
            game = self.session.games.get(board.game) if isinstance(board, Board) else None
            if game and game.hands and not following.startswith(HAND):
                told.append(game.hands)
        return told

    def one(self, line: str) -> list[str]:
        """The lines that the client is sent for this one. Talk goes on as it is, and so does what is no news."""
        match read(line):
            case Board():
                return self.board(line)
            case lines.Kibitz() as it:
                game = self.session.game_with(it.who) or self.session.present()
                return row("kibitz", who=it.who, game=game.number if game else 0, text=it.text)
            case lines.Hands() as it:
                return self.hands(it, line)
            case lines.Creating() | lines.Continuing() as it:
                return self.creating(it)
            case lines.GameOver() as it:
                return self.end(it)
            case lines.Seeking() as it:
                return self.seek(it)
            case lines.TakenBack() as it:
                game = self.session.present()
                return row("taken_back", game=game.number if game else 0, n=it.number)
            case lines.OfferDeclined() as it:
                return self.declines(it)
            case lines.DrawOffered() | lines.AbortOffered() | lines.AdjournOffered() | lines.TakebackOffered() as it:
                return self.offer(it, line)
            case it:
                return self.of_the_lobby(it, line)

    def of_the_lobby(self, told: Line, line: str) -> list[str]:
        """The same of what is told of no game."""
        offers, me = self.session.offers, self.session.name
        match told:
            case lines.Challenge(who, terms):
                text = offer_text(who, me, terms)
                return row("challenge", offer=text) + offers.add("match", who, me, text)
            case lines.ChallengeDeclined(who):
                return row("declined", who=who) + offers.drop(lambda it: it.kind == "match" and it.taker == who)
            case lines.ResumeAsked(who):
                return row("resumes", who=who)
            case lines.PartnerAsked(who):
                return row("asks partner", who=who)
            case lines.Partners(who):
                return row("partners", who=who)
            case lines.Parted(who):
                return row("parted", who=who)
            case lines.Goodbye():
                return row("goodbye")
        return [line]

    # ---- games ----

    def creating(self, told: lines.Creating | lines.Continuing) -> list[str]:
        """A game's first words wait for its first board, which in bughouse may not be the next line."""
        is_mine = self.session.name in (told.white, told.black)
        role = Role.MINE if is_mine else Role.PARTNERS
        game = Game(told.game, told.white, told.black, told.terms, role)
        game.opening = row("creating" if is_mine else "partner plays", how=type(told).__name__, **game.fields())
        self.session.begin(game)
        return self.session.offers.drop(lambda it: it.kind == "match") if is_mine else []

    def board(self, line: str) -> list[str]:
        board = self.session.shared.board(line)
        game = self.session.game_of(board)
        before = game.boards[-1].ply if game.boards else board.ply
        game.add(board)
        self.session.shared.note(game)
        opening, game.opening = game.opening, []
        shown = opening + [board.shown(self.session.is_set("ms"))]
        if game.role is Role.MINE and board.ply > before:
            mover = game.black if board.side == "W" else game.white
            shown += self.session.offers.drop(lambda it: it.kind == "takeback" or it.at_board and it.giver != mover)
        return shown

    def hands(self, told: lines.Hands, line: str) -> list[str]:
        """The line doesn't name the man that came last in crazyhouse: eboard skips one that does."""
        game = self.session.games.get(told.game)
        if not game:
            return [line]
        game.hands = line.partition(" <- ")[0]
        return [game.hands if game.terms.kind == "crazyhouse" else line]

    def end(self, told: lines.GameOver) -> list[str]:
        game = self.session.games.pop(told.game, None)
        self.session.shared.forget(told.game)
        reason = texts.ENDS.get(told.reason, told.reason)
        said = [f"{{Game {told.game} ({told.white} vs. {told.black}) {reason}}} {told.result}"]
        if game and game.role is Role.WATCHED:
            said += ["", texts.DONE["unobserve"].format(told.game)]
        if game and game.role is Role.MINE:
            self.session.last_game = game
            said += self.session.offers.drop(lambda it: it.at_board)
        return said

    # ---- offers and seeks ----

    def offer(self, told: Line, line: str) -> list[str]:
        offer = offer_of(told)
        assert offer
        game = self.session.game_with(offer.who)
        if not game or game.role is not Role.MINE:
            return row("offer elsewhere", game=game.number if game else 0, line=line)
        own = "own " if offer.who == self.session.name else ""
        added = self.session.offers.add(
            offer.kind, offer.who, game.other_player(offer.who), str(offer.half_moves or "#")
        )
        return row(own + offer.kind, who=offer.who, n=offer.half_moves) + added

    def declines(self, told: lines.OfferDeclined) -> list[str]:
        offer = self.session.offers.first(lambda it: it.at_board and it.giver != told.who)
        said = row("declines", who=told.who, kind=offer.kind if offer else "draw")
        return said + self.session.offers.drop(lambda it: it is offer)

    def seek(self, told: lines.Seeking) -> list[str]:
        self.session.seeks.known[told.number] = told.who, told.terms
        rows = self.session.seeks.row("<s>", told.number) if self.session.is_set("seekinfo") else []
        if self.session.variables["seek"] != "0":
            rows = row("seek", n=told.number, who=told.who, **fields_of(told.terms)) + rows
        return rows
