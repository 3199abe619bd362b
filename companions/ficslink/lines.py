"""The server's lines, one class for each text of docs/CLIENTS.md, and `parse`, which knows a line by its whole form.

`str()` of each is the line. What a command prints is a `Reply` or, of those that ask for a list, `Listed`; whatever
comes without being asked for is `News`.
"""

import re
from dataclasses import dataclass
from string import Formatter

from . import terms as spelled
from .board import Board
from .errors import RefusalError
from .line import Line, Listed, News, Reply, Unknown
from .terms import Terms

_HANDLE = "[A-Za-z]{3,17}"
_SECONDS = r"-?\d+"
_HAND = "P*N*B*R*Q*"
_ENDS = (
    "{who} checkmated",
    "{who} resigns",
    "{who} forfeits on time",
    "{who} forfeits by disconnection",
    "drawn by stalemate",
    "drawn by agreement",
    "drawn by the 50 move rule",
    "drawn by repetition",
    "drawn by time",
    "aborted",
    "adjourned",
    "partner's game ended",
)
# of each place of a form what may stand there
_PLACES = {
    "who": _HANDLE,
    "white": _HANDLE,
    "black": _HANDLE,
    "third": _HANDLE,
    "fourth": _HANDLE,
    "number": spelled.NUMBER,
    "game": spelled.NUMBER,
    "terms": spelled.FORM,
    "name": r"\w+",
    "text": ".+",
    "white_hand": _HAND,
    "black_hand": _HAND,
    "came": "[PNBRQ]",
    "side": "[WB]",
    "white_left": _SECONDS,
    "black_left": _SECONDS,
    "short": r"\S+",
    "rank": "[pnbrqkPNBRQK-]{8}",
    "reason": "|".join(it.format(who=_HANDLE) for it in _ENDS),
    "result": r"1-0|0-1|1/2-1/2|\*",
}
_NUMBERS = ("number", "game", "white_left", "black_left")


# ---- replies ----


@dataclass(frozen=True, slots=True)
class Refused(Reply):
    """The line was refused; `RefusalError(number, name).cause` says why."""

    FORM = "refused {number} {name}"
    number: int
    name: str

    @property
    def refusal(self) -> RefusalError:
        """The refusal as an exception."""
        return RefusalError(self.number, self.name)

    @property
    def is_known(self) -> bool:
        """Whether number and name are of the table of refusals."""
        return self.refusal.refusal is not None


@dataclass(frozen=True, slots=True)
class Ok(Reply):
    """It was done."""

    FORM = "Ok."


@dataclass(frozen=True, slots=True)
class Asked(Reply):
    """The other was asked."""

    FORM = "Asked."


@dataclass(frozen=True, slots=True)
class Told(Reply):
    """So many were told."""

    FORM = "(told {number})"
    number: int


@dataclass(frozen=True, slots=True)
class SeekMade(Reply):
    """One's seek stands under this number."""

    FORM = "Your seek is {number}."
    number: int


@dataclass(frozen=True, slots=True)
class Entered(Reply):
    """One is in, under this name."""

    FORM = "Entered as {who}."
    who: str


@dataclass(frozen=True, slots=True)
class Opening(Reply):
    """The first line of a link."""

    FORM = "Free Internet Chess Server profile"


@dataclass(frozen=True, slots=True)
class Nothing(Reply):
    """The list that was asked for is empty."""

    FORM = "none"


# ---- lists ----


@dataclass(frozen=True, slots=True)
class Player(Listed):
    """Of `who` and `inchannel`."""

    FORM = "{who}"
    who: str


@dataclass(frozen=True, slots=True)
class Sought(Listed):
    """Of `sought`: `play NUMBER` takes it."""

    FORM = "{number} {who} {terms}"
    number: int
    who: str
    terms: Terms


@dataclass(frozen=True, slots=True)
class GameListed(Listed):
    """Of `games`, a line a board."""

    FORM = "{game} {white} {black} {terms}"
    game: int
    white: str
    black: str
    terms: Terms


@dataclass(frozen=True, slots=True)
class PendingFrom(Listed):
    """Of `pending`: a challenge to one."""

    FORM = "from {who} {terms}"
    who: str
    terms: Terms


@dataclass(frozen=True, slots=True)
class PendingTo(Listed):
    """Of `pending`: a challenge by one."""

    FORM = "to {who} {terms}"
    who: str
    terms: Terms


@dataclass(frozen=True, slots=True)
class Stored(Listed):
    """Of `stored`: an adjourned game."""

    FORM = "{number} {white} {black} {terms}"
    number: int
    white: str
    black: str
    terms: Terms


@dataclass(frozen=True, slots=True)
class StoredPair(Listed):
    """Of `stored`: an adjourned game of bughouse, with White and Black of the first board and then of the second."""

    FORM = "{number} {white} {black} {third} {fourth} {terms}"
    number: int
    white: str
    black: str
    third: str
    fourth: str
    terms: Terms


# ---- news of the lobby ----


@dataclass(frozen=True, slots=True)
class Challenge(News):
    """`who` challenges one; `accept WHO` or `decline WHO`."""

    FORM = "Challenge: {who} {terms}"
    who: str
    terms: Terms


@dataclass(frozen=True, slots=True)
class ChallengeDeclined(News):
    """`who` has turned one's challenge down."""

    FORM = "{who} declines your challenge."
    who: str


@dataclass(frozen=True, slots=True)
class Seeking(News):
    """`who` offers a game; `play NUMBER` takes it."""

    FORM = '{who} seeking {terms} ("play {number}" to respond)'
    who: str
    terms: Terms
    number: int


@dataclass(frozen=True, slots=True)
class ResumeAsked(News):
    """`who` wants to go on with an adjourned game; `resume WHO` agrees."""

    FORM = "{who} asks to resume."
    who: str


@dataclass(frozen=True, slots=True)
class PartnerAsked(News):
    """`who` wants to be one's partner; `partner WHO` agrees."""

    FORM = "{who} offers to be your partner."
    who: str


@dataclass(frozen=True, slots=True)
class Partners(News):
    """One has a partner now."""

    FORM = "You are now the partner of {who}."
    who: str


@dataclass(frozen=True, slots=True)
class Parted(News):
    """One has this partner no more."""

    FORM = "{who} is no longer your partner."
    who: str


@dataclass(frozen=True, slots=True)
class Goodbye(News):
    """The link is closed behind it."""

    FORM = "Goodbye."


# ---- talk ----


@dataclass(frozen=True, slots=True)
class Tell(News):
    """Said to one."""

    FORM = "{who} tells you: {text}"
    who: str
    text: str


@dataclass(frozen=True, slots=True)
class ChannelTell(News):
    """Said in a channel."""

    FORM = "{who}({number}): {text}"
    who: str
    number: int
    text: str


@dataclass(frozen=True, slots=True)
class Shout(News):
    """Said to all."""

    FORM = "{who} shouts: {text}"
    who: str
    text: str


@dataclass(frozen=True, slots=True)
class PartnerTell(News):
    """Said by one's partner."""

    FORM = "{who} (your partner) tells you: {text}"
    who: str
    text: str


@dataclass(frozen=True, slots=True)
class Kibitz(News):
    """Said to all at a game, to who says it too."""

    FORM = "{who} kibitzes: {text}"
    who: str
    text: str


# ---- games ----


@dataclass(frozen=True, slots=True)
class Creating(News):
    """A game begins, and its board follows; in bughouse two of these lines and then two boards."""

    FORM = "{{Game {game} ({white} vs. {black}) Creating {terms} match.}}"
    game: int
    white: str
    black: str
    terms: Terms


@dataclass(frozen=True, slots=True)
class Continuing(News):
    """An adjourned game goes on, and its board follows."""

    FORM = "{{Game {game} ({white} vs. {black}) Continuing {terms} match.}}"
    game: int
    white: str
    black: str
    terms: Terms


@dataclass(frozen=True, slots=True)
class Hands(News):
    """The men in hand of a game: of each a letter, in the order P N B R Q and in upper case for both colours."""

    FORM = "<b1> game {game} white [{white_hand}] black [{black_hand}]"
    game: int
    white_hand: str
    black_hand: str


@dataclass(frozen=True, slots=True)
class HandsCame(Hands):
    """The same where a man has just come into a hand, as that letter."""

    FORM = Hands.FORM + " <- {came}"
    came: str


@dataclass(frozen=True, slots=True)
class DrawOffered(News):
    """An offer to all who see the game, who offers it too."""

    FORM = "{who} offers a draw."
    who: str


@dataclass(frozen=True, slots=True)
class AbortOffered(News):
    """An offer to end the game without a result."""

    FORM = "{who} offers to abort."
    who: str


@dataclass(frozen=True, slots=True)
class AdjournOffered(News):
    """An offer to go on another day."""

    FORM = "{who} offers to adjourn."
    who: str


@dataclass(frozen=True, slots=True)
class TakebackOffered(News):
    """An offer to take so many half-moves back."""

    FORM = "{who} offers to take back {number}."
    who: str
    number: int


@dataclass(frozen=True, slots=True)
class OfferDeclined(News):
    """The offer that `who` turns down stands no more."""

    FORM = "{who} declines."
    who: str


@dataclass(frozen=True, slots=True)
class TakenBack(News):
    """So many half-moves were taken back; the board follows."""

    FORM = "{number} taken back."
    number: int


@dataclass(frozen=True, slots=True)
class GameOver(News):
    """The game is over: `reason` is one of the ends of docs/CLIENTS.md, with the loser's name where it has one."""

    FORM = "{{Game {game} ({white} vs. {black}) {reason}}} {result}"
    game: int
    white: str
    black: str
    reason: str
    result: str  # 1-0, 0-1, 1/2-1/2 or *

    @property
    def loser(self) -> str | None:
        """Who has lost, where one has."""
        return {"1-0": self.black, "0-1": self.white}.get(self.result)


# ---- boards in text, of `style 1` ----


@dataclass(frozen=True, slots=True)
class TextRank(News):
    """A rank of a board in text, White's eighth first."""

    FORM = "{rank}"
    rank: str


@dataclass(frozen=True, slots=True)
class TextTurn(News):
    """The line below the ranks of a board in text."""

    FORM = "{side} to move, game {game}, White {white_left}, Black {black_left}, last {short}"
    side: str
    game: int
    white_left: int
    black_left: int
    short: str


_REPLIES: tuple[type[Line], ...] = (Refused, Ok, Asked, Told, SeekMade, Entered, Opening)
_NEWS: tuple[type[Line], ...] = (
    Creating,
    Continuing,
    GameOver,
    Hands,
    HandsCame,
    Tell,
    PartnerTell,
    ChannelTell,
    Shout,
    Kibitz,
    Challenge,
    ChallengeDeclined,
    Seeking,
    ResumeAsked,
    PartnerAsked,
    Partners,
    Parted,
    DrawOffered,
    AbortOffered,
    AdjournOffered,
    TakebackOffered,
    OfferDeclined,
    TakenBack,
    TextTurn,
    Goodbye,
)
_LISTS: dict[str, tuple[type[Line], ...]] = {
    "who": (Player,),
    "inchannel": (Nothing, Player),
    "sought": (Nothing, Sought),
    "games": (Nothing, GameListed),
    "pending": (Nothing, PendingFrom, PendingTo),
    "stored": (Nothing, Stored, StoredPair),
}
_REST: tuple[type[Line], ...] = (TextRank,)
_KINDS = {name: (*_REPLIES, *_NEWS, *rows, *_REST) for name, rows in [("", ()), *_LISTS.items()]}  # by commands
ALL: tuple[type[Line], ...] = tuple(
    dict.fromkeys((*_REPLIES, *(it for them in _LISTS.values() for it in them), *_NEWS, *_REST, Board))
)
"""All classes of lines but `Unknown`."""


def _pattern(form: str) -> re.Pattern[str]:
    return re.compile(
        "".join(
            re.escape(text) + (f"(?P<{place}>{_PLACES[place]})" if place else "")
            for text, place, _, _ in Formatter().parse(form)
        )
    )


def _longest_literal(form: str) -> str:
    return max((text for text, _, _, _ in Formatter().parse(form)), key=len)


_PATTERNS = {it: _pattern(it.FORM) for it in ALL if it.FORM}
_LITERALS = {it: _longest_literal(it.FORM) for it in _PATTERNS}  # what a line has at any rate, which is told soonest


def list_of(command: str) -> str:
    """The command that asks for a list, as whose beginning the first word of a typed line may stand; else nothing."""
    word = command.strip(" ").partition(" ")[0].lower()
    return next((it for it in _LISTS if word and it.startswith(word)), "")


def listed(line: str, command: str) -> Line | None:
    """The row of the list for which that command asks; none where it is no such row."""
    return _first(tuple(it for it in _LISTS[command] if issubclass(it, Listed)), line)


def parse(line: str, command: str = "") -> Line:
    """The line, as an object of its class; `Unknown` where it has none. Lines of lists are known as those of the
    command that asked for them alone."""
    if line.startswith("<12> "):
        return Board.parsed(line) or Unknown(line)
    return _first(_KINDS[list_of(command) if command else ""], line) or Unknown(line)


def _first(kinds: tuple[type[Line], ...], line: str) -> Line | None:
    for kind in kinds:
        if _LITERALS[kind] in line and (match := _PATTERNS[kind].fullmatch(line)) and (read := _read(kind, match)):
            return read
    return None


def _read(kind: type[Line], match: re.Match[str]) -> Line | None:
    """The line of a form that fits; none where what stands in its places doesn't."""
    values: dict[str, object] = dict(match.groupdict())
    for name in _NUMBERS:
        if name in values:
            values[name] = int(match[name])
    if "terms" in values:
        values["terms"] = Terms.parsed(match["terms"])
        if values["terms"] is None:
            return None
    read = kind(**values)
    return read if not isinstance(read, GameOver) or _holds(read) else None


def _holds(over: GameOver) -> bool:
    """Whether an end has the result that its reason gives."""
    loser, _, how = over.reason.partition(" ")
    if how in ("checkmated", "resigns", "forfeits on time", "forfeits by disconnection"):
        return over.loser == loser
    if over.reason.startswith("drawn "):
        return over.result == "1/2-1/2"
    return over.result == "*" or over.reason == "partner's game ended"
