"""Games as they are told: terms, board lines, and what is known of the half-moves of a game."""

from collections.abc import Iterable
from dataclasses import dataclass, field
from enum import Enum

from ficslink.board import Board as ServersBoard
from ficslink.game import TICKS_FROM, add
from ficslink.terms import Terms

LETTERS = {
    "untimed": "u",
    "lightning": "l",
    "blitz": "b",
    "standard": "s",
    "crazyhouse": "z",
    "bughouse": "B",
    "wild/fr": "w",
}
VARIANTS = {"crazyhouse": "crazyhouse", "bughouse": "bughouse", "fischer": "wild/fr"}


def kind_of(terms: Terms) -> str:
    """FICS's name of games by such terms: by the variant, and in chess by the time that forty moves may take."""
    if terms.kind in VARIANTS:
        return VARIANTS[terms.kind]
    if not terms.is_timed:
        return "untimed"
    seconds = terms.minutes * 60 + terms.increment * 40
    return "lightning" if seconds < 180 else "blitz" if seconds < 900 else "standard"


def fields_of(terms: Terms) -> dict[str, object]:
    """The terms as fields of a text."""
    kind = kind_of(terms)
    colour = f" [{terms.colour}]" if terms.colour else ""
    return {
        "minutes": terms.minutes,
        "increment": terms.increment,
        "kind": kind,
        "letter": LETTERS[kind],
        "colour": colour,
    }


HalfMove = tuple[int, str, str]  # its number, its short form, and the time that it took


class Board(ServersBoard):
    """A board line of the server, and the lines of FICS for it."""

    def shown(self, in_milliseconds: bool) -> str:
        """The line as FICS has it: with whether a clock runs, and a lag behind it, and, where the client asked for
        it, with milliseconds."""
        fields = str(self).split(" ")
        if in_milliseconds:
            fields[24:26] = [str(1000 * it) for it in (self.white_left, self.black_left)]
            fields[28] = fields[28].replace(")", ".000)")
        return " ".join(fields + ["1" if self.is_timed and self.ply >= TICKS_FROM else "0", "0"])

    def start(self, in_milliseconds: bool) -> str:
        """The line as that of the position from which a list of moves begins."""
        fields = self.shown(in_milliseconds).split(" ")
        fields[19] = "-4"
        fields[27:30] = ["none", "(0:00.000)" if in_milliseconds else "(0:00)", "none"]
        return " ".join(fields)

    def clocks(self) -> tuple[str, str]:
        """The clocks, as they stand in a list of games."""
        return clock(self.white_left), clock(self.black_left)


def clock(seconds: int) -> str:
    """Minutes and seconds; 0:00 where the flag has fallen."""
    minutes, seconds = divmod(max(seconds, 0), 60)
    return f"{minutes}:{seconds:02}"


class Role(Enum):
    """What a client has to do with a game."""

    MINE = "mine"
    PARTNERS = "partner's"
    WATCHED = "watched"


@dataclass(eq=False)
class Game:
    """A game of which a client is told: its names, its terms, and its board lines from the first one that came."""

    number: int
    white: str
    black: str
    terms: Terms
    role: Role
    opening: list[str] = field(default_factory=list)  # lines that are due before the first board
    boards: list[Board] = field(default_factory=list)
    hands: str = ""  # the line of the men in hand, where one was told

    def add(self, board: Board) -> None:
        """Takes its next board."""
        add(self.boards, board)

    def begin_with(self, other: "Game | None") -> None:
        """Takes the boards up to the present one from another telling of the same game."""
        if len(self.boards) == 1 and other:
            places = [it.position for it in other.boards]
            if self.boards[0].position in places:
                is_last = self.boards[0].position == places[-1]
                self.boards = other.boards[: places.index(self.boards[0].position) + 1]
                self.hands = other.hands if is_last else self.hands

    def other_player(self, name: str) -> str:
        """Who plays against that one."""
        return self.black if name == self.white else self.white

    def fields(self) -> dict[str, object]:
        """The game as fields of a text."""
        return {"game": self.number, "white": self.white, "black": self.black, **fields_of(self.terms)}

    def moves(self, in_milliseconds: bool) -> tuple[list[str], list[HalfMove]]:
        """The lines of its list of moves: where the first half-moves weren't told, or the array isn't the usual one,
        the position from which the list begins, and then the moves from there."""
        lines: list[str] = []
        first = self.boards[0]
        if first.ply or self.terms.array is not None:
            first = self.boards[0] if not first.ply else self.boards[-1]
            lines = [first.start(in_milliseconds), ""]
        words = [
            (it.ply, it.short, it.shown(in_milliseconds).split(" ")[28]) for it in self.boards if it.ply > first.ply
        ]
        return lines, words


def rows(words: Iterable[HalfMove]) -> list[str]:
    """The rows of a list of moves, a half-move or two in each."""
    lines: list[str] = []
    for ply, word, time in words:
        cell = f"{word:<7} {time}"
        if ply % 2:
            lines.append(f"{(ply + 1) // 2:>3}.  {cell:<23}")
        else:
            lines[-1] += f" {cell}"
    return [it.rstrip() for it in lines]
