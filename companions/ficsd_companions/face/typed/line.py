"""A line that a client has typed, and how it is asked and answered."""

from collections.abc import Callable, Sequence
from dataclasses import dataclass
from typing import TYPE_CHECKING

from ficslink.lines import Refused, Told, parse

from .. import texts
from ..request import Lines, Render, Request

if TYPE_CHECKING:
    from ..session import Session

Done = Callable[[Lines], Lines]  # makes the client's lines of an answer that is no refusal


@dataclass(frozen=True)
class Line:
    """A line of one client."""

    session: "Session"
    tag: int | None  # its number, in block mode
    code: int  # that of its word, in block mode
    text: str  # all of it
    word: str  # the word of FICS that its first word begins
    behind: str  # what stands behind its first word, with all blanks

    @property
    def rest(self) -> str:
        """What stands behind its first word."""
        return self.behind.strip()

    @property
    def first(self) -> str:
        """The first word behind that; nothing where there is none."""
        return (self.behind.split() or [""])[0]

    def ask(self, asks: Sequence[str], render: Render, board_heads: tuple[str, ...] = ()) -> None:
        """Asks the server something for it."""
        self.session.ask(Request(self.tag, self.code, asks, render, board_heads))

    def hand_on(self, asked: str, key: str, done: Done | None = None) -> None:
        """Has the server do it."""
        self.ask([asked.strip()], self.answer(key, done))

    def local(self, text: str) -> None:
        """Answers without the server, in the order of the lines."""
        self.ask([], lambda answers: text.split("\n"))

    def refusal(self, lines: Lines) -> Lines | None:
        """A refusal in FICS's words; none where the lines are none."""
        refused = parse(lines[0]) if lines else None
        if not isinstance(refused, Refused):
            return None
        known = refused.refusal.refusal
        text = texts.REFUSALS.get(known, lines[0]) if known else lines[0]
        word, name, *_ = [*self.text.split(), "", ""]
        game = self.session.present()
        half_moves = game.boards[-1].ply if game and game.boards else 0
        return text.format(line=self.text, word=word, name=name, me=self.session.name, half_moves=half_moves).split(
            "\n"
        )

    def answer(self, key: str, done: Done | None = None) -> Render:
        """Makes the client's lines of one answer: a refusal in FICS's words; else what `done` makes of the lines; else
        the row of the table; else the lines as they are."""
        words = [*self.text.split()[1:], "", ""]

        def render(answers: list[Lines]) -> Lines:
            lines = answers[-1]
            refused = self.refusal(lines)
            if refused is not None:
                return refused
            if done:
                return done(lines)
            row = texts.DONE.get(key, "")
            told = parse(lines[0]) if lines else None
            is_told = isinstance(told, Told)
            if not row or "{n}" in row and not is_told:
                return lines
            number = told.number if isinstance(told, Told) else 0
            return row.format(*words, n=number, me=self.session.name).split("\n")

        return render


Way = Callable[[Line], None]


def as_it_is(line: Line) -> None:
    """Hands a line on, with its word as the server has it."""
    line.hand_on(f"{line.word} {line.rest}", line.word)


@dataclass(frozen=True)
class Says:
    """A way for a word for which this server has nothing: a text, of which {0} is the first word behind it, or one's
    name."""

    text: str

    def __call__(self, line: Line) -> None:
        line.local(self.text.format(line.first or line.session.name))
