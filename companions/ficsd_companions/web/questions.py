"""Questions that the go-between itself asks the server over somebody's link, and what is told of their answers."""

from collections.abc import Callable

from ficslink.lines import Nothing, Refused, TextTurn, listed, parse

LISTS = ("who", "sought", "games")
TEXT_BOARD_ROWS = 8  # of a board in text, of which one may look like a name, before the line that says whose turn it is


class News:
    """A line of an earlier page, of whose answer nothing is an answer any more."""

    def rest_of(self, lines: list[str]) -> list[str]:
        """What of an answer's lines are news."""
        return lines


class List:
    """A list that is the same for everybody. Its word is in capitals, which no alias has, so nobody's alias changes
    what is asked. `take` gets its rows."""

    def __init__(self, name: str, take: Callable[[list[str]], None]) -> None:
        self.name, self.take = name, take
        self.line = name.upper().encode()

    def rest_of(self, lines: list[str]) -> list[str]:
        """What of an answer's lines are news, which stand behind the rows."""
        first = parse(lines[0], self.name) if lines else None
        if isinstance(first, Refused):
            return lines[1:]
        end = next((n - TEXT_BOARD_ROWS for n, it in enumerate(lines) if is_below_text_board(it)), len(lines))
        count = next((n for n, it in enumerate(lines[:end]) if not listed(it, self.name)), end)
        is_empty = not count and isinstance(first, Nothing)
        self.take(lines[:count])
        return lines[count + is_empty :]


def is_below_text_board(line: str) -> bool:
    return " to move, " in line and isinstance(parse(line), TextTurn)
