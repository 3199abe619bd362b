"""What the client types: the server's own lines, and words of FICS that are answered here or said in the server's.

`line` is a line that was typed, `table` has a row for each word of FICS, and the other files the ways by which these
are dealt with.
"""

import re
from dataclasses import replace
from typing import TYPE_CHECKING

from ..moves import spelled
from . import talk
from .line import Line
from .table import command_of

if TYPE_CHECKING:
    from ..session import Session

MOVE_CODE, UNKNOWN_CODE = 1, 512  # in block mode
LIST_SIGNS = ("+", "-", "=")


def take(session: "Session", text: str) -> None:
    """Takes a line. One that is no word of FICS, or begins with an alias, goes on as it was typed."""
    blanks = text[len(text.rstrip(" ")) :]
    text, tag = text.strip(), None
    if session.is_set("block"):
        numbered = re.fullmatch(r"(\d+)(?: (.*))?", text)
        tag = int(numbered[1]) if numbered else 0
        text = (numbered[2] or "").strip() if numbered else text
    text = text.removeprefix("$")  # "not by hand", as xboard marks its own lines
    word, _, behind = text.partition(" ")
    line = Line(session, tag, UNKNOWN_CODE, text, word, behind + blanks)
    command = command_of(word)
    if word in session.aliases:
        line.hand_on(text, "other")
    elif move := spelled(text, session.board_to_move()):
        replace(line, code=MOVE_CODE).hand_on(move, "move")
    elif word.startswith(LIST_SIGNS):
        talk.change_list(line)
    elif command:
        command.way(replace(line, code=command.code, word=command.word))
    else:
        line.hand_on(text, "other")
