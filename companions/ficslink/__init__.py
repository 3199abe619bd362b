"""A client library for ficsd: its lines, a link to it, and a member that plays.

- `lines`: the server's lines as objects, and `parse`; `board` has the board line and its FEN.
- `link`: `Link`, a connection whose answers and news are told apart.
- `member`: `Member`, who is in under a name, keeps its games and comes again behind a lost link; `game` is one of its
  games, `events` what happens to it.
- `errors`: what goes wrong, each by its name; `refusals` has the server's refusals.
- `observing`: looking on at a game, and knowing whether one does.
- `secret`: an account's password in a file.
- `texts`, `stamps`: the bytes below, for go-betweens.
"""

import logging

from . import lines
from .answer import Answer
from .board import Board
from .errors import BadLine, Closed, LinkError, NoGame, NoServer, PasswordWanted, RefusalError, Silent, TooLong
from .events import Began, CameAgain, Ended, Event, LinkLost, Moved, Offered, Turn
from .game import Game, Offer
from .line import Line, Unknown
from .lines import parse
from .link import Link
from .member import Member
from .refusals import Refusal
from .terms import Terms

__all__ = [
    "Answer",
    "BadLine",
    "Began",
    "Board",
    "CameAgain",
    "Closed",
    "Ended",
    "Event",
    "Game",
    "Line",
    "Link",
    "LinkError",
    "LinkLost",
    "Member",
    "Moved",
    "NoGame",
    "NoServer",
    "Offer",
    "Offered",
    "PasswordWanted",
    "Refusal",
    "RefusalError",
    "Silent",
    "Terms",
    "TooLong",
    "Turn",
    "Unknown",
    "lines",
    "parse",
]

logging.getLogger("ficslink").addHandler(logging.NullHandler())  # who wants to read its log sets one up
