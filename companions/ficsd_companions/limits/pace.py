"""What one link may send: a flood is told from a script that is pasted, and neither keeps others waiting.

Lines beyond a few at once are taken at a pace, so that they come a little later and none is lost. Who goes on for long
above the lasting rate sends a flood, and so does who sends far ahead of the pace, or more bytes or pings than any
client would."""

import array
import asyncio
import fcntl
import termios
from typing import Protocol

from .budget import Budget

LINES_A_SECOND, LINES_AT_ONCE = 20, 600
PACE_A_SECOND, PACE_AT_ONCE = 50, 50
AHEAD_BYTES = 32768  # that were sent ahead of what is taken
PINGS_A_SECOND, PINGS_AT_ONCE = 2, 20
BYTES_A_SECOND, BYTES_AT_ONCE = 16384, 131072
OPTIONS_A_SECOND, OPTIONS_AT_ONCE = 1024, 8192  # bytes with telnet's own among them, which cost more than others
A_TURN = 4  # messages in one turn of the loop


class Flood(Exception):
    """More than a link may send; its text says which limit that is."""


class Socket(Protocol):
    """A socket, also one that asyncio shows of its own."""

    def fileno(self) -> int:
        ...


class Pace:
    """The budgets of one link, which comes by that socket. What goes beyond them raises `Flood`."""

    def __init__(self, link: Socket) -> None:
        self.link = link
        self.lines, self.pace = Budget(LINES_A_SECOND, LINES_AT_ONCE), Budget(PACE_A_SECOND, PACE_AT_ONCE)
        self.pings, self.bytes = Budget(PINGS_A_SECOND, PINGS_AT_ONCE), Budget(BYTES_A_SECOND, BYTES_AT_ONCE)
        self.options = Budget(OPTIONS_A_SECOND, OPTIONS_AT_ONCE)
        self.in_turn = 0

    async def line(self) -> None:
        """Counts a line, and waits where it comes before its time, or others are due."""
        if not self.lines.take():
            raise Flood(f"a flood: more than {LINES_A_SECOND} lines a second, and {LINES_AT_ONCE} at once")
        await self.give_way(self.pace.promise())

    async def ping(self) -> None:
        """Counts what asks for a sign of life, or is one, and waits where others are due."""
        if not self.pings.take():
            raise Flood(f"a flood: more than {PINGS_A_SECOND} pings a second, and {PINGS_AT_ONCE} at once")
        await self.give_way()

    async def give_way(self, seconds: float = 0) -> None:
        """Waits so long, and every few messages a turn of the loop in any case."""
        self.in_turn += 1
        if seconds or self.in_turn >= A_TURN:
            self.in_turn = 0
            await asyncio.sleep(seconds)

    def piece(self, length: int) -> None:
        """Counts bytes that were read, whatever they are."""
        if unread(self.link) > AHEAD_BYTES:
            raise Flood(f"a flood: more than {AHEAD_BYTES} bytes ahead of what is taken")
        if not self.bytes.take(length):
            raise Flood(f"a flood: more than {BYTES_A_SECOND} bytes a second, and {BYTES_AT_ONCE} at once")

    def telnets_own(self, length: int) -> None:
        """Counts bytes with some of telnet's own among them."""
        if not self.options.take(length):
            raise Flood(f"a flood: more than {OPTIONS_A_SECOND} bytes of options a second, {OPTIONS_AT_ONCE} at once")


def unread(link: Socket) -> int:
    """How many bytes have come by a socket that weren't read."""
    return told_of(link, termios.FIONREAD)


def untaken(link: Socket) -> int:
    """How many bytes went to a socket that the other side hasn't taken."""
    return told_of(link, termios.TIOCOUTQ)


def told_of(link: Socket, question: int) -> int:
    """What the system tells of a socket."""
    count = array.array("i", [0])
    fcntl.ioctl(link.fileno(), question, count)
    return count[0]
