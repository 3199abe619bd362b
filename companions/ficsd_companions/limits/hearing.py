"""What is told of what others say. Talk that comes faster than anybody reads is left out, and counted, so that no board
and no answer waits behind it."""

import re
import time
from collections.abc import Callable, Iterable

from .budget import Budget

ALL_A_SECOND, ALL_AT_ONCE = 4, 100  # lines to all, and as many to one alone
ONE_A_SECOND, ONE_AT_ONCE = 2, 40  # of these those of one who speaks
MOST_KNOWN = 512  # who speaks and was heard lately
LEFT_OUT_SECONDS = 2  # between two lines that say how much was left out
HANDLE = "[A-Za-z]{3,17}"
SAID = re.compile(
    rf"(?P<all>{HANDLE})(?: shouts: | kibitzes: |\(\d+\): | seeking )"
    rf"|(?P<one>{HANDLE}) (?:\(your partner\) )?"
    r"(?:tells you: |offers to be your partner\.|asks to resume\.|declines your challenge\.)"
    rf"|Challenge: (?P<asks>{HANDLE}) "
)

Clock = Callable[[], float]


LEFT_OUT = re.compile(r"\(\d+ lines? of talk left out\)")


def is_talk(line: str) -> bool:
    """Whether a line is talk, or says how much of it was left out."""
    return bool(SAID.match(line) or LEFT_OUT.fullmatch(line))


def left_out(count: int) -> str:
    """The line that says how many were left out."""
    return f"({count} {'line' if count == 1 else 'lines'} of talk left out)"


class Hearing:
    """What one member is told. What is for it alone has room of its own, and nobody takes all of either room, so a
    flood leaves no other's words out."""

    def __init__(self, clock: Clock = time.monotonic) -> None:
        self.clock = clock
        self.rooms = {name: Budget(ALL_A_SECOND, ALL_AT_ONCE, clock) for name in ("all", "one", "asks")}
        self.speakers: dict[tuple[str, str], Budget] = {}
        self.count = 0  # lines that were left out and of which nothing was said as yet

    def hears(self, line: str, is_behind: bool = False) -> bool:
        """Whether a line is told. Of talk none is while the member `is_behind` with what it was told."""
        said = SAID.match(line)
        if not said or not is_behind and self.has_room(said.lastgroup or "", said[said.lastgroup or 0]):
            return True
        self.count += 1
        return False

    def has_room(self, room: str, who: str) -> bool:
        return self.speaker(room, who).take() and self.rooms[room].take()

    def speaker(self, room: str, who: str) -> Budget:
        if (room, who) not in self.speakers:
            if len(self.speakers) >= MOST_KNOWN:
                self.forget()
            self.speakers[room, who] = Budget(ONE_A_SECOND, ONE_AT_ONCE, self.clock)
        return self.speakers[room, who]

    def forget(self) -> None:
        """Forgets who was silent for long, and where nobody was, those who were heard of first."""
        silent = [key for key, it in self.speakers.items() if it.is_full]
        for key in silent or list(self.speakers)[: MOST_KNOWN // 2]:
            del self.speakers[key]

    def heard(self, lines: Iterable[str]) -> list[str]:
        """Those lines that are told."""
        return [it for it in lines if self.hears(it)]

    def left_out(self) -> list[str]:
        """The line that says how many were left out since it was asked for last, where there are any."""
        count, self.count = self.count, 0
        return [left_out(count)] if count else []
