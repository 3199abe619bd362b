"""Why a tab is closed or not let in: the code of a WebSocket's close, and the status where there is none yet."""

from typing import NamedTuple


class Close(NamedTuple):
    """A code of our own, its reason, and of who isn't let in the status of the answer that it gets by HTTP."""

    code: int
    reason: str
    status: int | None = None


FULL = Close(4001, "the club is full", 503)
MANY_TABS = Close(4002, "too many tabs from this address", 429)
TOO_OFTEN = Close(4003, "too many tabs were opened from this address in a short time", 429)
NO_SERVER = Close(4004, "the server can't be reached", 502)
TAKEN = Close(4005, "the seat was taken by another tab")
NO_LOGIN = Close(4006, "no login within the time for it")
FLOOD = Close(4007, "a flood")
NO_STAMPS = Close(4008, "stamped lines are refused here")


class Closed(Exception):
    """The tab is to be closed: with this code, for this reason (at most 123 bytes)."""

    def __init__(self, code: int, reason: str) -> None:
        super().__init__(reason)
        self.code = int(code)


def closed(why: Close) -> Closed:
    """The exception of one of the rows above."""
    return Closed(why.code, why.reason)
