"""What is to be done now, by the clock and by what is known. Nothing here asks or tells anybody."""

from collections.abc import Collection
from dataclasses import dataclass
from enum import Enum

from .evening import Evening, Pair


class Step(Enum):
    """The evening's next step."""

    WAIT = "wait"
    START = "start"
    OPEN = "open"  # the next round
    FINISH = "finish"


def step(evening: Evening, settled: Collection[Pair], is_time: bool, most: int | None = None) -> Step:
    """The next step. `settled` are pairs of the open round that get no result, `is_time` whether it may begin, and
    `most` the rounds that are played, where those aren't all."""
    if not evening.has_started:
        return Step.START if is_time and len(evening.players) >= 2 else Step.WAIT
    if any(it not in settled for it in evening.without_result()):
        return Step.WAIT
    return Step.OPEN if evening.open < min(len(evening.rounds), most or len(evening.rounds)) else Step.FINISH


class Verdict(Enum):
    """What becomes of a pair that has no game."""

    WAIT = "wait"
    AGAIN = "again"  # both are there: they are told once more, and have as long again
    WHITE = "1-0"
    BLACK = "0-1"
    HALF = "1/2-1/2"
    NONE = "none"


@dataclass
class Waiting:
    """How long a pair has been waited for."""

    since: float
    was_told_again: bool = False


def verdict(
    pair: Pair, waiting: Waiting, present: Collection[str], now: float, patience: float, both_away: Verdict
) -> Verdict:
    """What becomes of a pair without a game, where `present` are those in the hall. Two who are there and don't begin
    are as if both were away once they have had the time twice."""
    if now - waiting.since < patience:
        return Verdict.WAIT
    is_white_here, is_black_here = (it in present for it in pair.players)
    if is_white_here != is_black_here:
        return Verdict.WHITE if is_white_here else Verdict.BLACK
    if is_white_here and not waiting.was_told_again:
        return Verdict.AGAIN
    return both_away
