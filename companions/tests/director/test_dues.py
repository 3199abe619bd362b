"""What is due, by clocks that are written down here."""

from collections.abc import Collection

from ficsd_companions.director import due
from ficsd_companions.director.due import Step, Verdict, Waiting
from ficsd_companions.director.evening import Evening, Pair

PAIR, OTHER = Pair("Ann", "Ben"), Pair("Cat", "Dan")
PLAYERS = ["Ann", "Ben", "Cat", "Dan"]


def evening(number: int = 1, **results: str) -> Evening:
    return Evening(
        PLAYERS,
        True,
        [[PAIR, OTHER], [OTHER, PAIR]],
        number,
        {{"ann": PAIR, "cat": OTHER}[name]: score for name, score in results.items()},
    )


def test_before_the_start() -> None:
    assert due.step(Evening(PLAYERS), (), False) is Step.WAIT
    assert due.step(Evening(PLAYERS), (), True) is Step.START
    assert due.step(Evening(["Ann"]), (), True) is Step.WAIT


def test_rounds() -> None:
    assert due.step(evening(0), (), True) is Step.OPEN
    assert due.step(evening(ann="1-0"), (), True) is Step.WAIT
    assert due.step(evening(ann="1-0"), {OTHER}, True) is Step.OPEN
    assert due.step(evening(ann="1-0", cat="0-1"), (), True) is Step.OPEN
    assert due.step(evening(2, ann="1-0", cat="0-1"), (), True) is Step.FINISH


def test_fewer_rounds() -> None:
    assert due.step(evening(ann="1-0", cat="0-1"), (), True, 1) is Step.FINISH
    assert due.step(evening(ann="1-0", cat="0-1"), (), True, 9) is Step.OPEN


def verdict(
    present: Collection[str], now: float = 100.0, waiting: Waiting | None = None, both: Verdict = Verdict.NONE
) -> Verdict:
    return due.verdict(PAIR, waiting or Waiting(0.0), present, now, 100.0, both)


def test_time_is_not_up() -> None:
    assert verdict((), now=99.9) is Verdict.WAIT


def test_one_is_away() -> None:
    assert verdict({"Ann"}) is Verdict.WHITE
    assert verdict({"Ben", "Cat"}) is Verdict.BLACK


def test_both_are_away() -> None:
    assert verdict(()) is Verdict.NONE
    assert verdict((), both=Verdict.HALF) is Verdict.HALF


def test_both_are_there_and_do_not_begin() -> None:
    both = {"Ann", "Ben"}
    assert verdict(both) is Verdict.AGAIN
    told = Waiting(100.0, was_told_again=True)
    assert verdict(both, 199.0, told) is Verdict.WAIT
    assert verdict(both, 200.0, told) is Verdict.NONE
    assert verdict({"Ben"}, 200.0, told) is Verdict.BLACK
