"""A way back in: behind a reload, a lost link, and a go-between that begins anew."""

import contextlib
from collections.abc import Iterator

import pytest

from tests.kit.go_between import GoBetween

from .browser import Evening, Window
from .wire import Wire

pytestmark = pytest.mark.browser

SECRET = "swordfish"


@contextlib.contextmanager
def begun_anew(evening: Evening, wire: Wire) -> Iterator[None]:
    """Another go-between before the same server, in the place of the first one."""
    evening.go_between.end()
    again = GoBetween(evening.server.port)
    wire.target = again.port
    wire.cut()
    yield
    again.end()


def is_back(window: Window) -> None:
    window.until(lambda: window.text("#me") == window.name and window.is_seen("#board"), "is in, at the board")


def test_a_reload_keeps_the_seat_and_the_half_moves(evening: Evening) -> None:
    ann, ben = evening.game()
    evening.play(ann, ben, ("e2e4", "e7e5", "g1f3"))
    ben.click("#draw")
    ann.sees("Ben offers a draw", "#offers")
    ann.front()
    ann.driver.refresh()
    is_back(ann)
    assert ann.texts("#moves [data-ply]") == ["e4", "e5", "Nf3"]
    ann.sees("Ben offers a draw", "#offers")
    ann.sees("You are back", "#way-back")
    evening.play(ben, ann, ("b8c6", "f1b5"))
    ben.sees("Bb5", "#moves")
    ann.sees("Bb5", "#moves")


def test_what_comes_during_a_reload_isnt_missed(evening: Evening) -> None:
    ann, ben = evening.game()
    evening.play(ann, ben, ("e2e4",))
    ann.front()
    ann.driver.get("about:blank")
    ben.move("e7", "e5")
    ben.sees_man("bP", "e5")
    ben.command("tell Ann are you there")
    ben.sees("(told 1)", "#output")
    ann.front()
    ann.driver.back()
    is_back(ann)
    ann.sees_man("bP", "e5")
    assert ann.texts("#moves [data-ply]") == ["e4", "e5"]
    ann.sees("are you there", "#said")
    ann.move("g1", "f3")
    ben.sees_man("wN", "f3")


def test_what_was_set_is_known_again(evening: Evening) -> None:
    ann = evening.window("Ann")
    for line in ("+channel 7", "+censor Cat", "set open 0"):
        ann.command(line)
        ann.until(lambda: line in ann.text("#output"), line)
    ann.front()
    ann.driver.refresh()
    ann.until(lambda: ann.text("#me") == "Ann", "is in")
    ann.until(lambda: ann.script("return !document.getElementById('set-open').checked"), "no challenges")
    ann.sees("Cat", "#kept")
    ann.command("inchannel 7")
    ann.sees("Ann", "#output")


def test_a_link_that_is_cut(evening: Evening, wire: Wire) -> None:
    ann, ben = evening.window("Ann", at=wire), evening.window("Ben")
    evening.begin(ann, ben)
    evening.play(ann, ben, ("e2e4",))
    wire.cut(stays=True)
    ann.until(lambda: "comes back" in ann.text("#way-back"), "the bar")
    ben.move("e7", "e5")
    ben.sees_man("bP", "e5")
    ann.move("g1", "f3")  # it waits for the link, and for Ann's turn
    ann.until(lambda: len(ann.all('[data-board="main"] .square.premove')) == 2, "the move that waits")
    wire.mend()
    ann.sees("You are back", "#way-back")
    ann.sees_man("bP", "e5")
    ben.sees_man("wN", "f3")
    ann.until(lambda: ann.texts("#moves [data-ply]") == ["e4", "e5", "Nf3"], "the half-move that waited")


def test_lists_are_told_again_behind_a_link_that_was_cut(evening: Evening, wire: Wire) -> None:
    ann, ben = evening.window("Ann", at=wire), evening.window("Ben")
    ann.sees("Ben", "#players .who")
    wire.cut()
    ann.sees("You are back", "#way-back")
    ben.click("#usual-3-2")
    ann.sees("3+2", "#seeks .time")


def test_an_account_enters_again_and_resumes(evening: Evening, wire: Wire) -> None:
    ann, ben = evening.window("Ann", at=wire), evening.window("Ben", at=wire)
    for it in (ann, ben):
        it.command(f"register {SECRET}")
        it.sees("Ok.", "#output")
    evening.begin(ann, ben)
    evening.play(ann, ben, ("e2e4", "e7e5"))
    with begun_anew(evening, wire):
        for it in (ann, ben):
            it.sees("You are back", "#way-back")
            is_back(it)
        ann.move("g1", "f3")
        ben.sees_man("wN", "f3")


def test_who_has_no_account_is_told(evening: Evening, wire: Wire) -> None:
    ann = evening.window("Ann", at=wire)
    with begun_anew(evening, wire):
        ann.until(lambda: ann.is_seen("#login"), "the login")
        ann.sees("The link has ended", "#notice")
        ann.enter()
