"""Before one's turn: a move that waits is shown, is taken back by a click, and is played with the board on which it is
allowed. The squares to which a man may go are shown, and the king that is in check."""

import pytest
from selenium.webdriver.common.keys import Keys

from .browser import Evening, Window

pytestmark = pytest.mark.browser

MARKED = "return [...document.querySelectorAll(arguments[0])].map((it) => it.dataset.square).sort().join(' ')"


def marked(window: Window, mark: str) -> str:
    """The squares of the large board that have a mark."""
    return window.script(MARKED, f'[data-board="main"] .square.{mark}')


def waits(window: Window, squares: str) -> None:
    window.until(lambda: marked(window, "premove") == squares, f"{squares} of a move that waits")


def test_it_is_played_where_it_is_allowed(evening: Evening) -> None:
    ann, ben = evening.game()
    ann.move("e2", "e4")
    ben.sees_man("wP", "e4")
    ann.move("e4", "d5")
    waits(ann, "d5 e4")
    ben.move("d7", "d5")
    ben.sees_man("wP", "d5")
    waits(ann, "")
    ann.sees("exd5", "#moves")


def test_it_is_dropped_where_it_isnt(evening: Evening) -> None:
    ann, ben = evening.game()
    ann.move("e2", "e4")
    ben.sees_man("wP", "e4")
    ann.move("e4", "d5")
    waits(ann, "d5 e4")
    ben.move("e7", "e5")
    ann.sees_man("bP", "e5")
    waits(ann, "")
    ann.sees("Your move", "#status")
    assert not ann.is_seen("#notice")


def test_a_click_takes_it_back(evening: Evening) -> None:
    ann, ben = evening.game()
    ann.move("e2", "e4")
    ben.sees_man("wP", "e4")
    for take_back in (
        lambda: ann.square("a6").click(),
        lambda: ann.square("e4").click(),
        lambda: ann.press(Keys.ESCAPE),
    ):
        ann.move("g1", "f3")
        waits(ann, "f3 g1")
        take_back()
        waits(ann, "")
    ben.move("e7", "e5")
    ann.sees_man("bP", "e5")
    evening.settle(ann, ben)
    assert ann.man("g1") == "wN"


def test_another_takes_its_place(evening: Evening) -> None:
    ann, ben = evening.game()
    ann.move("e2", "e4")
    ben.sees_man("wP", "e4")
    ann.drag("g1", "f3")
    waits(ann, "f3 g1")
    ann.drag("b1", "c3")
    waits(ann, "b1 c3")
    ben.move("e7", "e5")
    ben.sees_man("wN", "c3")
    assert ben.man("g1") == "wN"


def test_a_takeback_drops_it(evening: Evening) -> None:
    ann, ben = evening.game()
    evening.play(ann, ben, ("e2e4", "e7e5"))
    ann.move("g1", "f3")
    ben.sees_man("wN", "f3")
    ann.click("#takeback")
    ben.sees("Ann offers", "#offers")
    ann.drag("f1", "b5")
    waits(ann, "b5 f1")
    ben.click('#offers [data-command="takeback 1"]')
    ann.sees_man("wN", "g1")
    waits(ann, "")


def test_it_is_spoken_and_put_by_keyboard(evening: Evening) -> None:
    ann, ben = evening.game()
    ann.move("e2", "e4")
    ben.sees_man("wP", "e4")
    ann.script("arguments[0].focus()", ann.square("g1"))
    ann.press(Keys.ENTER, Keys.ARROW_UP, Keys.ARROW_UP, Keys.ARROW_LEFT, Keys.ENTER)
    waits(ann, "f3 g1")
    ann.sees("Premove: g1f3", "#spoken")
    assert "premove" in ann.square("f3").get_attribute("aria-label")
    ben.move("e7", "e5")
    ben.sees_man("wN", "f3")


def test_a_drop_waits_too(evening: Evening) -> None:
    ann, ben = evening.game("crazyhouse")
    evening.play(ann, ben, ("e2e4", "d7d5", "e4d5"))
    ann.until(lambda: ann.hand("white") == "P", "a pawn in hand")
    ann.drop("white", "P", "e6")
    waits(ann, "e6")
    ben.move("g8", "f6")
    ben.sees_man("wP", "e6")


def test_where_a_man_may_go(evening: Evening) -> None:
    ann, ben = evening.game()
    ann.square("e2").click()
    assert marked(ann, "target") == "e3 e4"
    assert "legal move" in ann.square("e4").get_attribute("aria-label")
    ann.square("g1").click()
    assert marked(ann, "target") == "f3 h3"
    ann.square("g1").click()
    assert marked(ann, "target") == ""
    ann.prefer("legal")
    ann.square("e2").click()
    assert marked(ann, "target") == ""


def test_the_king_in_check(evening: Evening) -> None:
    ann, ben = evening.game()
    evening.play(ann, ben, ("e2e4", "f7f6", "d1h5"))
    for it in (ann, ben):
        it.until(lambda: marked(it, "check") == "e8", "the king in check")
    assert "in check" in ben.square("e8").get_attribute("aria-label")
    ben.square("e7").click()
    assert marked(ben, "target") == ""
    ben.square("g7").click()
    assert marked(ben, "target") == "g6"
    ben.square("g6").click()
    for it in (ann, ben):
        it.until(lambda: marked(it, "check") == "", "no check")
