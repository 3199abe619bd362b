"""A simul of three: who gives it goes round."""

import pytest

from .browser import Evening

pytestmark = pytest.mark.browser

OTHERS = ("Ben", "Cat", "Dan")


def test_three_boards(evening: Evening) -> None:
    ann, *others = (evening.window(it) for it in ("Ann",) + OTHERS)
    ann.click("#simopen")
    ann.sees("You give a simul", "#simul-state")
    for it in others:
        it.challenge("Ann", colour="")
        ann.click(f'#calls [data-command="accept {it.name}"]')
        it.until(lambda: len(it.men()) == 32, "the board")
    ann.until(lambda: len(ann.texts("#choices button")) == 3, "three games")
    for _ in others:
        ann.until(lambda: ann.man("e2") == "wP" and "Your move" in ann.text("#status"), "a board without a move")
        ann.move("e2", "e4")
    for it in others:
        it.sees_man("wP", "e4")
        it.move("e7", "e5")
    cats = next(it for it in ann.all("#choices button") if "Cat" in it.text)
    cats.click()
    ann.sees("Ann – Cat", "#status")
    ann.sees_man("bP", "e5")
    ann.move("g1", "f3")
    others[1].sees_man("wN", "f3")
    for it in (others[0], others[2]):
        assert it.man("f3") == ""
    others[0].click("#resign")
    others[0].click("#resign-yes")
    others[0].sees("Ben resigns", "#status")
    others[2].click("#draw")
    ann.sees("offers", "#choices")
