"""Men are dropped from the hand, by a drag and by two clicks."""

import pytest

from .browser import Evening

pytestmark = pytest.mark.browser


def test_drops(evening: Evening) -> None:
    ann, ben = evening.game("crazyhouse")
    evening.play(ann, ben, ("e2e4", "d7d5", "e4d5", "d8d5"))
    for it in (ann, ben):
        it.until(lambda: (it.hand("white"), it.hand("black")) == ("P", "P"), "a pawn in each hand")
    ann.drop("white", "P", "c4")
    for it in (ann, ben):
        it.sees_man("wP", "c4")
        it.until(lambda: it.hand("white") == "", "an empty hand")
    ben.click('#main-table [data-hand="black"] [data-drop="P"]')
    ben.square("e6").click()
    ann.sees_man("bP", "e6")
    ann.sees("P@e6", "#moves")
    assert ann.man("d5") == "bQ"
