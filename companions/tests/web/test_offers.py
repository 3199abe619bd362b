"""Offers: each button answers the offer that it names; the flag; resigning, which is asked once more."""

import pytest

from .browser import Evening

pytestmark = pytest.mark.browser


def test_a_takeback_and_then_a_draw(evening: Evening) -> None:
    ann, ben = evening.game()
    evening.play(ann, ben, ("e2e4", "e7e5"))
    ben.click("#takeback")
    ann.sees("Ben offers", "#offers")
    ann.click('#offers [data-command="takeback 1"]')
    for it in (ann, ben):
        it.sees_man("bP", "e7")
        it.sees_man("", "e5")
        it.until(lambda: it.text("#offers").strip() == "", "no offer")
    ben.click("#draw")
    ann.click('#offers [data-command="draw"]')
    for it in (ann, ben):
        it.sees("Drawn by agreement", "#status")


def test_the_button_of_a_draw_accepts_no_takeback(evening: Evening) -> None:
    ann, ben = evening.game()
    evening.play(ann, ben, ("e2e4", "e7e5"))
    ben.click("#takeback")
    ben.click("#draw")
    ann.sees("draw", "#offers")
    ann.click('#offers [data-command="draw"]')
    for it in (ann, ben):
        it.sees("Drawn by agreement", "#status")
        assert it.man("e5") == "bP"


def test_an_offer_is_declined(evening: Evening) -> None:
    ann, ben = evening.game()
    ben.click("#draw")
    ann.click('#offers [data-command="decline"]')
    for it in (ann, ben):
        it.until(lambda: it.text("#offers").strip() == "", "no offer")
        it.sees("Your move" if it is ann else "Ann to move", "#status")


def test_the_flag_by_hand(evening: Evening) -> None:
    ann, ben = evening.game(minutes=0, increment=1)
    ann.prefer("flag")
    evening.play(ann, ben, ("e2e4", "e7e5", "g1f3"))
    ann.click("#flag")
    ann.sees("time left", "#notice")
    ann.until(lambda: any(it.startswith("−") for it in ann.texts("#main-table .clock")), "a clock that has run out")
    ann.click("#flag")
    for it in (ann, ben):
        it.sees("Ben forfeits on time", "#status")


def test_resigning_is_asked_once_more(evening: Evening) -> None:
    ann, ben = evening.game()
    ann.click("#resign")
    ann.click("#resign-no")
    ann.click("#resign")
    ann.click("#resign-yes")
    for it in (ann, ben):
        it.sees("Ann resigns", "#status")
