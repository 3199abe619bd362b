"""Somebody looks on, and kibitzes."""

import pytest

from .browser import Evening

pytestmark = pytest.mark.browser


def test_looking_on(evening: Evening) -> None:
    ann, ben = evening.game()
    evening.play(ann, ben, ("e2e4",))
    cat = evening.window("Cat")
    cat.click('#games [data-command="observe 1"]')
    cat.sees_man("wP", "e4")
    ben.move("e7", "e5")
    cat.sees_man("bP", "e5")
    cat.sees("e5", "#spoken")
    cat.square("g1").click()
    cat.square("f3").click()
    assert cat.man("g1") == "wN"
    cat.command("kibitz quite new")
    for it in (ann, ben, cat):
        it.sees("Cat: quite new", '#said [data-said="game"]')
    cat.say("a surprise", "game")
    for it in (ann, ben, cat):
        it.sees("Cat: a surprise", '#said [data-said="game"]')
    cat.click("#close-game")
    cat.until(lambda: not cat.is_seen("#board"), "no board")
