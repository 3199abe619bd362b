"""The list of half-moves leads back in the game, and the board can be turned."""

import pytest

from .browser import Evening

pytestmark = pytest.mark.browser


def test_back_and_forth(evening: Evening) -> None:
    ann, ben = evening.game()
    evening.play(ann, ben, ("e2e4", "e7e5", "g1f3"))
    assert ann.texts("#moves [data-ply]") == ["e4", "e5", "Nf3"]
    ann.click("#first")
    ann.sees_man("wP", "e2")
    ann.sees("earlier position", "#status")
    ann.click("#next")
    ann.sees_man("wP", "e4")
    ann.sees_man("bP", "e7")
    ben.move("b8", "c6")
    ann.sees_man("bN", "c6")  # a player is shown the opponent's half-move
    ann.click('#moves [data-ply="2"]')
    ann.sees_man("wN", "g1")
    ann.click("#last")
    ann.move("f1", "b5")
    ben.sees_man("wB", "b5")


def test_who_looks_on_goes_on_looking_back(evening: Evening) -> None:
    ann, ben = evening.game()
    cat = evening.window("Cat")
    cat.click('#games [data-command="observe 1"]')
    cat.sees_man("wP", "e2")
    evening.play(ann, ben, ("e2e4",))
    cat.sees_man("wP", "e4")
    cat.click("#first")
    cat.sees_man("wP", "e2")
    ben.move("e7", "e5")
    cat.sees("e5", "#moves")
    assert cat.man("e2") == "wP"
    cat.click("#last")
    cat.sees_man("bP", "e5")


def test_the_board_is_turned(evening: Evening) -> None:
    ann, _ = evening.game()
    top = "return document.querySelector('[data-board=main] [data-square]').dataset.square"
    assert ann.script(top) == "a8"
    ann.click("#turn")
    assert ann.script(top) == "h1"
    ann.click("#turn")
    assert ann.script(top) == "a8"
