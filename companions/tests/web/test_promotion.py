"""A pawn becomes what is chosen on the board, by mouse and by keyboard; or always a queen, where a member prefers
that."""

import pytest
from selenium.webdriver.common.keys import Keys

from .browser import Evening

pytestmark = pytest.mark.browser

TO_B7 = ("a2a4", "b7b5", "a4b5", "a7a6", "b5a6", "c8b7", "a6b7", "b8c6")


def test_a_knight(evening: Evening) -> None:
    ann, ben = evening.game()
    evening.play(ann, ben, TO_B7)
    ann.move("b7", "a8")
    ann.click('[data-promote="n"]')
    for it in (ann, ben):
        it.sees_man("wN", "a8")
        it.sees("bxa8=N", "#moves")


def test_it_is_chosen_in_the_column_of_the_square(evening: Evening) -> None:
    ann, ben = evening.game()
    evening.play(ann, ben, TO_B7)
    ann.move("b7", "a8")
    ann.until(lambda: ann.is_seen('[data-promote="q"]'), "the choice")
    square, choice = ann.square("a8").rect, ann.element('[data-promote="q"]').rect
    assert abs(square["x"] - choice["x"]) + abs(square["y"] - choice["y"]) < 6


def test_by_keyboard(evening: Evening) -> None:
    ann, ben = evening.game()
    evening.play(ann, ben, TO_B7)
    ann.move("b7", "a8")
    ann.until(lambda: ann.is_seen('[data-promote="q"]'), "the choice")
    names = ann.script("return [...document.querySelectorAll('[data-promote]')].map((it) => it.ariaLabel)")
    assert names == ["queen", "knight", "rook", "bishop"]
    assert ann.script("return document.activeElement.dataset.promote") == "q"
    ann.press(Keys.ESCAPE)
    ann.until(lambda: not ann.is_seen('[data-promote="q"]'), "no choice")
    assert ann.man("b7") == "wP"
    ann.move("b7", "a8")
    ann.until(lambda: ann.is_seen('[data-promote="q"]'), "the choice")
    ann.press(Keys.ARROW_DOWN, Keys.TAB, Keys.ENTER)
    ben.sees_man("wR", "a8")


def test_a_click_beside_it_gives_the_move_up(evening: Evening) -> None:
    ann, ben = evening.game()
    evening.play(ann, ben, TO_B7)
    ann.move("b7", "a8")
    ann.until(lambda: ann.is_seen('[data-promote="q"]'), "the choice")
    ann.script("document.querySelector('.promotion-veil').click()")
    ann.until(lambda: not ann.is_seen('[data-promote="q"]'), "no choice")
    ann.move("b7", "b8")
    ann.click('[data-promote="b"]')
    ben.sees_man("wB", "b8")


def test_always_a_queen(evening: Evening) -> None:
    ann, ben = evening.game()
    ann.prefer("queen")
    evening.play(ann, ben, TO_B7)
    ann.move("b7", "a8")
    for it in (ann, ben):
        it.sees_man("wQ", "a8")


def test_before_ones_turn(evening: Evening) -> None:
    ann, ben = evening.game()
    evening.play(ann, ben, TO_B7[:6])
    ann.move("a6", "b7")
    ben.sees_man("wP", "b7")
    ann.move("b7", "a8")
    ann.click('[data-promote="r"]')
    ben.move("b8", "c6")
    ben.sees_man("wR", "a8")
