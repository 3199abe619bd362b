"""On a narrow screen by finger: two taps, and a drag, which moves the man and not the page; men in hand, too."""

import pytest
from selenium.webdriver.common.actions.action_builder import ActionBuilder
from selenium.webdriver.common.actions.pointer_input import PointerInput
from selenium.webdriver.remote.webelement import WebElement

from .browser import NARROW, Evening, Window
from .four_tabs import four

pytestmark = pytest.mark.browser


def become_phone(window: Window) -> None:
    window.resize(NARROW)
    window.browser.has_fingers()
    window.script("document.getElementById('board').scrollIntoView()")


def finger(window: Window) -> ActionBuilder:
    window.front()
    return ActionBuilder(window.driver, mouse=PointerInput("touch", "finger"))


def tap_on(window: Window, element: WebElement) -> None:
    acts = finger(window)
    acts.pointer_action.move_to(element).pointer_down().pointer_up()
    acts.perform()


def tap(window: Window, square: str) -> None:
    tap_on(window, window.square(square))


def drag(window: Window, start: str, end: str) -> None:
    acts = finger(window)
    man = window.square(start)
    acts.pointer_action.move_to(man).pointer_down().move_to(man, 8, 8).move_to(window.square(end)).pointer_up()
    acts.perform()


def test_taps_and_a_drag(evening: Evening) -> None:
    ann, ben = evening.game()
    for it in (ann, ben):
        become_phone(it)
    tap(ann, "e2")
    tap(ann, "e4")
    ben.sees_man("wP", "e4")
    at = ben.script("return window.scrollY")
    drag(ben, "e7", "e5")
    ann.sees_man("bP", "e5")
    assert ben.script("return window.scrollY") == at


def test_taps_at_two_boards(evening: Evening) -> None:
    ann, ben, cat, dan = four(evening)
    evening.play(dan, cat, ("e2e4", "d7d5", "e4d5"))
    for it in (ann, ben):
        become_phone(it)
    tap(ann, "e2")
    tap(ann, "e4")
    ben.sees_man("wP", "e4")
    ben.until(lambda: ben.hand("black") == "P", "the pawn that Dan took")
    tap_on(ben, ben.element('#main-table [data-hand="black"] [data-drop="P"]'))
    tap(ben, "h6")
    ann.sees_man("bP", "h6")
