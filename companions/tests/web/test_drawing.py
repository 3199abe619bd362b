"""Arrows and circles by the right button and by keyboard; the arrows through the half-moves; captured men; tenths."""

from collections.abc import Callable, Iterable

import pytest
from selenium.webdriver.common.action_chains import ActionChains
from selenium.webdriver.common.actions.mouse_button import MouseButton
from selenium.webdriver.common.by import By
from selenium.webdriver.common.keys import Keys

from .browser import Evening, Window

pytestmark = pytest.mark.browser

SHAPES = "return [...document.querySelectorAll('.drawn > *')].map((it) => it.getAttribute('class')).sort()"


def right_drag(window: Window, start: str, end: str, *keys: str) -> None:
    """By the right button, while these keys are held."""
    press(window, ActionChains.key_down, keys)
    chain = ActionChains(window.driver)
    mouse = chain.w3c_actions.pointer_action
    mouse.move_to(window.square(start))
    mouse.pointer_down(MouseButton.RIGHT)
    mouse.move_to(window.square(end))
    mouse.pointer_up(MouseButton.RIGHT)
    chain.perform()
    press(window, ActionChains.key_up, keys)


def press(window: Window, act: Callable[[ActionChains, str], ActionChains], keys: Iterable[str]) -> None:
    for key in keys:
        act(ActionChains(window.driver), key).perform()


def draws(window: Window, shapes: list[str]) -> None:
    window.until(lambda: window.script(SHAPES) == shapes, f"{shapes} drawn")


def test_by_the_right_button(evening: Evening) -> None:
    ann, ben = evening.game()
    right_drag(ann, "g1", "f3")
    draws(ann, ["arrow green"])
    right_drag(ann, "e5", "e5")
    draws(ann, ["arrow green", "circle green"])
    assert "arrow to f3" in ann.square("g1").get_attribute("aria-label")
    assert "circled" in ann.square("e5").get_attribute("aria-label")
    right_drag(ann, "e5", "e5")
    draws(ann, ["arrow green"])
    assert ann.man("g1") == "wN"
    ann.square("a5").click()
    draws(ann, [])
    right_drag(ann, "b1", "c3")
    draws(ann, ["arrow green"])
    ann.move("e2", "e4")
    draws(ann, [])
    ben.sees_man("wP", "e4")


def test_in_other_colours(evening: Evening) -> None:
    ann, _ = evening.game()
    right_drag(ann, "g1", "f3", Keys.CONTROL)
    draws(ann, ["arrow red"])
    right_drag(ann, "b1", "c3", Keys.ALT)
    draws(ann, ["arrow blue", "arrow red"])
    right_drag(ann, "e5", "e5", Keys.CONTROL, Keys.ALT)
    draws(ann, ["arrow blue", "arrow red", "circle yellow"])


def test_by_keyboard(evening: Evening) -> None:
    ann, _ = evening.game()
    ann.script("arguments[0].focus()", ann.square("g1"))
    ActionChains(ann.driver).key_down(Keys.SHIFT).send_keys(Keys.ENTER).key_up(Keys.SHIFT).send_keys(Keys.TAB).perform()
    assert "an arrow begins here" in ann.square("g1").get_attribute("aria-label")
    ann.script("arguments[0].focus()", ann.square("f3"))
    ActionChains(ann.driver).key_down(Keys.SHIFT).send_keys(Keys.ENTER).key_up(Keys.SHIFT).perform()
    draws(ann, ["arrow green"])
    ann.press(Keys.ESCAPE)
    draws(ann, [])


def test_the_arrows_go_through_the_half_moves(evening: Evening) -> None:
    ann, ben = evening.game()
    evening.play(ann, ben, ("e2e4", "e7e5", "g1f3"))
    ann.script("document.activeElement.blur()")
    ann.press(Keys.ARROW_LEFT)
    ann.sees_man("wN", "g1")
    ann.press(Keys.ARROW_UP)
    ann.sees_man("wP", "e2")
    ann.press(Keys.ARROW_RIGHT)
    ann.sees_man("wP", "e4")
    ann.sees_man("bP", "e7")
    ann.press(Keys.ARROW_DOWN)
    ann.sees_man("wN", "f3")
    ann.driver.find_element(By.ID, "move").send_keys("e4", Keys.ARROW_LEFT)
    ann.until(lambda: ann.script("return document.getElementById('move').selectionStart") == 1, "the field's own arrow")
    assert ann.man("f3") == "wN"


def test_a_click_on_the_board_leaves_the_arrows_to_the_half_moves(evening: Evening) -> None:
    ann, ben = evening.game()
    evening.play(ann, ben, ("e2e4",))
    ann.square("a6").click()
    ann.press(Keys.ARROW_LEFT)
    ann.sees_man("wP", "e2")


def test_captured_men_and_who_is_ahead(evening: Evening) -> None:
    ann, ben = evening.game()
    evening.play(ann, ben, ("e2e4", "d7d5", "e4d5"))
    names = "return [...document.querySelectorAll('#main-table .captured')].map((it) => it.ariaLabel)"
    for window, wanted in (
        (ann, ["has captured nothing", "has captured 1 pawn; 1 ahead"]),
        (ben, ["has captured 1 pawn; 1 ahead", "has captured nothing"]),
    ):
        window.until(lambda: window.script(names) == wanted, "who has captured what")


def test_tenths_of_the_last_seconds(evening: Evening) -> None:
    ann, ben = evening.game(minutes=0, increment=1)
    evening.play(ann, ben, ("e2e4", "e7e5"))
    ann.until(lambda: any(len(it.split(".")) == 2 for it in ann.texts("#main-table .clock")), "tenths")
