"""A line that a director tells to type is a button in the page: it does what it says, by mouse and by keyboard, and
nothing else that is told is one."""

from collections.abc import Iterable

import pytest
from ficsd_companions.director import talk
from ficsd_companions.director.evening import Pair
from ficslink.terms import Terms
from selenium.webdriver.common.keys import Keys

from .browser import NARROW, WIDE, Evening, Window

pytestmark = pytest.mark.browser

PAIR, TERMS = Pair("Ann", "Ben"), Terms(5, 0, "chess")
ROOM = '#said [data-said="person dee"]'
BUTTONS = f"{ROOM} [data-types]"
# what of a button lies beside the box of the talk, or is hidden by something
COVERED = """const { left, right, top, bottom } = arguments[0].getBoundingClientRect();
const box = document.getElementById("said").getBoundingClientRect();
const middle = document.elementFromPoint((left + right) / 2, (top + bottom) / 2);
return left < box.left || right > box.right || top < box.top || bottom > box.bottom || middle !== arguments[0];"""


def tell(evening: Evening, window: Window, lines: Iterable[str]) -> None:
    for line in lines:
        evening.plain("Dee").ask(f"tell {window.name} {line}")


def called(evening: Evening) -> tuple[Window, Window]:
    """Ann and Ben, called to their game by a director, in whose rooms they are."""
    ann, ben = evening.window("Ann"), evening.window("Ben")
    for it in (ann, ben):
        tell(evening, it, talk.call(1, PAIR, it.name, TERMS))
        it.sees("Dee", "#rooms .name")
        it.view("talk")
        it.click('#rooms [data-room="person dee"]')
    return ann, ben


def plays(ann: Window, ben: Window) -> None:
    for it in (ann, ben):
        it.until(lambda: len(it.men()) == 32 and it.is_seen("#board"), "the board")
        it.sees("Ann – Ben", "#status")


def test_a_click_on_each_begins_the_game(evening: Evening) -> None:
    ann, ben = called(evening)
    assert ann.texts(BUTTONS) == ["match ben 5 0 white"]
    assert ben.texts(BUTTONS) == ["accept ann", "match ann 5 0 black"]
    ann.sees("Dee: Round 1: you have White against Ben. Type: match ben 5 0 white", f"{ROOM} p")
    ann.click(BUTTONS)
    ben.sees("Ann challenges you", "#calls")
    ben.click(BUTTONS)
    plays(ann, ben)


def test_by_keyboard_alone(evening: Evening) -> None:
    ann, ben = called(evening)
    for it in (ann, ben):
        it.script("document.querySelector(arguments[0]).focus()", '#rooms [data-room="person dee"]')
        for _ in range(20):
            it.press(Keys.TAB)
            if it.script("return document.activeElement.matches('[data-types]')"):
                break
        it.press(Keys.ENTER)
        if it is ann:
            ben.sees("Ann challenges you", "#calls")
    plays(ann, ben)


def test_each_is_seen_whole(evening: Evening) -> None:
    ann, ben = called(evening)
    long = Pair("Maximiliananderse", "Ben")
    tell(evening, ben, talk.not_as_paired(long, "Ben", Terms(120, 60, "crazyhouse")))
    ben.until(lambda: len(ben.texts(BUTTONS)) == 3, "the third line")
    for size in (NARROW, WIDE):
        ben.resize(size)
        ben.view("talk")
        for button in ben.all(BUTTONS):
            assert not ben.script(COVERED, button), (size, button.text)


def test_what_is_refused_says_why(evening: Evening) -> None:
    ann, ben = called(evening)
    ben.click(f'{ROOM} [data-types="accept ann"]')
    ben.sees("There is no such challenge", "#notice")


def test_nothing_else_is_one(evening: Evening) -> None:
    ann, ben = called(evening)
    tell(
        evening,
        ann,
        ["Type: quit", "Type: resign", "Type: abort", "Type: match ben 5 0 white; resign", "Type: tell ben hello"],
    )
    evening.plain("Dee").ask("shout Type: accept ann")
    ann.sees("Type: accept ann", '#said [data-said="all"]')
    assert ann.texts("#said [data-types]") == ["match ben 5 0 white"]
