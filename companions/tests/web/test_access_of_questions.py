"""What comes and goes is named and reached without a mouse too: what is asked during a game and behind it, questions
before what can't be undone, and the number of an array."""

import pytest
from selenium.webdriver.common.keys import Keys

from .browser import Evening, Window
from .reached import FOCUSED, check_all

pytestmark = pytest.mark.browser

FOCUS = "document.querySelector(arguments[0]).focus()"
HAS_FOCUS = "return document.activeElement.matches(arguments[0])"
MOST_TABS = 40


def go(window: Window, css: str) -> None:
    """Goes by Tab to an element."""
    for _ in range(MOST_TABS):
        if window.script(HAS_FOCUS, css):
            return
        window.press(Keys.TAB)
    raise AssertionError(f"{css} isn't reached, but {window.script(FOCUSED)}")


def test_what_is_asked_during_a_game(evening: Evening) -> None:
    ann, ben = evening.game()
    for name in ("Dan", "Eve", "Fay"):
        evening.plain(name).ask("partner Ann")
    ann.until(
        lambda: ann.script("return document.getElementById('calls-open').ariaLabel") == "Asked of you: 3", "the bell"
    )
    check_all(ann)
    ann.script(FOCUS, "#calls-open")
    ann.press(Keys.ENTER)
    go(ann, '#calls [data-dismiss="partner Dan"]')
    check_all(ann)
    ann.script(FOCUS, "#calls-open")
    go(ann, '#calls [data-dismiss="partner Dan"]')
    ann.press(Keys.ENTER)
    ann.until(lambda: "Dan" not in ann.text("#calls") and "Fay" in ann.text("#calls"), "the other two")


def test_behind_a_game(evening: Evening) -> None:
    ann, ben = evening.game()
    evening.play(ann, ben, ("e2e4", "d7d5", "e4d5"))
    ben.click("#resign")
    ben.click("#resign-yes")
    ann.sees("Ben resigns", "#status")
    check_all(ann)
    ann.script(FOCUS, "#moves")
    go(ann, "#rematch")
    ann.press(Keys.ENTER)
    ben.until(lambda: ben.text("#rematch") == "Accept the rematch", "the rematch to accept")
    check_all(ben)
    ben.script(FOCUS, "#moves")
    go(ben, "#rematch")
    ben.press(Keys.ENTER)
    ann.sees("Ben – Ann", "#status")


def test_questions(evening: Evening) -> None:
    ann, ben = evening.game()
    for button, dialog in (("#resign", "#resign-ask"), ("#leave", "#leave-ask")):
        ann.script(FOCUS, button)
        ann.press(Keys.ENTER)
        ann.until(lambda: ann.is_seen(dialog), dialog)
        assert ann.script(HAS_FOCUS, f"{dialog} button:not(.strong)"), dialog
        check_all(ann)
        ann.press(Keys.ESCAPE)
        ann.until(lambda: not ann.is_seen(dialog), f"no {dialog}")
    ann.type("e4")
    ben.sees_man("wP", "e4")
    ann.script(FOCUS, "#resign")
    ann.press(Keys.ENTER)
    go(ann, "#resign-yes")
    ann.press(Keys.ENTER)
    ben.sees("Ann resigns", "#status")


def test_an_account_that_is_asked_about(evening: Evening) -> None:
    ann = evening.window("Ann", enters=False)
    ann.write("login-name", "Ann")
    ann.write("login-password", "secret")
    ann.press(Keys.ENTER)
    ann.until(lambda: ann.is_seen("#register-ask"), "the question")
    check_all(ann)
    go(ann, "#register-yes")
    ann.press(Keys.ENTER)
    ann.sees("has an account now", "#notice")


def test_the_number_of_an_array(evening: Evening) -> None:
    ann = evening.window("Ann")
    ann.script(FOCUS, "#own-terms")
    ann.press(Keys.ENTER)
    ann.choose("variant", "fischer")
    check_all(ann)
    array = "return document.getElementById('fischer-array').ariaLabel"
    ann.write("fischer", "0")
    ann.until(lambda: "0" in ann.script(array) and "bishop, bishop" in ann.script(array), "the array of 0")
    before = ann.script(array)
    for _ in range(3):  # one in 960 is the same
        ann.script(FOCUS, "#fischer-die")
        ann.press(Keys.ENTER)
        if ann.script(array) != before:
            break
    assert ann.script(array) != before
