"""A tab that is closed in the midst of a game leaves it; who leaves the page is asked first."""

import pytest

from .browser import Evening

pytestmark = pytest.mark.browser

ASKS = """const event = new Event("beforeunload", { cancelable: true });
window.dispatchEvent(event); return event.defaultPrevented;"""


def test_a_closed_tab(evening: Evening) -> None:
    ann, ben = evening.window("Ann"), evening.window("Ben")
    assert not ann.script(ASKS)
    evening.begin(ann, ben)
    evening.play(ann, ben, ("e2e4", "e7e5"))
    assert ann.script(ASKS)
    ann.close()
    ben.sees("Ann forfeits by disconnection", "#status")
    assert not ben.script(ASKS)
    ben.view("lobby")
    ben.until(lambda: ben.texts("#players .who") == ["Ben (you)"], "Ann gone from the list")


def test_leaving_by_the_button_is_asked_first(evening: Evening) -> None:
    ann, ben = evening.game()
    ann.click("#leave")
    ann.click("#leave-no")
    assert ann.is_seen("#board")
    ann.click("#leave")
    ann.click("#leave-yes")
    ann.until(lambda: ann.is_seen("#login"), "the login")
    ben.sees("Ann forfeits by disconnection", "#status")
