"""Nothing moves the board but its player: whatever comes meanwhile, the square that is played is the one that was
clicked, and the board stays where it is."""

import pytest
from selenium.webdriver.common.actions.action_builder import ActionBuilder

from .browser import NARROW, WIDE, Evening, Size, Window

pytestmark = pytest.mark.browser

WATCHES = """window.places = new Set();
const look = () => {
  const { x, y, width } = document.querySelector('[data-board="main"]').getBoundingClientRect();
  window.places.add([x, y, width].map(Math.round).join(" "));
  requestAnimationFrame(look);
};
look();"""
MIDDLE = """const { x, y, width, height } = arguments[0].getBoundingClientRect();
return [Math.round(x + width / 2), Math.round(y + height / 2)];"""
LOOKS_ON = """document.getElementById("command").value = "observe Dan";
document.getElementById("command-form").requestSubmit();"""
SEEN = "return [...window.places]"


def click_at(window: Window, place: tuple[int, int]) -> None:
    """A click on a place of the window, whatever is there."""
    window.front()
    mouse = ActionBuilder(window.driver)
    mouse.pointer_action.move_to_location(*place)
    mouse.pointer_action.click()
    mouse.perform()


def asks(evening: Evening, window: Window, name: str) -> None:
    """Somebody new asks to be the partner, and the page has heard it: it shows who, or another number."""
    before = window.text("#calls-open")
    evening.plain(name).ask(f"partner {window.name}")
    window.until(lambda: name in window.text("#calls") or window.text("#calls-open") != before, f"what {name} asks")


def check(evening: Evening, size: Size) -> None:
    """A game with hands; challenges stand as it begins, and requests, talk, offers, men and a watched game come."""
    ann, ben = evening.window("Ann"), evening.window("Ben")
    ann.resize(size)
    dan, eve, cat = (evening.plain(it) for it in ("Dan", "Eve", "Cat"))
    dan.ask("match Eve 5 0 white")
    eve.ask("accept Dan")
    cat.ask("match Ann 3 0")
    ann.until(lambda: "Cat" in ann.text("#calls"), "the challenge")
    evening.begin(ann, ben, "crazyhouse")
    place = {it: ann.script(MIDDLE, ann.square(it)) for it in ("e2", "e4", "d2", "d4", "g1", "f3")}
    ann.script(WATCHES)
    click_at(ann, place["e2"])
    asks(evening, ann, "Fay")
    click_at(ann, place["e4"])
    ben.sees_man("wP", "e4")
    ben.move("d7", "d5")
    ann.sees_man("bP", "d5")
    click_at(ann, place["d2"])
    asks(evening, ann, "Gus")
    asks(evening, ann, "Hal")
    cat.ask("tell Ann hello")
    ben.click("#draw")
    ann.sees("Ben offers a draw", "#offers")
    click_at(ann, place["d4"])
    ben.sees_man("wP", "d4")
    ben.move("d5", "e4")  # a man comes into a hand
    ann.sees_man("bP", "e4")
    click_at(ann, place["g1"])
    ann.script(LOOKS_ON)
    ann.until(lambda: len(ann.all("#choices [data-game]")) == 2, "a game that is watched")
    dan.ask("e4")
    cat.ask("withdraw Ann")
    click_at(ann, place["f3"])
    ben.sees_man("wN", "f3")
    assert len(ann.script(SEEN)) == 1, ann.script(SEEN)


def test_on_a_wide_screen(evening: Evening) -> None:
    check(evening, WIDE)


def test_on_a_phone(evening: Evening) -> None:
    check(evening, NARROW)
