"""What waits for its turn is seen: by the colours of its squares, also where the mouse is, and a man that is to be
dropped on its square."""

import pytest
from selenium.webdriver.common.action_chains import ActionChains

from .browser import Evening, Window

pytestmark = pytest.mark.browser

COLOUR = """return getComputedStyle(document.querySelector('[data-board="main"] [data-square="' + arguments[0] + '"]'))
  .backgroundColor"""
# of the drawings on a square those that are seen, as black or white and how far they let the ground through
DRAWN = """
const square = document.querySelector('[data-board="main"] [data-square="' + arguments[0] + '"]');
const { left, right, top, bottom } = square.getBoundingClientRect();
return [...square.querySelectorAll("svg")].filter((it) => {
  const at = it.getBoundingClientRect();
  return at.width > 10 && at.left >= left - 1 && at.right <= right + 1 && at.top >= top - 1 && at.bottom <= bottom + 1;
}).map((it) => [getComputedStyle(it.querySelector(".body")).fill, Number(getComputedStyle(it).opacity)]);
"""


def colour(window: Window, square: str) -> str:
    found: str = window.script(COLOUR, square)
    return found


def put_mouse(window: Window, square: str) -> None:
    window.front()
    ActionChains(window.driver).move_to_element(window.square(square)).perform()


@pytest.mark.parametrize("start, end", (("g1", "f3"), ("b1", "c3"), ("d2", "d4")))
def test_both_squares_have_one_colour_under_the_mouse_too(evening: Evening, start: str, end: str) -> None:
    ann, ben = evening.game()
    evening.play(ann, ben, ("e2e4",))
    plain = colour(ann, end)
    ann.move(start, end)
    put_mouse(ann, end)
    ann.until(lambda: colour(ann, end) != plain, f"another colour of {end}")
    assert colour(ann, end) == colour(ann, start)
    put_mouse(ann, start)
    assert colour(ann, end) == colour(ann, start) != plain


def test_also_where_the_last_move_went(evening: Evening) -> None:
    ann, ben = evening.game()
    evening.play(ann, ben, ("e2e4", "d7d5", "g1f3"))
    last = colour(ann, "f3")
    ann.move("f3", "e5")
    ann.until(lambda: colour(ann, "f3") != last, "another colour of f3")
    assert colour(ann, "f3") == colour(ann, "e5")


def test_a_drop_shows_its_man(evening: Evening) -> None:
    ann, ben = evening.game("crazyhouse")
    evening.play(ann, ben, ("e2e4", "d7d5", "e4d5", "d8d5", "b1c3"))
    before = ann.script(DRAWN, "d5")
    for square, stands in (("e6", []), ("d5", before)):
        ann.drop("white", "P", square)
        shown = ann.until(lambda: len(it := ann.script(DRAWN, square)) > len(stands) and it, f"a man on {square}")
        assert shown[: len(stands)] == stands
        fill, opacity = shown[-1]
        assert fill == ann.script(DRAWN, "e2" if ann.man("e2") else "d2")[0][0]
        assert 0.3 < opacity < 1
    ann.press("\ue00c")  # Escape
    ann.until(lambda: ann.script(DRAWN, "d5") == before, "the man that stands there, alone")
