"""Narrow and low windows: at the board nothing that is played by lies out of sight, below a bar or below a notice."""

from pathlib import Path

import pytest

from tests.kit import paths

from .browser import NARROW, Evening, Size, Window
from .four_tabs import four

pytestmark = pytest.mark.browser

LOW, UPRIGHT = (844, 390), (820, 1180)
LEAST_BOARD = {LOW: 330, UPRIGHT: 700, NARROW: 380}  # pixels that a board is wide at least
BOARD = [f'#main-table [data-square="{it}"]' for it in ("a1", "a8", "h1", "h8")]
PLATES = ["#main-table .plate:first-child .name", "#main-table .plate:first-child .clock"]
PLATES += ["#main-table .plate:last-child .name", "#main-table .plate:last-child .clock"]
ACTS = ["#draw", "#resign", "#abort", "#adjourn", "#flag", "#takeback"]
BESIDE = ["#status", "#moves", "#previous", "#next"]
PARTNER = [f'#partner-table [data-square="{it}"]' for it in ("a1", "a8", "h1", "h8")]
PARTNER += ["#partner-table .plate:first-child .clock", "#partner-table .plate:last-child .clock", "#partner-say"]

# those of the elements that aren't seen whole, with what lies over their middle
OUT_OF_SIGHT = """
return arguments[0].map((css) => {
  const it = document.querySelector(css);
  const { left, right, top, bottom } = it.getBoundingClientRect();
  const isInside = right > left && left >= -1 && right <= innerWidth + 1 && top >= -1 && bottom <= innerHeight + 1;
  const over = document.elementFromPoint((left + right) / 2, (top + bottom) / 2);
  const place = [left, top, right, bottom].map(Math.round);
  return isInside && it.contains(over) ? "" : `${css} ${place} ${over?.outerHTML.slice(0, 80)}`;
}).filter(Boolean);
"""
# those of the elements on which a notice lies
BELOW_NOTICE = """
const notice = document.getElementById("notice");
const over = notice.getBoundingClientRect();
return notice.hidden ? ["no notice"] : arguments[0].filter((css) => {
  const { left, right, top, bottom } = document.querySelector(css).getBoundingClientRect();
  return left < over.right && right > over.left && top < over.bottom && bottom > over.top;
});
"""
WIDTH = "return document.querySelector('#main-table .board').getBoundingClientRect().width"


def keep_picture(window: Window, name: str) -> None:
    if paths.pictures:
        window.picture(Path(paths.pictures) / f"{name}.png")


def check_in_sight(window: Window, elements: list[str]) -> None:
    window.until(
        lambda: window.script(OUT_OF_SIGHT, elements) == [], f"in sight {window.script(OUT_OF_SIGHT, elements)}"
    )


@pytest.mark.parametrize("size", (LOW, UPRIGHT, NARROW), ids=lambda it: f"{it[0]}x{it[1]}")
def test_a_game(evening: Evening, size: Size) -> None:
    ann, ben = evening.window("Ann"), evening.window("Ben")
    ann.resize(size)
    evening.begin(ann, ben)
    evening.play(ann, ben, ("e2e4", "e7e5", "g1f3"))
    check_in_sight(ann, [*BOARD, *PLATES, *ACTS, *BESIDE])
    assert ann.script(WIDTH) >= LEAST_BOARD[size]
    keep_picture(ann, f"game_{size[0]}")
    ben.click("#resign")
    ben.click("#resign-yes")
    check_in_sight(ann, [*BOARD, *PLATES, "#status", "#rematch"])


@pytest.mark.parametrize("size", (LOW, UPRIGHT, NARROW), ids=lambda it: f"{it[0]}x{it[1]}")
def test_two_boards(evening: Evening, size: Size) -> None:
    ann, ben, cat, dan = four(evening)
    ann.resize(size)
    evening.play(ann, ben, ("e2e4", "d7d5", "e4d5"))
    evening.play(dan, cat, ("e2e4", "d7d5", "e4d5"))
    ann.sees_man("wP", "d5", "partner")
    field = ["#move", "#move-send"] if size == LOW else []
    check_in_sight(ann, [*BOARD, *PLATES, *PARTNER, *field, "#draw", "#resign", "#flag", "#status"])
    assert ann.script(WIDTH) >= LEAST_BOARD[size] - 140
    ann.type("e5") if ann.is_seen("#move") else ann.command("e5")
    ann.until(lambda: ann.is_seen("#notice"), "a refusal")
    assert ann.script(BELOW_NOTICE, [*BOARD, *PARTNER, *ACTS[:2]]) == []
    keep_picture(ann, f"bughouse_{size[0]}")
