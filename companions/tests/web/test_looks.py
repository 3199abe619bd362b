"""How the page looks: captured men stand out from any ground, the signs at players have words, and a long game costs no
more than a short one."""

import pytest

from .browser import Evening

pytestmark = pytest.mark.browser

LEAST_CONTRAST = 3.0
# the contrast of each man that was captured with what is below it
CONTRASTS = """
const canvas = new OffscreenCanvas(1, 1).getContext("2d", { willReadFrequently: true });
const rgba = (colour) => {
  canvas.clearRect(0, 0, 1, 1);
  canvas.fillStyle = colour;
  canvas.fillRect(0, 0, 1, 1);
  return [...canvas.getImageData(0, 0, 1, 1).data];
};
const ground = (it) => {
  const own = rgba(getComputedStyle(it).backgroundColor);
  return own[3] === 255 ? own : it.parentElement ? ground(it.parentElement) : rgba("Canvas");
};
const light = (rgb) => {
  const [x, y, z] = rgb.slice(0, 3).map((it) => it / 255)
      .map((it) => it <= 0.04045 ? it / 12.92 : ((it + 0.055) / 1.055) ** 2.4);
  return 0.2126 * x + 0.7152 * y + 0.0722 * z;
};
const contrast = (one, other) => {
  const [a, b] = [light(one), light(other)].sort((x, y) => y - x);
  return (a + 0.05) / (b + 0.05);
};
return [...document.querySelectorAll("#main-table .captured .man")].map((it) => {
  const body = getComputedStyle(it.querySelector(".body"));
  return Math.max(contrast(rgba(body.fill), ground(it)), contrast(rgba(body.stroke), ground(it)));
});
"""
KNIGHTS = ("Nf3", "Nf6", "Ng1", "Ng8")
HALF_MOVES = 120
SHOWN = "return document.querySelectorAll('#moves [data-ply]').length"
# by how many half-moves the list has grown, and of each how much was changed at the board and beside it
COUNTS_CHANGES = """window.changes = [];
let count = 0;
let shown = 0;
new MutationObserver((records) => {
  for (const { addedNodes, removedNodes, type } of records) {
    count += addedNodes.length + removedNodes.length + (type === "attributes" ? 1 : 0);
  }
  const now = document.querySelectorAll("#moves [data-ply]").length;
  if (now > shown) {
    window.changes.push(...Array(now - shown).fill(count / (now - shown)));
    shown = now;
    count = 0;
  }
}).observe(document.getElementById("board"), { subtree: true, childList: true, attributes: true });"""


@pytest.mark.parametrize("theme", ("light", "dark"))
def test_captured_men_stand_out(evening: Evening, theme: str) -> None:
    ann, ben = evening.game()
    evening.play(ann, ben, ("e2e4", "d7d5", "e4d5", "d8d5"))
    ann.open("settings", "#settings-open")
    ann.choose("look-theme", theme)
    ann.shut("settings")
    ann.until(lambda: len(ann.script(CONTRASTS)) == 2, "two captured pawns")
    assert min(ann.script(CONTRASTS)) >= LEAST_CONTRAST


def test_signs_at_players_have_words(evening: Evening) -> None:
    ann, ben = evening.game()
    cat = evening.window("Cat")
    cat.until(lambda: len(cat.all("#players button")) == 8, "what can be done with both")
    words = cat.script("return [...document.querySelectorAll('#players button')].map((it) => it.innerText.trim())")
    assert sorted(words) == sorted(["Watch", "Challenge", "Message", "Mute"] * 2)


def test_a_long_game_changes_no_more_of_the_page_than_a_short_one(evening: Evening) -> None:
    """What is changed has its style and its place found anew: by each half-move so many elements."""
    dan, eve = evening.plain("Dan"), evening.plain("Eve")
    dan.ask("match Eve 0 0 white")
    eve.ask("accept Dan")
    cat = evening.window("Cat")
    cat.command("observe 1")
    cat.until(lambda: len(cat.men()) == 32, "the board")
    cat.script(COUNTS_CHANGES)
    for n in range(HALF_MOVES):
        (dan if n % 2 == 0 else eve).ask(KNIGHTS[n % 4])
    cat.until(lambda: cat.script(SHOWN) == HALF_MOVES, "all half-moves")
    changes = cat.script("return window.changes")
    assert len(changes) == HALF_MOVES
    early, late = max(changes[8:24]), max(changes[-16:])
    assert late <= 1.2 * early, (early, late)
