"""The lobby stands still: over an evening of coming and going no panel and no row moves, and what goes under the mouse
stays there in grey until the mouse has left."""

import pytest
from selenium.webdriver.common.action_chains import ActionChains

from .browser import NARROW, WIDE, Evening, Size, Window

pytestmark = pytest.mark.browser

# where each panel and each row was seen first, and those that were seen elsewhere later
WATCHES = """window.seen = new Map(); window.moved = [];
const look = () => {
  const rows = document.querySelectorAll("#seeks > li, #players > li, #games > li");
  const all = [...document.querySelectorAll("#lobby .panel"), ...rows].filter((it) => it.checkVisibility());
  for (const it of all) {
    const { left, top, width } = it.getBoundingClientRect();
    const at = [left, top, width].map(Math.round).join(" ");
    const name = it.dataset.key ? `${it.parentElement.id} ${it.dataset.key}` : it.className;
    const before = window.seen.get(name) ?? at;
    window.seen.set(name, at);
    if (before !== at && !name.includes("none") && !name.includes(" free ")) {
      window.moved.push(`${name}: ${before} to ${at}`);
    }
  }
  requestAnimationFrame(look);
};
look();
window.shifts = [];
const textOf = ({ node }) => (node?.outerHTML ?? node?.textContent)?.slice(0, 90);
if (PerformanceObserver.supportedEntryTypes.includes("layout-shift")) {
  new PerformanceObserver((list) => list.getEntries().forEach((it) => it.hadRecentInput
    || window.shifts.push([it.value, it.sources.map(textOf)])))
    .observe({ type: "layout-shift", buffered: false });
}"""
MOVED = "return window.moved"
SHIFTS = "return window.shifts"
IS_OFF = "return document.querySelector(arguments[0])?.disabled"
PEOPLE = ("Dan", "Eve", "Fay", "Gus", "Hal", "Ida")


def put_mouse(window: Window, css: str) -> None:
    window.front()
    ActionChains(window.driver).move_to_element(window.element(css)).perform()


def accepts(evening: Evening, black: str, white: str) -> bool:
    """Accepts a challenge, which may be on its way still."""
    evening.plain(black).ask(f"accept {white}")
    return True


def is_listed(window: Window, white: str) -> bool:
    return white in window.texts("#games .player")


@pytest.mark.parametrize("size", (NARROW, (820, 1180), WIDE, (1920, 1080)), ids=lambda it: f"{it[0]}")
def test_an_evening(evening: Evening, size: Size) -> None:
    cat = evening.window("Cat")
    cat.resize(size)
    jo, kim = evening.plain("Jon"), evening.plain("Kim")
    for terms in ("5 0", "3 2"):
        jo.ask(f"seek {terms}")
    cat.until(lambda: len(cat.texts("#seeks .time")) == 2, "two seeks")
    cat.sees("Kim", "#players .who")
    cat.script(WATCHES)
    for name in PEOPLE:
        evening.plain(name).ask("seek 10 0")
        cat.sees(name, "#players .who")
    cat.until(lambda: len(cat.texts("#seeks .time")) == 8, "eight seeks")
    jo.ask("unseek")
    evening.plain("Eve").ask("unseek")
    cat.until(lambda: len(cat.texts("#seeks .time")) == 5, "five seeks")
    for white, black in (("Dan", "Fay"), ("Gus", "Hal")):
        evening.plain(white).ask(f"match {black} 5 0 white")
        cat.until(lambda: accepts(evening, black, white) and is_listed(cat, white), "their game")
    kim.ask("match Cat 5 0")
    cat.sees("Kim challenges you", "#calls")
    kim.ask("withdraw Cat")
    cat.until(lambda: "Kim" not in cat.text("#calls"), "no challenge")
    evening.plain("Dan").ask("resign")
    cat.until(lambda: "Dan" not in "".join(cat.texts("#games li:not(.free):not(.gone) .player")), "one game")
    evening.plain("Ida").leave()
    cat.until(lambda: "Ida" not in cat.texts("#players .who"), "Ida gone")
    jo.ask("seek 1 0")
    cat.sees("1+0", "#seeks .time")
    assert cat.script(MOVED) == []
    assert cat.script(SHIFTS) == []


def test_what_goes_under_the_mouse_stays_in_grey(evening: Evening) -> None:
    cat = evening.window("Cat")
    dan, eve = evening.plain("Dan"), evening.plain("Eve")
    dan.ask("seek 5 0")
    eve.ask("seek 3 0")
    cat.until(lambda: cat.texts("#seeks .who") == ["Dan", "Eve"], "both seeks")
    cat.script(WATCHES)
    put_mouse(cat, '#seeks [data-command="play 1"]')
    dan.ask("unseek")
    cat.until(lambda: cat.script(IS_OFF, '#seeks [data-command="play 1"]'), "Dan's seek in grey")
    assert cat.texts("#seeks .who") == ["Dan", "Eve"]
    dan.ask("seek 15 0")
    cat.until(lambda: cat.texts("#seeks .who") == ["Dan", "Eve", "Dan"], "the other one, at the end")
    assert cat.script(MOVED) == []
    put_mouse(cat, "#usual")
    cat.until(lambda: cat.texts("#seeks .who") == ["Eve", "Dan"], "what there is")
    assert cat.script(MOVED) == []
    cat.click('#seeks [data-command="play 2"]')
    cat.sees("Eve", "#status")
