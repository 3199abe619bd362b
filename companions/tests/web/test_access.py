"""Without a mouse and without sight: each control has a name and is reached by Tab, texts stand out from their ground,
the last half-move is spoken, and nothing needs more than 390 pixels."""

import pytest
from selenium.webdriver.common.keys import Keys

from .browser import NARROW, Evening
from .reached import check_all, check_contrasts, check_fits, check_names, check_narrow

pytestmark = pytest.mark.browser

# the controls that lie behind a bar of a narrow window, each once the focus has come to it from the page's top
BEHIND_BARS = """
const seen = (it) => it.checkVisibility({ visibilityProperty: true }) && !it.disabled;
const all = document.querySelectorAll("main a[href], main button, main input, main select");
return [...all].filter(seen).filter((it) => {
  scrollTo(0, 0);
  it.focus();
  const { left, right, top, bottom } = it.getBoundingClientRect();
  return document.elementFromPoint((left + right) / 2, (top + bottom) / 2)?.closest("header, #ways");
}).map((it) => it.outerHTML.slice(0, 160));
"""


def test_the_login(evening: Evening) -> None:
    window = evening.window("Ann", enters=False)
    check_all(window)


def test_the_lobby_and_a_game_with_hands_and_an_offer(evening: Evening) -> None:
    ann, ben = evening.game("crazyhouse")
    evening.play(ann, ben, ("e2e4", "d7d5", "e4d5"))
    ben.click("#draw")
    ann.sees("Ben offers a draw", "#offers")
    check_all(ann)


def test_the_lobby_its_lists_and_the_rooms_of_the_talk(evening: Evening) -> None:
    ann, ben = evening.game()
    cat, dan = evening.window("Cat"), evening.window("Maximiliananderse")
    dan.click("#usual-3-2")
    dan.command("match Cat 5 0 crazyhouse")
    dan.command("tell Cat good evening")
    dan.command("shout good evening to all of you")
    cat.sees("Maximiliananderse", "#calls")
    cat.sees("3+2", "#seeks .time")
    cat.until(lambda: len(cat.all('#games [data-letter="P"]')) == 8, "a small board")
    cat.command("+channel 7")
    cat.click('#rooms [data-room="channel 7"]')
    check_all(cat)
    cat.resize(NARROW)
    for view in ("talk", "board", "lobby"):
        cat.view(view)
        check_names(cat)
        check_contrasts(cat)
        check_fits(cat)


def test_the_boxes(evening: Evening) -> None:
    ann = evening.window("Ann")
    for box, key in (("settings", "#settings-open"), ("terms", "#own-terms"), ("commands", "#commands-open")):
        ann.click(key)
        check_all(ann)
        ann.press(Keys.ESCAPE)
        ann.until(lambda: not ann.is_seen(f"#{box}"), f"{box} closed by Escape")


def test_other_languages_need_no_more_room(evening: Evening) -> None:
    ann, ben = evening.game("crazyhouse")
    ann.open("settings", "#settings-open")
    ann.choose("look-language", "de")
    ann.sees("Einstellungen", "#settings-title")
    check_narrow(ann)
    ann.shut("settings")
    ann.resize(NARROW)
    for view in ("lobby", "board", "talk"):
        ann.view(view)
        check_names(ann)
        check_fits(ann)


def test_no_bar_hides_what_has_the_focus(evening: Evening) -> None:
    ann, ben = evening.game("crazyhouse")
    ann.resize(NARROW)
    for view in ("board", "lobby"):
        ann.view(view)
        assert ann.script(BEHIND_BARS) == []


def test_the_keyboard_alone(evening: Evening) -> None:
    ann, ben = evening.game()
    ann.script("arguments[0].focus()", ann.square("e2"))
    ann.press(Keys.ENTER, Keys.ARROW_UP, Keys.ARROW_UP, Keys.ENTER)
    ben.sees_man("wP", "e4")
    ben.script("arguments[0].focus()", ben.square("d7"))
    # Black is below, so up is towards the first rank
    ben.press(Keys.SPACE, Keys.ARROW_UP, Keys.ARROW_UP, Keys.SPACE)
    ann.sees_man("bP", "d5")
    ann.type("exd5")
    ben.sees("exd5", "#moves")


def test_the_last_half_move_is_spoken(evening: Evening) -> None:
    ann, ben = evening.game()
    for it in (ann, ben):
        assert it.script("return document.getElementById('spoken').ariaLive") in ("polite", "assertive")
    for mover, start, end, word in ((ann, "e2", "e4", "e4"), (ben, "e7", "e5", "e5"), (ann, "g1", "f3", "Nf3")):
        mover.move(start, end)
        for it in (ann, ben):
            it.sees(word, "#spoken")
    ben.click("#resign")
    ben.click("#resign-yes")
    for it in (ann, ben):
        it.sees("Ben resigns", "#spoken")
