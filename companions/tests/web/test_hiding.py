"""The switch at each name of the lobby: nothing that player says is shown; at a guest's nothing that guests say."""

import pytest
from selenium.webdriver.common.keys import Keys

from .browser import Evening, Window
from .plain import Plain

pytestmark = pytest.mark.browser

FOCUSED = "return document.activeElement.closest('#players li')?.dataset.key + ' ' + document.activeElement.ariaPressed"


def said(window: Window) -> list[str]:
    return window.texts('#said [data-said="all"] p.shout')


def switch(who: str) -> str:
    return f'#players li[data-key="{who}"] button[aria-pressed]'


def is_pressed(window: Window, who: str) -> bool:
    return window.is_seen(f'{switch(who)}[aria-pressed="true"]')


def test_who_isnt_shown(evening: Evening) -> None:
    ann, flo, ben = evening.window("Ann"), evening.plain("Flo"), evening.plain("Ben")
    ann.click(switch("Flo"))
    ann.until(lambda: is_pressed(ann, "Flo"), "that Flo isn't shown")
    assert not is_pressed(ann, "Ben") and not ann.is_seen(switch("Ann"))
    assert flo.ask("tell Ann hm") == ["refused 36 Refuses"]
    flo.ask("shout one")
    ben.ask("shout two")
    ann.until(lambda: said(ann) == ["Ben: two"], "another one's shout alone")
    ann.sees("Flo", "#kept")
    ann.click(switch("Flo"))
    ann.until(lambda: not is_pressed(ann, "Flo"), "that Flo is shown")
    flo.ask("shout three")
    ann.until(lambda: said(ann)[-1] == "Flo: three", "a shout again")


def test_guests_all_at_once(evening: Evening) -> None:
    ann, ben = evening.window("Ann"), evening.plain("Ben")
    guests = [Plain(evening.server.port, "guest") for _ in range(2)]
    names = ann.until(lambda: [it for it in ann.texts("#players .who") if it.startswith("Guest")], "a guest")
    ann.click(switch(names[0]))
    ann.until(lambda: len(ann.all('#players button[aria-pressed="true"]')) == 2, "that no guest is shown")
    guests[0].ask("shout one")
    guests[1].ask("tell Ann two")
    ben.ask("shout three")
    ann.until(lambda: said(ann) == ["Ben: three"], "what another one says alone")
    assert not ann.texts('#rooms [data-room^="person guest"]')
    ann.click(switch(names[0]))
    ann.until(lambda: not is_pressed(ann, names[0]), "that guests are shown")
    guests[1].ask("shout four")
    ann.until(lambda: said(ann)[-1].endswith(": four"), "a guest's shout")
    for it in guests:
        it.close()


def test_the_keyboard_alone_in_german(evening: Evening) -> None:
    ann, flo = evening.window("Ann"), evening.plain("Flo")
    ann.open("settings", "#settings-open")
    ann.choose("look-language", "de")
    ann.shut("settings")
    named = f'{switch("Flo")}[aria-label="Stumm: nicht zeigen, was Flo sagt"]'
    ann.until(lambda: ann.is_seen(named), "its name in German")
    ann.script("arguments[0].focus()", ann.element('#players li[data-key="Flo"] [data-room]'))
    ann.press(Keys.TAB)
    assert ann.script(FOCUSED) == "Flo false"
    ann.press(Keys.SPACE)
    ann.until(lambda: ann.script(FOCUSED) == "Flo true", "that the switch is on, and has the focus")
    assert flo.ask("tell Ann hm") == ["refused 36 Refuses"]
