"""Pictures of the page in what members do: `--pictures FOLDER` says where they are put."""

from pathlib import Path

import pytest

from .browser import NARROW, WIDE, Evening, Window
from .four_tabs import four
from .pictures import WIDTHS, document, take, take_sheet

pytestmark = pytest.mark.browser

SPANISH = ("e2e4", "e7e5", "g1f3", "b8c6", "f1b5", "a7a6", "b5a4", "g8f6")
INDIAN = ("d2d4", "g8f6", "c2c4", "g7g6", "b1c3")


def dress(window: Window, **looks: str) -> None:
    """Chooses how the page looks."""
    window.open("settings", "#settings-open")
    for field, value in looks.items():
        window.choose(f"look-{field}", value)
    window.shut("settings")


def test_login_lobby_and_board(evening: Evening, pictures: Path) -> None:
    cat = evening.window("Cat", enters=False)
    take(pictures, cat, "login")
    cat.enter()
    cat.click("#usual-3-2")
    ann, ben, dan, eve = (evening.window(it) for it in ("Ann", "Ben", "Maximiliananderse", "Eve"))
    evening.begin(dan, eve, minutes=10)
    evening.play(dan, eve, INDIAN)
    evening.begin(ann, ben, minutes=5, increment=3)
    evening.play(ann, ben, SPANISH)
    gus = evening.window("Gus")
    gus.terms()
    take(pictures, gus, "terms", (NARROW, WIDE))
    gus.choose("variant", "crazyhouse")
    gus.click("#seek")
    eve.command("shout good evening to all of you")
    eve.command("tell Cat a game behind this one?")
    gus.command("match Cat 5 0")
    cat.sees("Gus challenges you", "#calls")
    cat.until(lambda: len(cat.all('#games li:not(.blank) [data-letter="P"]')) == 16, "two small boards")
    take_sheet(pictures, cat, "lobby")
    cat.script("document.activeElement.blur()")
    document(pictures, cat, "lobby")
    ben.command("tell Ann a Spanish again")
    ben.click("#draw")
    ann.sees("Ben offers a draw", "#offers")
    ann.click('#rooms [data-room="person ben"]')
    take_sheet(pictures, ann, "game")
    document(pictures, ann, "web")
    ann.resize(NARROW)
    ann.view("talk")
    take(pictures, ann, "talk", (NARROW, WIDTHS[2]))
    ann.view("board")
    ben.click("#resign")
    ben.click("#resign-yes")
    ann.sees("Ben resigns", "#status")
    take_sheet(pictures, ann, "end")
    dress(cat, theme="dark")
    gus.command("tell Cat Round 1: you have White against Gus. Type: match gus 5 0 white")
    cat.sees("Round 1", "#said p")
    cat.resize(NARROW)
    cat.view("talk")
    cat.click('#rooms [data-room="person gus"]')
    take(pictures, cat, "told-dark", (NARROW, WIDE))
    dress(cat, theme="light")
    take(pictures, cat, "told", (NARROW, WIDE))


def test_dark_and_in_german(evening: Evening, pictures: Path) -> None:
    ann, ben = evening.game("crazyhouse")
    evening.play(ann, ben, ("e2e4", "d7d5", "e4d5", "d8d5"))
    dress(ann, theme="dark", board="wood", men="plain", language="de")
    take(pictures, ann, "dark")
    ann.open("settings", "#settings-open")
    ann.sees("Einstellungen", "#settings-title")
    take(pictures, ann, "settings-dark", (NARROW, WIDE))
    ann.choose("look-theme", "light")
    ann.choose("look-language", "en")
    ann.sees("Settings", "#settings-title")
    take(pictures, ann, "settings", (NARROW, WIDE))


def test_bughouse(evening: Evening, pictures: Path) -> None:
    ann, ben, cat, dan = four(evening)
    evening.play(dan, cat, ("e2e4", "d7d5", "e4d5"))
    evening.play(ann, ben, ("e2e4", "e7e5"))
    cat.write("partner-say", "a pawn for Ben")
    cat.click("#partner-say-send")
    ann.sees("a pawn for Ben", "#partner-said")
    take_sheet(pictures, ann, "bughouse")
