"""A rematch, the game as PGN, and a game that was looked at late."""

import re
import subprocess
from pathlib import Path

import pytest
from selenium.webdriver.common.action_chains import ActionChains
from selenium.webdriver.common.keys import Keys

from .browser import Evening, Window

pytestmark = pytest.mark.browser

READER = "/usr/games/pgn-extract"

COPIED = """window.copied = []; Object.defineProperty(navigator, "clipboard",
    { configurable: true, value: { writeText: async (text) => { window.copied.push(text); } } });"""
SAVED = """window.saved = [];
URL.createObjectURL = (blob) => { blob.text().then((text) => window.saved.push(text)); return "blob:saved"; };
HTMLAnchorElement.prototype.click = function () { window.saved.push(this.download); };"""

PASTED = "field-that-takes-what-is-pasted"
TAKES_PASTED = """const field = document.createElement("textarea");
field.id = arguments[0];
document.body.prepend(field);
field.focus();"""


def resigned(evening: Evening) -> tuple[Window, Window]:
    ann, ben = evening.game(minutes=3, increment=2)
    evening.play(ann, ben, ("e2e4", "d7d5", "e4d5"))
    ben.click("#resign")
    ben.click("#resign-yes")
    for it in (ann, ben):
        it.sees("Ben resigns", "#status")
    return ann, ben


def test_a_rematch_changes_the_colours(evening: Evening) -> None:
    ann, ben = resigned(evening)
    ann.click("#rematch")
    ben.until(lambda: ben.text("#rematch") == "Accept the rematch", "the rematch to accept")
    ben.click("#rematch")
    for it in (ann, ben):
        it.sees("Ben – Ann", "#status")
        it.sees("3 min + 2 s", "#status")
        it.until(lambda: len(it.men()) == 32, "the board")


def copied(window: Window) -> str:
    window.script(COPIED)
    window.click("#pgn-copy")
    window.until(lambda: window.script("return window.copied.length"), "the copied game")
    return window.script("return window.copied.at(-1)")


def test_the_game_as_pgn(evening: Evening) -> None:
    ann, _ = resigned(evening)
    text = copied(ann)
    for line in ('[White "Ann"]', '[Black "Ben"]', '[Result "1-0"]', '[TimeControl "180+2"]', '[Termination "normal"]'):
        assert line in text.split("\n")
    assert "1. e4 {[%clk" in text
    assert text.endswith("{Ben resigns} 1-0\n")
    ann.sees("on the clipboard", "#notice")


@pytest.mark.skipif(not Path(READER).exists(), reason="wants Debian's pgn-extract")
def test_another_program_reads_it(evening: Evening) -> None:
    ann, _ = resigned(evening)
    text = copied(ann)
    checked = subprocess.run([READER, "-r", "-s"], input=text, capture_output=True, text=True)
    assert (checked.returncode, checked.stdout, checked.stderr) == (0, "", "")
    moves = subprocess.run([READER, "-s", "-C", "-Wuci"], input=text, capture_output=True, text=True).stdout
    assert moves.strip().split("\n")[-1] == "e2e4 d7d5 e4d5 1-0"


def test_the_game_as_a_file(evening: Evening) -> None:
    ann, _ = resigned(evening)
    ann.script(SAVED)
    ann.click("#pgn-save")
    ann.until(lambda: ann.script("return window.saved.length") == 2, "the file")
    name, text = ann.script("return window.saved")
    assert re.search(r"^Ann-Ben-\d{4}-\d\d-\d\d\.pgn$", name)
    assert text.endswith("{Ben resigns} 1-0\n")


@pytest.mark.firefox
def test_the_browsers_own_clipboard_and_its_folder(evening: Evening, tmp_path: Path) -> None:
    ann, _ = resigned(evening)
    ann.browser.saves_to(tmp_path)
    ann.click("#pgn-save")
    files = ann.until(lambda: list(tmp_path.glob("Ann-Ben-*.pgn")), "the file")
    text = ann.until(files[0].read_text, "what is in it")
    assert text.endswith("{Ben resigns} 1-0\n")
    ann.click("#pgn-copy")
    ann.sees("on the clipboard", "#notice")
    ann.script(TAKES_PASTED, PASTED)
    ActionChains(ann.driver).key_down(Keys.CONTROL).send_keys("v").key_up(Keys.CONTROL).perform()
    ann.until(lambda: ann.script("return document.getElementById(arguments[0]).value", PASTED) == text, "the game")


def test_a_game_that_is_looked_at_late(evening: Evening) -> None:
    ann, ben = evening.game()
    evening.play(ann, ben, ("e2e4", "d7d5", "e4d5", "d8d5"))
    cat = evening.window("Cat")
    cat.command("observe 1")
    cat.sees("Seen from move 3 on", "#moves")
    evening.play(ann, ben, ("b1c3",))
    cat.sees("Nc3", "#moves")
    text = copied(cat)
    assert '[FEN "rnb1kbnr/ppp1pppp/8/3q4/8/8/PPPP1PPP/RNBQKBNR w KQkq - 0 3"]' in text
    assert "\n\n3. Nc3" in text
