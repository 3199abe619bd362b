"""What tells a member of a move or a call: sounds, the title and the icon, notes of the browser while the page is out
of sight."""

import pytest

from .browser import Evening, Window

pytestmark = pytest.mark.browser

# tones as they begin, in place of a loudspeaker: of each its frequency
HEARS = """window.tones = [];
const create = AudioContext.prototype.createOscillator;
AudioContext.prototype.createOscillator = function () {
  const made = create.call(this);
  const start = made.start;
  made.start = function (...words) { window.tones.push(Math.round(made.frequency.value)); start.apply(made, words); };
  return made;
};"""
# notes as they are shown, in place of the desktop's, and a page that is out of sight
NOTES = """window.notes = [];
window.Notification = class {
  static requestPermission() { return Promise.resolve("granted"); }
  constructor(title, { body }) { window.notes.push(body); }
  close() { window.notes.push("closed"); }
};"""
HIDE = """const isHidden = arguments[0];
Object.defineProperty(document, "hidden", { configurable: true, get: () => isHidden });
document.dispatchEvent(new Event("visibilitychange"));"""
ICON = r"return /(\w+)(\.\w+)?\.svg$/.exec(document.getElementById('icon').href)[1]"  # without its sum
MOVE, CAPTURE, CHECK, CALL = 320, 240, 660, 523


def hears(window: Window, tone: int) -> None:
    window.until(lambda: tone in window.script("return window.tones"), f"a tone of {tone}")
    window.script("window.tones = []")


def asks(evening: Evening, name: str, window: Window) -> None:
    """Somebody without a page asks to be the partner."""
    evening.plain(name).ask(f"partner {window.name}")


def test_sounds(evening: Evening) -> None:
    ann, ben = evening.game()
    for it in (ann, ben):
        it.script(HEARS)
    ann.move("e2", "e4")
    hears(ann, MOVE)
    hears(ben, MOVE)
    ben.move("d7", "d5")
    hears(ann, MOVE)
    ann.move("e4", "d5")
    hears(ben, CAPTURE)
    ben.move("d8", "d5")
    hears(ann, CAPTURE)
    evening.play(ann, ben, ("b1c3", "d5e5"))
    hears(ann, CHECK)
    asks(evening, "Cat", ann)
    hears(ann, CALL)
    ann.prefer("sounds")
    ann.script("window.tones = []")
    ann.move("f1", "e2")
    for it in (ann, ben):
        it.sees_man("wB", "e2")
    evening.settle(ann, ben)
    assert ann.script("return window.tones") == []


def test_title_and_icon(evening: Evening) -> None:
    ann, ben = evening.game()
    ann.until(lambda: ann.script("return document.title") == "Your move – Chess club", "the title of one's move")
    assert ann.script(ICON) == "icon_move"
    ann.move("e2", "e4")
    ann.until(lambda: ann.script("return document.title") == "Chess club", "the title")
    assert ann.script(ICON) == "icon"
    asks(evening, "Cat", ann)
    ann.until(lambda: ann.script("return document.title") == "(1) Asked of you – Chess club", "the title of a call")
    assert ann.script(ICON) == "icon_call"


def test_notes_while_the_page_is_out_of_sight(evening: Evening) -> None:
    ann, ben = evening.game()
    ann.script(NOTES)
    ann.prefer("notes")
    ann.move("e2", "e4")
    ben.sees_man("wP", "e4")
    ben.move("e7", "e5")
    ann.sees_man("bP", "e5")
    assert ann.script("return window.notes") == []
    ann.move("g1", "f3")
    ann.script(HIDE, True)
    ben.sees_man("wN", "f3")
    ben.move("b8", "c6")
    ann.until(lambda: ann.script("return window.notes") == ["Ben has played Nc6. It is your move."], "a note")
    asks(evening, "Cat", ann)
    ann.until(lambda: "Cat offers to be your partner." in ann.script("return window.notes"), "another note")
    ann.script(HIDE, False)
    ann.until(lambda: ann.script("return window.notes.at(-1)") == "closed", "no note any more")
