"""The lobby's small boards move while they are seen; the page looks on at few games for them, and at none otherwise,
as the lines tell that it sends."""

import pytest

from .browser import Evening, Window
from .plain import Plain

pytestmark = pytest.mark.browser

MOST = 6  # games at which a page looks on for small boards
CARD = "#games li:not(.none)"
KNOWN = "#games li:not(.none):not(.blank)"
LETTER = """const card = document.querySelector(`#games [data-key="${arguments[0]}"] .small-board`);
const [file, rank] = arguments[1];
return card?.children["abcdefgh".indexOf(file) + 8 * (8 - Number(rank))].dataset.letter;"""
NOTES_LINES = """const send = WebSocket.prototype.send;
window.sent = [];
WebSocket.prototype.send = function (line) { window.sent.push(line); send.call(this, line); };"""
LOOKING = "return window.sent.filter((it) => /^(un)?observe /.test(it))"


def pair(evening: Evening, white: str, black: str) -> tuple[Plain, Plain]:
    """A game of two without a page."""
    links = evening.plain(white), evening.plain(black)
    links[0].ask(f"match {black} 5 0 white")
    links[1].ask(f"accept {white}")
    return links


def looker(evening: Evening) -> Window:
    """A window whose lines are noted, as they are without stamps."""
    cat = evening.window("Cat", enters=False, path="/?plain")
    cat.script(NOTES_LINES)
    cat.enter()
    return cat


def test_they_move_while_they_are_seen(evening: Evening) -> None:
    ann, ben = pair(evening, "Ann", "Ben")
    cat = looker(evening)
    cat.until(lambda: cat.script(LETTER, 1, "e2") == "P", "the small board")
    ann.ask("e4")
    cat.until(lambda: cat.script(LETTER, 1, "e4") == "P" and cat.script(LETTER, 1, "e2") == "-", "the move")
    ann.ask("kibitz not for Cat")
    ann.ask("draw")
    assert cat.script(LOOKING) == ["observe 1"]
    cat.view("board")
    cat.until(lambda: cat.script(LOOKING) == ["observe 1", "unobserve 1"], "it looks on no longer")
    ben.ask("e5")
    cat.view("lobby")
    cat.until(lambda: cat.script(LETTER, 1, "e5") == "p", "the move that came meanwhile")
    ann.ask("resign")
    cat.until(lambda: not cat.all(CARD), "no game any more")
    assert cat.texts('#said [data-said="game"]') == []
    assert not cat.is_seen("#board")
    assert cat.complaints() == []


def test_who_looks_on_at_one_hears_and_says_what_is_said_there(evening: Evening) -> None:
    ann, _ = pair(evening, "Ann", "Ben")
    dan, _ = pair(evening, "Dan", "Eve")
    cat = looker(evening)
    cat.until(lambda: len(cat.all(KNOWN)) == 2, "both small boards")
    cat.click('#games [data-command="observe 3"]')
    cat.until(lambda: cat.is_seen("#board") and "Dan – Eve" in cat.text("#status"), "the board")
    assert cat.script(LOOKING) == ["observe 1", "observe 3", "unobserve 1", "unobserve 3", "observe 3"]
    cat.say("quite new", "game")
    cat.sees("Cat: quite new", '#said [data-said="game"]')
    dan.hears("Cat kibitzes: quite new")
    ann.ask("")
    assert "Cat kibitzes: quite new" not in ann.heard
    cat.view("lobby")
    ann.ask("e4")
    cat.click('#games [data-show="3"]')
    cat.until(lambda: cat.is_seen("#board"), "the board again")
    assert len(cat.script(LOOKING)) == 5


def test_few_at_a_time(evening: Evening) -> None:
    names = "abcdefgh"
    for it in names:
        pair(evening, f"White{it}", f"Black{it}")
    cat = evening.window("Cat", enters=False, path="/?plain")
    cat.resize((1920, 1080))
    cat.script(NOTES_LINES)
    cat.enter()
    cat.until(lambda: len(cat.all(CARD)) == len(names), "a card for each game")
    cat.until(lambda: len(cat.all(KNOWN)) == MOST, "boards that are known")
    lines = cat.script(LOOKING)
    assert len(lines) - 2 * sum(it.startswith("un") for it in lines) == MOST


def test_what_an_earlier_page_looked_on_at_is_left(evening: Evening) -> None:
    ann, _ = pair(evening, "Ann", "Ben")
    cat = evening.window("Cat")
    cat.until(lambda: cat.script(LETTER, 1, "e2") == "P", "the small board")
    cat.front()
    cat.driver.refresh()
    cat.until(lambda: cat.text("#me") == "Cat" and cat.script(LETTER, 1, "e2") == "P", "the page again")
    ann.ask("e4")
    cat.until(lambda: cat.script(LETTER, 1, "e4") == "P", "the move")
    assert not cat.is_seen("#board")
