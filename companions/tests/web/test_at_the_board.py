"""What hands expect at the board: a flag that falls by itself, a mark at who has lost its link, talk that goes to the
opponent, few acts behind the end, and both squares of a king that castles."""

import time

import pytest

from .browser import Evening, Window

pytestmark = pytest.mark.browser

NOTES_CLOCKS = """window.clocks = new Set();
const clocks = document.querySelectorAll("#main-table .clock");
new MutationObserver(() => clocks.forEach((it) => window.clocks.add(it.textContent))).observe(
  document.getElementById("main-table"), { subtree: true, childList: true, characterData: true });"""
CLOCKS = "return [...window.clocks]"
ACTS = (
    """return [...document.querySelectorAll(".acts button")].filter((it) => it.checkVisibility()).map((it) => it.id)"""
)
IS_ON_BOARD = """const [it, board] = [document.querySelector(".result"), document.querySelector("#main-table .board")]
  .map((it) => it.getBoundingClientRect());
return it.left >= board.left && it.right <= board.right && it.top >= board.top && it.bottom <= board.bottom;"""
MARKED = """const square = (name) => document.querySelector(`#main-table [data-square="${name}"]`);
const ground = (name) => getComputedStyle(square(name)).backgroundColor;
return [ground(arguments[0]) !== ground(arguments[1]), ground(arguments[2]) !== ground(arguments[3])];"""
DISCS = """return [...document.querySelectorAll("#games .small-game .player")]
  .map((it) => [it.textContent, getComputedStyle(it, "::before").backgroundColor])"""
DISC = """return getComputedStyle([...document.querySelectorAll("#main-table .plate .name")]
  .find((it) => it.textContent.startsWith(arguments[0])), "::before").backgroundColor"""


def test_a_flag_falls_by_itself(evening: Evening) -> None:
    ann, ben = evening.game(minutes=0, increment=1)
    for it in (ann, ben):
        it.script(NOTES_CLOCKS)
    evening.play(ann, ben, ("e2e4", "e7e5", "g1f3"))
    for it in (ann, ben):
        it.sees("Ben forfeits on time", "#status")
        assert [text for text in it.script(CLOCKS) if text.startswith("−")] == []
        assert not it.is_seen("#notice.refusal")


def test_who_has_lost_its_link_is_marked(evening: Evening) -> None:
    ann, ben = evening.game()
    evening.play(ann, ben, ("e2e4",))
    plain = ann.script("return getComputedStyle(arguments[0]).color", ann.element('[data-player="Ben"]'))
    ben.close()
    ann.sees("Ben's link is lost. Who isn't back in ", "#away")
    began = time.monotonic()
    assert ann.is_seen("#away")
    assert ann.script("return getComputedStyle(arguments[0]).color", ann.element('[data-player="Ben"]')) != plain
    seconds = int(ann.text("#away").partition("back in ")[2].split()[0])
    assert 15 < seconds <= 30
    ann.sees("Ben forfeits by disconnection", "#status")
    assert abs(time.monotonic() - began - seconds) < 5
    assert not ann.is_seen("#away")


def test_who_is_back_is_marked_no_more(evening: Evening) -> None:
    ann, ben = evening.game()
    ann.script(
        """window.told = []; new MutationObserver(() => window.told.push(document.getElementById("away").textContent))
        .observe(document.getElementById("away"), { childList: true })"""
    )
    ben.front()
    ben.driver.refresh()
    ben.until(lambda: len(ben.men()) == 32, "the board again")
    ann.until(lambda: ann.script("return window.told.length"), "that Ben's link was lost")
    ann.until(lambda: not ann.is_seen("#away"), "that Ben is back")
    evening.play(ann, ben, ("e2e4",))


def hears(window: Window, words: str) -> bool:
    return any(words in it for it in window.texts("#said p"))


def test_talk_in_a_game_is_for_the_opponent(evening: Evening) -> None:
    cat = evening.window("Cat")
    ann, ben = evening.game()
    evening.play(ann, ben, ("e2e4", "e7e5"))
    ann.say("good luck")
    ben.sees("Ann: good luck", "#said p")
    ben.click("#resign")
    ben.click("#resign-yes")
    ann.sees("Ben resigns", "#status")
    ben.say("gg")
    ann.sees("Ben: gg", "#said p")
    ann.command("shout to all")
    cat.sees("Ann: to all", "#said p")
    assert not hears(cat, "gg") and not hears(cat, "good luck")


def test_behind_the_end(evening: Evening) -> None:
    ann, ben = evening.game()
    evening.play(ann, ben, ("f2f3", "e7e5", "g2g4", "d8h4"))
    for it in (ann, ben):
        it.until(lambda: it.is_seen(".result"), "the result")
        assert it.text(".result b") == "0 – 1"
        assert "Ann checkmated" in it.text(".result")
        assert it.script(IS_ON_BOARD)
        assert it.script(ACTS) == ["rematch", "close-game"]
    ann.click(".result")
    ann.until(lambda: not ann.is_seen(".result"), "the board alone")
    ben.click("#previous")
    ben.until(lambda: not ben.is_seen(".result"), "the board alone")
    ann.click("#rematch")
    ben.until(lambda: ben.text("#rematch") == "Accept the rematch", "the rematch to accept")
    ben.click("#rematch")
    for it in (ann, ben):
        it.sees("Ben – Ann", "#status")
        it.until(lambda: not it.is_seen(".result"), "no result any more")


@pytest.mark.parametrize("word, came, went, same", (("O-O", "e1", "g1", "c1"), ("O-O-O", "e1", "c1", "g1")))
def test_castling_marks_where_the_king_came_from(evening: Evening, word: str, came: str, went: str, same: str) -> None:
    ann, ben = evening.game()
    evening.play(ann, ben, ("g1f3", "a7a6", "g2g3", "b7b6", "f1g2", "c7c6", "d2d4", "d7d6"))
    evening.play(ann, ben, ("c1f4", "e7e6", "b1c3", "f7f6", "d1d2", "g7g6"))
    ann.type(word)
    for it in (ann, ben):
        it.sees_man("wK", went)
        # of the dark squares that of the king's is another one than a8's, and the one to which it went than that beside
        assert it.script(MARKED, came, "a3", went, same) == [True, True]
        assert it.script(MARKED, "f1" if word == "O-O" else "d1", "d3" if word == "O-O" else "h1", came, "a3") == [
            False,
            True,
        ]


def test_a_disc_is_a_colour_everywhere(evening: Evening) -> None:
    dan, eve = evening.plain("Dan"), evening.plain("Eve")
    dan.ask("match Eve 5 0 white")
    eve.ask("accept Dan")
    cat = evening.window("Cat")
    cat.until(lambda: len(cat.script(DISCS)) == 2, "a card")
    before = dict(cat.script(DISCS))
    dan.ask("e4")
    cat.until(lambda: cat.is_seen('#games [data-colour="b"].to-move'), "who is to move")
    assert dict(cat.script(DISCS)) == before
    cat.click("#games .small-game")
    cat.until(lambda: len(cat.men()) == 32, "the board")
    assert {it: cat.script(DISC, it) for it in ("Dan", "Eve")} == before
