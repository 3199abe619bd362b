"""The field for moves sends moves alone, and what costs a game is asked about wherever it is typed; a refusal goes once
it no longer holds."""

import pytest

from .browser import Evening

pytestmark = pytest.mark.browser


def test_what_is_no_move_isnt_sent(evening: Evening) -> None:
    ann, ben = evening.game()
    for word in ("draw", "abort", "nf3", "e2e9", "takeback", "tell ben"):
        ann.type(word)
        ann.sees("is no move", "#notice")
        assert ann.script("return document.getElementById('move').value") == word
    evening.settle(ann, ben)
    assert ben.text("#offers").strip() == ""
    ann.type("e4")
    ben.sees_man("wP", "e4")


def test_quit_and_resign_are_asked_about(evening: Evening) -> None:
    ann, ben = evening.game()
    for word, dialog, no in (
        ("q", "leave-ask", "leave-no"),
        ("quit", "leave-ask", "leave-no"),
        ("resign", "resign-ask", "resign-no"),
    ):
        ann.type(word)
        ann.until(lambda: ann.is_seen(f"#{dialog}"), dialog)
        ann.click(f"#{no}")
    for line, dialog, no in (("q", "leave-ask", "leave-no"), ("resign", "resign-ask", "resign-no")):
        ann.open("commands", "#commands-open")
        ann.write("command", line)
        ann.click("#command-send")
        ann.until(lambda: ann.is_seen(f"#{dialog}"), dialog)
        ann.click(f"#{no}")
    ann.click("#commands-close")
    evening.settle(ann, ben)
    ben.sees("Ann to move", "#status")
    ann.type("resign")
    ann.click("#resign-yes")
    for it in (ann, ben):
        it.sees("Ann resigns", "#status")


def test_a_refusal_goes_with_the_next_board(evening: Evening) -> None:
    ann, ben = evening.game()
    ann.prefer("premoves")
    ann.move("e2", "e4")
    ben.sees_man("wP", "e4")
    ann.move("d2", "d4")
    ann.sees("your opponent's turn", "#notice")
    ben.move("e7", "e5")
    ann.until(lambda: not ann.is_seen("#notice"), "no refusal any more")


def test_a_refusal_goes_once_something_is_done(evening: Evening) -> None:
    ann, _ = evening.window("Ann"), evening.window("Ben")
    ann.challenge("Nobody")
    ann.sees("Nobody of that name is here", "#notice")
    ann.challenge("Ben")
    ann.until(lambda: not ann.is_seen("#notice"), "no refusal any more")
