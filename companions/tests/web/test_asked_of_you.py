"""What others ask lies over the page, two at a time; during a game it is folded behind a button with its number; who
wants none of it, or not of somebody, isn't asked."""

import pytest

from .browser import Evening, Window

pytestmark = pytest.mark.browser

SHOWN = "#calls li:not(.more) .what"


def names(window: Window) -> list[str]:
    """Who asks, above the page and in the lobby."""
    return [it.split()[0] for it in window.texts(f"{SHOWN}, #challenges .what")]


def test_two_at_a_time_and_the_rest_in_the_lobby(evening: Evening) -> None:
    ann = evening.window("Ann")
    for name in ("Dan", "Eve", "Fay"):
        evening.plain(name).ask("match Ann 5 0")
        ann.until(lambda: names(ann).count(name) == 1, f"what {name} asks, once")
    assert sorted(names(ann)) == ["Dan", "Eve", "Fay"]
    assert [it.split()[0] for it in ann.texts(SHOWN)] == ["Dan", "Eve"]
    ann.sees("1 more", "#calls .more")
    evening.plain("Dan").ask("withdraw Ann")
    ann.until(lambda: [it.split()[0] for it in ann.texts(SHOWN)] == ["Eve", "Fay"], "the next one")
    ann.click('#calls [data-command="decline Eve"]')
    ann.until(lambda: [it.split()[0] for it in ann.texts(SHOWN)] == ["Fay"], "the last one")


def test_folded_during_a_game(evening: Evening) -> None:
    ann, ben = evening.game()
    evening.plain("Dan").ask("partner Ann")
    ann.until(lambda: ann.is_seen("#calls-open"), "the bell")
    assert ann.script("return document.getElementById('calls-open').ariaLabel") == "Asked of you: 1"
    assert not ann.is_seen("#calls")
    ann.click("#calls-open")
    ann.until(lambda: ann.is_seen("#calls"), "what is asked")
    ann.click('#calls [data-dismiss="partner Dan"]')
    ann.until(lambda: not ann.is_seen("#calls") and not ann.is_seen("#calls-open"), "nothing is asked")
    evening.plain("Eve").ask("partner Ann")
    ann.until(lambda: ann.is_seen("#calls-open") and not ann.is_seen("#calls"), "the bell again")
    ann.click("#resign")
    ann.click("#resign-yes")
    ann.until(lambda: ann.is_seen("#calls"), "unfolded behind the game")


def test_who_wants_none(evening: Evening) -> None:
    ann = evening.window("Ann")
    ann.command("set open 0")
    evening.plain("Dan").ask("partner Ann")
    ann.sees("Dan offers to be your partner", '#said [data-said="all"]')
    assert ann.texts(SHOWN) == []
    ann.command("set open 1")
    ann.command("+noplay Eve")
    evening.plain("Eve").ask("partner Ann")
    evening.plain("Fay").ask("partner Ann")
    ann.until(lambda: ann.is_seen('#calls [data-command="partner Fay"]'), "Fay's request")
    assert len(ann.texts(SHOWN)) == 1
    assert not any("Eve" in it for it in ann.texts("#said p"))
