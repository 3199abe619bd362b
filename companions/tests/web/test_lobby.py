"""Seeks, challenges that are declined, refusals in words, and lines that are typed."""

import pytest

from .browser import Evening

pytestmark = pytest.mark.browser


def test_a_seek_is_taken(evening: Evening) -> None:
    ann, ben = evening.window("Ann"), evening.window("Ben")
    ann.terms()
    ann.choose("colour", "black")
    ann.click("#seek")
    ann.until(lambda: not ann.is_seen("#terms"), "no box any more")
    row = '#seeks [data-command="play 1"]'
    ben.until(
        lambda: [ben.text(f"{row} .{it}") for it in ("who", "time", "variant", "colour")]
        == ["Ann", "5+3", "chess", "asks for black"],
        "the seek and its terms",
    )
    ben.click(f"{row} .time")
    for it in (ann, ben):
        it.until(lambda: len(it.men()) == 32, "the board")
        it.sees("Ben – Ann", "#status")
        it.view("lobby")
        it.until(lambda: "Ann" not in it.text("#seeks"), "no seek")


def test_usual_terms_are_sought_by_a_click_and_taken_back_by_another(evening: Evening) -> None:
    ann, ben = evening.window("Ann"), evening.window("Ben")
    assert ann.texts("#usual .time") == ["1+0", "2+1", "3+2", "5+0", "5+3", "10+0", "15+10", "Custom"]
    ann.click("#usual-3-2")
    ben.sees("3+2", "#seeks .time")
    ann.until(lambda: ann.script("return document.getElementById('usual-3-2').ariaPressed") == "true", "pressed")
    ben.until(lambda: "seeks 3+2" in ben.texts("#players .does"), "what Ann does")
    ann.click("#usual-3-2")
    ben.until(lambda: not ben.texts("#seeks .time"), "no seek")
    ann.until(lambda: ann.script("return document.getElementById('usual-3-2').ariaPressed") == "false", "free")
    ann.click("#usual-5-0")
    ben.click('#seeks [data-command^="play "]')
    for it in (ann, ben):
        it.until(lambda: len(it.men()) == 32, "the board")
        it.sees("5 min + 0 s", "#status")


def test_a_player_is_challenged_from_the_list(evening: Evening) -> None:
    ann, ben = evening.window("Ann"), evening.window("Ben")
    ann.click('#players [data-challenge="Ben"]')
    assert ann.script("return document.getElementById('match-name').value") == "Ben"
    ann.click("#match")
    ben.click('#calls [data-command="accept Ann"]')
    for it in (ann, ben):
        it.until(lambda: len(it.men()) == 32 and it.is_seen("#board"), "the board")


def test_a_challenge_is_declined(evening: Evening) -> None:
    ann, ben = evening.window("Ann"), evening.window("Ben")
    ann.challenge("Ben", "crazyhouse")
    ben.sees("crazyhouse", "#calls")
    ben.click('#calls [data-command="decline Ann"]')
    ann.sees("Ben declines your challenge", '#said [data-said="all"]')
    ben.until(lambda: ben.text("#calls").strip() == "", "no challenge")


def test_refusals_are_told_in_words(evening: Evening) -> None:
    ann = evening.window("Ann")
    ann.challenge("Nobody")
    ann.sees("Nobody of that name is here. Look at the list of players.", "#notice")


def test_a_line_and_what_comes_of_it(evening: Evening) -> None:
    ann, ben = evening.window("Ann"), evening.window("Ben")
    ann.command("who")
    ann.sees("Ben", "#output")
    ann.command("nonsense")
    ann.sees("refused 26 Unknown", "#output")
    ann.command("tell ben a  b")
    ben.sees("Ann: a  b", '#said [data-said="person ann"]')


def test_a_name_that_is_taken(evening: Evening) -> None:
    evening.window("Ann")
    other = evening.window("Ann", enters=False)
    other.write("login-name", "ann")
    other.click("#enter")
    other.until(lambda: other.is_seen("#notice"), "a notice")
    other.write("login-name", "Cat")
    other.click("#enter")
    other.until(lambda: other.text("#me") == "Cat", "is in")


def test_without_stamps(evening: Evening) -> None:
    ann, ben = evening.window("Ann", path="/?plain"), evening.window("Ben")
    evening.begin(ann, ben)
    evening.play(ann, ben, ("e2e4", "e7e5", "g1f3"))
