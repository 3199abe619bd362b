"""A game of the archive in a browser: back and forth in it, hands, pairs, and the games beside it."""

from pathlib import Path

import pytest
from selenium.webdriver.common.actions.action_builder import ActionBuilder
from selenium.webdriver.common.actions.pointer_input import PointerInput
from selenium.webdriver.common.keys import Keys

from tests.archive.archives import game
from tests.kit.go_between import FROM_ONE

from .archived_games import DAY, HOSTILE, HOUSE, complaints, fill, opened, where
from .browser import Evening, Window

pytestmark = pytest.mark.browser


@pytest.fixture
def words(tmp_path: Path) -> tuple[object, ...]:
    return *FROM_ONE, "--archive", fill(tmp_path / "archive")


def swipe(window: Window, across: int) -> None:
    """A finger is drawn over the board, so many pixels to the right."""
    square = window.square("e5")
    acts = ActionBuilder(window.driver, mouse=PointerInput("touch", "finger"))
    acts.pointer_action.move_to(square).pointer_down().move_to(square, across // 2, 2).move_to(square, across, 4)
    acts.pointer_action.pointer_up()
    acts.perform()


def test_back_and_forth_by_keyboard_buttons_and_finger(evening: Evening) -> None:
    window = opened(evening, f"/games/{DAY}/1")
    window.sees_man("bQ", "h4")
    assert window.texts("#moves [data-ply]") == ["f3", "e5", "g4", "Qh4#"]
    assert window.texts("#main-table .clock") == ["5:01", "4:50"]
    assert "Ann checkmated: Black wins, 0-1" in window.text("#status")
    window.press(Keys.ARROW_LEFT)
    window.sees_man("bQ", "d8")
    window.sees("2, White: g4", "#spoken")
    assert window.texts("#main-table .clock") == ["5:00", "4:50"]
    window.press(Keys.ARROW_UP)
    window.sees_man("wP", "f2")
    window.press(Keys.ARROW_RIGHT)
    window.sees_man("wP", "f3")
    assert where(window) == f"/games/{DAY}/1#1"
    window.press(Keys.ARROW_DOWN)
    window.sees_man("bQ", "h4")
    for css, man, square in (
        ("#first", "wP", "f2"),
        ("#next", "wP", "f3"),
        ("#last", "bQ", "h4"),
        ("#previous", "bQ", "d8"),
        ('#moves [data-ply="2"]', "bP", "e5"),
    ):
        window.click(css)
        window.sees_man(man, square)
    window.browser.has_fingers()
    swipe(window, -80)
    window.sees_man("wP", "g4")
    swipe(window, 80)
    window.sees_man("wP", "g2")
    swipe(window, 10)
    swipe(window, -60)
    window.sees_man("wP", "g4")
    assert where(window) == f"/games/{DAY}/1#3"
    assert complaints(evening, window) == []


def test_a_link_to_a_position(evening: Evening) -> None:
    window = opened(evening, f"/games/{DAY}/1#1")
    window.sees_man("wP", "f3")
    window.sees_man("bP", "e7")
    window.script("location.hash = '#3'")
    window.sees_man("wP", "g4")


def test_the_pgn_and_the_games_beside_it(evening: Evening) -> None:
    window = opened(evening, f"/games/{DAY}/2")
    address = window.script("return document.getElementById('pgn-save').href")
    text = window.script("return fetch(arguments[0]).then((it) => it.text())", address)
    assert text == game(2, "Ann", "Cat", "1/2-1/2", movetext=HOUSE, Variant="Crazyhouse")
    window.click("#later")
    window.until(lambda: where(window) == f"/games/{DAY}/3", "the later game")
    window.sees("Dan", "#who")
    window.click("#of-day")
    window.until(lambda: len(window.all("#games-list a")) == 7, "the day's games")
    window.click("#beside-day a")
    window.until(lambda: where(window) == "/games/2026-11-28", "the day before")
    window.until(lambda: len(window.all("#games-list a")) == 1, "its game")


def test_crazyhouse_fischer_random_and_a_game_that_was_come_to_late(evening: Evening) -> None:
    window = opened(evening, f"/games/{DAY}/2#4")
    window.sees_man("bQ", "d5")
    assert [window.hand(it) for it in ("white", "black")] == ["P", "P"]
    window.press(Keys.ARROW_RIGHT)
    window.sees_man("wP", "e4")
    assert [window.hand(it) for it in ("white", "black")] == ["", "P"]
    window = opened(evening, f"/games/{DAY}/3#0")
    window.sees_man("wK", "f1")
    assert "fischer 84" in window.text("#facts")
    window = opened(evening, f"/games/{DAY}/7")
    window.sees_man("bN", "c6")
    assert window.texts("#moves button") == ["Nc6"]
    assert window.text("#status") == "No result, *"


def test_a_pair_side_by_side(evening: Evening) -> None:
    window = opened(evening, f"/games/{DAY}/5")
    window.sees_man("wP", "d5")
    window.sees_man("bP", "e4", "partner")
    corner = "return document.querySelector('[data-board=partner] button').dataset.square"
    assert window.script(corner) == "h1"
    assert window.hand("black", "partner-table") == ""
    boards = [it.rect for it in window.all(".board")]
    assert len({it["y"] for it in boards}) == 1
    assert abs(boards[0]["width"] - boards[1]["width"]) <= 2
    window.press(Keys.ARROW_LEFT)
    window.sees_man("bP", "d5")
    window.sees_man("wP", "d4", "partner")
    window.sees_man("bP", "d7", "partner")
    window.click("#pair")
    window.until(lambda: where(window) == f"/games/{DAY}/6", "the other game")
    window.click('#moves [data-ply="2"]')
    window.sees_man("bP", "d6")
    assert window.hand("black") == "P"
    window.sees_man("wP", "d5", "partner")


def test_names_and_texts_never_run(evening: Evening) -> None:
    for path in ("/games/", f"/games/{DAY}", f"/games/{DAY}/4", "/games/?name=%3Cimg"):
        window = opened(evening, path)
        assert HOSTILE in window.script("return document.body.textContent")
        assert window.all("img") == []
        assert window.driver.title != "x"
        assert complaints(evening, window) == []
    window.click("#games-list a")
    window.sees(HOSTILE, "#who")
    window.click("#who a")
    window.sees(HOSTILE, "#games-title")
