"""Lists of the archive in a browser: games of days and players, searches, and pages of them."""

from pathlib import Path

import pytest

from tests.archive.archives import game, put
from tests.kit.go_between import FROM_ONE
from tests.kit.running import wait_until

from .archived_games import DAY, fill, is_served, opened, where
from .browser import Evening

pytestmark = pytest.mark.browser

LONG_DAY = "2025-01-01"


@pytest.fixture
def words(tmp_path: Path) -> tuple[object, ...]:
    return *FROM_ONE, "--archive", fill(tmp_path / "archive")


def test_search_by_name_variant_and_result(evening: Evening) -> None:
    window = opened(evening, "/games/")
    assert len(window.all("#games-list a")) == 8
    assert window.texts("#days-list .count") == ["7", "1"]
    window.write("search-name", "an")
    window.choose("search-variant", "bughouse")
    window.click("#search button")
    window.until(lambda: "name=an&variant=bughouse" in where(window), "the search's address")
    window.until(lambda: len(window.all("#games-list a")) == 2, "what was found")
    assert [it.split()[0] for it in window.texts("#players-list a")] == ["Ann", "Dan"]
    assert window.script("return document.getElementById('search-name').value") == "an"
    window.write("search-other", "nobody")
    window.click("#search button")
    window.sees("No games", "#games-list")


def test_a_player(evening: Evening) -> None:
    window = opened(evening, "/games/player/ann")
    window.sees("Ann: 5 games", "#games-title")
    rows = [
        it.split()
        for it in window.script("return [...document.querySelectorAll('#tally-rows tr')].map((it) => it.innerText)")
    ]
    assert rows == [
        ["chess", "2", "1", "1", "0", "0"],
        ["crazyhouse", "1", "0", "0", "1", "0"],
        ["bughouse", "1", "1", "0", "0", "0"],
        ["Fischer", "random", "1", "0", "1", "0", "0"],
        ["all", "5", "2", "2", "1", "0"],
    ]
    window.click("#tally-rows a")
    window.until(lambda: where(window) == "/games/player/Ann?variant=chess", "the games of chess")
    window.until(lambda: len(window.all("#games-list a")) == 2, "two of them")


def test_more_than_a_page(evening: Evening, tmp_path: Path) -> None:
    put(tmp_path / "archive", "".join(game(n, day=LONG_DAY) for n in range(1, 121)), LONG_DAY)
    assert wait_until(lambda: is_served(evening, f"/games/{LONG_DAY}"))
    window = opened(evening, f"/games/{LONG_DAY}")
    for count, newest in ((50, 120), (50, 70), (20, 20)):
        window.until(lambda: len(window.all("#games-list a")) == count, f"{count} games")
        first = window.script("return document.querySelector('#games-list a').getAttribute('href')")
        assert first == f"/games/{LONG_DAY}/{newest}"
        if newest > 20:
            window.click("#older")
            window.until(lambda: f"%2F{newest - 49}" in where(window), "the older ones")
    assert not window.is_seen("#older")


def test_nothing_there(evening: Evening) -> None:
    window = opened(evening, f"/games/{DAY}/99")
    assert window.is_seen("#nothing")
    window.click("#nothing a")
    window.until(lambda: len(window.all("#games-list a")) == 8, "the newest games")


def test_a_day_by_its_date(evening: Evening) -> None:
    window = opened(evening, "/games/")
    window.script("document.getElementById('day').value = '2026-11-28'")
    window.click("#day-form button")
    window.until(lambda: where(window) == "/games/2026-11-28", "the day")


def test_in_german_and_dark_from_page_to_page(evening: Evening) -> None:
    window = opened(evening, "/games/")
    window.open("settings", "#settings-open")
    window.choose("look-language", "de")
    window.choose("look-theme", "dark")
    window.sees("Gespielte Partien", "#games-title")
    window.shut("settings")
    window.click("#games-list a")
    window.sees("Partie", "#later, #earlier")
    assert window.script("return document.documentElement.dataset.theme") == "dark"
