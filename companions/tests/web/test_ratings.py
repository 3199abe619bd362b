"""Ratings in a browser: beside names, on a player's page with a curve, as a ladder, and at a game."""

from pathlib import Path

import pytest

from tests.archive.archives import put
from tests.kit.go_between import FROM_ONE
from tests.ratings import paper
from tests.ratings.evenings import rated

from .archived_games import complaints, opened
from .browser import Evening, Window

pytestmark = pytest.mark.browser


@pytest.fixture
def archive(tmp_path: Path) -> Path:
    """An archive in which Ann and Ben are known well at blitz, and have played one game of bullet."""
    folder = tmp_path / "archive"
    for n in range(60):
        day = f"2026-11-{1 + n // 6:02}"
        put(folder, rated(1 + n % 6, "Ann", "Ben", ("1-0", "0-1", "1-0")[n % 3], day=day), day)
    put(folder, rated(7, "Ann", "Ben", day="2026-11-10", TimeControl="60"), "2026-11-10")
    put(folder, rated(8, "Ann", "House", day="2026-11-10"), "2026-11-10")
    return folder


@pytest.fixture
def words(archive: Path) -> tuple[object, ...]:
    return *FROM_ONE, "--archive", archive, "--ratings"


def points(archive: Path, pool: str, name: str) -> str:
    return str(round(paper.rate(archive)[pool, name][0]))


def cells(window: Window, rows: str) -> list[list[str]]:
    """The texts of the cells of each row of a table."""
    return window.script(
        """return [...document.querySelectorAll(arguments[0])]
        .map((row) => [...row.cells].map((it) => it.textContent))""",
        rows,
    )


def test_beside_names(evening: Evening, archive: Path) -> None:
    ann, ben = evening.window("Ann"), evening.window("Ben")
    ann.sees(f"Ann {points(archive, 'blitz', 'Ann')}", "#players")  # the pool with most of its games
    ann.sees(f"Ben {points(archive, 'blitz', 'Ben')}", "#players")
    ben.command("seek 1 0 white")
    ann.sees(f"Ben {points(archive, 'bullet', 'Ben')}?", "#seeks")
    ann.click("#seeks button")
    for window in (ann, ben):
        window.sees(f"Ann {points(archive, 'bullet', 'Ann')}?", "#main-table")
        window.sees(f"Ben {points(archive, 'bullet', 'Ben')}?", "#main-table")


def test_a_players_page_and_a_ladder(evening: Evening, archive: Path) -> None:
    window = opened(evening, "/games/")
    window.until(lambda: window.texts("#ladders-list a")[:1] == ["Bullet 2"], "the ladders")
    window.click("#ladders-list li:nth-child(2) a")
    window.until(lambda: window.is_seen("#ladder"), "the ladder")
    assert [it[:3] for it in cells(window, "#ladder-rows tr")] == [
        ["1", "Ann", points(archive, "blitz", "Ann")],
        ["2", "Ben", points(archive, "blitz", "Ben")],
    ]
    window.click("#ladder-rows a")
    window.until(lambda: window.is_seen("#ratings"), "the player's ratings")
    assert [it[:2] for it in cells(window, "#ratings-rows tr")] == [
        ["Bullet", points(archive, "bullet", "Ann") + "?"],
        ["Blitz", points(archive, "blitz", "Ann")],
    ]
    assert len(window.all("#curves .curve circle")) == 10  # a day each; of bullet there is one alone, and no curve
    assert not complaints(evening, window)


def test_whether_a_game_is_rated(evening: Evening) -> None:
    opened(evening, "/games/2026-11-10/7").sees("Rated: Bullet", "#rated")
    opened(evening, "/games/2026-11-10/8").sees("Not rated: House is a program.", "#rated")
