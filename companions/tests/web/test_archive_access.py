"""The archive's pages without a mouse and without sight, as the other views are looked at."""

from pathlib import Path

import pytest

from tests.kit.go_between import FROM_ONE

from .archived_games import DAY, fill, opened
from .browser import NARROW, WIDE, Evening
from .reached import check_all, check_fits

pytestmark = pytest.mark.browser


@pytest.fixture
def words(tmp_path: Path) -> tuple[object, ...]:
    return *FROM_ONE, "--archive", fill(tmp_path / "archive")


def test_lists(evening: Evening) -> None:
    for path in ("/games/?name=an", "/games/player/Ann"):
        check_all(opened(evening, path))


def test_a_game(evening: Evening) -> None:
    check_all(opened(evening, f"/games/{DAY}/2#4"))


def test_a_pair(evening: Evening) -> None:
    check_all(opened(evening, f"/games/{DAY}/5"))


def test_no_more_than_390_pixels(evening: Evening) -> None:
    for path in ("/games/", f"/games/{DAY}", f"/games/{DAY}/5", f"/games/{DAY}/99", "/games/player/Dan"):
        window = opened(evening, path)
        window.resize(NARROW)
        for language in ("en", "de"):
            window.open("settings", "#settings-open")
            window.choose("look-language", language)
            window.shut("settings")
            check_fits(window, path)
        window.resize(WIDE)
