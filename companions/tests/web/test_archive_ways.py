"""A member comes to the archive from the lobby, and from a game that has just ended."""

import re
from collections.abc import Iterator
from pathlib import Path

import pytest

from tests.kit import paths
from tests.kit.go_between import FROM_ONE
from tests.kit.running import Run

from .archived_games import is_served, opened, where
from .browser import Evening

pytestmark = pytest.mark.browser


@pytest.fixture
def archive(tmp_path: Path) -> Path:
    return tmp_path / "archive"


@pytest.fixture
def words(archive: Path) -> tuple[object, ...]:
    return *FROM_ONE, "--archive", archive


@pytest.fixture
def scribe(evening: Evening, archive: Path) -> Iterator[Run]:
    server = f"127.0.0.1:{evening.server.port}"
    it = Run(paths.companion("fics_scribe"), "--server", server, "--archive", archive, "--name", "Scribe")
    yield it
    it.end()


def test_who_comes_late_sees_all_half_moves(evening: Evening, archive: Path, scribe: Run) -> None:
    ann, ben = evening.window("Ann"), evening.window("Ben")
    ann.sees("Scribe", "#players .who")
    evening.begin(ann, ben, "crazyhouse")
    ann.until(lambda: list(archive.glob("running/*.lines")), "the scribe looks on")
    evening.play(ann, ben, ("e2e4", "d7d5", "e4d5", "d8d5"))
    ann.until(lambda: "Qxd5" in "".join(it.read_text() for it in archive.glob("running/*.lines")), "the last half-move")
    cat = evening.window("Cat")
    cat.command("observe 1")
    cat.until(lambda: cat.texts("#moves [data-ply]") == ["e4", "d5", "exd5", "Qxd5"], "all half-moves")
    assert "Seen from" not in cat.text("#moves")
    cat.click("#first")
    cat.sees_man("wP", "e2")
    cat.click("#last")
    evening.play(ann, ben, ("b1c3",))
    cat.until(lambda: cat.texts("#moves [data-ply]")[-1] == "Nc3", "the next one")
    cat.until(lambda: (cat.hand("white"), cat.hand("black")) == ("P", "P"), "both hands")


def test_a_game_that_was_just_played(evening: Evening, archive: Path, scribe: Run) -> None:
    ann, ben = evening.window("Ann"), evening.window("Ben")
    ann.sees("Scribe", "#players .who")
    assert ann.script("return document.querySelector('#to-archive a').pathname") == "/games/"
    assert ann.is_seen("#to-archive")
    evening.begin(ann, ben)
    ann.until(lambda: list(archive.glob("running/*.lines")), "the scribe looks on")
    evening.play(ann, ben, ("f2f3", "e7e5", "g2g4", "d8h4"))
    (file,) = ann.until(lambda: list(archive.glob("20*/*.pgn")), "the game is written")
    ann.until(lambda: is_served(evening, f"/games/{file.stem}/1.pgn"), "the game is served")
    address = ann.script("return document.getElementById('archived').href")
    assert ann.is_seen("#archived")
    window = opened(evening, address.partition(str(evening.go_between.port))[2])
    window.sees_man("bQ", "h4")
    assert re.search(r"^/games/\d{4}-\d\d-\d\d/1$", where(window))
