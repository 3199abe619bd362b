"""Half-moves that are kept for another day."""

import json
import logging
from collections.abc import Callable
from pathlib import Path

import pytest

from ficsd_companions.bot.memory import Memory
from tests.bot.boards import board, game
from tests.bot.test_positions import opened

Begun = Callable[[], Memory]


@pytest.fixture
def path(tmp_path: Path) -> Path:
    return tmp_path / "games"


@pytest.fixture
def begun(path: Path) -> Begun:
    """Loads what the file has."""

    def begin() -> Memory:
        memory = Memory(path)
        memory.load()
        return memory

    return begin


def test_a_game_goes_on_where_it_was_left(begun: Begun) -> None:
    played = game(boards=opened())
    memory = begun()
    memory.note(memory.recall(played), played, [])
    later = game(boards=opened()[2:])
    assert begun().recall(later).words == ["e2e4", "e7e5"]
    assert begun().recall(game(boards=opened()[1:2])).words == [], "that is another board"
    assert begun().recall(game("crazyhouse", opened()[2:])).words == [], "that is another variant"


def test_the_last_half_move_is_read_off_the_board_where_it_wasnt_kept(begun: Begun) -> None:
    memory = begun()
    played = game(boards=opened()[:2])
    memory.note(memory.recall(played), played, [])
    assert begun().recall(game(boards=opened()[2:])).words == ["e2e4", "e7e5"]
    elsewhere = "r-b-kb-r pppp-ppp --n--n-- ----p--- --B-P--- --N-BN-- PPP--PPP R--Q-RK-"
    other = game(boards=[board(ranks=elsewhere, number=2, long="P/e7-e5", short="e5")])
    assert begun().recall(other).words == [], "that is another game"


def test_a_game_that_is_over_is_forgotten(begun: Begun, path: Path) -> None:
    played = game(boards=opened())
    memory = begun()
    kept = memory.recall(played)
    memory.note(kept, played, [])
    memory.forget(kept)
    assert json.loads(path.read_text()) == []


def test_a_game_whose_beginning_isnt_known_isnt_kept_wrong(begun: Begun) -> None:
    later = game(boards=opened()[2:])
    memory = begun()
    memory.note(memory.recall(later), later, [])
    assert begun().recall(later).words == []


def test_a_file_that_is_none_is_put_aside(begun: Begun, path: Path, caplog: pytest.LogCaptureFixture) -> None:
    for text in ("no json", "[1]", '{"a": 2}', '[{"white": "Ann"}]'):
        path.write_text(text)
        caplog.clear()
        with caplog.at_level(logging.INFO, "fics_bot"):
            assert begun().games == []
        assert caplog.records
        assert path.with_name("games.bad").read_text() == text
