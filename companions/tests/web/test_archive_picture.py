"""A pair in the midst of its half-moves: the picture of docs/ARCHIVE.md, and both boards in a low window."""

from pathlib import Path

import pytest

from tests.archive.archives import game, put
from tests.kit.go_between import FROM_ONE

from .archived_games import DAY, ORDER, opened
from .browser import Evening
from .pictures import LOW, document, take_sheet

pytestmark = pytest.mark.browser

BOARDS = ("e4 e5 Nf3 Nc6 Bc4 Nf6 Ng5 d5 exd5 Nxd5 Nxf7 Kxf7 Qf3+ Ke6", "d4 d5 c4 dxc4 e3 b5 a4 c6 axb5 cxb5 Qf3")
# where these stand in the window: left, top, right and bottom
SIDES = """return arguments[0].map((it) => document.querySelector(it).getBoundingClientRect())
    .map(({ left, top, right, bottom }) => [left, top, right, bottom]);"""
PLAYERS = (("Ann", "Ben", "1-0"), ("Cat", "Dan", "0-1"))
REASONS = ("partner's game ended", "Cat resigns")


def fill(folder: Path) -> Path:
    """Makes an archive with that pair."""
    tokens = []
    for n in range(14):
        for letter, words in zip("AB", map(str.split, BOARDS)):
            if n < len(words):
                tokens.append(f"{n // 2 + 1}{letter if n % 2 == 0 else letter.lower()}. {words[n]}")
    order = ORDER.replace(ORDER.partition("\n\n")[2], " ".join(tokens) + " {Cat resigns} 1-0\n\n")
    for number, players, board, reason in zip((5, 6), PLAYERS, BOARDS, REASONS):
        moves = " ".join(
            f"{word} {{[%clk 0:0{4 - n // 9}:{59 - 3 * n:02}] [%emt 0:00:04]}}" for n, word in enumerate(board.split())
        )
        tags = {"Variant": "Bughouse", "Partner": f"{DAY}/{11 - number}", "movetext": f"{moves} {{{reason}}}"}
        put(folder, game(number, *players, **tags), ending="-bughouse.pgn")
    put(folder, order, ending="-bughouse.bpgn")
    return folder


@pytest.fixture
def words(tmp_path: Path) -> tuple[object, ...]:
    return *FROM_ONE, "--archive", fill(tmp_path / "archive")


def test_both_boards_in_a_low_window(evening: Evening) -> None:
    """As on a phone that lies: all of both boards, and what is done beside them."""
    window = opened(evening, f"/games/{DAY}/5#13")
    window.sees_man("wP", "d4", "partner")
    window.resize(LOW)
    sides = window.script(SIDES, ['[data-board="main"]', '[data-board="partner"]', "#next"])
    assert all(left >= 0 and top >= 0 and right <= LOW[0] and bottom <= LOW[1] for left, top, right, bottom in sides)
    assert [right - left > LOW[1] / 2 for left, _, right, _ in sides[:2]] == [True, True]
    assert window.script("return document.documentElement.scrollWidth") <= LOW[0]


def test_a_pair(evening: Evening, pictures: Path) -> None:
    window = opened(evening, f"/games/{DAY}/5#13")
    window.sees_man("wQ", "f3")
    window.sees_man("wP", "d4", "partner")
    assert [window.hand(it) for it in ("white", "black")] == ["PP", "P"]
    take_sheet(pictures, window, "archive")
    document(pictures, window, "archive")
