"""An archive with a game of each kind, written by hand, and what is done with its pages."""

import contextlib
import http.client
from pathlib import Path

from tests.archive.archives import game, put

from .browser import Evening, Window

DAY = "2026-11-30"
HOSTILE = "<img src=x onerror=document.title='x'>"
MATE = (
    "1. f3 {[%clk 0:05:00] [%emt 0:00:00]} e5 {[%clk 0:05:00] [%emt 0:00:00]} "
    "2. g4 {[%clk 0:04:50] [%emt 0:00:13]} Qh4# {[%clk 0:05:01] [%emt 0:00:02]} {Ann checkmated}"
)
HOUSE = (
    "1. e4 {[%emt 0:00:00]} d5 {[%emt 0:00:00]} 2. exd5 {[%emt 0:00:04]} Qxd5 {[%emt 0:00:05]} "
    "3. P@e4 {[%emt 0:00:01]} {drawn by agreement}"
)
FISCHER = {"Variant": "Chess960", "SetUp": "1", "FEN": "nbbnrkrq/pppppppp/8/8/8/8/PPPPPPPP/NBBNRKRQ w GEge - 0 1"}
LATE = {"SetUp": "1", "FEN": "rnbqkbnr/pppp1ppp/8/4p3/4P3/5N2/PPPP1PPP/RNBQKB1R b KQkq - 1 2"}
PAIR = ("1. e4 d5 2. exd5 {partner's game ended}", "1. d4 d6 2. Nf3 P@e4 {Cat resigns}")
ORDER = f"""[Event "Casual bughouse game"]
[LinkA "{DAY}/5"]
[LinkB "{DAY}/6"]

1A. e4 1B. d4 1a. d5 2A. exd5 1b. d6 2B. Nf3 2b. P@e4 {{Cat resigns}} 1-0

"""


def fill(folder: Path) -> Path:
    """Makes an archive with each kind of game."""
    put(folder, game(1, day="2026-11-28"), "2026-11-28")
    hostile = game(4, HOSTILE, "Ben", Termination=HOSTILE, movetext=f"1. e4 e5 {{{HOSTILE}}}")
    put(folder, game(1, "Ann", "Ben", "0-1", movetext=MATE) + hostile)
    put(folder, game(2, "Ann", "Cat", "1/2-1/2", movetext=HOUSE, Variant="Crazyhouse"), ending="-crazyhouse.pgn")
    put(folder, game(3, "Dan", "Ann", movetext="1. e4 e5 {Ann resigns}", **FISCHER), ending="-fischer.pgn")
    put(
        folder,
        game(5, "Ann", "Ben", "1-0", Variant="Bughouse", Partner=f"{DAY}/6", movetext=PAIR[0])
        + game(6, "Cat", "Dan", "0-1", Variant="Bughouse", Partner=f"{DAY}/5", movetext=PAIR[1]),
        ending="-bughouse.pgn",
    )
    put(folder, ORDER, ending="-bughouse.bpgn")
    put(
        folder,
        game(7, "Eve", "Dan", "*", movetext="2... Nc6 {[%clk 0:04:00] [%emt 0:00:05]}", **LATE),
        ending="-begun.pgn",
    )
    return folder


def opened(evening: Evening, path: str) -> Window:
    """A window with a page of the archive."""
    window = evening.window("Zoe", enters=False, path=path)
    views = "#games-view", "#game-view", "#nothing"
    window.until(lambda: any(window.is_seen(it) for it in views), "the page")
    return window


def is_served(evening: Evening, path: str) -> bool:
    """Whether there is anything at a path: what is new in the archive is found within a second."""
    with contextlib.closing(http.client.HTTPConnection("127.0.0.1", evening.go_between.port)) as link:
        link.request("GET", path)
        return link.getresponse().status == 200


def complaints(evening: Evening, window: Window) -> list[str]:
    """What the pages of this evening have complained of; the log has those of earlier ones too."""
    return [it for it in window.complaints() if f":{evening.go_between.port}/" in it]


def where(window: Window) -> str:
    """The address of the page without its host."""
    address: str = window.script("return location.pathname + location.search + location.hash")
    return address
