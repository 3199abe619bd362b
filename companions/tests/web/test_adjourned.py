"""A game is adjourned, the server is ended and started on its store, and the game goes on."""

import contextlib
from collections.abc import Iterator
from pathlib import Path

import pytest

from tests.kit.go_between import GoBetween
from tests.kit.running import Server

from .browser import Evening, Window

pytestmark = pytest.mark.browser

PASSWORDS = {"Ann": "swordfish", "Ben": "knight"}


@pytest.fixture
def store(tmp_path: Path) -> Path:
    return tmp_path / "club.db"


@pytest.fixture
def server(store: Path) -> Iterator[Server]:
    it = Server(store)
    yield it
    it.end()


def registered(evening: Evening, name: str) -> Window:
    """A window in which somebody is who has an account."""
    it = evening.window(name)
    it.open("settings", "#settings-open")
    it.write("register-password", PASSWORDS[name])
    it.click("#register")
    it.until(lambda: it.script("return document.getElementById('register-password').value") == "", "sent")
    it.shut("settings")
    return it


def test_the_list_has_it_once_the_opponent_was_told(evening: Evening) -> None:
    ben, ann = registered(evening, "Ben"), evening.plain("Ann")
    for line in (f"register {PASSWORDS['Ann']}", "match Ben 5 0 white"):
        ann.ask(line)
    ben.click('#calls [data-command="accept Ann"]')
    ben.until(lambda: ben.is_seen("#board"), "the board")
    ann.ask("adjourn")
    ben.click('#offers [data-command="adjourn"]')
    ben.sees("Adjourned", "#status")
    ben.sees("Ann – Ben", "#stored")


def test_another_day(evening: Evening, store: Path) -> None:
    windows = ann, ben = [registered(evening, it) for it in PASSWORDS]
    evening.begin(ann, ben)
    evening.play(ann, ben, ("e2e4", "e7e5"))
    ann.click("#adjourn")
    ben.click('#offers [data-command="adjourn"]')
    for it in windows:
        it.sees("Adjourned", "#status")
        it.sees("Ann – Ben", "#stored")
        it.view("lobby")
        assert it.is_seen('#stored [data-command^="resume "]')
    evening.server.end()
    for it in windows:
        it.sees("begins anew", "#way-back")
    assert (evening.go_between.rest(), evening.go_between.out) == (0, ["ready", "closed"])
    evening.end()
    goes_on(evening, store)


def goes_on(before: Evening, store: Path) -> None:
    with contextlib.ExitStack() as stack:
        server = Server(store)
        stack.callback(server.end)
        go_between = GoBetween(server.port)
        stack.callback(go_between.end)
        evening = Evening(before.browser, server, go_between)
        stack.callback(evening.end)
        resume(evening)


def resume(evening: Evening) -> None:
    ann, ben = (evening.window(name, password) for name, password in PASSWORDS.items())
    ann.click('#stored [data-command="resume Ben"]')
    ben.click('#calls [data-command="resume Ann"]')
    for it in (ann, ben):
        it.sees_man("wP", "e4")
        it.sees_man("bP", "e5")
    ann.move("g1", "f3")
    ben.sees_man("wN", "f3")
