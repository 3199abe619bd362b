"""A server that begins anew throws nobody out: pages come back by themselves, ask for a password once where they don't
have it, and say of a game whether it was adjourned once that is known."""

import contextlib
from collections.abc import Iterable, Iterator
from pathlib import Path

import pytest

from tests.kit.go_between import GoBetween
from tests.kit.running import Server

from .browser import Evening, Window
from .wire import Wire

pytestmark = pytest.mark.browser

SECRETS = {"Ann": "swordfish", "Ben": "knight"}


@pytest.fixture
def server(tmp_path: Path) -> Iterator[Server]:
    it = Server(tmp_path / "club.db")
    yield it
    it.end()


@contextlib.contextmanager
def begun_anew(evening: Evening, wire: Wire) -> Iterator[None]:
    """The server ends, and begins anew over its store, with a go-between before it."""
    wire.is_cut = True  # nobody comes back before all is there
    evening.server.end()
    assert (evening.go_between.rest(), evening.go_between.out) == (0, ["ready", "closed"])
    with contextlib.ExitStack() as stack:
        server = Server(evening.server.store)
        stack.callback(server.end)
        go_between = GoBetween(server.port)
        stack.callback(go_between.end)
        wire.target = go_between.port
        wire.mend()
        yield


@pytest.fixture
def other_wire(go_between: GoBetween) -> Iterator[Wire]:
    """A wire of its own for another window."""
    it = Wire(go_between.port)
    yield it
    it.close()


def registered(evening: Evening, wire: Wire, names: Iterable[str] = SECRETS) -> list[Window]:
    """Windows of members with accounts, which are in the server's store."""
    windows = [evening.window(it, at=wire) for it in names]
    for it in windows:
        it.command(f"register {SECRETS[it.name]}")
        it.sees("Ok.", "#output")
    return windows


def told(window: Window) -> str:
    """What the member reads above all else."""
    return str(window.text("#notice")) if window.is_seen("#notice") else ""


def is_back(window: Window) -> None:
    window.until(lambda: window.text("#me") == window.name, "is in")


def adjourned(server: Server, ann: Window, ben: Window) -> None:
    """A game is begun and adjourned, which lies in the store then."""
    Evening.begin(ann, ben)
    Evening.play(ann, ben, ("e2e4", "e7e5"))
    ann.click("#adjourn")
    ben.click('#offers [data-command="adjourn"]')
    ben.until(lambda: "2 accounts, 1 games" in server.kept(), "that the game is in the store")


def test_accounts_come_back(evening: Evening, wire: Wire) -> None:
    ann, ben = registered(evening, wire)
    adjourned(evening.server, ann, ben)
    with begun_anew(evening, wire):
        for it in (ann, ben):
            is_back(it)
            it.view("lobby")
            it.sees("Ann – Ben", "#stored")


def test_a_game_that_ran_is_lost_where_the_server_was_killed(evening: Evening, wire: Wire) -> None:
    ann, ben = registered(evening, wire)
    evening.begin(ann, ben)
    evening.play(ann, ben, ("e2e4",))
    with begun_anew(evening, wire):
        ann.sees("begins anew", "#way-back")
        for it, other in ((ann, "Ben"), (ben, "Ann")):
            is_back(it)
            it.sees(f"The game against {other} wasn't kept", "#notice")
        assert "adjourned" not in str(ann.text("#notice"))


def test_a_game_that_was_adjourned_is_told_and_goes_on(evening: Evening, wire: Wire, other_wire: Wire) -> None:
    """As a unit stops its server: all links are cut before. Who comes back first is told; once the game goes on,
    nobody is told any more that it is adjourned."""
    (ann,), (ben,) = registered(evening, wire, ["Ann"]), registered(evening, other_wire, ["Ben"])
    wires = (wire, other_wire)
    evening.begin(ann, ben)
    evening.play(ann, ben, ("e2e4",))
    for it in wires:
        it.is_cut = True
    evening.go_between.end()  # so that its links of the server are cut, and the game is adjourned
    cat = evening.plain("Cat")
    ann.until(lambda: cat.ask("who") == ["Cat"], "that both have left the server")
    kept = evening.server
    ann.until(lambda: "2 accounts, 1 games" in kept.kept(), "that the game is in the store")
    kept.end()
    with contextlib.ExitStack() as stack:
        server = Server(kept.store)
        stack.callback(server.end)
        go_between = GoBetween(server.port)
        stack.callback(go_between.end)
        for it in wires:
            it.target = go_between.port
        wire.mend()
        is_back(ann)
        ann.until(lambda: "The game against Ben is adjourned" in told(ann), "what became of the game")
        other_wire.mend()
        is_back(ben)
        ann.until(lambda: ann.is_seen("#board") and ben.is_seen("#board"), "the game goes on")
        assert "adjourned" not in told(ann) + told(ben)
        ben.move("e7", "e5")
        ann.sees_man("bP", "e5")


def test_a_password_is_asked_for_once(evening: Evening, wire: Wire) -> None:
    """Behind a reload nobody but the member has it."""
    ann, ben = registered(evening, wire)
    adjourned(evening.server, ann, ben)
    ann.front()
    ann.driver.refresh()
    is_back(ann)
    with begun_anew(evening, wire):
        ann.until(lambda: ann.is_seen("#login"), "the login")
        assert ann.script("return document.getElementById('login-name').value") == "Ann"
        assert ann.script("return document.activeElement.id") == "login-password"
        ann.sees("password", "#way-back")
        ann.write("login-password", SECRETS["Ann"])
        ann.click("#enter")
        is_back(ann)
        ann.until(lambda: not ann.is_seen("#way-back"), "that nothing is asked any more")


def test_who_quits_stays_out(evening: Evening, wire: Wire) -> None:
    (ann, _) = registered(evening, wire)
    ann.click("#leave")
    ann.until(lambda: ann.is_seen("#login"), "the login")
    assert not ann.is_seen("#way-back")
