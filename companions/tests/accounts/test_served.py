"""Over the store of a server: while it runs, and between two runs."""

import sqlite3
from collections.abc import Iterator
from contextlib import ExitStack, closing, contextmanager

import pytest

from tests.kit import records
from tests.kit.link import Link
from tests.kit.running import Server, wait_until

from .conftest import Store, checked

BOARD = "rnbqkbnr pppp-ppp -------- ----p--- ----P--- -----N-- PPPP-PPP RNBQKB-R B"


class Serving:
    """A server over the store, and who is in."""

    def __init__(self, store: Store, ends: ExitStack) -> None:
        self.store, self.ends = store, ends
        self.server = Server(store.path)
        ends.callback(self.server.end)

    def until_kept(self, says: str) -> None:
        """Waits until `check` says so of the store."""
        assert wait_until(lambda: checked(self.store.path) == says), checked(self.store.path)

    def link(self, *lines: str) -> Link:
        link = Link(self.server.port)
        self.ends.enter_context(closing(link.link))
        link.say(*lines)
        return link

    def enter(self, name: str, *password: str) -> Link:
        link = self.link(name, *password)
        link.until(f"Entered as {name}")
        return link

    def registered(self, name: str) -> Link:
        link = self.enter(name)
        link.say(f"register the word of {name}")
        link.until("^Ok")
        return link

    def adjourn(self, one: Link, other: Link) -> None:
        one.say("adjourn")
        other.until("offers to adjourn")
        other.say("accept")
        for it in (one, other):
            it.until("adjourned}")

    def play(self) -> None:
        """Ann and Ben adjourn a game of three half-moves."""
        ann, ben = (self.registered(it) for it in ("Ann", "Ben"))
        ann.say("match ben 2 12 white")
        ben.until("^Challenge")
        ben.say("accept")
        for who, last, word in ((ann, "none", "e4"), (ben, "e4", "e5"), (ann, "e5", "Nf3")):
            who.until(rf"^<12>.* {last} [01]$")
            who.say(word)
        ann.until("^<12>.* Nf3 ")
        self.adjourn(ann, ben)


@pytest.fixture(autouse=True)
def nothing_kept(store: Store) -> None:
    """The server makes the store."""
    store.path.unlink()


@contextmanager
def serving(store: Store) -> Iterator[Serving]:
    with ExitStack() as ends:
        yield Serving(store, ends)


def test_what_is_there_while_it_runs(store: Store) -> None:
    """Also what is in the log alone."""
    with serving(store) as club:
        club.play()
        club.until_kept("ok: 2 accounts, 1 games")
        lines = ["Ann 1", "Ben 1", "2 accounts of at most 4096, 1 adjourned games of at most 10000"]
        assert store.tool("list").stdout.splitlines() == lines
        assert store.tool("games", "ann").stdout == "1 Ann Ben 2 12 chess, 3 half-moves\n"


def test_add_and_enter(store: Store) -> None:
    with serving(store) as club:
        club.registered("Ann")
        club.until_kept("ok: 1 accounts, 0 games")
    store.done("add", "Eve", given="the word of Eve\nthe word of Eve\n")
    with serving(store) as club:
        club.enter("Eve", "the word of Eve")


def test_locked_while_it_runs(store: Store) -> None:
    with serving(store) as club:
        club.registered("Ann")
        club.until_kept("ok: 1 accounts, 0 games")
        for words in (
            ["add", "eve"],
            ["password", "ann"],
            ["rename", "ann", "Xenia"],
            ["remove", "ann"],
            ["clear", "--oldest", "1"],
        ):
            it = store.tool(*words, given="a\na\n")
            assert (it.returncode, "database is locked" in it.stderr) == (1, True), it.stderr
        assert checked(store.path) == "ok: 1 accounts, 0 games"


def test_evening(store: Store) -> None:
    """Names and passwords that were changed are those by which one enters, and the game goes on."""
    with serving(store) as club:
        club.play()
        club.registered("Cat")
        club.until_kept("ok: 3 accounts, 1 games")
    store.done("password", "ann", given="sword fish\nsword fish\n")
    store.done("rename", "ben", "Benedict")
    store.done("remove", "cat")
    with serving(store) as club:
        club.link("Ann", "wrong").until("refused 23")
        ann, ben = club.enter("Ann", "sword fish"), club.enter("Benedict", "the word of Ben")
        club.enter("Ben")
        club.enter("Cat")
        ann.say("stored")
        assert ann.until("^1 .*")[0] == "1 Ann Benedict 2 12 chess"
        ben.say("resume ann")
        ben.until("^Asked")
        ann.say("resume benedict")
        assert ann.until("^<12> .*")[0][5 : 5 + len(BOARD)] == BOARD


def test_oldest_by_the_server(store: Store) -> None:
    """A game that the server put last is the last to be cleared, whatever its number."""
    with serving(store) as club:
        club.play()
        club.until_kept("ok: 2 accounts, 1 games")
    with closing(sqlite3.connect(store.path, isolation_level=None)) as base:
        rows = [*(records.account(it, "secret") for it in ("Cat", "Dan")), records.game(2, "Cat", "Dan", ["e2e4"])]
        base.executemany("INSERT INTO records VALUES (?, ?)", rows)
    with serving(store) as club:
        ann, ben = club.enter("Ann", "the word of Ann"), club.enter("Ben", "the word of Ben")
        ben.say("resume ann")
        ben.until("^Asked")
        ann.say("resume ben")
        ann.until("^<12>")
        club.until_kept("ok: 4 accounts, 1 games")
        club.adjourn(ann, ben)
        club.until_kept("ok: 4 accounts, 2 games")
    assert [it.split()[0] for it in store.tool("games").stdout.splitlines()] == ["2", "1"]
    store.done("clear", "--oldest", "1", "--yes")
    assert [it.split()[1] for it in store.tool("games").stdout.splitlines()] == ["Ann"]
