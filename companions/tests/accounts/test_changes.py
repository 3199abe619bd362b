"""What is shown and changed, and what is refused."""

import hashlib
import os
import pty
from contextlib import suppress

import pytest

from tests.kit import paths, records

from .conftest import Store, checked, fischer, pair, rows_of


class TestLists:
    def test_list(self, store: Store) -> None:
        lines = ["Ann 3", "Ben 3", "Cat 3", "Dan 3", "4 accounts of at most 4096, 5 adjourned games of at most 10000"]
        assert store.tool("list").stdout.splitlines() == lines

    def test_games(self, store: Store) -> None:
        lines = [
            "5 Ann Ben 2 12 chess, 1 half-moves",
            "1 Ben Cat 2 12 chess, 2 half-moves",
            "2 Cat Dan Ann Ben 3 0 bughouse, 4 half-moves",
            "3 Dan Ann 0 0 fischer 518, 0 half-moves",
            "4 Cat Dan 2 12 chess, 44 half-moves",
        ]
        assert store.tool("games").stdout.splitlines() == lines
        assert store.tool("games", "ANN").stdout.splitlines() == [lines[0], lines[2], lines[3]]
        assert store.tool("games", "Eve").stdout == ""

    def test_nothing_is_made(self, store: Store) -> None:
        store.tool("list")
        assert os.listdir(store.path.parent) == ["club.db"]


class TestAdditions:
    def test_add(self, store: Store) -> None:
        store.done("add", "Eve", given="new one\nnew one\n")
        assert rows_of(store.path) == [*store.rows, records.account("Eve", "new one")]
        assert checked(store.path) == "ok: 5 accounts, 5 games"

    def test_add_refused(self, store: Store) -> None:
        for name in ("Al", "A" * 18, "Eve1", "Guest", "", "Éve"):
            store.refused("add", name, given="a\na\n", said="can't be a name")
        store.refused("add", "aNN", given="a\na\n", said="somebody's account already")
        store.refused("add", "Eve", given="a\nb\n", said="differ")
        store.done("remove", "dan", "--games", "keep")
        store.refused("add", "Dan", given="a\na\n", said="3 adjourned games are of somebody who was Dan")

    def test_no_more_than_there_may_be(self, store: Store) -> None:
        store.fill(records.account(records.handle_of(n), "secret") for n in range(4096))
        store.refused("add", "Eve", given="a\na\n", said="there are 4096 accounts")


class TestPasswords:
    def test_password(self, store: Store) -> None:
        store.done("password", "aNN", given="new one\nnew one\n")
        wanted = [(b"aann", b"\x01A\x03Ann" + hashlib.sha256(b"new one").digest()), *store.rows[1:]]
        assert rows_of(store.path) == wanted

    def test_password_refused(self, store: Store) -> None:
        for given, said in (
            ("a\nb\n", "differ"),
            ("\n\n", "1 to 800"),
            (" a\n a\n", "blank"),
            ("a\n", "no answer"),
            ("é\né\n", "ASCII"),
            ("x" * 801 + "\n" + "x" * 801 + "\n", "1 to 800"),
        ):
            store.refused("password", "ann", given=given, said=said)
        store.refused("password", "Eve", given="a\na\n", said="nobody has an account as Eve")

    def test_longest_password(self, store: Store) -> None:
        store.done("password", "ann", given=("x" * 800 + "\n") * 2)

    def test_password_is_not_shown(self, store: Store) -> None:
        tool = [str(it) for it in (paths.companion("fics_accounts"), "--store", store.path, "--program", paths.program)]
        pid, terminal = pty.fork()
        if pid == 0:
            os.execv(tool[0], [*tool, "password", "ann"])
        shown = b""
        for question in (b"New password of Ann: ", b"Once more: "):
            while not shown.endswith(question):
                shown += os.read(terminal, 1000)
            os.write(terminal, b"hidden\n")
        with suppress(OSError):  # which Linux gives where a terminal's other end is gone
            while piece := os.read(terminal, 1000):
                shown += piece
        assert os.waitstatus_to_exitcode(os.waitpid(pid, 0)[1]) == 0, shown
        os.close(terminal)
        assert b"hidden" not in shown
        assert rows_of(store.path)[0][1][6:] == hashlib.sha256(b"hidden").digest()


class TestNames:
    def test_rename(self, store: Store) -> None:
        store.done("rename", "ann", "Xenia")
        assert rows_of(store.path) == [
            (b"axenia", records.account("Xenia", "secret")[1]),
            *store.rows[1:4],
            records.game(5, "Xenia", "Ben", ["e2e4"]),
            store.rows[5],
            pair(2, ("Cat", "Dan", "Xenia", "Ben")),
            fischer(3, "Dan", "Xenia"),
            store.rows[8],
        ]
        assert checked(store.path) == "ok: 4 accounts, 5 games"

    def test_rename_in_capitals(self, store: Store) -> None:
        store.done("rename", "ann", "ANN")
        assert rows_of(store.path)[0] == (b"aann", records.account("ANN", "secret")[1])
        assert rows_of(store.path)[4] == records.game(5, "ANN", "Ben", ["e2e4"])

    def test_rename_refused(self, store: Store) -> None:
        for new in ("Al", "A" * 18, "Ann1", "guest", "Änne", ""):
            store.refused("rename", "ann", new, said="can't be a name")
        store.refused("rename", "ann", "bEN", said="account already")
        store.refused("rename", "Eve", "Fay", said="nobody has an account as Eve")
        store.done("remove", "dan", "--games", "keep")
        store.refused("rename", "ann", "Dan", said="3 adjourned games are of somebody who was Dan")


class TestRemovals:
    def test_remove(self, store: Store) -> None:
        store.done("remove", "DAN", given="\nno\nremove\n")
        assert rows_of(store.path) == store.rows[:3] + store.rows[4:6]
        store.fill(store.rows)
        store.done("remove", "dan", given="k\n")
        assert rows_of(store.path) == store.rows[:3] + store.rows[4:]
        store.refused("remove", "dan", said="nobody has an account as dan")
        store.refused("remove", "ann", said="no answer")

    def test_remove_without_games_asks_nothing(self, store: Store) -> None:
        store.fill(store.rows[:4])
        store.done("remove", "ann")
        assert rows_of(store.path) == store.rows[1:4]

    @pytest.mark.parametrize(
        "words, left",
        [
            (["--oldest", "2"], (6, 7, 8)),
            (["--player", "DAN"], (4, 5)),
            (["--player", "ann", "--oldest", "1"], (5, 6, 7, 8)),
            (["--numbers", "2-4"], (4, 5)),
            (["--numbers", "5"], (5, 6, 7, 8)),
            (["--numbers", "3-5", "--oldest", "2"], (5, 6, 8)),
            (["--oldest", "9999999"], ()),
        ],
    )
    def test_clear(self, store: Store, words: list[str], left: tuple[int, ...]) -> None:
        store.done("clear", *words, given="yes\n")
        assert rows_of(store.path) == store.rows[:4] + [store.rows[at] for at in left]

    def test_clear_is_asked(self, store: Store) -> None:
        store.refused("clear", "--oldest", "1", given="no\n", said="nothing was changed")
        store.refused("clear", "--oldest", "1", said="no answer")
        store.refused("clear", "--player", "Eve", said="no such games")
        store.done("clear", "--oldest", "1", "--yes")


@pytest.mark.parametrize(
    "words",
    [
        [],
        ["clear"],
        ["clear", "--oldest", "0"],
        ["clear", "--numbers", "4-3"],
        ["password"],
        ["password", "ann", "secret"],
        ["rename", "ann"],
        ["remove"],
        ["mend"],
    ],
)
def test_other_words(store: Store, words: list[str]) -> None:
    store.refused(*words, said="usage: ", status=2)
