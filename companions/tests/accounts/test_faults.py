"""Whatever fails, the store has what it had, or all of the change: calls of the system on its files fail by strace, or
end the program."""

import sys

import pytest

from .conftest import ENDS, Store, beside, checked, rows_of

# what a store is written by, and what gives a copy its name
WRITES = "pwrite64,write,ftruncate,fdatasync,fsync,rename,unlink"
# counts a store's rows for the tool, which takes less time than the server's program
COUNTS = f"""#!{sys.executable}
import os, shutil, sqlite3, sys, tempfile
with tempfile.TemporaryDirectory() as it:
    for end in ("", "-wal"):
        if os.path.exists(sys.argv[3] + end):
            shutil.copy(sys.argv[3] + end, it + "/club.db" + end)
    base = sqlite3.connect(it + "/club.db")
    accounts, games = (base.execute(f"SELECT count(*) FROM records WHERE key {{what}} x'67'").fetchone()[0]
                       for what in ("<", ">="))
    print(f"ok: {{accounts}} accounts, {{games}} games")
"""
CHECKED_EACH = 6  # stores that come of a fault: one of so many is looked at by the server's program

pytestmark = [
    pytest.mark.slow,
    pytest.mark.parametrize("words", (["rename", "ann", "Xenia"], ["clear", "--player", "Ann", "--yes"])),
]


@pytest.fixture
def counted(store: Store) -> Store:
    store.program = store.path.with_name("counts")
    store.program.write_text(COUNTS, encoding="utf-8")
    store.program.chmod(0o755)
    return store


def strace(store: Store, fault: str, at: str) -> list[str]:
    """The words that run a program in which a call on the store's files goes wrong: the one at that place of all, and
    with a plus each one from there on."""
    files = [word for end in ENDS for word in ("-P", str(beside(store.path, end)))]
    quiet = ["strace", "-qqq", "-o", "/dev/null", "-e", "signal=none"]
    return [*quiet, *files, "-e", f"trace={WRITES}", "-e", f"inject={WRITES}:{fault}:when={at}"]


def whole(store: Store, words: list[str], fault: str, each: str, least: int) -> dict[int, set[bool]]:
    """Runs a change with a fault at each place, until it comes to no fault; by status whether the change was made."""
    store.done(*words)
    after = rows_of(store.path)
    seen: dict[int, set[bool]] = {}
    for at in range(1, 1000):
        store.fill(store.rows)
        it = store.tool(*words, ahead=strace(store, fault, f"{at}{each}"))
        got = rows_of(store.path)
        assert got in (store.rows, after), (fault, at, it.stderr)
        if at % CHECKED_EACH == 0:
            assert checked(store.path).split(":")[0] == "ok", (fault, at)
        seen.setdefault(it.returncode, set()).add(got == after)
        if store.before.exists():
            assert rows_of(store.before) == store.rows, (fault, at)
        again = store.tool("list")  # nothing that was left behind is in the way
        assert again.returncode == 0, (fault, at, again.stderr)
        if it.returncode == 0 and at > least:
            return seen
    raise AssertionError("each run met a fault")


def test_kills(counted: Store, words: list[str]) -> None:
    seen = whole(counted, words, "signal=KILL", "", 10)
    assert set(seen) == {0, -9}
    assert seen[-9] == {False, True}


def test_full_disk(counted: Store, words: list[str]) -> None:
    """From a place on nothing more is written: refused and as it was, or done."""
    assert whole(counted, words, "error=ENOSPC", "+", 14) == {0: {True}, 1: {False}}


def test_one_call_fails(counted: Store, words: list[str]) -> None:
    seen = whole(counted, words, "error=EIO", "", 14)
    assert (seen[0], seen.get(1, {False})) == ({True}, {False})
