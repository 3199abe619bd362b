"""A server that is run by hand is stopped in order: running games between accounts are kept, and that is said."""

import os
import pty
import signal
from collections.abc import Iterator
from pathlib import Path

import pytest

from tests.kit import paths
from tests.kit.link import Link
from tests.kit.ports import free_port
from tests.kit.running import PATIENCE, Run, ended, wait_until

RUN = paths.TOP / "tools" / "launch" / "run"
KEPT = "ficsd: kept: 2 accounts and 1 adjourned games; 1 of the 1 that ran between players with accounts are among them"


class Hand:
    """A server that somebody runs, and its players."""

    def __init__(self, folder: Path) -> None:
        self.store, self.port = folder / "club.db", free_port()
        self.links: list[Link] = []
        self.run: Run | None = None

    @property
    def words(self) -> list[str]:
        words = [RUN, "--called", "./ficsd", paths.program, "serve", "--port", self.port]
        return [str(it) for it in words]

    def serve(self, *words: object) -> Run:
        self.run = Run(*self.words, *words, start_new_session=True)
        self.run.begin()
        return self.run

    def play(self, words: str = "register secret") -> list[Link]:
        """Ann and Ben, who say that as they come, in a game that has begun."""
        self.links = [Link(self.port) for _ in range(2)]
        for link, name in zip(self.links, ("Ann", "Ben")):
            link.say(name)
            link.until("Entered as")
            link.say(words)
            link.until("^Ok|^Ann$")
        ann, ben = self.links
        ann.say("match ben 2 12 white")
        ben.until("^Challenge")
        ben.say("accept")
        ann.until("^<12>")
        ann.say("e4")
        ben.until("^<12>.* e4 ")
        return self.links

    def kept(self) -> str:
        return ended(paths.program, "check", "--store", self.store).stdout


@pytest.fixture
def hand(tmp_path: Path) -> Iterator[Hand]:
    it = Hand(tmp_path)
    yield it
    for link in it.links:
        link.link.close()
    if it.run:
        it.run.end()


@pytest.mark.parametrize("how", [signal.SIGINT, signal.SIGTERM, signal.SIGHUP])
@pytest.mark.parametrize("to_group", [False, True])
def test_a_game_is_kept(hand: Hand, how: signal.Signals, to_group: bool) -> None:
    run = hand.serve("--store", hand.store)
    hand.play()
    if to_group:
        os.killpg(run.id, how)
        assert run.rest() == -how
    else:
        assert run.terminate(how) == -how
    assert (run.log, hand.kept()) == ([KEPT], "ok: 2 accounts, 1 games\n")


def test_ctrl_c_at_a_terminal(hand: Hand) -> None:
    pid, terminal = pty.fork()
    if pid == 0:
        os.execv(hand.words[0], [*hand.words, "--store", str(hand.store)])
    said = b""

    def says(text: bytes) -> bool:
        nonlocal said
        try:
            said += os.read(terminal, 65536)
        except OSError:  # it has ended
            return True
        return text in said

    assert wait_until(lambda: says(b"ready"))
    hand.play()
    os.write(terminal, b"\x03")
    assert wait_until(lambda: says(KEPT.encode()))
    assert os.waitstatus_to_exitcode(os.waitpid(pid, 0)[1]) == -signal.SIGINT
    os.close(terminal)
    assert KEPT in said.decode()
    assert hand.kept() == "ok: 2 accounts, 1 games\n"


def test_a_second_signal_ends_it_at_once(hand: Hand) -> None:
    """While the first one waits for a place in a full hall, from which to see what runs: no link is cut by then."""
    run = hand.serve("--store", hand.store)
    hand.play()
    letters = "ABCDEFGHIJKLMNOP"
    for it in range(254):
        link = Link(hand.port)
        link.say(f"Full{letters[it // 16]}{letters[it % 16]}")
        link.until("Entered as")
        hand.links.append(link)
    run.process.send_signal(signal.SIGTERM)
    assert wait_until(lambda: len(children(run.id)) > 1), "it doesn't look which games run"
    assert run.terminate() == -signal.SIGTERM
    assert run.log[-1].startswith("ficsd: kept: 2 accounts and 0 adjourned games")
    assert hand.kept() == "ok: 2 accounts, 0 games\n"


def children(process: int) -> list[str]:
    """The processes that one has started."""
    return [it for file in Path(f"/proc/{process}/task").glob("*/children") for it in file.read_text().split()]


def test_without_a_store(hand: Hand) -> None:
    run = hand.serve()
    hand.play("who")
    assert run.terminate(signal.SIGINT) == -signal.SIGINT
    assert run.log == ["ficsd: nothing is kept, since there is no --store"]


def test_a_port_in_use(hand: Hand) -> None:
    """That isn't a stop, and its status is what it was."""
    hand.serve()
    second = Run(*hand.words)
    second.process.wait(PATIENCE)
    assert second.rest() == 8
    assert second.log[0].startswith("ficsd: status 8: it can't listen there")
