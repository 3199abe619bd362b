"""A board goes before talk that waits for its tab; nothing else changes places."""

import asyncio
import socket

import pytest
from ficsd_companions.web.held import AT_A_TIME, MOST_OF_PART, Held
from ficslink.texts import NEWS_BEGIN, READY, WANTS_ACKNOWLEDGEMENT

from . import boards
from .hostile import TEXT, frame
from .hostile import Tab as Raw
from .played import End, Played

BOARD, HANDS = boards.start(1), "<b1> game 1 white [P] black []"
TALK = "Flo shouts: hello", "Ben tells you: hm", "Cat kibitzes: oh", "(3 lines of talk left out)"
END = "{Game 1 (Ann vs. Ben) Ben resigns} 1-0"
FEW = 30  # lines of one who speaks, each as long as one is


def news(*lines: str) -> list[str]:
    return [NEWS_BEGIN, *lines, READY]


def held(*lines: str) -> Held:
    """What is held back of a tab that waits."""
    it = Held()
    assert it.of(news(*lines), waits=True) == []
    return it


def test_a_tab_that_takes_all_is_told_all_as_it_comes() -> None:
    it = Held()
    texts = news(*TALK) + news(BOARD) + ["Ok.", READY] + news(TALK[0], BOARD, END)
    assert [told for text in texts for told in it.of([text], waits=False)] == texts


def test_talk_waits_and_is_told_in_its_order() -> None:
    it = held(*TALK)
    assert it.of(news(TALK[0]), waits=False) == []
    assert it.some() == news(*TALK, TALK[0])
    assert it.some() == []
    assert it.of(news(*TALK), waits=False) == news(*TALK)


@pytest.mark.parametrize("part", (news(BOARD), news(BOARD, HANDS), news(BOARD, WANTS_ACKNOWLEDGEMENT), [BOARD, READY]))
def test_a_board_goes_before_it(part: list[str]) -> None:
    """In one piece or in several."""
    it = held(*TALK)
    assert it.of(part, waits=True) == part
    assert [told for text in part for told in it.of([text], waits=True)] == part
    assert it.some() == news(*TALK)


def test_a_board_among_talk_goes_before_all_of_that() -> None:
    it = held(TALK[0])
    assert it.of(news(TALK[1], BOARD, HANDS, TALK[2]), waits=True) == news(BOARD, HANDS)
    assert it.some() == news(*TALK[:3])


ROOMY = news(END), news(BOARD, END), ["(told 1)", READY], ["Ok.", READY], [BOARD, END, READY]


@pytest.mark.parametrize("part", ROOMY)
def test_what_may_stand_in_a_room_goes_behind_it(part: list[str]) -> None:
    it = held(*TALK)
    assert it.of(part, waits=True) == news(*TALK) + part


def test_an_answer_is_held_back_by_no_tab_that_waits() -> None:
    it = Held()
    assert it.of(["Ok."], waits=True) == ["Ok."]
    assert it.of([READY], waits=True) == [READY]


def test_a_part_without_end_is_told_as_it_comes() -> None:
    it = held(TALK[0])
    lines = [NEWS_BEGIN, *[END] * (2 * MOST_OF_PART)]
    assert it.of(lines, waits=True) == news(TALK[0]) + lines


def test_a_little_at_a_time() -> None:
    lines = [f"Flo shouts: {n:03} {'x' * (AT_A_TIME // 4)}" for n in range(10)]
    it = held(*lines)
    told = []
    while some := it.some():
        assert sum(map(len, some)) < 2 * AT_A_TIME
        told += some[1:-1]
    assert told == lines


def test_all_of_it_and_what_there_is_of_a_part() -> None:
    it = held(*TALK)
    assert it.of([NEWS_BEGIN, BOARD], waits=True) == []
    assert it.all() == [*news(*TALK), NEWS_BEGIN, BOARD]
    assert it.of([END, READY], waits=True) == [END, READY]


# ---- a tab that doesn't read ----


def texts_of(data: bytes) -> list[str]:
    """The text messages of what a tab was sent."""
    found = []
    while data:
        size, at = data[1], 2
        if size == 126:
            size, at = int.from_bytes(data[2:4], "big"), 4
        if data[0] == TEXT:
            found.append(data[at : at + size].decode())
        data = data[at + size :]
    return found


async def raw(played: Played) -> tuple[Raw, End]:
    """A tab that is in and reads nothing more, by a small buffer."""
    tab = await asyncio.to_thread(Raw, played.go_between.port, b"", 0)
    tab.link.setsockopt(socket.SOL_SOCKET, socket.SO_RCVBUF, 2048)
    end = await played.end()
    await end.say("Free Internet Chess Server profile\n\rlogin: ")
    tab.link.sendall(frame(TEXT, b"Ann"))
    assert await end.line() == b"Ann\n"
    await end.say("Entered as Ann.\n\rfics% ")
    return tab, end


async def test_a_board_goes_before_talk_that_stood_before_it(played: Played) -> None:
    tab, end = await raw(played)
    talk = [f"F{chr(97 + n)}o shouts: {str(n) * 790}" for n in range(6) for _ in range(FEW // 2)]
    for line in talk:
        await end.say(f"\n\r{line}\n\rfics% ")
    await end.say(f"\n\r{BOARD}\n\rfics% ")
    await end.say(f"\n\r{END}\n\rfics% ")

    def read() -> list[str]:
        data = tab.heard
        tab.link.setblocking(True)
        while END not in (texts := texts_of(data)):
            data += tab.link.recv(65536)
        return texts

    told = [it for it in await asyncio.to_thread(read) if it not in (NEWS_BEGIN, READY)]
    tab.link.close()
    assert [it for it in told if "shouts" in it] == talk
    behind = told[told.index(BOARD) : told.index(END)]
    assert len(behind) > len(talk) // 2
