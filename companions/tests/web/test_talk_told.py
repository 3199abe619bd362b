"""What a tab is told of what others say, and what its member may say: talk that comes faster than it can be read is
left out and counted, boards and answers never wait for it, and who says more than others read is told so."""

import re

import pytest

from . import boards
from .played import End, Played
from .tabs import Tab

FLOOD = 5000
AT_ONCE, SAID_AT_ONCE, SAID_OF_ONE_ADDRESS = 40, 10, 40  # lines of one who speaks; of a member; of 32 tabs
LEFT_OUT = re.compile(r"\((\d+) lines? of talk left out\)")
TOO_MUCH = re.compile(r"Not said, since that is more than others can read: another line in [12] seconds\.")


def news(*lines: str) -> str:
    return "\n\r" + "".join(f"{it}\n\r" for it in lines) + "fics% "


async def told(tab: Tab, count: int) -> tuple[list[str], int]:
    """What a tab is told of so many lines of talk: those that it has heard, and how many were left out."""
    heard: list[str] = []
    left_out = 0
    while len(heard) + left_out < count:
        begin, *lines, prompt = await tab.part()
        assert (begin, prompt) == ("", "fics% ")
        for line in lines:
            if found := LEFT_OUT.fullmatch(line):
                left_out += int(found[1])
            else:
                heard.append(line)
    return heard, left_out


@pytest.mark.parametrize(
    "form",
    [
        "Flo shouts: {}",
        "Flo(7): {}",
        "Flo kibitzes: {}",
        "Flo tells you: {}",
        "Flo (your partner) tells you: {}",
        'Flo seeking {} 0 chess ("play 1" to respond)',
        "Challenge: Flo {} 0 chess",
    ],
)
async def test_a_flood_is_left_out_and_counted(played: Played, form: str) -> None:
    tab, end = await played.entered()
    lines = [form.format(n) for n in range(FLOOD)]
    await end.say(news(*lines))
    heard, left_out = await told(tab, FLOOD)
    assert heard[:AT_ONCE] == lines[:AT_ONCE]
    assert set(heard) <= set(lines)
    assert left_out >= FLOOD - 2 * AT_ONCE
    assert len(heard) + left_out == FLOOD


async def test_a_board_behind_a_flood(played: Played) -> None:
    tab, end = await played.entered()
    await end.say(news(*(f"Flo shouts: {n}" for n in range(FLOOD)), boards.start(1)))
    _, *lines, _ = await tab.part()
    assert lines[-1] == boards.start(1)
    assert len(lines) <= 2 * AT_ONCE


async def test_others_are_heard_beside_a_flood(played: Played) -> None:
    tab, end = await played.entered()
    await end.say(news(*(f"Flo shouts: {n}" for n in range(FLOOD)), "Ben shouts: hello", "Cat tells you: hm"))
    _, *lines, _ = await tab.part()
    assert lines[-2:] == ["Ben shouts: hello", "Cat tells you: hm"]


async def test_many_who_speak_at_once(played: Played) -> None:
    """More than anybody reads, however many say it."""
    tab, end = await played.entered()
    lines = [f"Flo{chr(97 + n % 26)}{chr(97 + n // 26 % 26)} shouts: {n}" for n in range(FLOOD)]
    await end.say(news(*lines))
    heard, _ = await told(tab, FLOOD)
    assert len(heard) <= 120


async def test_news_that_were_left_out_are_no_part(played: Played) -> None:
    tab, end = await played.entered()
    await end.say(news(*(f"Flo shouts: {n}" for n in range(AT_ONCE))))
    assert len(await tab.part()) == AT_ONCE + 2
    await end.say(news("Flo shouts: more") + news("Ben is no talk"))
    assert await tab.part() == ["", "Ben is no talk", "fics% "]
    assert await tab.part() == ["", "(1 line of talk left out)", "fics% "]


async def test_an_answer_keeps_its_own_lines(played: Played) -> None:
    tab, end = await played.entered()
    await tab.send("who")
    assert await end.line() == b"who\n"
    await end.say("Ann\n\rFlo\n\r" + "".join(f"Flo shouts: {n}\n\r" for n in range(FLOOD)) + "fics% ")
    part = await tab.part()
    assert part[:2] == ["Ann", "Flo"]
    assert len(part) <= 2 * AT_ONCE


async def test_who_is_behind_is_told_no_talk(played: Played) -> None:
    """Of a tab that doesn't read, what comes last is a board and not talk."""
    tab, end = await played.entered()
    assert tab.transport
    tab.transport.pause_reading()
    for n in range(20):
        await end.say(news(*(f"Flo{chr(97 + n)} tells you: {m} {'x' * 790}" for m in range(AT_ONCE))))
    await end.say(news(boards.start(1)))
    tab.transport.resume_reading()
    lines = 0
    while boards.start(1) not in (part := await tab.part()):
        lines += len(part)
    assert lines <= 200


# ---- what one may say ----


async def says(tab: Tab, end: End, line: str) -> bool:
    """Whether a line is passed on to the server; else the tab is told why not."""
    await tab.send(line)
    await tab.send("who")
    said = await end.line()
    if said == b"who\n":
        assert TOO_MUCH.fullmatch((await tab.answer())[0])
    else:
        assert said == line.encode() + b"\n"
        await end.say("(told 1)\n\rfics% ")
        assert await tab.answer() == ["(told 1)", "fics% "]
        assert await end.line() == b"who\n"
    await end.say("Ann\n\rfics% ")
    assert await tab.answer() == ["Ann", "fics% "]
    return said != b"who\n"


@pytest.mark.parametrize("line", ["shout hi", "tell Ben hi", "t 7 hi", "KIB hi", "pt hi", "see 5 0", "match Ben"])
async def test_who_says_too_much_is_told_so(played: Played, line: str) -> None:
    tab, end = await played.entered()
    said = [await says(tab, end, line) for _ in range(SAID_AT_ONCE + 8)]
    assert all(said[:SAID_AT_ONCE])
    assert not all(said)


async def test_an_alias_is_no_way_round(played: Played) -> None:
    tab, end = await played.entered()
    for text in ("alias z shout hi", "alias y $@"):
        await tab.send(text)
        assert await end.line() == text.encode() + b"\n"
        await end.say("Ok.\n\rfics% ")
        assert await tab.answer() == ["Ok.", "fics% "]
    said = [await says(tab, end, line) for line in ["z", "y shout hi"] * SAID_AT_ONCE]
    assert all(said[:SAID_AT_ONCE])
    assert not all(said)


async def test_moves_and_lists_are_no_talk(played: Played) -> None:
    tab, end = await played.entered()
    for line in ["e4", "who", "sought", "+channel 7", "+censor Flo", "takeback 2", "set shout 0", "resign"] * 5:
        await tab.send(line)
        assert await end.line() == line.encode() + b"\n"
        await end.say("Ok.\n\rfics% ")
        assert await tab.answer() == ["Ok.", "fics% "]


async def test_the_answer_comes_in_its_turn(played: Played) -> None:
    tab, end = await played.entered()
    for n in range(SAID_AT_ONCE + 2):
        await tab.send(f"shout {n}")
    await tab.send("who")
    lines = [await end.line() for _ in range(SAID_AT_ONCE)]
    assert lines == [f"shout {n}\n".encode() for n in range(SAID_AT_ONCE)]
    assert await end.line() == b"who\n"
    for n in range(SAID_AT_ONCE):
        await end.say(f"(told {n})\n\rfics% ")
        assert await tab.answer() == [f"(told {n})", "fics% "]
    for _ in range(2):
        assert TOO_MUCH.fullmatch((await tab.answer())[0])
    await end.say("Ann\n\rfics% ")
    assert await tab.answer() == ["Ann", "fics% "]


@pytest.mark.words("--tabs-from-one", 32)
async def test_an_address_has_a_budget_for_all_its_tabs(played: Played) -> None:
    said = 0
    for n in range(8):
        tab, end = await played.entered(f"Ann{chr(97 + n)}")
        said += sum([await says(tab, end, "shout hi") for _ in range(SAID_AT_ONCE)])
    assert SAID_OF_ONE_ADDRESS <= said < 8 * SAID_AT_ONCE
