"""The go-between asks the server for lists that tabs want, and never else; what it asks is kept apart from what the tab
does."""

import asyncio
import json

from tests.kit.stamped import stamped

from . import boards
from .played import MARK, End, Played
from .tabs import Tab

QUIET_SECONDS = 0.3
LISTS_SECONDS = 3  # longer than it takes until lists are asked for again
ROWS = {"who": ["Ann"], "sought": [], "games": []}


async def asserts_silent(end: End) -> None:
    assert await end.is_silent(QUIET_SECONDS)


async def wants(tab: Tab) -> None:
    await tab.send(MARK + '{"lists": true}')


async def asserts_asks(end: End) -> None:
    assert [await end.line() for _ in range(3)] == [b"WHO\n", b"SOUGHT\n", b"GAMES\n"]


async def asserts_told(tab: Tab, *lines: str) -> None:
    """These lines are told in this order, and the lists, which may come in their midst."""
    told = [await tab.message() for _ in range(len(lines) + 1)]
    assert [it for it in told if not it.startswith(MARK)] == list(lines)
    assert [json.loads(it.removeprefix(MARK)) for it in told if it.startswith(MARK)] == [ROWS]


async def test_nothing_is_asked_outside_a_game_nor_while_a_move_is_awaited_nor_behind_the_end(played: Played) -> None:
    tab, end = await played.entered()
    await asserts_silent(end)
    over = "{Game 1 (Ann vs. Ben) Ben resigns} 1-0"
    for told in (boards.start(1), boards.after_e4(-1), boards.after_e4(0, game=3), over):
        await end.say(f"\n\r{told}\n\rfics% ")
        assert await tab.part() == ["", told, "fics% "]
        await asserts_silent(end)


async def test_nothing_is_asked_of_two_who_play_by_tabs(played: Played) -> None:
    (tab, end), (other, others_end) = await played.entered(), await played.entered("Ben")
    await end.say("\n\r" + boards.after_e4(-1) + "\n\rfics% ")
    await others_end.say("\n\r" + boards.after_e4(1) + "\n\rfics% ")
    for it in (tab, other):
        await it.part()
    await other.send("e5")
    assert await others_end.line() == b"e5\n"
    await others_end.say(boards.start(-1) + "\n\rfics% ")
    await asyncio.gather(asserts_silent(end), asserts_silent(others_end))
    await other.close()
    await asserts_silent(end)


async def test_the_tabs_lines_and_our_own_are_kept_apart(played: Played) -> None:
    tab, end, _ = await played.seated()
    await wants(tab)
    await asserts_asks(end)
    await tab.send("")
    await tab.send("draw")
    assert [await end.line(), await end.line()] == [b"\n", b"draw\n"]
    # news unasked; then our own lines' answers, of which one has news too; then those of the tab's
    ours = "Ann\n\rfics% none\n\rBen tells you: 2\n\rfics% none\n\rfics% "
    await end.say("\n\rBen tells you: 1\n\rfics% " + ours + "fics% Ann offers a draw.\n\rfics% ")
    news = [it for n in (1, 2) for it in ("", f"Ben tells you: {n}", "fics% ")]
    await asserts_told(tab, *news, "fics% ", "Ann offers a draw.", "fics% ")


async def test_news_that_cross_with_our_own_line(played: Played) -> None:
    tab, end, _ = await played.seated()
    await wants(tab)
    await asserts_asks(end)
    await end.say("\n\r" + boards.start(1) + "\n\rfics% Ann\n\rfics% none\n\rfics% none\n\rfics% ")
    await asserts_told(tab, "", boards.start(1), "fics% ")
    await tab.send("d4")
    assert await end.line() == b"d4\n"
    await end.say(boards.after_e4(-1) + "\n\rfics% ")
    assert await tab.part() == [boards.after_e4(-1), "fics% "]


async def test_no_line_of_our_own_while_an_answer_to_the_tab_is_due(played: Played) -> None:
    tab, end, _ = await played.seated()
    await tab.send("who")
    assert await end.line() == b"who\n"
    await wants(tab)
    assert await end.is_silent(LISTS_SECONDS)
    await end.say("Ann\n\rfics% ")
    assert await tab.part() == ["Ann", "fics% "]
    await asserts_asks(end)


async def test_stamped_lines_that_arent_answered(played: Played) -> None:
    """The greeting of a stamped link and an acknowledgement are lines that no answer is due to."""
    tab, answer = await played.seat()
    end = await played.opened(tab)
    await tab.send(stamped(b"TIMESTAMP|page|x|", 1).decode("latin-1"))
    await tab.send("Ann")
    await end.line()
    assert await end.line() == b"Ann\n"
    await end.say("Entered as Ann.\n\rfics% \n\r" + boards.start(1) + "\n\r[G]\0fics% ")
    assert await tab.part() == ["Entered as Ann.", "fics% "]
    assert await tab.part() == ["", boards.start(1), "[G]\0", "fics% "]
    await tab.send(stamped(b"\x029", 2).decode("latin-1"))
    await tab.send(stamped(b"e4", 3).decode("latin-1"))
    await end.line()
    await end.line()
    await end.say(boards.after_e4(-1) + "\n\rfics% ")
    assert await tab.part() == [boards.after_e4(-1), "fics% "]
    await wants(tab)
    await asserts_asks(end)
    await end.say("Ann\n\rfics% none\n\rfics% none\n\rfics% ")
    await asserts_told(tab)
