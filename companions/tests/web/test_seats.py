"""A seat is held for the tab that has its token: nothing is lost by a reload or a link that breaks, and nobody else
gets it."""

import asyncio

import aiohttp
import pytest

from tests.kit.running import async_wait_until
from tests.kit.stamped import stamped

from . import boards
from .played import Played
from .tabs import Closed

HELD_SECONDS = 30, 40  # it is held for the first, and gone by the second
KEPT = 512
LONGEST = 4096  # bytes of a message


async def test_a_broken_link_loses_nothing_either_way(played: Played) -> None:
    tab, end, token = await played.seated()
    await tab.send("tell ben 1")
    assert await end.line() == b"tell ben 1\n"
    tab.cut()
    await end.say("(told 1)\n\rfics% \n\rBen tells you: hi\n\rfics% ")
    again, answer = await played.seat(token, heard=4)
    assert answer == {
        "seat": token,
        "taken": "same",
        "heard": 2,
        "name": "Ann",
        "prompt": "fics% ",
        "stamped": False,
        "plain": False,
    }
    await again.send("tell ben 2")
    assert await again.part() == ["(told 1)", "fics% "]
    assert await again.part() == ["", "Ben tells you: hi", "fics% "]
    assert await end.line() == b"tell ben 2\n"


async def test_a_tab_that_closes_hears_its_own_code(played: Played) -> None:
    for code in (1001, 3000, 1000):
        tab, end, token = await played.seated()
        await tab.socket.close(code=code)
        assert tab.socket.close_code == code
        _, answer = await played.seat(token, heard=4)
        assert answer["taken"] == ("new" if code == 1000 else "same")


async def test_what_was_sent_to_a_link_that_was_broken_already_is_told_again(played: Played) -> None:
    tab, end, token = await played.seated()
    for n in range(20):
        await end.say(f"\n\rBen tells you: {n}\n\rfics% ")
    for n in range(20):
        await tab.part()
    again, answer = await played.seat(token, heard=4 + 3 * 15)
    assert answer["taken"] == "same"
    for n in range(15, 20):
        assert await again.part() == ["", f"Ben tells you: {n}", "fics% "]
    assert (await tab.closed())[0] == 4005


async def test_a_page_that_begins_anew_takes_nothing_for_an_answer_of_its_own(played: Played) -> None:
    tab, end, token = await played.seated()
    await tab.send("e4")
    await tab.send("who")
    assert [await end.line(), await end.line()] == [b"e4\n", b"who\n"]
    tab.cut()
    await end.say(boards.after_e4(-1) + "\n\rfics% ")
    again, answer = await played.seat(token, heard=4, anew=True)
    assert (answer["taken"], answer["heard"], answer["name"]) == ("anew", 0, "Ann")
    assert await again.part() == ["", boards.after_e4(-1), "fics% "]
    await end.say("Ann\n\rBen\n\rfics% ")
    assert await again.part() == ["", "Ann", "Ben", "fics% "]
    await again.send("refresh")
    assert await end.line() == b"refresh\n"
    await end.say(boards.after_e4(-1) + "\n\rfics% ")
    assert await again.part() == [boards.after_e4(-1), "fics% "]
    again.cut()
    third, answer = await played.seat(token, heard=9)  # the counts began at 0 with the second
    assert (answer["taken"], answer["heard"]) == ("same", 1)


async def test_a_reload_in_the_midst_of_a_part(played: Played) -> None:
    tab, end, token = await played.seated()
    await end.say("\n\rBen tells you: 1\n\r")
    assert [await tab.message(), await tab.message()] == ["", "Ben tells you: 1"]
    again, answer = await played.seat(token, heard=None)
    assert answer["taken"] == "anew"
    await end.say("Ben tells you: 2\n\rfics% ")
    assert await again.part() == ["", "Ben tells you: 2", "fics% "]


@pytest.mark.slow
async def test_it_is_held_for_30_seconds_and_no_longer(played: Played) -> None:
    tab, end, token = await played.seated()
    tab.cut()
    assert await end.is_silent(HELD_SECONDS[0] - 5)
    again, answer = await played.seat(token, heard=4)
    assert answer["taken"] == "same"
    again.cut()
    assert await end.is_silent(HELD_SECONDS[0] - 2)
    assert await end.line(HELD_SECONDS[1]) == b""
    _, answer = await played.seat(token, heard=4)
    assert (answer["taken"], answer["name"]) == ("new", None)
    assert answer["seat"] != token


async def test_who_leaves_by_itself_is_gone_at_once(played: Played) -> None:
    tab, end, _ = await played.seated()
    await tab.close()  # with code 1000
    assert await end.line(5) == b""


async def test_a_page_that_is_reloaded_closes_with_1001_and_is_held(played: Played) -> None:
    tab, end, token = await played.seated()
    await tab.socket.close(code=aiohttp.WSCloseCode.GOING_AWAY)
    assert await end.is_silent(2)
    assert (await played.seat(token, heard=None))[1]["taken"] == "anew"


async def test_none_is_held_before_the_login(played: Played) -> None:
    tab, answer = await played.seat()
    end = await played.opened(tab)
    tab.cut()
    assert await end.line(5) == b""


async def test_who_was_closed_for_what_it_did_has_no_seat(played: Played) -> None:
    tab, end, token = await played.seated()
    await tab.send("a\nb")
    assert (await tab.closed())[0] == aiohttp.WSCloseCode.POLICY_VIOLATION
    assert await end.line(5) == b""
    assert (await played.seat(token, heard=None))[1]["taken"] == "new"


async def test_the_server_that_closes_ends_the_seat(played: Played) -> None:
    tab, end, token = await played.seated()
    tab.cut()
    await end.say("Goodbye.\n\r")
    end.close()
    assert await end.line() == b""
    assert (await played.seat(token, heard=None))[1]["taken"] == "new"


async def test_where_too_much_was_missed_it_begins_anew_with_the_last_of_it(played: Played) -> None:
    tab, end, token = await played.seated()
    tab.cut()
    for n in range(2 * KEPT):
        await end.say(f"\n\rBen told you: {n}\n\rfics% ")
    ends = [end.writer.get_extra_info(it)[1] for it in ("peername", "sockname")]
    assert await async_wait_until(lambda: played.unread(*ends) == 0)
    again, answer = await played.seat(token, heard=4)
    assert answer["taken"] == "anew"
    told = [await again.part() for _ in range(KEPT // 3 + 1)]  # the first one is cut off
    assert told[-1] == ["", f"Ben told you: {2 * KEPT - 1}", "fics% "]
    assert all(it[0] == "" and it[-1] == "fics% " for it in told)


async def test_a_stamped_seat_stays_one(played: Played) -> None:
    tab, first = await played.seat()
    end = await played.opened(tab)
    await tab.send(stamped(b"TIMESTAMP|page|x|", 1).decode("latin-1"))
    await tab.send("Ann")
    await end.line()
    await end.line()
    await end.say("Entered as Ann.\n\rfics% ")
    await tab.part()
    assert not first["stamped"]
    again, answer = await played.seat(first["seat"], heard=None)
    assert answer["stamped"]
    await again.send(stamped(b"TIMESTAMP|page|x|", 2).decode("latin-1"))  # it is a line now, and answered
    await end.line()
    await end.say("refused 26 Unknown\n\rfics% ")
    assert await again.part() == ["refused 26 Unknown", "fics% "]


async def test_what_is_no_wish_closes_the_tab(played: Played) -> None:
    for first in (
        "Ann",
        "\x01",
        "\x01[]",
        "\x01{}",
        '\x01{"seat": 5}',
        '\x01{"seat": "x", "heard": -1}',
        '\x01{"seat": "x", "heard": true}',
        "\x01" + "[" * (LONGEST - 1),
        b"\x01{}",
    ):
        tab = await played.tabs.open(protocols=("seat",))
        await (tab.socket.send_bytes(first) if isinstance(first, bytes) else tab.send(first))
        assert (await tab.closed())[0] == aiohttp.WSCloseCode.POLICY_VIOLATION, first[:40]


async def test_a_wish_that_is_too_long_is_not_read(played: Played) -> None:
    tab = await played.tabs.open(protocols=("seat",))
    await tab.send("\x01" + "[" * LONGEST)
    assert (await tab.closed())[0] == aiohttp.WSCloseCode.MESSAGE_TOO_BIG


async def test_a_token_that_nobody_has_is_a_new_seat(played: Played) -> None:
    _, answer = await played.seat("x" * 32, heard=7)
    assert (answer["taken"], answer["heard"]) == ("new", 0)


async def test_two_tabs_with_one_token(played: Played) -> None:
    tab, end, token = await played.seated()
    others = await asyncio.gather(*(played.seat(token, heard=4) for _ in range(5)))
    assert (await tab.closed())[0] == 4005
    assert {it["taken"] for _, it in others} == {"same"}
    await end.say("\n\rBen tells you: hi\n\rfics% ")
    heard = await asyncio.gather(*(it.part() for it, _ in others), return_exceptions=True)
    assert heard.count(["", "Ben tells you: hi", "fics% "]) == 1
    assert [it.args[0] for it in heard if isinstance(it, Closed)] == [4005] * 4


async def test_the_tabs_of_a_seat_keep_no_place_once_they_are_gone(played: Played) -> None:
    for _ in range(2):
        seats = await asyncio.gather(*(played.seat() for _ in range(256)))
        ends = [await played.end() for _ in seats]
        assert {it["taken"] for _, it in seats} == {"new"}
        tab = await played.wish()
        assert (await tab.closed())[0] == 4001
        for it, _ in seats:
            it.cut()
        assert {await it.line() for it in ends} == {b""}
