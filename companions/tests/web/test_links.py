"""One tab is one link: lines in order both ways, and one close for both sides."""

import asyncio

import aiohttp
import pytest
from ficsd_companions.limits.pace import PACE_AT_ONCE, unread

from tests.kit.running import async_wait_until
from tests.kit.stamped import stamped

from .played import Played

HANDSHAKE = (
    b"GET /link HTTP/1.1\r\nHost: localhost\r\nConnection: Upgrade\r\nUpgrade: websocket\r\n"
    b"Sec-WebSocket-Version: 13\r\nSec-WebSocket-Key: AAAAAAAAAAAAAAAAAAAAAA==\r\n\r\n"
)
FLOOD = 4007  # the code of a close
NO_SIGN_SECONDS = 20, 40  # nothing happens before the first, and it is cut off in the second


async def test_lines_pass_as_they_are(played: Played) -> None:
    tab, end = await played.entered()
    for line in (
        "tell ben a  b ",
        "",
        "\x7f\xe9\xff",
        stamped(b"e4", 1234).decode("latin-1"),
        "x" * 1023,
        stamped(b"y" * 1023, 9999999).decode("latin-1"),
    ):
        await tab.send(line)
        # telnet's own byte stands twice where it is a character
        assert await end.line() == line.encode("latin-1").replace(b"\xff", b"\xff\xff") + b"\n"
        await end.say("Ben tells you:  a \n\rfics% ")
        assert await tab.part() == ["Ben tells you:  a ", "fics% "]


async def test_a_character_above_255_reaches_the_server_as_utf_8(played: Played) -> None:
    tab, end = await played.entered()
    await tab.send("kibitz \u017e")
    assert await end.line() == b"kibitz \xc5\xbe\n"


async def test_lines_that_are_sent_ahead_are_answered_in_order(played: Played) -> None:
    tab, end = await played.entered()
    for n in range(500):
        await tab.send(f"zz {n}")
    for n in range(500):
        assert await end.line() == b"zz %d\n" % n
        await end.say(f"(told {n})\n\rfics% \n\rBen told you: {n}\n\rfics% ")
    for n in range(500):
        assert await tab.part() == [f"(told {n})", "fics% "]
        assert await tab.part() == ["", f"Ben told you: {n}", "fics% "]


async def test_what_is_no_line_closes_both_sides(played: Played) -> None:
    rows = (
        ("a\nquit", "one line"),
        ("a\r", "one line"),
        ("a\0", "one line"),
        ("x" * 1024, "at most 1023 bytes"),
        ("x" * 1033 + "\x80", "at most 1033 bytes"),
        ("x" * 4000, "at most 1023 bytes"),
        (b"e4", "text message"),
    )
    for sent, reason in rows:
        tab, end = await played.entered()
        send = tab.socket.send_bytes if isinstance(sent, bytes) else tab.socket.send_str
        await send(sent)
        code, why = await tab.closed()
        assert code == aiohttp.WSCloseCode.POLICY_VIOLATION, sent
        assert reason in why
        assert await end.line() == b"", sent  # nothing of it went on


async def test_a_message_of_any_length_is_never_kept_whole(played: Played) -> None:
    """One of which more has come at once than may be ahead is a flood before its length was read."""
    too_big = aiohttp.WSCloseCode.MESSAGE_TOO_BIG
    for length, codes in ((4097, {too_big}), (20000, {too_big}), (1000000, {too_big, FLOOD})):
        tab, end = await played.entered()
        await tab.send("x" * length)
        assert (await tab.closed())[0] in codes, length
        assert await end.line() == b"", length


async def test_the_servers_end_closes_the_tab_behind_its_last_line(played: Played) -> None:
    tab, end = await played.entered()
    await tab.send("quit")
    assert await end.line() == b"quit\n"
    await end.say("".join(f"Ben told you: {n}\n\r" for n in range(3000)) + "Goodbye.\n\r")
    end.close()
    for n in range(3000):
        assert await tab.message() == f"Ben told you: {n}"
    assert await tab.message() == "Goodbye."
    assert (await tab.closed())[0] == aiohttp.WSCloseCode.OK


async def test_an_end_without_a_goodbye_is_told_as_one_to_come_back_behind(played: Played) -> None:
    tab, end = await played.entered()
    await end.say("\n\rBen tells you: Goodbye.\n\rfics% ")
    assert await tab.part() == ["", "Ben tells you: Goodbye.", "fics% "]
    end.close()
    assert (await tab.closed())[0] == aiohttp.WSCloseCode.GOING_AWAY


async def test_an_end_before_the_login(played: Played) -> None:
    tab, end = await played.link()
    end.close()
    assert (await tab.closed())[0] == aiohttp.WSCloseCode.GOING_AWAY


async def test_what_came_before_a_reset_is_told(played: Played) -> None:
    tab, end = await played.entered()
    await tab.send("quit")
    await end.line()
    assert isinstance(end.writer.transport, asyncio.Transport)
    end.writer.transport.pause_reading()  # there are lines that weren't read as it is reset
    for n in range(200):
        await tab.send(f"zz {n} too late")
    # those that are taken at once have come, and others come one by one
    taken = sum(len(f"zz {n} too late\n") for n in range(PACE_AT_ONCE))
    assert await async_wait_until(lambda: unread(end.writer.get_extra_info("socket")) >= taken)
    await end.say("Goodbye.\n\r")
    end.writer.transport.abort()
    assert await tab.message() == "Goodbye."
    assert (await tab.closed())[0] == aiohttp.WSCloseCode.OK


async def test_a_tab_that_closes_leaves_at_once_behind_its_lines(played: Played) -> None:
    tab, end = await played.entered()
    await tab.send("resign")
    await tab.close()
    assert await end.line() == b"resign\n"
    assert await end.line(2) == b""


async def test_a_tab_that_is_cut_off_leaves_at_once(played: Played) -> None:
    tab, end = await played.entered()
    tab.cut()
    assert await end.line(2) == b""


@pytest.mark.slow
async def test_a_tab_that_gives_no_sign_is_cut_off(played: Played) -> None:
    reader, writer = await asyncio.open_connection("127.0.0.1", played.go_between.port)
    writer.write(HANDSHAKE)
    await reader.readuntil(b"\r\n\r\n")
    end = await played.end()
    await end.say("\n\rBen tells you: are you there\n\rfics% ")
    assert await end.is_silent(NO_SIGN_SECONDS[0])
    assert await end.line(NO_SIGN_SECONDS[1]) == b""
    writer.close()


async def test_what_a_link_was_cut_off_in_is_told(played: Played) -> None:
    tab, end = await played.entered()
    await end.say("\n\rBen tells you: hal")
    end.close()
    assert [await tab.message(), await tab.message()] == ["", "Ben tells you: hal"]
