"""What one address may have and do, under which names the page is opened, and how long a login may take."""

import asyncio
import time

import aiohttp
import pytest

from .asked import asked
from .played import Played

pytestmark = pytest.mark.words()

OTHER = "127.0.0.2"
FROM_ONE, CONNECTIONS = 32, 128
ASKING_SECONDS = 10
LOGIN_SECONDS = 120
GUESSES = 10
UPGRADE = {
    "Upgrade": "websocket",
    "Connection": "Upgrade",
    "Sec_WebSocket_Version": "13",
    "Sec_WebSocket_Key": "AAAAAAAAAAAAAAAAAAAAAA==",
}


async def test_32_tabs_from_one_address_and_no_more(played: Played) -> None:
    await asyncio.gather(*(played.tabs.open() for _ in range(FROM_ONE)))
    assert await played.tabs.refused() == 429
    assert (await (await played.wish()).closed())[0] == 4002
    # who isn't a trusted proxy may say what it likes
    assert await played.tabs.refused(headers={"X-Forwarded-For": "203.0.113.7"}) == 429
    connector = aiohttp.TCPConnector(local_addr=(OTHER, 0))
    async with aiohttp.ClientSession(connector=connector) as session:
        await session.ws_connect(played.go_between.address("/link"))


async def test_silent_connections_are_few_and_short(played: Played) -> None:
    links = []
    for _ in range(CONNECTIONS + 100):
        links.append(await asyncio.open_connection("127.0.0.1", played.go_between.port))
    begin = time.monotonic()
    ends = [asyncio.create_task(reader.read()) for reader, _ in links]
    done, left = await asyncio.wait(ends, timeout=3)
    assert (len(done), len(left)) == (100, CONNECTIONS)
    assert (await asked(played.go_between.port, source=OTHER)).status == 200
    await asyncio.wait(left, timeout=20)
    assert all(it.done() for it in left)
    assert time.monotonic() - begin < 2 * ASKING_SECONDS
    assert (await asked(played.go_between.port)).status == 200


async def test_a_request_a_letter_at_a_time_is_cut_off(played: Played) -> None:
    reader, writer = await asyncio.open_connection("127.0.0.1", played.go_between.port)
    end = asyncio.create_task(reader.read())
    begin = time.monotonic()
    while not end.done() and time.monotonic() - begin < 3 * ASKING_SECONDS:
        writer.write(b"G")
        await asyncio.sleep(0.5)  # slower than anybody writes
    assert end.done()


async def test_who_comes_again_and_again_has_to_wait(played: Played) -> None:
    """Many at a time, since what may come grows meanwhile."""

    async def come() -> int:
        try:
            tab = await played.tabs.open()
        except aiohttp.WSServerHandshakeError as why:
            return why.status
        await tab.close()
        return 101

    statuses = []
    for _ in range(8):
        statuses += await asyncio.gather(*(come() for _ in range(FROM_ONE // 2)))
    assert set(statuses) == {101, 429}
    assert (await (await played.wish()).closed())[0] == 4003
    assert (await asked(played.go_between.port)).status == 200


async def test_names_of_hosts(played: Played) -> None:
    port = played.go_between.port
    for host in (
        "localhost",
        f"localhost:{port}",
        f"127.0.0.1:{port}",
        "127.0.0.1",
        f"[::1]:{port}",
        "192.0.2.7",
        "LOCALHOST.",
    ):
        assert (await asked(port, host=host)).status == 200, host
    for host in (
        f"evil.example:{port}",
        "evil.example",
        "localhost.evil.example",
        "127.0.0.1.evil.example",
        "",
        "localhost:evil",
        "[::1",
        "evil.example:80:80",
    ):
        assert (await asked(port, host=host)).status in (400, 421), host
        assert (await asked(port, "/link", host, Origin=f"http://{host}", **UPGRADE)).status in (400, 421), host


async def test_guesses_are_slowed(played: Played) -> None:
    """Whether the tab waits for the answers or sends all ahead."""
    tab, end = await played.link()
    for n in range(2 * GUESSES):
        await tab.send("Ann")
        await tab.send(f"guess{n}")
    guesses, until = 0, time.monotonic() + 5
    while (left := until - time.monotonic()) > 0:
        try:
            line = await asyncio.wait_for(end.reader.readline(), left)
        except asyncio.TimeoutError:
            break
        if line == b"Ann\n":
            await end.say("password: ")
        else:
            assert line == b"guess%d\n" % guesses
            guesses += 1
            await end.say("refused 23 WrongPassword\n\rlogin: ")
    assert guesses in (GUESSES, GUESSES + 1)


async def test_right_passwords_arent_slowed(played: Played) -> None:
    for n in range(2 * GUESSES):
        tab, end = await played.link()
        await tab.send("Ann")
        assert await end.line() == b"Ann\n"
        await end.say("password: ")
        assert await tab.part() == ["password: "]
        await tab.send("swordfish")
        assert await end.line(5) == b"swordfish\n"
        await end.say("Entered as Ann.\n\rfics% ")
        assert await tab.part() == ["Entered as Ann.", "fics% "]
        await tab.close()


@pytest.mark.slow
async def test_who_doesnt_log_in_keeps_no_place(played: Played) -> None:
    tab, end = await played.link()
    other, _ = await played.seat()
    await played.opened(other)
    entered, _ = await played.entered()
    ends = [asyncio.create_task(it.socket.receive()) for it in (tab, other)]
    stays = asyncio.create_task(entered.socket.receive())
    done, _ = await asyncio.wait(ends, timeout=LOGIN_SECONDS - 10)
    assert not done
    await asyncio.wait_for(asyncio.gather(*ends), 40)
    assert [it.socket.close_code for it in (tab, other)] == [4006, 4006]
    assert not stays.done()
    stays.cancel()
