"""Behind a proxy whose word counts for where visitors come from."""

import asyncio

import pytest

from .asked import asked
from .played import Played

pytestmark = pytest.mark.words("--trusted-proxy", "127.0.0.0/8", "--tabs-from-one", 2)


async def test_addresses_are_those_that_the_proxy_names(played: Played) -> None:
    for said in (
        "203.0.113.7",
        "203.0.113.7",
        "198.51.100.1",
        "198.51.100.1, 127.0.0.1",
        "2001:db8::1",
        "::ffff:203.0.113.9",
        "203.0.113.9",
    ):
        await played.tabs.open(headers={"X-Forwarded-For": said})
    # a visitor's own word stands before the proxy's, and all of one network of IPv6 are one
    for said in ("203.0.113.7", "9.9.9.9, 203.0.113.7", "198.51.100.1", "203.0.113.9"):
        assert await played.tabs.refused(headers={"X-Forwarded-For": said}) == 429, said
    await played.tabs.open(headers={"X-Forwarded-For": "2001:db8::2"})
    assert await played.tabs.refused(headers={"X-Forwarded-For": "2001:db8:0:0:1:2:3:4"}) == 429


async def test_the_proxys_own_connections_arent_counted(played: Played) -> None:
    links = [await asyncio.open_connection("127.0.0.1", played.go_between.port) for _ in range(60)]
    assert (await asked(played.go_between.port)).status == 200  # which has come behind them
    assert not any(reader.at_eof() for reader, _ in links)
