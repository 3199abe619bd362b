"""Where stamps are refused."""

import pytest

from tests.kit.stamped import stamped

from .played import Played

pytestmark = pytest.mark.words("--plain")


async def test_stamped_lines_are_refused(played: Played) -> None:
    for first in (stamped(b"TIMESTAMP|page|x|", 1), stamped(b"Ann", 1), stamped(b"\x029", 5)):
        tab, end = await played.link()
        await tab.send(first.decode("latin-1"))
        assert (await tab.closed())[0] == 4008
        assert await end.line() == b""


async def test_a_seat_says_so_and_plain_lines_pass(played: Played) -> None:
    tab, answer = await played.seat()
    assert answer["plain"]
    end = await played.opened(tab)
    await tab.send("Ann")
    assert await end.line() == b"Ann\n"
