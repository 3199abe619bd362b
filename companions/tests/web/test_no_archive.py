"""Where there is no archive no way leads to one."""

import pytest

from .asked import asked
from .browser import Evening
from .played import Played


async def test_without_an_archive_nothing_is_there(played: Played) -> None:
    _, answer = await played.seat()
    assert "archive" not in answer
    for path in ("/games", "/games/", "/games/found.json"):
        assert (await asked(played.go_between.port, path)).status == 404, path


@pytest.mark.browser
def test_no_way_leads_there(evening: Evening) -> None:
    ann, ben = evening.game()
    ben.click("#resign")
    ben.click("#resign-yes")
    ann.sees("Ben resigns", "#status")
    assert not ann.is_seen("#archived")
    ann.view("lobby")
    assert not ann.is_seen("#to-archive")
    assert not [it for it in ann.complaints() if f":{evening.go_between.port}/games" in it]
