"""From afar: within how many round trips the login can be used. A round trip takes two seconds, beside which the
browser's own time is short."""

import shutil
import time

import pytest

from tests.kit.go_between import GoBetween

from .browser import Evening, Window
from .far import Far

pytestmark = [
    pytest.mark.browser,
    pytest.mark.slow,
    pytest.mark.skipif(not shutil.which("esbuild"), reason="wants Debian's esbuild"),
]

ROUND_TRIP = 2.0  # seconds
FIRST, SECOND = 4, 2
SHOWN = "return document.getElementById('login')?.checkVisibility() ? performance.now() / 1000 : 0"
ASKED = """return performance.getEntriesByType("resource").filter((it) => it.transferSize > 0).map((it) => it.name)"""


def round_trips(window: Window) -> int:
    """How many have passed as the login was shown."""
    deadline = time.monotonic() + 60
    while not (seconds := window.script(SHOWN)):
        assert time.monotonic() < deadline
    return int(seconds / ROUND_TRIP)


def test_the_first_visit_and_the_second(evening: Evening, go_between: GoBetween) -> None:
    far = Far(go_between.port, ROUND_TRIP)
    try:
        first = evening.window("Ann", enters=False, at=far)
        assert round_trips(first) <= FIRST
        first.close()
        second = evening.window("Ann", enters=False, at=far)
        assert round_trips(second) <= SECOND
        assert second.script(ASKED) == []
        second.enter()
    finally:
        far.end()
