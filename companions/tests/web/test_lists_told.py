"""The page asks for no list that is the same for everybody: the go-between tells them while the lobby is seen, and the
page asks for the two of the member's own behind what may change them."""

import re
import time

import pytest

from .browser import Evening
from .test_small_boards import NOTES_LINES

pytestmark = pytest.mark.browser

REST_SECONDS = 9  # more than twice what a page waits that asks again and again
SENT = "return window.sent.map((it) => it.replace('\\u0001', ''))"
FILES = "return performance.getEntriesByType('resource').map((it) => new URL(it.name).pathname).sort()"
SHARED, OWN = {"who", "sought", "games"}, {"pending", "stored"}


def test_what_a_page_at_rest_sends(evening: Evening) -> None:
    cat = evening.window("Cat", enters=False, path="/?plain")
    cat.script(NOTES_LINES)
    cat.enter()
    cat.sees("Cat (you)", "#players .who")
    dan = evening.plain("Dan")
    dan.ask("seek 3 0")
    cat.sees("3+0", "#seeks .time")
    cat.sees("Dan", "#players .who")
    time.sleep(REST_SECONDS)  # of a page at rest
    lines = cat.script(SENT)
    assert [it for it in lines if it in SHARED] == []
    assert {it: lines.count(it) for it in OWN} == dict.fromkeys(OWN, 1)
    assert [it for it in lines if "lists" in it] == ['{"lists":true}']
    cat.view("board")
    cat.until(lambda: cat.script(SENT)[-1] == '{"lists":false}', "the lists out of sight")
    dan.ask("match Cat 5 0")
    cat.sees("Dan challenges you", "#calls")


def test_rows_that_change_ask_for_no_file(evening: Evening) -> None:
    cat = evening.window("Cat")
    cat.sees("Cat (you)", "#players .who")
    asked = cat.script(FILES)
    assert any(re.search(r"/icons\.(\w+\.)?svg$", it) for it in asked)
    for name in ("Dan", "Eve", "Fay"):
        link = evening.plain(name)
        cat.sees(name, "#players .who")
        link.ask("seek 3 0")
        cat.until(lambda: cat.is_seen(f'#players [data-challenge="{name}"] use[href^="#"]'), "a drawing")
    cat.until(lambda: cat.texts("#players .does").count("seeks 3+0") == 3, "what they do")
    assert cat.script(FILES) == asked
