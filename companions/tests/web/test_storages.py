"""No password stands in the browser's storages, whatever was typed where, and whenever the page is left: each scenario
ends with this, and these with lines that are underway."""

import pytest

from . import storages
from .browser import Evening
from .wire import Wire

pytestmark = pytest.mark.browser

SECRET = "swordfish"


def test_a_login_by_a_password(evening: Evening) -> None:
    first = evening.window("Ann")
    first.command(f"register {SECRET}")
    first.sees("Ok.", "#output")
    first.click("#leave")
    first.until(lambda: first.is_seen("#login"), "the login")
    ann = evening.window("Ann", SECRET)
    assert SECRET in ann.secrets
    assert any("Ann" in it for it in storages.stored(ann))  # the page has kept its seat


@pytest.mark.parametrize("line", [f"register {SECRET}", f"reg {SECRET}", f"passwd old {SECRET}", SECRET])
def test_a_line_that_is_underway(evening: Evening, wire: Wire, line: str) -> None:
    ann = evening.window("Ann", at=wire)
    wire.cut(stays=True)
    ann.until(lambda: "comes back" in ann.text("#way-back"), "the bar")
    ann.command(line)
    ann.secrets.add(SECRET)
    wire.mend()  # for the page that is read next; the line may go out before or not
    kept = storages.stored(ann)
    assert not [it for it in kept if SECRET in it]
