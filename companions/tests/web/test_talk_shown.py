"""What the page shows of talk: what was left out in one line, nobody whom the member does not want to read, and a
refusal where the member says more than others read."""

import re

import pytest

from .browser import Evening, Window
from .plain import Plain

pytestmark = pytest.mark.browser

FLOOD, AT_ONCE = 400, 10  # lines; the server itself keeps 512 for one member


def said(window: Window, kind: str = "shout") -> list[str]:
    return window.texts(f'#said [data-said="all"] p.{kind}')


def test_a_flood_is_one_line(evening: Evening) -> None:
    ann, flo, ben = evening.window("Ann"), evening.plain("Flo"), evening.plain("Ben")
    flo.socket.sendall(b"".join(b"shout %d\n" % n for n in range(FLOOD)))
    ann.until(lambda: any("lines of talk left out" in it for it in said(ann, "left-out")), "how many were left out")
    ben.ask("shout and I")
    ann.until(lambda: "Ben: and I" in said(ann), "what another one says")

    def counted() -> bool:
        left_out = [int(re.sub(r"\D", "", it)) for it in said(ann, "left-out")]
        shown = [it for it in said(ann) if it.startswith("Flo: ")]
        return len(shown) + sum(left_out) == FLOOD

    assert [flo.answer() for _ in range(FLOOD)] == [["(told 2)"]] * FLOOD
    ann.until(counted, "all of the flood, shown or counted")
    assert len(said(ann, "left-out")) <= 3


def test_who_isnt_shown(evening: Evening) -> None:
    ann, flo, ben = evening.window("Ann"), evening.plain("Flo"), evening.plain("Ben")
    flo.ask("shout one")
    ann.until(lambda: said(ann) == ["Flo: one"], "a shout")
    ann.view("talk")
    ann.click('#said [data-said="all"] p.shout b')
    ann.click('#room-acts [data-command="+censor Flo"]')
    ann.until(lambda: ann.seen('#room-acts [aria-pressed="true"]'), "that Flo isn't shown")
    assert flo.ask("tell Ann hm") == ["refused 36 Refuses"]
    flo.ask("shout two")
    ben.ask("shout three")
    ann.until(lambda: said(ann) == ["Flo: one", "Ben: three"], "another one's shout alone")
    ann.click('#room-acts [data-command="-censor Flo"]')
    ann.until(lambda: ann.seen('#room-acts [aria-pressed="false"]'), "that Flo is shown")
    flo.ask("shout four")
    ann.until(lambda: said(ann)[-1] == "Flo: four", "a shout again")


def test_guests_that_arent_shown(evening: Evening) -> None:
    ann, ben = evening.window("Ann"), evening.plain("Ben")
    guest = Plain(evening.server.port, "guest")
    ann.open("settings", "#settings-open")
    ann.click('[data-prefer="guests"]')
    ann.shut("settings")
    guest.ask("shout one")
    guest.ask("tell Ann two")
    ben.ask("shout three")
    ann.until(lambda: said(ann) == ["Ben: three"], "what another one says alone")
    assert not ann.texts('#rooms [data-room^="person guest"]')
    ann.open("settings", "#settings-open")
    ann.click('[data-prefer="guests"]')
    ann.shut("settings")
    guest.ask("shout four")
    ann.until(lambda: said(ann)[-1].endswith(": four"), "a guest's shout")
    guest.close()


def test_who_says_too_much_is_told_so(evening: Evening) -> None:
    ann, ben = evening.window("Ann"), evening.plain("Ben")

    def field() -> str:
        return str(ann.script("return document.getElementById('talk-text').value"))

    ann.view("talk")
    for n in range(AT_ONCE + 5):
        ann.say(f"hello {n}")
        ann.until(lambda: not field() or ann.is_seen("#notice.refusal"), "that it was said, or why not")
        if field():
            break
    ann.sees("others can't read so much", "#notice")
    shown = said(ann, "own")
    assert AT_ONCE <= len(shown) < AT_ONCE + 5
    assert field() == f"hello {len(shown)}"
    ben.hears(f"Ann shouts: hello {len(shown) - 1}")
    ben.ask("")  # an empty line brings the news that there are
    assert [it for it in ben.heard if "hello" in it] == [f"Ann shouts: hello {n}" for n in range(len(shown))]
