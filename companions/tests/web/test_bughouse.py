"""Four tabs play bughouse to an end: partners, hands of both boards, the partner's talk, a drop of what came over."""

import pytest

from .browser import Evening
from .four_tabs import four

pytestmark = pytest.mark.browser


def test_to_an_end(evening: Evening) -> None:
    ann, ben, cat, dan = four(evening)
    evening.play(ann, ben, ("e2e4", "e7e5", "f1c4", "b8c6", "d1h5"))
    evening.play(dan, cat, ("e2e4", "d7d5", "e4d5"))
    ben.until(lambda: ben.hand("black") == "P", "the pawn that Dan took")
    ann.until(lambda: ann.hand("black") == "P", "the pawn in Ben's hand")
    for it in (cat, dan):
        it.until(lambda: it.hand("black", "partner-table") == "P", "the pawn at the partner's board")
    ann.sees_man("wP", "d5", "partner")
    cat.write("partner-say", "mate him now")
    cat.click("#partner-say-send")
    ann.sees("Cat: mate him now", "#partner-said")
    ben.drop("black", "P", "h6")
    for it, board in ((ann, "main"), (ben, "main"), (cat, "partner"), (dan, "partner")):
        it.sees_man("bP", "h6", board)
    ann.move("h5", "f7")
    for it in (ann, ben):
        it.sees("Ben checkmated", "#status")
    for it in (cat, dan):
        it.sees("Partner's game ended", "#status")
        it.sees_man("wQ", "f7", "partner")
        assert it.complaints() == []
