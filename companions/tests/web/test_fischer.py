"""Fischer random: castling by the king on the rook."""

import pytest

from .browser import Evening

pytestmark = pytest.mark.browser

NUMBER = 84  # the files have N B B N R K R Q, by the rule of docs/RULES.md


def test_the_king_on_its_rook(evening: Evening) -> None:
    ann, ben = evening.window("Ann"), evening.window("Ben")
    ann.terms()
    ann.choose("variant", "fischer")
    ann.write("fischer", str(NUMBER))
    evening.begin(ann, ben, "fischer")
    assert [ann.man(it + "1")[1] for it in "abcdefgh"] == list("NBBNRKRQ")
    ann.move("f1", "g1")
    for it in (ann, ben):
        it.sees_man("wK", "g1")
        it.sees_man("wR", "f1")
    ben.drag("f8", "g8")
    for it in (ann, ben):
        it.sees_man("bK", "g8")
        it.sees_man("bR", "f8")
        it.sees("O-O", "#moves")
