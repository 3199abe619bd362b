"""Two tabs play to mate by the mouse: one by clicks, the other by drags."""

import pytest

from .browser import Evening

pytestmark = pytest.mark.browser


def test_to_mate(evening: Evening) -> None:
    ann, ben = evening.game(minutes=2, increment=12)
    for n, (start, end) in enumerate((("f2", "f3"), ("e7", "e5"), ("g2", "g4"), ("d8", "h4"))):
        mover, other, act = (ann, ben, ann.move) if n % 2 == 0 else (ben, ann, ben.drag)
        man = mover.man(start)
        act(start, end)
        for it in (mover, other):
            it.sees_man(man, end)
            it.sees_man("", start)
    for it in (ann, ben):
        it.sees("mate", "#status")
        it.sees("Qh4#", "#moves")
        it.sees("Qh4#", "#spoken")
        assert it.complaints() == []
