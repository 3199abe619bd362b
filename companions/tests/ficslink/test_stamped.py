"""Stamped lines, and which lines the server doesn't answer. The test's own seal is that of the kit."""

from ficslink import stamps
from tests.kit.stamped import plain_of, stamped

OF_A_AND_0 = bytes.fromhex("C5 D1 BC DC A2 A5 B0 BC A1 70 79 87 80")  # as the page for authors of clients has it


def test_the_example_of_the_page() -> None:
    assert stamped(b"a", 0) == OF_A_AND_0
    assert stamps.sealed(b"a", 0) == OF_A_AND_0
    assert plain_of(OF_A_AND_0) == (b"a", 0)


def test_lines_that_are_stamped() -> None:
    for text in (b"a", b"", b"123456789", b"\x029", b"TIMESTAMP|x|y|", b"e2e4 " * 200):
        for stamp in (0, 7, 9999999):
            assert stamps.sealed(text, stamp) == stamped(text, stamp)
            assert stamps.text_of(stamped(text, stamp)) == text
    assert stamps.sealed(b"e4", 10_000_007) == stamped(b"e4", 7)  # it begins again at 0


def test_what_is_no_stamped_line() -> None:
    for line in (
        b"",
        b"a",
        b"\x80",
        OF_A_AND_0[:-1],
        OF_A_AND_0[1:],
        b"1" * 12 + b"\x80",
        stamped(b"a", 10000000),
        stamped(b"a", "07"),
        stamped(b"\x02a", 1),
        stamped(b"a" * 1024, 1),
        stamped(b"\t", 1),
    ):
        assert stamps.text_of(line) is None, line


def test_which_are_answered() -> None:
    greeting, move, acknowledged = (stamped(it, 5) for it in (b"TIMESTAMP|a|b|", b"e4", b"\x029"))
    assert not stamps.is_answered(greeting, is_first=True)
    assert stamps.is_answered(greeting, is_first=False)
    for is_first in (True, False):
        assert not stamps.is_answered(acknowledged, is_first)
        for line in (move, b"", b"e4", b"TIMESTAMP|a|b|", acknowledged[:-1]):
            assert stamps.is_answered(line, is_first), line
