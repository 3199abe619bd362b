"""What the server writes is cut into the same messages and parts, however its bytes come, and what is written to a
terminal has no control characters."""

from collections.abc import Iterable, Iterator

from ficslink.texts import Messages, Parts, shown, spelled

WRITTEN = (
    b"Free Internet Chess Server profile\n\rlogin: password: Entered as Ann.\n\rfics% \n\r"
    b"Ben tells you: login: fics% [G]\n\rfics% <12> board 1\n\r[G]\0<b1> game 1 white [] black []\n\rfics% "
    b"login\n\rfics%\n\rfics% \n\r\n\rGoodbye.\n\r[G"
)
MESSAGES = [
    "Free Internet Chess Server profile",
    "login: ",
    "password: ",
    "Entered as Ann.",
    "fics% ",
    "",
    "Ben tells you: login: fics% [G]",
    "fics% ",
    "<12> board 1",
    "[G]\0",
    "<b1> game 1 white [] black []",
    "fics% ",
    "login",
    "fics%",
    "fics% ",
    "",
    "",
    "Goodbye.",
    "[G",
]
PARTS = [
    (["Free Internet Chess Server profile"], "login: "),
    ([], "password: "),
    (["Entered as Ann."], "fics% "),
    (["", "Ben tells you: login: fics% [G]"], "fics% "),
    (["<12> board 1", "[G]\0", "<b1> game 1 white [] black []"], "fics% "),
    (["login", "fics%"], "fics% "),
]


def messages(pieces: Iterable[bytes]) -> list[str]:
    cutter = Messages()
    told = [it for piece in pieces for it in cutter.of(piece)] + cutter.left()
    assert [it.text for it in told if it.is_prompt] == [
        it for it in MESSAGES if it in ("login: ", "password: ", "fics% ")
    ]
    return [it.text for it in told]


def all_pieces() -> Iterator[list[bytes]]:
    """All that was written, in one piece, byte by byte, and cut once at each place."""
    yield [WRITTEN]
    yield [bytes([it]) for it in WRITTEN]
    for at in range(len(WRITTEN)):
        yield [WRITTEN[:at], WRITTEN[at:]]


def test_messages() -> None:
    for pieces in all_pieces():
        assert messages(pieces) == MESSAGES, pieces


def test_parts() -> None:
    for pieces in all_pieces():
        cutter = Parts()
        assert [tuple(it) for piece in pieces for it in cutter.of(piece)] == PARTS, pieces
        assert cutter.left() == ["", "", "Goodbye.", "[G"]
    assert [it.is_news for it in Parts().of(WRITTEN)] == [False, False, False, True, False, False]


def test_a_prompt_doesnt_wait_for_what_follows() -> None:
    assert [it.text for it in Messages().of(b"fics% ")] == ["fics% "]
    assert Messages().of(b"fics%") == []


def test_telnets_own_byte_stands_twice() -> None:
    assert spelled(b"a\xffb") == b"a\xff\xffb\n"


def test_control_characters_are_shown_by_their_numbers() -> None:
    assert shown("a\x1b[2J\x07\x9b\x7f\nb \xe9") == "a\\x1b[2J\\x07\\x9b\\x7f\\x0ab \xe9"
