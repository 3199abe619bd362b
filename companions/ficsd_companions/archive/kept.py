"""What is known of a game without reading its half-moves: its row in lists, and where in the archive it stands."""

import re
from typing import NamedTuple

TAG = re.compile(rb'^\[(\w+) "((?:[^"\\]|\\.)*)"\]$', re.MULTILINE)
LINK = re.compile(r"(\d{4}-\d\d-\d\d)/([1-9]\d{0,8})")
ESCAPED = re.compile(r"\\(.)")
VARIANTS = {"": "chess", "Crazyhouse": "crazyhouse", "Chess960": "fischer", "Bughouse": "bughouse"}
RESULTS = ("1-0", "0-1", "1/2-1/2", "*")
HALF_MOVE = b"%emt "  # which stands once behind each half-move
FEN = re.compile(r"\S+ ([wb]) \S+ \S+ \S+ ([1-9]\d{0,5})")
SAID = {b"yes": "y", b"no": "n"}  # of who has an account
LONGEST_NAME = 80


class Span(NamedTuple):
    """Where something stands in a file."""

    path: str
    offset: int
    length: int


class Kept(NamedTuple):
    """A game of the archive. The rows of all games are in order by day and number."""

    day: str  # on which it ended, as 2026-11-30
    number: int  # within that day
    white: str
    black: str
    result: str
    variant: str
    control: str  # as 300+3, or -
    half_moves: int
    time: str  # at which it began, as 20:15
    partner: str  # the link of the other board's game, in bughouse
    accounts: str  # whether White and Black had an account, a letter each: y, n, or ? where nothing says it
    ply: int  # how many half-moves were made before the first one that is known
    span: Span

    @property
    def link(self) -> str:
        return f"{self.day}/{self.number}"

    @property
    def players(self) -> tuple[str, str]:
        return self.white, self.black


def tags_of(head: bytes) -> dict[bytes, bytes]:
    """The tags of a game as they stand there, by their names."""
    return dict(TAG.findall(head))


def text_of(value: bytes) -> str:
    """What a tag's value says."""
    text = value.decode("utf-8", "replace")
    return ESCAPED.sub(r"\1", text) if "\\" in text else text


def is_link(text: str) -> bool:
    return LINK.fullmatch(text) is not None


def ply_of(fen: str) -> int:
    """How many half-moves were made before a position, as its FEN says."""
    said = FEN.fullmatch(fen)
    return 2 * int(said[2]) - 2 + (said[1] == "b") if said else 0


class Texts:
    """Of equal texts the one that came first, so that a hundred thousand rows don't have each its own."""

    def __init__(self) -> None:
        self._known: dict[str, str] = {}

    def of(self, text: str) -> str:
        return self._known.setdefault(text, text)


def kept_of(day: str, head: bytes, movetext: bytes, span: Span, texts: Texts) -> Kept | None:
    """The row of a game in a file of that day; none where it isn't one of the scribe's."""
    tags = tags_of(head)

    def said(name: bytes, otherwise: bytes = b"") -> str:
        return text_of(tags.get(name, otherwise))

    link, variant = LINK.fullmatch(said(b"Link")), VARIANTS.get(said(b"Variant"))
    white, black = said(b"White")[:LONGEST_NAME], said(b"Black")[:LONGEST_NAME]
    if not link or link[1] != day or not variant or not white or not black:
        return None
    result, partner = said(b"Result"), said(b"Partner")
    return Kept(
        day,
        int(link[2]),
        texts.of(white),
        texts.of(black),
        texts.of(result if result in RESULTS else "*"),
        variant,
        texts.of(said(b"TimeControl", b"-")),
        movetext.count(HALF_MOVE),
        texts.of(said(b"Time")[:5]),
        partner if is_link(partner) else "",
        texts.of("".join(SAID.get(tags.get(it, b""), "?") for it in (b"WhiteAccount", b"BlackAccount"))),
        ply_of(said(b"FEN")) if b"FEN" in tags else 0,
        span,
    )


def pair_of(head: bytes) -> str:
    """The link of the first board of a pair, in a file of BPGN."""
    link = text_of(tags_of(head).get(b"LinkA", b""))
    return link if is_link(link) else ""
