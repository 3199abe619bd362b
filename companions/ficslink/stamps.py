"""Stamped lines: a line says at which moment of the client's own clock it was sent, so that the network's delay isn't
charged on the player's clock. docs/CLIENTS.md has their format."""

import re

KEY = b"Timestamp (FICS) v1.0 - programmed by Henrik Gram."
CLOSING = 0x80
GROUP = 12
CYCLE = 10_000_000  # a stamp is below it, in milliseconds
LONGEST = 1033  # bytes of a stamped line without its line feed
GREETING = b"TIMESTAMP|"
ACKNOWLEDGEMENT = b"\x029"

_SWAPPED = ((0, 11), (2, 9), (4, 7))
# text, stamp below 10,000,000 without zeros before it, and no more pads than fill the last group
_PLAIN = re.compile(rb"([^\x18]*)\x18(0|[1-9]\d{0,6})\x19(1{0,11})", re.DOTALL)
_TEXT = re.compile(rb"[ -~]{0,1023}")


def swap(plain: bytearray) -> None:
    """Changes the places within each group of 12 bytes. Twice is as before."""
    for group in range(0, len(plain), GROUP):
        for one, other in _SWAPPED:
            plain[group + one], plain[group + other] = plain[group + other], plain[group + one]


def sealed(text: bytes, stamp: int) -> bytes:
    """The stamped line of a text, or of an acknowledgement, without its line feed."""
    plain = bytearray(text + b"\x18%d\x19" % (stamp % CYCLE))
    plain += b"1" * (-len(plain) % GROUP)
    swap(plain)
    return bytes(((it | 0x80) ^ KEY[n % len(KEY)]) - 32 & 0xFF for n, it in enumerate(plain)) + bytes([CLOSING])


def text_of(line: bytes) -> bytes | None:
    """The text of a stamped line, given without its line feed; none where it isn't exactly a stamped line."""
    if not line or line[-1] != CLOSING or len(line) % GROUP != 1:
        return None
    plain = bytearray(((it + 32) & 0xFF) ^ KEY[n % len(KEY)] ^ 0x80 for n, it in enumerate(line[:-1]))
    swap(plain)
    match = _PLAIN.fullmatch(bytes(plain))
    return match[1] if match and (match[1] == ACKNOWLEDGEMENT or _TEXT.fullmatch(match[1])) else None


def is_answered(line: bytes, is_first: bool) -> bool:
    """Whether the server answers a line: all but acknowledgements, and a greeting where it is the link's first line."""
    text = text_of(line)
    if text is None:
        return True
    return text != ACKNOWLEDGEMENT and not (is_first and text.startswith(GREETING))
