"""Lines with a time stamp, sealed and opened by what the page for authors of clients says of them."""

import re

KEY = b"Timestamp (FICS) v1.0 - programmed by Henrik Gram."


def turned(text: bytes) -> bytearray:
    """The bytes with the places of each group of 12 changed."""
    plain = bytearray(text)
    for start in range(0, len(plain), 12):
        for one, other in ((0, 11), (2, 9), (4, 7)):
            plain[start + one], plain[start + other] = plain[start + other], plain[start + one]
    return plain


def stamped(text: bytes, stamp: int | str) -> bytes:
    """A stamped line without its line feed."""
    plain = bytearray(text + b"\x18" + str(stamp).encode() + b"\x19")
    while len(plain) % 12:
        plain += b"1"
    return bytes(((b | 0x80) ^ KEY[n % 50]) - 32 & 0xFF for n, b in enumerate(turned(plain))) + b"\x80"


def plain_of(line: bytes) -> tuple[bytes, int]:
    """The text and the stamp of a stamped line without its line feed."""
    if line[-1] != 0x80 or len(line) % 12 != 1:
        raise AssertionError(f"{line!r} isn't stamped")
    plain = bytes(turned(bytes(((b + 32) & 0xFF ^ KEY[n % 50]) & 0x7F for n, b in enumerate(line[:-1]))))
    if not (match := re.fullmatch(rb"(.*)\x18(\d+)\x191*", plain, re.DOTALL)):
        raise AssertionError(f"{plain!r} has no stamp")
    return match[1], int(match[2])
