"""What a tab sends: each text message a line."""

from ficslink import stamps, texts

LONGEST_MESSAGE = 4096  # bytes; of a longer one no more is read


class NoLine(Exception):
    """A message that is no line; its text says why, as the reason of a close (at most 123 bytes)."""


def line_of(text: str) -> bytes:
    """The bytes of a line. Characters above 255 are those of UTF-8, which the server refuses as it does any accent."""
    try:
        line = text.encode("latin-1")
    except UnicodeEncodeError:
        line = text.encode("utf-8", "surrogatepass")
    if any(it in line for it in b"\n\r\0"):
        raise NoLine("a message is one line: it has no line feed, carriage return or zero byte")
    most = stamps.LONGEST if line and line[-1] == stamps.CLOSING else texts.LONGEST
    if len(line) > most:
        raise NoLine(f"a line has at most {most} bytes, and this one has {len(line)}")
    return line
