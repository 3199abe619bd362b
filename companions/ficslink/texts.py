"""The server's bytes: how what it writes is cut into messages and parts, and how a line is spelled for it.

- A *message* is one of three: a line without its end (`\\n\\r`), which may be empty; a prompt, exactly `login: `,
  `password: ` or `fics% `, blank and all; and on a stamped link `[G]` and a zero byte, which ask for an
  acknowledgement of the board in the message before. Prompts and `[G]` have no line end; each is known by standing
  where a line begins, so the same letters within a line are text of the line.
- A *part* is the messages up to a prompt and with it. The server writes whole parts and nothing between them, but for
  what it says last before it closes, which has no prompt.
- A part that begins with an empty message is *news* and answers nothing: the server begins so what it says unasked,
  to stand below a prompt. Each other part is the *answer* to the earliest line that isn't answered yet; no answer
  begins with an empty line. The first part of a link, with `login: ` behind it, answers no line.
- Not answered are a stamped greeting as the first line of a link, and acknowledgements.
"""

import re
from typing import NamedTuple

from .errors import BadLine, TooLong

LOGIN, PASSWORD, READY = "login: ", "password: ", "fics% "
PROMPTS = (LOGIN, PASSWORD, READY)
WANTS_ACKNOWLEDGEMENT = "[G]\0"
NEWS_BEGIN = ""  # the message with which news begin
LONGEST = 1023  # bytes of a line's text
MOST_BYTES = 65536  # of one message; the server writes none that is nearly so long
IAC = b"\xff"

_WANTS_ACKNOWLEDGEMENT = WANTS_ACKNOWLEDGEMENT.encode()
_MARK = re.compile(b"|".join(re.escape(it.encode()) for it in (*PROMPTS, WANTS_ACKNOWLEDGEMENT)))  # they have no end
_LINE_END = b"\n\r"
_CONTROL = re.compile("[\0-\x1f\x7f-\x9f]")


class Message(NamedTuple):
    """A line, a prompt or a wish for an acknowledgement. The characters of its text are bytes."""

    text: str
    is_prompt: bool


class Messages:
    """The messages of a link, however its bytes are cut into pieces."""

    def __init__(self) -> None:
        self._rest = b""

    def of(self, piece: bytes) -> list[Message]:
        """The messages that are whole with this piece. `TooLong` where one has no end."""
        text, at = self._rest + piece, 0
        messages: list[Message] = []
        while at < len(text):
            if mark := _MARK.match(text, at):
                at = mark.end()
                messages.append(Message(mark[0].decode(), mark[0] != _WANTS_ACKNOWLEDGEMENT))
                continue
            end = text.find(_LINE_END, at)
            if end < 0:
                break
            messages.append(Message(text[at:end].decode("latin-1"), False))
            at = end + len(_LINE_END)
        self._rest = text[at:]
        if len(self._rest) > MOST_BYTES:
            raise TooLong(f"what comes has no end of a line within {MOST_BYTES} bytes")
        return messages

    def left(self) -> list[Message]:
        """What was cut off by the end of the link, as a last message."""
        rest, self._rest = self._rest, b""
        return [Message(rest.decode("latin-1"), False)] if rest else []


class Part(NamedTuple):
    """What the server writes in one go: lines, and the prompt behind them."""

    lines: list[str]
    prompt: str

    @property
    def is_news(self) -> bool:
        """Whether it answers nothing."""
        return self.lines[:1] == [NEWS_BEGIN]

    @property
    def said(self) -> list[str]:
        """Its lines without the empty one with which news begin."""
        return self.lines[1:] if self.is_news else self.lines


class Parts:
    """The parts of a link that isn't stamped, however its bytes are cut into pieces."""

    def __init__(self) -> None:
        self._messages = Messages()
        self._lines: list[str] = []

    def of(self, piece: bytes) -> list[Part]:
        """The parts that are whole with this piece. `TooLong` where a message has no end."""
        parts = []
        for message in self._messages.of(piece):
            if message.is_prompt:
                parts.append(Part(self._lines, message.text))
                self._lines = []
            else:
                self._lines.append(message.text)
        return parts

    def left(self) -> list[str]:
        """What came behind the last prompt, as lines: a farewell, or a part that was cut off."""
        lines = self._lines + [it.text for it in self._messages.left()]
        self._lines = []
        return lines


def checked(line: str) -> bytes:
    """The bytes of a line that the server takes; `BadLine` where it would refuse one of them, or their number."""
    if bad := re.search("[^ -~]", line):
        raise BadLine(f"the server takes no {bad[0]!r}: a line has the characters from 0x20 to 0x7E alone")
    if len(line) > LONGEST:
        raise BadLine(f"a line has at most {LONGEST} characters, and this one has {len(line)}")
    return line.encode("ascii")


def spelled(line: bytes) -> bytes:
    """A line as it goes over telnet, with its end."""
    return line.replace(IAC, IAC + IAC) + b"\n"


def shown(text: str) -> str:
    """A text as it may be written to a terminal or a log: its control characters are told by their numbers."""
    return _CONTROL.sub(lambda it: f"\\x{ord(it[0]):02x}", text)
