"""A client's bytes: telnet's own, lines, and sealed lines."""

from ficslink.stamps import GROUP, KEY, swap

IAC, SB, SE, WILL, WONT, DO, DONT = 255, 250, 240, 251, 252, 253, 254
LONGEST = 2048  # the server refuses a line of 1,024 bytes, so no more than that need be kept of a longer one


class Telnet:
    """Takes telnet's own bytes out of what a client sends, however that is cut into pieces, and refuses each option
    that it asks for (RFC 854): a DO is answered WONT, and a WILL is answered DONT. So is DO TIMING-MARK (RFC 860),
    which a telnet sends behind Ctrl-C, showing nothing more until it is answered. WONT and DONT say what is so already
    and have no answer, so two programs never answer each other without end (RFC 1143). Other commands do nothing."""

    REFUSED_BY = {DO: WONT, WILL: DONT}

    def __init__(self) -> None:
        self.state = "text"
        self.verb = 0
        self.due = bytearray()

    def text(self, piece: bytes) -> bytes:
        """What of the piece is text."""
        if self.state == "text" and IAC not in piece:
            return piece
        kept = bytearray()
        for byte in piece:
            self.state = self.after(byte, kept)
        return bytes(kept)

    def answers(self) -> bytes:
        """The answers that are due to the client since they were asked for last."""
        due, self.due = bytes(self.due), bytearray()
        return due

    def after(self, byte: int, kept: bytearray) -> str:
        """The state behind a byte, which is kept where it is text."""
        if self.state == "text":
            if byte == IAC:
                return "command"
            kept.append(byte)
        elif self.state == "command":
            return self.after_command(byte, kept)
        elif self.state == "option" and self.verb in self.REFUSED_BY:
            self.due += bytes((IAC, self.REFUSED_BY[self.verb], byte))
        elif self.state == "block":
            return "block's command" if byte == IAC else "block"
        elif self.state == "block's command" and byte != SE:
            return "block"
        return "text"

    def after_command(self, byte: int, kept: bytearray) -> str:
        """The state behind the byte that follows an IAC."""
        if WILL <= byte <= DONT:
            self.verb = byte
            return "option"
        if byte == IAC:
            kept.append(byte)
        return "block" if byte == SB else "text"


class Lines:
    """Cuts a client's text into lines."""

    def __init__(self) -> None:
        self.telnet = Telnet()
        self.rest = b""

    def of(self, piece: bytes) -> list[bytes]:
        """The lines that are whole with this piece, without their ends."""
        *lines, self.rest = (self.rest + self.telnet.text(piece)).split(b"\n")
        self.rest = self.rest[:LONGEST]
        return [it.replace(b"\r", b"").replace(b"\0", b"")[:LONGEST] for it in lines]


def unsealed(line: bytes) -> bytes | None:
    """The text of a line that timeseal's first version has sealed; none where it isn't sealed."""
    if len(line) < 13 or not 0x80 <= line[-1] < 0x80 + len(KEY) or len(line) % GROUP != 1:
        return None
    start = line[-1] - 0x80
    plain = bytearray((((byte + 32) & 0xFF) ^ KEY[(start + n) % len(KEY)]) & 0x7F for n, byte in enumerate(line[:-1]))
    swap(plain)
    text, mark, stamp = bytes(plain).partition(b"\x18")
    return text if mark and b"\x19" in stamp else None
