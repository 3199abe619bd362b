"""Lines that come a byte at a time, with each byte 0 to 255 in each place, and telnet units and blocks that never end:
each line has one answer, the one of the rules."""

import time

from trials.client import Client

from .script import tell
from .server import Server
from .witnesses import Witnesses

WORD = b"wxyz"
# a line without blanks that no command begins with, and what `w` alone is, with which two begin
UNKNOWN = b"refused 26 Unknown\n\rfics% "
TWO = b"refused 27 AmbiguousWord\n\rfics% "
BAD = b"refused 56 BadByte\n\rfics% "
PROMPT = b"fics% "
NONE = b"none\n\rfics% "


def lines_of(sent):
    """The lines of what is sent, by the rules of telnet: 255 takes the byte behind it, and so do 251 to 254 behind
    it; two of 255 are one byte; CR and NUL are dropped."""
    line, lines, left = bytearray(), [], list(sent)
    while left:
        byte = left.pop(0)
        if byte == 255 and left:
            second = left.pop(0)
            if second == 255:
                line.append(255)
            elif 251 <= second <= 254 and left:
                left.pop(0)
        elif byte == 10:
            lines.append(bytes(line))
            line.clear()
        elif byte not in (0, 13, 255):
            line.append(byte)
    return lines


def answer_to(line):
    """What a line of these letters is answered."""
    if any(not 32 <= it <= 126 for it in line):
        return BAD
    words = line.split()
    if not words:
        return PROMPT
    if words[0] == b"w":
        return TWO
    return NONE if line == b"inchannel 7" else UNKNOWN


def each_byte(client, tale):
    """Each byte in each place of a line, and a line behind it."""
    wrong = count = 0
    for place in range(len(WORD)):
        for byte in range(256):
            sent = WORD[:place] + bytes([byte]) + WORD[place + 1 :] + b"\ninchannel 7\n"
            client.link.sendall(sent)
            for line in lines_of(sent):
                count += 1
                client.lines += 1
                answer = client.answer()
                if answer != answer_to(line):
                    wrong += 1
                    tale.saw(f"byte {byte} in place {place}: {answer!r}, wanted {answer_to(line)!r}")
    tale.holds(not wrong, f"{count} lines with each byte in each place: {wrong} answered otherwise")


def slowly(client, text):
    """Sends a text a byte at a time, each in a packet of its own."""
    for place in range(len(text)):
        client.link.sendall(text[place : place + 1])
        time.sleep(0.001)


def byte_by_byte(client, tale):
    """A line and an answer, a byte at a time, with telnet units between the letters."""
    slowly(client, b"in\xff\xfd\x01cha\xff\xfa\x18\x00a\xff\xff\xf0\n\xff\xf0nnel\xff\xf9 7\r\n")
    client.lines += 1
    answer = client.answer()
    tale.holds(answer == NONE, f"a byte at a time: {answer!r}")


def units(client, tale):
    """Each byte behind 255, and in each place of a block, between two lines."""
    wrong = 0
    for byte in range(256):
        unit = {255: b"", 250: b"\xff\xfaabc\xff\xf0"}.get(byte, bytes([255, byte]) + b"\x01" * (251 <= byte <= 254))
        block = b"\xff\xfa" + bytes([byte]) * 3 + b"\xff" * (byte == 255) + b"\n\xff\xf0"
        client.link.sendall(unit + block)
        answer = client.ask(b"inchannel 7")
        if answer != NONE:
            wrong += 1
            tale.saw(f"unit {byte}: {answer!r}")
    tale.holds(not wrong, f"256 telnet units and blocks between lines: {wrong} lines answered otherwise")


def endless(port, tale):
    """A link that ends inside a telnet unit, a block, a stamped line and a long line: the server hangs up."""
    for name, rest in (
        ("a unit", b"who\xff"),
        ("a block", b"who\xff\xfa\n\n"),
        ("a stamped line", b"\xc5\xd1\xbc"),
        ("a long line", b"x" * 2000),
    ):
        client = Client(port)
        client.enter(b"Eve")
        client.link.sendall(rest)
        client.link.shutdown(1)
        heard = b""
        while piece := client.link.recv(65536):
            heard += piece
        client.close()
        tale.holds(heard.count(b"fics% ") == 1, f"a link that ends inside {name}: {heard[-40:]!r}, and closed")


def main(given, tale):
    with Server(given.program) as server:
        witnesses = Witnesses(server.port, tale)
        client = Client(server.port)
        client.enter(b"Bytes")
        each_byte(client, tale)
        byte_by_byte(client, tale)
        units(client, tale)
        tale.holds(client.lines == client.answers, f"{client.lines} lines, {client.answers} answers")
        tale.holds(client.quit(), "the client took leave")
        endless(server.port, tale)
        witnesses.finish()


if __name__ == "__main__":
    tell("bytes", __doc__, main)
