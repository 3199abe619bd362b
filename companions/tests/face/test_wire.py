"""Bytes: sealed lines, what telnets send of their own, and pieces of any length."""

import os
import shutil
import socket
import subprocess
import threading
import time
from pathlib import Path

import pytest

from ficsd_companions.face import wire
from tests.kit.running import PATIENCE
from tests.kit.stamped import KEY, turned

from .conftest import GREETING, End, Face

SEALED_GREETINGS = (b"TIMESTAMP|ann|a machine|", b"TIMESEAL2|ann (a seal)|a machine|")
# as eboard's own program sent it; behind the text stands the stamp 7287430
SEALED_HELLO = bytes.fromhex("c76cba69a1ccb662a8ac7c6ed8bac27871a7607f61717c7080")

FLUSHES = "DEFAULT toggle autoflush\n"  # of a profile of telnet
# a line behind Ctrl-C: what comes then is shown or isn't
BEHIND_AN_INTERRUPT = """
set timeout 3
spawn telnet 127.0.0.1 $env(PORT)
expect "login: "
send "\\003"
sleep 0.3
send "who\\r"
expect "Ann\\r"
"""


def seal(text: bytes, start: int) -> bytes:
    """A line as timeseal's first version seals it, with the key from that place on."""
    plain = bytearray(text + b"\x1812345\x19")
    plain += b"1" * (12 - len(plain) % 12)
    coded = bytes((((it | 0x80) ^ KEY[(start + n) % 50]) - 32) & 0xFF for n, it in enumerate(turned(plain)))
    return coded + bytes([0x80 | start]) + b"\n"


def test_sealed_lines(face: Face) -> None:
    assert wire.unsealed(SEALED_HELLO) == b"Hello"
    for greeting in SEALED_GREETINGS:
        client, server = face.link()
        client.link.sendall(seal(greeting, 17) + seal(b"Ann", 0) + seal(b"", 49))
        assert server.until(b"\n") == "Ann\n"
        server.say("Entered as Ann.\n\rfics% ")
        client.until(b"fics% ")
        client.link.sendall(seal(b"\x029", 3) + seal(b"tell ben hi there", 31))
        assert server.until(b"\n") == "tell ben hi there\n"


def test_options_of_telnet_are_refused_once_each(face: Face) -> None:
    client, server = face.link()
    interrupt = b"\xff\xf4\xff\xfd\x06"  # what a telnet sends behind Ctrl-C: IAC IP, IAC DO TIMING-MARK
    typed = b"An" + interrupt + b"n\xff\xfb\x1f\xff\xfc\x1f\xff\xfe\x01\xff\xfa\x1f\x00\x50\xff\xf0\xff\xfd\x0a\n"
    for n in range(len(typed)):
        client.link.sendall(typed[n : n + 1])
    assert server.until(b"\n") == "Ann\n"
    # WONT TIMING-MARK, DONT NAWS, WONT option 10, and nothing for WONT and DONT
    assert client.until(b"\xff\xfc\x0a") == "\xff\xfc\x06\xff\xfe\x1f\xff\xfc\x0a"
    client.link.sendall(b"\xff\xf2", socket.MSG_OOB)  # the SYNCH: its last byte is urgent
    client.link.sendall(b"\xff\xfc\x06\xff\xfe\x06" * 1000 + b"\xff\xfd\x06")
    assert client.until(b"\xff\xfc\x06") == "\xff\xfc\x06"
    assert client.heard == b""


@pytest.mark.skipif(not shutil.which("telnet") or not shutil.which("expect"), reason="telnet and expect are missing")
@pytest.mark.parametrize("by_face, profile, shows", [(True, "", True), (False, "", False), (False, FLUSHES, True)])
def test_a_telnet_shows_what_comes_behind_its_interrupt(
    face: Face, tmp_path: Path, by_face: bool, profile: str, shows: bool
) -> None:
    """By the go-between always; straight at the server, which answers no option, where the profile says so."""
    (tmp_path / ".telnetrc").write_text(profile, encoding="utf-8")
    env = {**os.environ, "HOME": str(tmp_path), "PORT": str(face.port if by_face else face.server_port)}
    words = ["expect", "-c", BEHIND_AN_INTERRUPT]
    with subprocess.Popen(words, stdout=subprocess.PIPE, text=True, env=env) as telnet:
        server = End(face.accept())
        server.say(GREETING)
        assert "who" in server.until(b"who\n" if by_face else b"who\r\n")
        server.say("Ann\n\rlogin: ")
        heard = telnet.communicate(timeout=PATIENCE)[0]
    assert ("\nAnn\n" in heard) == shows, heard


def test_no_line_is_lost_however_it_is_cut(face: Face) -> None:
    """Every byte is a piece of its own, both ways; a prompt within a line is text."""
    client, server = face.entered()
    for link in (client.link, server.link):
        link.setsockopt(socket.IPPROTO_TCP, socket.TCP_NODELAY, 1)
    typed = b"\xff\xfb\x01".join(b"zz %d\r\n" % n for n in range(100))
    told = "".join(f"\n\rBen told you: fics% {n}\n\rfics% " for n in range(100)).encode()

    def drip(link: socket.socket, text: bytes) -> None:
        for n in range(len(text)):
            link.sendall(text[n : n + 1])

    drops = [threading.Thread(target=drip, args=it) for it in ((client.link, typed), (server.link, told))]
    for it in drops:
        it.start()
    for n in range(100):
        assert server.until(b"\n") == f"zz {n}\n"
    for it in drops:
        it.join()
    server.say("(told 3)\n\rfics% " * 100)
    heard = client.until(b"told you: fics% 99\n\rfics% ")
    while heard.count("(told 3)") < 100:
        heard += client.until(b"fics% ")
    for n in range(100):
        assert heard.count(f"\n\rBen told you: fics% {n}\n\rfics% ") == 1
    assert heard.count("(told 3)\n\rfics% ") == 100


def test_a_client_that_reads_late_loses_nothing(face: Face) -> None:
    client, server = face.entered()
    lines = 50_000
    text = "".join(f"\n\rBen told you: {n} {'x' * 100}\n\rfics% " for n in range(lines))
    writing = threading.Thread(target=server.say, args=(text,))
    writing.start()
    time.sleep(1)  # for so long nothing is read
    heard = client.until(b"told you: %d " % (lines - 1))
    writing.join()
    assert heard.count("told you: ") == lines
