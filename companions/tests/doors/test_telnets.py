"""Telnets by TLS, and firewalls."""

import shutil
import socket
import subprocess
import sys
import time
from collections.abc import Iterator
from pathlib import Path

import pytest

from tests.kit import paths
from tests.kit.ports import free_port
from tests.kit.proxies import PRINTED, certify, replaced, untrusting
from tests.kit.running import Run, ended

from .conftest import Face, begun
from .pages import example

# two machines: what the first one's ports take, in the words of `connects`
LINKS_AT_A_TIME, PAGE = 8, 30
PORTS = 5001, 443
HOUSES = ("192.0.2.1", "2001:db8::1")
ACCEPTS = f"""
import select, socket
doors = [socket.create_server(("::", it), family=socket.AF_INET6, dualstack_ipv6=True, backlog=100) for it in {PORTS}]
print("ready", flush=True)
kept = []
while True:
    kept += [it.accept() for it in select.select(doors, [], [])[0]]
"""
# writes of each connection how it went, and ends the first ones again where it is told to
CONNECTS = """
import socket, sys, time
source, to, port, count, keeps = sys.argv[1:]
kept = []
for _ in range(int(count)):
    it = socket.socket(socket.AF_INET6 if ":" in source else socket.AF_INET)
    it.settimeout(2)
    try:
        it.bind((source, 0))
        it.connect((to, int(port)))
        print("there")
    except OSError as error:
        print(type(error).__name__)
    kept.append(it)
    if keeps == "no":
        it.setsockopt(socket.SOL_SOCKET, socket.SO_LINGER, b"\\1\\0\\0\\0\\0\\0\\0\\0")
        it.close()
        time.sleep(0.05)  # the kernel counts what has ended only behind its next tick
"""


@pytest.mark.skipif(not shutil.which("stunnel4"), reason="stunnel4 isn't installed")
def test_stunnel(face: Face, tmp_path: Path) -> None:
    port = free_port()
    service = replaced(
        example("OPERATING.md", "ini"),
        (":::5003", f"127.0.0.1:{port}"),
        ("127.0.0.1:5001", f"127.0.0.1:{face.port}"),
        (PRINTED, certify(tmp_path)),
    )
    file = tmp_path / "ficsd.conf"
    file.write_text(f"foreground = yes\npid = {tmp_path}/pid\n{service}", encoding="utf-8")
    tunnel = begun(Run("stunnel4", file), port)
    try:
        with untrusting().wrap_socket(socket.create_connection(("127.0.0.1", port), timeout=60)) as link:
            heard = b""
            for until, answer in ((b"login: ", b"guest\n"), (b'":', b"\n"), (b"fics% ", b"quit\n")):
                while until not in heard:
                    piece = link.recv(65536)
                    assert piece, heard
                    heard += piece
                link.sendall(answer)
        assert b"**** Starting FICS session as Guest" in heard
    finally:
        tunnel.terminate()


class Machines:
    """Two machines with a network between them: `house` has the firewall, `others` has who comes."""

    def __init__(self, name: str) -> None:
        self.house, self.others = f"{name}house", f"{name}others"
        for it in (self.house, self.others):
            ip("netns", "add", it)
        ip("link", "add", "one", "netns", self.house, "type", "veth", "peer", "name", "one", "netns", self.others)
        for it, last in ((self.house, (1,)), (self.others, (2, 3))):
            for n in last:
                ip("-n", it, "addr", "add", f"192.0.2.{n}/24", "dev", "one")
                ip("-n", it, "-6", "addr", "add", f"2001:db8::{n}/48", "dev", "one", "nodad")
            ip("-n", it, "link", "set", "lo", "up")
            ip("-n", it, "link", "set", "one", "up")
        ip("-n", self.others, "-6", "addr", "add", "2001:db8:0:7::2/48", "dev", "one", "nodad")

    def end(self) -> None:
        for it in (self.house, self.others):
            ip("netns", "del", it)

    def went(self, source: str, port: int, count: int, keeps: str = "yes", where: str | None = None) -> list[str]:
        """How so many connections from an address to a port of the house went, in a row."""
        to = HOUSES[":" in source] if where is None else source
        words = "ip", "netns", "exec", where or self.others, sys.executable, "-c", CONNECTS
        return ended(*words, source, to, port, count, keeps).stdout.split()


def ip(*words: str) -> None:
    subprocess.run(["ip", *words], check=True)


@pytest.fixture
def machines(tmp_path: Path) -> Iterator[Machines]:
    it = Machines(f"ficsd{free_port()}")
    try:
        (tmp_path / "rules").write_text(example("OPERATING.md", "nft"), encoding="utf-8")
        for _ in range(2):  # the file may be read again
            ip("netns", "exec", it.house, "nft", "-f", str(tmp_path / "rules"))
        accepting = Run("ip", "netns", "exec", it.house, sys.executable, "-c", ACCEPTS)
        accepting.begin()
        yield it
        accepting.end()
    finally:
        it.end()


@pytest.mark.root
@pytest.mark.skipif(not shutil.which("nft"), reason="nftables isn't installed")
class TestFirewall:
    @pytest.mark.parametrize("source, other", (("192.0.2.2", "192.0.2.3"), ("2001:db8::2", "2001:db8:0:7::2")))
    def test_links_at_a_time(self, machines: Machines, source: str, other: str) -> None:
        refused = ["ConnectionRefusedError"] * 2
        assert machines.went(source, 5001, LINKS_AT_A_TIME + 2) == ["there"] * LINKS_AT_A_TIME + refused
        assert machines.went(other, 5001, 3) == ["there"] * 3

    def test_a_network_of_ipv6_is_one_address(self, machines: Machines) -> None:
        words = "ip", "netns", "exec", machines.others, sys.executable, "-c", CONNECTS + "\nprint('all')\ninput()"
        first = subprocess.Popen(
            [*words, "2001:db8::2", HOUSES[1], "5001", str(LINKS_AT_A_TIME), "yes"],
            stdin=subprocess.PIPE,
            stdout=subprocess.PIPE,
            text=True,
        )
        with first:
            assert first.stdout and first.stdin
            assert [first.stdout.readline() for _ in range(LINKS_AT_A_TIME + 1)][-1] == "all\n"
            assert machines.went("2001:db8::3", 5001, 1) == ["ConnectionRefusedError"]
            first.stdin.close()

    def test_links_in_a_minute(self, machines: Machines) -> None:
        begin = time.monotonic()
        went = machines.went("192.0.2.2", 5001, 22, keeps="no")
        assert went[:20] == ["there"] * 20
        assert "TimeoutError" in went and went.count("there") <= 21 + (time.monotonic() - begin) / 3, went

    def test_the_page_is_let_alone(self, machines: Machines) -> None:
        """Who comes to the proxy, and the go-betweens' own links, which are this machine's."""
        assert machines.went("192.0.2.2", 443, PAGE) == ["there"] * PAGE
        assert machines.went("127.0.0.1", 5001, PAGE, where=machines.house) == ["there"] * PAGE

    def test_an_address_is_kept_out(self, machines: Machines) -> None:
        ban = "nft add element inet ficsd banned '{ 192.0.2.2 timeout 1d }'"
        assert ban.replace("192.0.2.2", "192.0.2.7") in (paths.TOP / "docs" / "OPERATING.md").read_text(
            encoding="utf-8"
        )
        ip("netns", "exec", machines.house, "sh", "-c", ban)
        assert machines.went("192.0.2.2", 443, 1) == ["TimeoutError"]
        assert machines.went("192.0.2.3", 443, 1) == ["there"]
