"""How much one client, one address and all together may have."""

import select
import threading
import time
from contextlib import suppress

import pytest

from tests.kit import paths
from tests.kit.running import PATIENCE

from .conftest import GREETING, LINKS, End, Face, end_of

FROM_ONE = 32  # where nothing is said
LOGIN_SECONDS, GONE_WITHIN = 120, 70
GUESSES = 10
METHODS = ("GET", "HEAD", "POST", "PUT", "DELETE", "OPTIONS", "PATCH", "CONNECT", "TRACE", "PRI")


@pytest.mark.slow
def test_a_client_that_takes_nothing_is_cut_off(face: Face) -> None:
    _, server = face.entered()
    server.link.settimeout(GONE_WITHIN)
    begin = time.monotonic()
    with pytest.raises(OSError):
        while time.monotonic() - begin < GONE_WITHIN:
            server.say("\n\rBen told you: " + "x" * 400 + "\n\rfics% ")
    assert time.monotonic() - begin < GONE_WITHIN


def test_what_is_set_is_bounded(face: Face) -> None:
    client, _ = face.entered()
    refused = 0
    for n in range(100):
        client.say(f"set v{n} {'x' * (n + 100)}\n")
        refused += "isn't kept" in client.until(b"fics% ")
    assert refused == 100 - (64 - 4)  # four have values at first
    client.say(f"set style {'x' * 500}\nset seek {'x' * 500}\niset block {'x' * 500}\n")
    client.until(b"fics% ")
    assert "isn't kept" in client.until(b"fics% ")
    assert "isn't kept" in client.until(b"fics% ")


@pytest.mark.parametrize("method", METHODS)
def test_a_browsers_request_is_cut_off(face: Face, method: str) -> None:
    for cut in (1, 3, 10, 500):
        with face.connect() as link, face.accept() as server:
            text = f"{method} / HTTP/1.1\r\nHost: x\r\n\r\nguest\r\nshout hi\r\n".encode()
            with suppress(OSError):
                for at in range(0, len(text), cut):
                    link.sendall(text[at : at + cut])
                    time.sleep(0.001)  # so that the pieces come one by one
            assert end_of(server, 10) == ""
            assert end_of(link, 10) is not None


def test_the_page_names_the_methods_that_are_cut_off() -> None:
    page = (paths.TOP / "docs" / "INTERFACES.md").read_text(encoding="utf-8")
    assert ", ".join(f"`{it}`" for it in METHODS) in page


def test_256_clients_and_no_more(face: Face) -> None:
    links = [face.link() for _ in range(LINKS)]
    with face.connect() as other:
        assert "The club is full" in (end_of(other, 10) or "")
    client, server = links[0]
    client.link.close()
    assert end_of(server.link, 10) is not None
    server.link.close()
    comer = face.connect()
    while face.door not in select.select([face.door, comer], [], [], PATIENCE)[0]:  # the place isn't free yet
        assert "The club is full" in (end_of(comer, 10) or "")
        comer = face.connect()
    End(face.accept()).say(GREETING)
    End(comer).until(b"login: ")


def test_guesses_are_slowed(face: Face) -> None:
    client, server = face.link()
    guesses, until = 0, time.monotonic() + 5
    server.link.settimeout(1)
    while time.monotonic() < until:
        client.say("Ann\n")
        assert server.until(b"\n") == "Ann\n"
        server.say("password: ")
        client.until(b"password: ")
        client.say(f"guess{guesses}\n")
        try:
            while b"\n" not in server.heard:
                server.heard += server.link.recv(100)
        except TimeoutError:
            break
        assert server.until(b"\n") == f"guess{guesses}\n"
        guesses += 1
        server.say("refused 23 WrongPassword\n\rlogin: ")
        client.until(b"login: ")
    assert guesses in (GUESSES, GUESSES + 1)


@pytest.mark.slow
def test_who_doesnt_log_in_is_cut_off(face: Face) -> None:
    client, server = face.link()
    entered, _ = face.entered("Bea")
    assert end_of(client.link, LOGIN_SECONDS - 10) is None
    assert "Nobody logged in" in (end_of(client.link, 40) or "")
    assert end_of(server.link, 10) == ""
    entered.link.settimeout(1)
    with pytest.raises(TimeoutError):
        entered.link.recv(1)


class TestOneAddress:
    """As many links as an address has where nothing is said."""

    @pytest.fixture
    def links_from_one(self) -> int:
        return FROM_ONE

    def test_32_clients_from_one_address_and_no_more(self, face: Face) -> None:
        for _ in range(FROM_ONE):
            face.link()
        with face.connect() as other:
            assert "too many links from your address" in (end_of(other, 10) or "")
        other = face.connect("127.0.0.2")
        face.accept()
        assert end_of(other, 1) is None

    def test_who_comes_again_and_again_has_to_wait(self, face: Face) -> None:
        """Many at a time, since what may come grows meanwhile."""
        heard: list[str | None] = []

        def come() -> None:
            for _ in range(8):
                with face.connect() as other:
                    other.sendall(b"GET / HTTP/1.1\r\n")
                    heard.append(end_of(other, 30))

        threads = [threading.Thread(target=come) for _ in range(FROM_ONE - 8)]
        for it in threads:
            it.start()
        for it in threads:
            it.join()
        assert any("come back in a minute" in (it or "") for it in heard)
