"""Links as they begin and end, and the words of the command line."""

import socket

import pytest

from tests.kit import paths
from tests.kit.ports import free_port
from tests.kit.running import PATIENCE, Run, ended

from .conftest import LINKS, Face

FAREWELL = "(told ben)\n\rfics% \n\rLogging you out.\n\rThank you for playing.\n\r"


def test_a_client_that_says_all_at_once_and_ends(face: Face) -> None:
    client, server = face.link()
    client.say("Ann\n\ntell ben hi\nquit\n")
    client.link.shutdown(socket.SHUT_WR)
    assert server.until(b"\n") == "Ann\n"
    server.say("Entered as Ann.\n\rfics% ")
    assert server.rest() == "tell ben hi\nquit\n"
    server.say("(told 1)\n\rfics% Goodbye.\n\r")
    server.link.close()
    assert client.rest().endswith(FAREWELL)


def test_256_links_and_the_end_with_the_server(face: Face) -> None:
    links = [face.entered("Ann") for _ in range(LINKS)]
    for n, (client, server) in enumerate(links):
        client.say(f"shout {n}\n")
    for n, (client, server) in enumerate(links):
        assert server.until(b"\n") == f"shout {n}\n"
        server.say(f"(told {n})\n\rfics% \n\rThe last line of {n}.\n\rfics% ")
    for it in [face.watch] + [server.link for _, server in links]:
        it.close()
    face.door.close()
    for n, (client, server) in enumerate(links):
        heard = client.rest()
        assert f"(shouted to {n} players)" in heard
        assert f"The last line of {n}." in heard
    assert face.run.rest() == 0
    assert face.run.out == ["ready", "closed"]


def test_a_client_that_leaves(face: Face) -> None:
    client, server = face.entered()
    client.say("tell ben bye\nquit\n")
    assert server.until(b"quit\n") == "tell ben bye\nquit\n"
    server.say("(told 1)\n\rfics% Goodbye.\n\r")
    server.link.close()
    assert client.rest().endswith(FAREWELL)


@pytest.mark.parametrize(
    "words, status",
    [
        (["--help"], 0),
        ([], 2),
        (["--server", "x", "--listen", "1"], 2),
        (["--server", "localhost:5000", "--listen", "70000"], 2),
        (["--server", "127.0.0.1:1", "--listen", "59999"], 1),
        (["--server", "[::1]:1", "--listen", "59999"], 1),
    ],
)
def test_statuses(words: list[str], status: int) -> None:
    assert ended(paths.companion("fics_face"), *words).returncode == status


def test_a_server_at_an_address_of_ipv6() -> None:
    with socket.create_server(("::1", 0), family=socket.AF_INET6) as door:
        run = Run(paths.companion("fics_face"), "--server", f"[::1]:{door.getsockname()[1]}", "--listen", free_port())
        door.settimeout(PATIENCE)
        link = door.accept()[0]
        run.begin()
        link.close()
        assert run.rest() == 0
