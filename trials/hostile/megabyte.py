"""A megabyte without a line feed, before the login, behind it, and inside a telnet block: it is one long line or none,
takes no memory, and what comes behind it is answered."""

from trials.client import Client

from .script import tell
from .server import Server
from .witnesses import Witnesses

MEGABYTE = 1 << 20
# what a server may grow by meanwhile, in KiB
ROOM = 2048


def main(given, tale):
    with Server(given.program) as server:
        witnesses = Witnesses(server.port, tale)
        client = Client(server.port)
        before = server.memory()
        client.hear()
        client.link.sendall(b"x" * MEGABYTE)
        client.say(b"")
        answer = client.answer()
        tale.holds(answer == b"refused 29 TooLong\n\rlogin: ", f"at the login: {answer!r}")
        client.ask(b"Max")
        client.link.sendall(b"x" * MEGABYTE)
        client.say(b"")
        answer = client.answer()
        tale.holds(answer == b"refused 29 TooLong\n\rfics% ", f"in the hall: {answer!r}")
        client.link.sendall(b"inch\xff\xfa" + b"annel\n" * (MEGABYTE // 6) + b"\xff\xf0")
        answer = client.ask(b"annel 7")
        tale.holds(answer == b"none\n\rfics% ", f"a line around a block of a megabyte: {answer!r}")
        grown = server.memory() - before
        tale.holds(grown < ROOM, f"the server has {grown} KiB more")
        tale.holds(client.quit(), "the client took leave")
        witnesses.finish()


if __name__ == "__main__":
    tell("megabyte", __doc__, main)
