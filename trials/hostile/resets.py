"""Connections that are cut off, half-open ones, and ones that close the way to the server only: each game of one that
is gone ends, each line that was sent before a proper end is answered, and nothing of them is left."""

import socket
import time

from trials.client import GREETING, HOME, Client

from .script import tell
from .server import Server, settles
from .witnesses import Witnesses

TIMES = 50


def cut_off(port):
    """Connections that are reset at once, behind half a line, behind 255, and behind the login."""
    for text in (b"", b"gue", b"guest\xff", b"guest\n", b"guest\nwho\n"):
        for _ in range(TIMES):
            client = Client(port)
            if text:
                client.link.sendall(text)
            client.reset()


def half_closed(port, tale):
    """Clients that say their lines and close their way to the server: all lines are answered, then it hangs up."""
    whole = 0
    for number in range(TIMES):
        client = Client(port)
        client.link.sendall(b"Hal%s\ninchannel 7\ninchannel 7" % name(number))
        client.link.shutdown(socket.SHUT_WR)
        heard = b""
        while piece := client.link.recv(65536):
            heard += piece
        client.close()
        entered = b"Entered as Hal%s.\n\rfics%% " % name(number)
        whole += heard == GREETING + entered + b"none\n\rfics% " * 2
    tale.holds(whole == TIMES, f"{whole} of {TIMES} that closed their way to the server had all lines answered")


def name(number):
    """Two letters for a number below 676."""
    return bytes([97 + number // 26, 97 + number % 26])


def broken_games(port, tale):
    """Players who are cut off in mid-game, one by a reset and one by an end: each opponent is told so."""
    told = 0
    for number in range(TIMES):
        gone, left = Client(port), Client(port)
        gone.enter(b"Gone" + name(number))
        left.enter(b"Left" + name(number))
        gone.ask(b"match Left%s 0 0 white" % name(number))
        left.ask(b"accept")
        gone.ask(b"e4")
        if number % 2:
            gone.reset()
        else:
            gone.close()
        left.until(b"Gone%s forfeits by disconnection} 0-1" % name(number))
        told += left.quit()
    tale.holds(told == TIMES, f"{told} of {TIMES} were told that an opponent was gone, and took leave")


def half_open(port, count):
    """Connections over which nothing ever comes."""
    return [socket.create_connection((HOME, port)) for _ in range(count)]


def main(given, tale):
    with Server(given.program) as server:
        witnesses = Witnesses(server.port, tale)
        threads, descriptors = server.threads(), server.descriptors()
        silent = half_open(server.port, TIMES)
        cut_off(server.port)
        half_closed(server.port, tale)
        broken_games(server.port, tale)
        time.sleep(1)
        for link in silent:
            link.close()
        left = settles(server.threads, threads), settles(server.descriptors, descriptors)
        tale.holds(left == (threads, descriptors), f"{left[0]} threads and {left[1]} descriptors are left, as before")
        client = Client(server.port)
        client.enter(b"Last")
        names = client.ask(b"who").split(b"\n\r")
        tale.holds(names == [b"Boris", b"Last", b"Wanda", b"fics% "], f"in the hall are {names[:-1]}")
        tale.holds(client.quit(), "the client took leave")
        witnesses.finish()


if __name__ == "__main__":
    tell("resets", __doc__, main)
