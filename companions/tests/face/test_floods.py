"""Clients that do harm, and those beside them."""

import socket
import statistics
import threading
import time
from collections.abc import Callable
from contextlib import suppress

from tests.kit.running import wait_until

from .conftest import GREETING, End, Face, end_of

AT_MOST, EVER = 0.05, 0.2  # seconds of the go-between's processor time, for nine of ten answers and for all
# by the clock, of what answers take at the median of a calm run: at the median, and for nine of ten
MEDIAN_AT_MOST, NINE_AT_MOST = 10, 30
MIB, FLOOD = 2**20, "You are cut off: a flood"
MOST_MEMORY = 300 * MIB
READING_SECONDS = 60
TELL = b"\n\rBen told you: " + b"x" * 400 + b"\n\rfics% "


def in_words(delays: list[float]) -> str:
    """Delays, the shortest first."""
    half, nine, last = (1000 * it for it in (statistics.median(delays), delays[len(delays) * 9 // 10], delays[-1]))
    return f"median {half:.1f} ms, nine of ten below {nine:.1f}, the slowest {last:.1f}"


def in_background(act: Callable[[], object]) -> None:
    threading.Thread(target=act, daemon=True).start()


def answer_further_links(face: Face, answer: Callable[[socket.socket], None]) -> None:
    """Takes each further link of the server, and deals with it by that."""

    def answer_it(link: socket.socket) -> None:
        with suppress(OSError):
            answer(link)

    def serve() -> None:
        with suppress(OSError):
            while True:
                threading.Thread(target=answer_it, args=(face.accept(),), daemon=True).start()

    in_background(serve)


def prompts(link: socket.socket) -> None:
    """Answers each line with a prompt."""
    link.sendall(GREETING.encode())
    while piece := link.recv(65536):
        link.sendall(b"fics% " * piece.count(b"\n"))


def talks(link: socket.socket) -> None:
    """Tells something without end."""
    link.sendall(GREETING.encode())
    while True:
        link.sendall(TELL * 64)


def harm(face: Face, count: int, text: bytes, reads: bool = True) -> list[str | None]:
    """Clients that send a text as fast as it is taken, until they are cut off; and what each was told."""
    told: list[str | None] = []

    def one() -> None:
        link = face.connect()
        if reads:
            in_background(lambda: told.append(end_of(link, READING_SECONDS)))
        with suppress(OSError):
            while True:
                link.sendall(text)

    for _ in range(count):
        in_background(one)
    return told


def delays(face: Face, client: End, server: End, seconds: float) -> tuple[list[float], list[float]]:
    """How long answers take meanwhile, in seconds by the clock and by the go-between's processor time, each the
    shortest first. Where the machine has time for it the two are the same."""
    waited, costs, end = [], [], time.monotonic() + seconds
    while time.monotonic() < end:
        begin, cost = time.perf_counter(), face.run.exact_seconds()
        client.say("zz hi\n")
        server.until(b"\n")
        server.say("(told 1)\n\rfics% ")
        client.until(b"fics% ")
        waited.append(time.perf_counter() - begin)
        costs.append(face.run.exact_seconds() - cost)
        time.sleep(0.1)  # so that the answers are spread over that time
    return sorted(waited), sorted(costs)


def check_harm(face: Face, count: int, text: bytes) -> None:
    client, server = face.entered()
    answer_further_links(face, prompts)
    alone, _ = delays(face, client, server, 2)
    told = harm(face, count, text)
    waited, costs = delays(face, client, server, 6)
    print(
        f"\n{count} beside: {in_words(waited)}; in processor time {in_words(costs)}; alone {in_words(alone)}; "
        f"{face.memory() / MIB:.0f} MiB",
        flush=True,
    )
    calm = statistics.median(alone)
    assert statistics.median(waited) < MEDIAN_AT_MOST * calm
    assert waited[len(waited) * 9 // 10] < NINE_AT_MOST * calm
    assert costs[len(costs) * 9 // 10] < AT_MOST
    assert costs[-1] < EVER
    # the words reach who reads while it sends; who doesn't is cut off all the same
    wait_until(lambda: any(FLOOD in (it or "") for it in told), unless=lambda: len(told) == count)
    assert any(FLOOD in (it or "") for it in told), told
    assert face.memory() < MOST_MEMORY


def test_empty_lines_of_1(face: Face) -> None:
    check_harm(face, 1, b"\n" * 65536)


def test_empty_lines_of_32(face: Face) -> None:
    check_harm(face, 32, b"\n" * 65536)


def test_telnet_options_of_32(face: Face) -> None:
    check_harm(face, 32, b"\xff\xfd\x06" * 16384)


def test_long_lines_of_32(face: Face) -> None:
    check_harm(face, 32, (b"x" * 1000 + b"\n") * 64)


def test_memory_beside_clients_that_dont_read(face: Face) -> None:
    answer_further_links(face, talks)
    harm(face, 200, b"Ann\n" + b"set a b\n" * 4096, reads=False)
    most, end = 0, time.monotonic() + 15  # for so long they heap up what they can
    while time.monotonic() < end:
        time.sleep(0.25)
        most = max(most, face.memory())
    print(f"\n200 clients that don't read: at most {most / MIB:.0f} MiB", flush=True)
    assert most < MOST_MEMORY
