"""Round trips of `ficsd serve` over loopback, of empty lines, of moves and of `who`, beside an echo server of one
thread a link and, where a second program is named, beside that one, all in the same run; and what idle links take.

Each number is the median of seven rounds, in which the servers take turns. It wants a C compiler, and for instructions
valgrind.
"""

import argparse
import os
import subprocess
import tempfile
import time
from pathlib import Path
from statistics import median

from bench.measure import checked, machine, processor_seconds, resident, words_for
from bench.serve.listening import wait_for
from tests.kit.ports import free_port

HERE = Path(__file__).resolve().parent

PROMPT = "fics% "
PAUSES_A_SECOND = 10  # of a link that says nothing
CASES = (("empty", (1, 16, 256)), ("moves", (2, 16, 64, 256)), ("who", (16, 64, 256)))
SHORT = (("moves", (2, 16, 64, 256)), ("who", (256,)))
IDLE = (64, 256)
COUNTED_MOVES = 1_000
COUNTED_IDLE = 16


def compiled(name, folder):
    """The C program of this folder."""
    program = os.path.join(folder, name)
    subprocess.run(["cc", "-O2", "-o", program, str(HERE / f"{name}.c"), "-lpthread"], check=True)
    return program


class Server:
    """A server at a port of its own: the echo server, or a build of the program."""

    def __init__(self, name, words, port):
        self.name, self.port = name, port
        self.process = subprocess.Popen(words, stdout=subprocess.DEVNULL)
        wait_for(port)

    @staticmethod
    def echo(program):
        port = free_port()
        return Server("echo", [program, str(port)], port)

    @staticmethod
    def of(name, program):
        port = free_port()
        return Server(name, [program, "serve", "--port", str(port)], port)

    def trips(self, load, links, seconds, kind):
        """Round trips a second, and the server's microseconds of processor time for each. As many lines are under way
        at the echo server: one a link, one a pair of players, or one of all where a member asks who is in the hall."""
        end = PROMPT
        if self.name == "echo":
            links, end, kind = {"moves": links // 2, "who": 1}.get(kind, links), "\n", "echo"
        before = processor_seconds(self.process.pid)
        words = [load, str(self.port), str(links), str(seconds), end, kind]
        said = subprocess.run(words, stdout=subprocess.PIPE, text=True, check=True)
        count, took = said.stdout.split()
        taken = processor_seconds(self.process.pid) - before
        time.sleep(0.5)  # the sessions leave
        return int(count) / float(took), 1e6 * taken / max(int(count), 1)

    def idle(self, load, links, seconds):
        """The share of a processor that idle links take, and the resident memory with them."""
        said = [load, str(self.port), str(links), str(seconds + 1), "x", "idle"]
        idle = subprocess.Popen(said, stdout=subprocess.PIPE, text=True)
        idle.stdout.readline()
        before, start = processor_seconds(self.process.pid), time.monotonic()
        time.sleep(seconds)
        share = (processor_seconds(self.process.pid) - before) / (time.monotonic() - start)
        size = resident(self.process.pid)
        idle.wait()
        time.sleep(0.5)
        return share, size


def medians(servers, rounds, measured):
    """Measures each server once a round, in turn, and gives the medians of its numbers."""
    found = {it.name: [] for it in servers}
    for _ in range(rounds):
        for it in servers:
            found[it.name].append(measured(it))
    return {name: [median(column) for column in zip(*rows)] for name, rows in found.items()}


def print_trips(servers, kind, links, rows):
    """A line for each server: its rate, its processor time, and how its rate stands to those of the echo server and
    of the base."""
    for it in servers:
        rate, cost = rows[it.name]
        beside = [name for name in ("echo", "base") if name in rows and it.name not in ("echo", name)]
        said = "".join(f"  {100 * rate / rows[name][0]:.0f} % of {name}" for name in beside)
        print(f"{kind:6}{links:4} links  {it.name:5}{rate:10.0f} a second{cost:8.1f} us each{said}", flush=True)


def print_idle(servers, links, rows):
    """A line for each server: the share of a processor, the time of one link's pause, and the memory."""
    for it in servers:
        share, size = rows[it.name]
        each = 1e6 * share / (links * PAUSES_A_SECOND)
        said = f"{100 * share:9.1f} % of a processor{each:8.1f} us a pause  {size:.0f} KiB"
        print(f"idle  {links:4} links  {it.name:5}{said}", flush=True)


def instructions(load, program, folder, links, rest, kind):
    """The instructions of a run under callgrind in which so many links play or idle."""
    port, out = free_port(), os.path.join(folder, "callgrind")
    grind = ["valgrind", "--tool=callgrind", f"--callgrind-out-file={out}", program]
    with open(os.path.join(folder, "said"), "w") as said:
        words = [*grind, "serve", "--port", str(port), "--count", str(links)]
        server = subprocess.Popen(words, stdout=subprocess.PIPE, stderr=said)
        server.stdout.readline()  # ready
        words = [load, str(port), str(links), str(rest), PROMPT, kind]
        subprocess.run(words, stdout=subprocess.DEVNULL, check=True)
        server.communicate()
    with open(out) as found:
        return next(int(line.split()[1]) for line in found if line.startswith(("summary:", "totals:")))


def print_instructions(load, builds, folder):
    """The instructions of a move and of an idle link's pause, each from two runs of which one is longer."""
    for name, program in builds:
        few = instructions(load, program, folder, 2, COUNTED_MOVES, "counted")
        many = instructions(load, program, folder, 2, 3 * COUNTED_MOVES, "counted")
        print(f"{name}: {(many - few) / (2 * COUNTED_MOVES):.0f} instructions a move", flush=True)
        few = instructions(load, program, folder, COUNTED_IDLE, 3, "idle")
        many = instructions(load, program, folder, COUNTED_IDLE, 9, "idle")
        pauses = 6 * COUNTED_IDLE * PAUSES_A_SECOND
        print(f"{name}: {(many - few) / pauses:.0f} instructions a pause of an idle link", flush=True)


def print_all(load, servers, given):
    """All cases, each with a line for each server."""
    rounds, seconds = (3, 1) if given.short else (7, 3)
    builds = [it for it in servers if it.name != "echo"]
    for it in builds:
        print(f"memory before the first link: {it.name} {resident(it.process.pid)} KiB")
    for links in IDLE[-1:] if given.short else IDLE:
        print_idle(builds, links, medians(builds, rounds, lambda it: it.idle(load, links, seconds)))
    for kind, counts in SHORT if given.short else CASES:
        for links in counts:
            rows = medians(servers, rounds, lambda it: it.trips(load, links, seconds, kind))
            print_trips(servers, kind, links, rows)
    for it in builds:
        print(f"memory once all have left: {it.name} {resident(it.process.pid)} KiB")


def options() -> argparse.Namespace:
    given = words_for("fics_server", __doc__)
    given.add_argument("base", nargs="?", type=Path, metavar="BASE", help="another build of it, to compare with")
    given.add_argument(
        "--short", action="store_true", help="three rounds of one second over fewer cases, for a machine that is busy"
    )
    given.add_argument(
        "--instructions",
        action="store_true",
        help="counts those of a move and of an idle link's pause "
        "by `valgrind --tool=callgrind` in place of the rest",
    )
    return given.parse_args()


def main() -> None:
    given = options()
    builds = [(name, checked(it)) for name, it in (("base", given.base), ("ficsd", given.program)) if it]
    print(machine())
    with tempfile.TemporaryDirectory() as folder:
        load = compiled("load", folder)
        if given.instructions:
            print_instructions(load, builds, folder)
            return
        servers = []
        try:
            servers.append(Server.echo(compiled("echo", folder)))
            for name, program in builds:
                servers.append(Server.of(name, program))
            print_all(load, servers, given)
        finally:
            for it in servers:
                it.process.kill()


if __name__ == "__main__":
    main()
