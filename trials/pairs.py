"""Compares what `ficsd serve` sends with what `ficsd replay` writes for the same lines.

Pairs of players log in at the same time, challenge, play moves that are tried out and partly refused, give up and quit.
Of each pair the script is written down whose events are its lines in their order, with a pause where news came without
a line. What the script's sessions are sent has to be what the links were sent, byte by byte, but for the numbers of
games, the remaining seconds and the time of a move.
"""

import argparse
import random
import re
import subprocess
import sys
import threading
from pathlib import Path

from tests.kit import paths
from tests.kit.running import Server
from trials.client import PATIENCE, Client
from trials.squares import tries


class Pair:
    """Two links, what was sent to each, and the events of their script."""

    def __init__(self, port, number, half_moves):
        self.port, self.half_moves = port, half_moves
        self.chance = random.Random(number)
        letters = "".join("abcdefghijklmnopqrstuvwxyz"[number // 26**place % 26] for place in (1, 0))
        self.names = [f"White{letters}", f"Black{letters}"]
        self.events, self.sent = [], {1: b"", 2: b""}
        self.links, self.refused, self.played = [], 0, 0
        self.fault = None

    def take(self, link, seconds):
        """The next part that comes over a link; none where none does. News are an event of their own."""
        try:
            part = link.hear(seconds)
        except TimeoutError:
            return None
        self.sent[self.number_of(link)] += part
        if part.startswith(b"\n\r"):
            self.events.append(f"{self.number_of(link)} ?")
        return part

    def number_of(self, link):
        """Its number in the script."""
        return self.links.index(link) + 1

    def say(self, link, text):
        """Says a line, and gives its answer; news that came before it stand before it in the script."""
        while self.take(link, 0) is not None:
            pass
        link.say(text.encode())
        while True:
            part = self.take(link, PATIENCE)
            if part is None:
                raise EOFError(f"no answer to {text!r}")
            if not part.startswith(b"\n\r"):
                self.events.append(f"{self.number_of(link)} > {text}")
                return part.decode()

    def open(self):
        for number in (1, 2):
            link = Client(self.port)
            self.links.append(link)
            self.events.append(f"{number} +")
            self.take(link, PATIENCE)

    def play(self):
        self.open()
        white, black = self.links
        self.say(white, self.names[0])
        self.say(black, self.names[1])
        self.say(white, "e2e4")
        self.say(white, f"match {self.names[1]} 2 12 white")
        board = boards_in(self.say(black, "accept"))[-1]
        while self.played < self.half_moves:
            board = self.move(self.links[self.played % 2], board)
            if board is None:
                break
            self.played += 1
        for link, text in (
            (white, "flag"),
            (black, "nonsense"),
            (white, "resign"),
            (black, ""),
            (white, "quit"),
            (black, "quit"),
        ):
            self.say(link, text)

    def move(self, link, board):
        """Tries moves out until one is accepted, and gives the board line after it; none where none is."""
        words = tries(board)
        self.chance.shuffle(words)
        for word in ["a1a1", *words]:
            answer = self.say(link, word)
            if "refused" not in answer:
                return boards_in(answer)[-1]
            self.refused += 1
        return None

    def run(self):
        try:
            self.play()
        except (EOFError, OSError, IndexError) as error:
            self.fault = repr(error)

    def judge(self):
        """Compares what the links were sent with what the script's sessions are, and says where they differ; the number
        of lines."""
        wanted, lines = self.replayed(), 0
        for number in (1, 2):
            mine, other = [[plain(it) for it in them] for them in (lines_of(self.sent[number]), wanted[number])]
            lines += len(mine)
            if mine != other and not self.fault:
                differing = (at for at, (one, two) in enumerate(zip(mine, other)) if one != two)
                place = next(differing, min(len(mine), len(other)))
                self.fault = f"line {place}: sent {mine[place:place + 1]}, replayed {other[place:place + 1]}"
        if self.fault:
            print(f"{self.names[0]} and {self.names[1]}: {self.fault}")
        return lines

    def replayed(self):
        """What the sessions of the script are sent."""
        script = "".join(f"0 {event}\n" for event in self.events).encode()
        ran = subprocess.run([paths.program, "replay"], input=script, stdout=subprocess.PIPE, check=False)
        if ran.returncode != 0:
            self.fault = f"replay ended with status {ran.returncode}"
        lines = [line.split(b"|", 1) for line in ran.stdout.split(b"\n") if b"|" in line]
        return {number: [text for at, text in lines if int(at) == number] for number in (1, 2)}


def boards_in(text):
    return [line for line in re.split(r"[\n\r]+", text) if line.startswith("<12> ")]


def lines_of(sent):
    """The lines of what a link was sent, each prompt as one."""
    text = re.sub(rb"(login: |password: |fics% )", rb"\1\n\r", sent)
    return text.split(b"\n\r")[:-1]


def plain(line):
    """A line without the number of its game, remaining seconds and the time of a move."""
    line = line.rstrip(b"\r")
    if line.startswith(b"<12> "):
        fields = line.split(b" ")
        for place in (16, 24, 25):
            fields[place] = b"_"
        return re.sub(rb"\(\d+:\d\d\)", b"(_)", b" ".join(fields))
    return re.sub(rb"\{Game \d+ ", b"{Game _ ", line)


def main() -> int:
    words = argparse.ArgumentParser(prog="trial pairs", description=__doc__.split("\n\n")[0])
    words.add_argument("program", nargs="?", type=Path, default=paths.program, metavar="PROGRAM")
    words.add_argument("pairs", nargs="?", type=int, default=100, metavar="PAIRS", help="%(default)s without it")
    words.add_argument(
        "half_moves", nargs="?", type=int, default=40, metavar="HALF-MOVES", help="%(default)s without it"
    )
    chosen = words.parse_args()
    paths.program = chosen.program.resolve()
    server = Server()
    try:
        pairs = [Pair(server.port, number, chosen.half_moves) for number in range(chosen.pairs)]
        threads = [threading.Thread(target=pair.run) for pair in pairs]
        for thread in threads:
            thread.start()
        for thread in threads:
            thread.join()
    finally:
        server.end()
    lines = sum(it.judge() for it in pairs)
    same = sum(it.fault is None for it in pairs)
    print(
        f"{same} of {len(pairs)} pairs were sent what replay writes: {lines} lines, {sum(it.played for it in pairs)} "
        f"half-moves, {sum(it.refused for it in pairs)} refused words, "
        f"{sum(event.endswith(' ?') for it in pairs for event in it.events)} pauses with news"
    )
    return 0 if same == len(pairs) else 1


if __name__ == "__main__":
    sys.exit(main())
