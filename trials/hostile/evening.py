"""256 people at 128 games, for a minute or as long as `--seconds` says: each line has one answer, the one that its kind
has, and speed and memory stay as they are, once each pair has played two games to their ends. The bytes that the built
program holds are counted by `live.c`, which is compiled and loaded into it."""

import heapq
import itertools
import os
import selectors
import shlex
import tempfile
import time

from trials.client import PATIENCE, Client

from .script import tell
from .server import Server, counter, loading
from .witnesses import MOVES

PAIRS = 128
# so many games each pair plays before anything is compared: by then each game's lists have been as long as they get
WARM = 2
# the parts of the evening, of which the first two and the last two are compared
PARTS = 10
# by how much the last parts may be slower than the first
SLOWER = 0.5
# how many KiB more the program may hold then, and how many more it may have with what the C library keeps for later
MORE_HELD = 1024
MORE_KEPT = 8192
# how often both are read
READ = 0.5


class Player(Client):
    """One of a pair, who has at most one line under way."""

    def __init__(self, port, name):
        super().__init__(port)
        self.name = name
        self.wanted = None
        self.since = 0.0

    def begin(self, line, wanted):
        """Says a line that is to be answered by something with this in it."""
        self.wanted = wanted
        self.since = time.monotonic()
        self.say(line)

    def waits(self):
        """For how long the line under way, or the last one, has waited for its answer."""
        return time.monotonic() - self.since

    def take(self):
        """Takes what has come; True where the line under way is answered."""
        piece = self.link.recv(65536)
        if not piece:
            raise EOFError(f"{self.name} was hung up")
        self.heard += piece
        done = False
        while (part := self.part()) is not None:
            if part.startswith(b"\n\r"):
                continue
            if self.wanted is None or self.wanted not in part:
                raise ValueError(f"{self.name} waits for {self.wanted!r} and was answered {part!r}")
            self.answers += 1
            self.wanted = None
            done = True
        return done


class Pair:
    """Two players, of whom one at a time has a line under way. They give up a game after so many half-moves, and begin
    another one. The first game is a shorter one for most, so that games of each length go on at each time."""

    def __init__(self, port, number, half_moves):
        letters = bytes([97 + number // 26, 97 + number % 26])
        self.players = Player(port, b"White" + letters), Player(port, b"Black" + letters)
        for player in self.players:
            entered = player.enter(player.name)
            if not entered.startswith(b"Entered"):
                raise ValueError(f"{player.name} was answered {entered!r}")
        self.lines = self.course(half_moves * (number + 1) // PAIRS, half_moves)
        self.mover = None
        self.games = 0

    def course(self, first, half_moves):
        """Who says what next, and what its answer has in it."""
        white, black = self.players
        for length in itertools.chain([first], itertools.repeat(half_moves)):
            yield white, b"match %s 0 0 white" % black.name, b"Ok.\n\r"
            yield black, b"accept", b"Creating 0 0 chess match."
            for number in range(length):
                who = self.players[number % 2]
                word = MOVES[number // 2 % 2][number % 2]
                yield who, word, b" N/%s-%s (0:00) " % (word[:2], word[2:])
                if number % 50 == 49:
                    yield white, b"tell %s hi" % black.name, b"(told 1)"
                    yield black, b"refresh", b"<12> "
                    yield black, b"e2e5", b"refused "
            yield black, b"resign", b"resigns} 1-0"
            yield white, b"", b"fics% "
            self.games += 1

    def go_on(self):
        self.mover, line, wanted = next(self.lines)
        self.mover.begin(line, wanted)

    def is_waiting(self):
        return self.mover is not None and self.mover.wanted is not None


class Part:
    """What was seen in a part of the evening."""

    def __init__(self):
        self.answers = 0
        self.slowest = 0.0
        self.largest = 0
        self.held = []
        self.seconds = 0.0
        self.busy = 0.0

    def speed(self):
        return self.answers / self.seconds

    def holds(self):
        """How many KiB the program held, in the middle."""
        return sum(self.held) / len(self.held) / 1024

    def text(self):
        return (
            f"{self.speed():8.0f} lines a second, the slowest answered after {self.slowest:.3f} s, "
            f"{self.holds():.0f} KiB held, {self.largest} KiB at most, {self.busy / self.seconds:.2f} processors"
        )


class Play:
    """The games under way. Each pair says its next line behind the answer to the last one, but waits until so many
    seconds have passed since that was said."""

    def __init__(self, server, pairs, pace, live):
        self.server = server
        self.live = live
        self.pairs = pairs
        self.pace = pace
        self.chosen = selectors.DefaultSelector()
        for number, pair in enumerate(pairs):
            for player in pair.players:
                self.chosen.register(player.link, selectors.EVENT_READ, (number, player))
        self.last = time.monotonic()
        # which pair says its next line when
        self.due = [(self.last + pace * number / len(pairs), number) for number in range(len(pairs))]
        self.part = Part()
        self.next_reading = self.last

    def run(self, is_over):
        """Plays until this is so; what was seen."""
        self.part = part = Part()
        start, busy = time.monotonic(), self.server.processor()
        while not is_over():
            self.begin_lines()
            self.take_answers()
            self.watch()
        part.slowest = max([part.slowest, *(it.mover.waits() for it in self.pairs if it.is_waiting())])
        self.read()
        part.seconds, part.busy = time.monotonic() - start, self.server.processor() - busy
        return part

    def run_for(self, seconds):
        end = time.monotonic() + seconds
        return self.run(lambda: time.monotonic() >= end)

    def begin_lines(self):
        """Says the lines whose time has come."""
        now = time.monotonic()
        while self.due and self.due[0][0] <= now:
            self.pairs[heapq.heappop(self.due)[1]].go_on()

    def take_answers(self):
        """Takes what comes until the next line is due."""
        rest = self.due[0][0] - time.monotonic() if self.due else READ
        for key, _ in self.chosen.select(min(max(0, rest), READ)):
            number, player = key.data
            if player.take():
                self.last = time.monotonic()
                self.part.answers += 1
                self.part.slowest = max(self.part.slowest, self.last - player.since)
                heapq.heappush(self.due, (max(self.last, player.since + self.pace), number))

    def watch(self):
        """Reads the memory now and then, and looks whether anything is answered at all."""
        now = time.monotonic()
        if now - self.last > PATIENCE + self.pace:
            raise TimeoutError(f"no line was answered for {PATIENCE} s")
        if now >= self.next_reading:
            self.read()
            self.next_reading = now + READ

    def read(self):
        self.part.largest = max(self.part.largest, self.server.memory())
        self.part.held.append(counter(self.live))

    def finish(self):
        """Waits for the answers that are still due, and says no more."""
        end = time.monotonic() + PATIENCE
        while any(it.is_waiting() for it in self.pairs) and time.monotonic() < end:
            self.take_answers()
            self.due.clear()
        late = sum(it.is_waiting() for it in self.pairs)
        if late:
            raise TimeoutError(f"{late} lines weren't answered")


def play(games, given, tale):
    """Plays the whole evening; what was seen in each part behind the games that nothing is compared in."""
    first = games.run(lambda: min(it.games for it in games.pairs) >= WARM)
    tale.saw(f"each pair has ended {WARM} games after {first.seconds:.1f} s: {first.text()}")
    parts = []
    for number in range(1, PARTS + 1):
        parts.append(games.run_for(given.seconds / PARTS))
        tale.saw(f"{given.seconds * number / PARTS:7.1f} s: {parts[-1].text()}")
    games.finish()
    tale.saw(f"the slowest of all answers came after {max(it.slowest for it in [first, *parts]):.3f} s")
    return parts


def is_flat(parts, tale):
    """Compares the last fifth of the evening with its first fifth."""
    early, late = parts[:2], parts[-2:]
    speed = sum(it.speed() for it in late) / sum(it.speed() for it in early)
    tale.holds(speed >= SLOWER, f"the last fifth has {100 * speed:.0f} % of the speed of the first one")
    held = (sum(it.holds() for it in late) - sum(it.holds() for it in early)) / 2
    between = sum(it.answers for it in parts[1:-1])
    tale.holds(
        held <= MORE_HELD,
        f"it holds {held:+.0f} KiB in the last fifth; {MORE_HELD * 1024 / between:.2f} bytes "
        f"lost at each line would be {MORE_HELD} KiB",
    )
    kept = max(it.largest for it in late) - max(it.largest for it in early)
    tale.holds(kept <= MORE_KEPT, f"with what the C library keeps it has {kept:+} KiB")


def evening(given, tale, live, env):
    """The evening from the logins to the end of the server."""
    with Server(given.program, "--count", str(2 * PAIRS), env=env) as server:
        pairs = [Pair(server.port, number, given.game) for number in range(PAIRS)]
        tale.saw(f"{2 * PAIRS} people are in: {server.size()}")
        parts = play(Play(server, pairs, given.pace / 1000, live), given, tale)
        players = [player for pair in pairs for player in pair.players]
        lines, answers = sum(it.lines for it in players), sum(it.answers for it in players)
        tale.holds(lines == answers, f"{lines} lines, {answers} answers, {sum(it.games for it in pairs)} games ended")
        is_flat(parts, tale)
        gone = sum(player.quit() for player in players)
        tale.holds(gone == 2 * PAIRS, f"{gone} took leave")
        server.ends(tale)


def is_built(program):
    """Whether it is the built program, and no launcher."""
    words = shlex.split(program)
    with open(words[0], "rb") as file:
        return len(words) == 1 and file.read(4) == b"\x7fELF"


def main(given, tale):
    with tempfile.TemporaryDirectory() as folder:
        live = os.path.join(folder, "live")
        with open(live, "wb") as file:
            file.write(bytes(8))
        evening(given, tale, live, loading("live.c", folder, LIVE=live) if is_built(given.program) else None)


if __name__ == "__main__":
    tell(
        "evening",
        __doc__,
        main,
        [
            (("--seconds",), {"type": int, "default": 60, "help": "how long the compared evening is"}),
            (
                ("--pace",),
                {"type": int, "default": 0, "metavar": "MS", "help": "a pair says a line at most once in this time"},
            ),
            (("--game",), {"type": int, "default": 200, "metavar": "N", "help": "half-moves of a game, up to 1200"}),
        ],
    )
