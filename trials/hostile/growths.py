"""Each allocation of an evening of six players refused in turn, or one at each of some evenings of lines at random. The
session that asked for it ends, its game ends with it, its opponent is told so at its next line, and its name is free;
all others are answered; and the server ends by itself.

An allocation of the program is refused by `refuse.c`, which is compiled and loaded into it. The program is the built
one, and no launcher. With `--store` there is a store too: two of the six register, their game is adjourned, and the
store is good afterwards, and has all of it where it was said that all was kept."""

import collections
import concurrent.futures
import os
import random
import shlex
import shutil
import subprocess
import tempfile
import time

from trials.client import FAREWELL, Client

from .any_lines import any_line
from .script import tell
from .server import STARTING, Server, counter, loading

ANN, BEN, CAT, DAN, DORA, EVE = NAMES = b"Ann", b"Ben", b"Cat", b"Dan", b"Dora", b"Eve"
OPPONENTS = {ANN: BEN, BEN: ANN, CAT: DAN, DAN: CAT}
NEWCOMER = b"Zoe"
PASSWORD = b"secret"

# a line, of what one is in its answer, and without whom it is answered otherwise
Line = collections.namedtuple("Line", "who text wanted needs")
# a line that was said, its answer, and who wasn't in then
Said = collections.namedtuple("Said", "line answer absent")
# where there is a store
REGISTERING = (
    Line(ANN, b"register " + PASSWORD, (b"Ok.",), set()),
    Line(BEN, b"register " + PASSWORD, (b"Ok.",), set()),
)
# two games begin
BEFORE = (
    Line(ANN, b"match Ben 2 12 white", (b"Ok.",), {BEN}),
    Line(BEN, b"accept", (b"Creating 2 12 chess match.",), {ANN}),
    Line(CAT, b"match Dan 2 12 white", (b"Ok.",), {DAN}),
    Line(DAN, b"accept", (b"Creating 2 12 chess match.",), {CAT}),
    Line(ANN, b"e2e4", (b" P/e2-e4 (",), {BEN}),
    Line(BEN, b"e7e5", (b" P/e7-e5 (",), {ANN}),
)
# said at once: a move at desk 1 whose opponent quits meanwhile, a move at desk 2, a seek, and a look at desk 2
AT_ONCE = (
    Line(ANN, b"g1f3", (b" N/g1-f3 (", b"refused "), {BEN}),
    Line(BEN, b"quit", (FAREWELL,), set()),
    Line(CAT, b"d2d4", (b" P/d2-d4 (",), {DAN}),
    Line(DORA, b"seek 5 0", (b"Your seek is 1.",), set()),
    Line(EVE, b"observe 3", (b"<12> ",), {ANN, BEN, CAT, DAN}),
)
BEHIND = (
    Line(ANN, b"who", (EVE,), {EVE}),
    Line(DAN, b"d7d5", (b" P/d7-d5 (",), {CAT}),
    Line(EVE, b"who", (DORA,), {DORA}),
)

# for so many seconds a greeting is waited for; where none comes, the door itself serves one who came before
GREETED = 2
# for so many seconds anything else is waited for
PATIENCE = 60
# so long nothing is said in mid-evening, so that all sessions fetch their news, and the steward takes its turns
REST = 0.25
# so many lines are said at random
LINES = 300


class Guest(Client):
    """A player who may be hung up, or who isn't greeted before others are gone."""

    def __init__(self, port, name):
        super().__init__(port)
        self.link.settimeout(PATIENCE)
        self.name = name
        self.seen = b""
        self.is_greeted = False
        self.is_in = False
        self.is_gone = False
        # the place of its last answer among all of them
        self.answered = -1

    def hear(self, seconds=PATIENCE):
        part = super().hear(seconds)
        self.seen += part
        return part

    def try_say(self, line):
        """Says a line, and tells whether it could be said."""
        try:
            self.say(line)
        except ConnectionError:
            self.hung_up()
        return not self.is_gone

    def try_hear(self):
        """The answer to what was said last; none where the link was closed in place of one."""
        try:
            answer = self.answer(PATIENCE)
        except (EOFError, ConnectionError):
            return self.hung_up()
        if answer.endswith(FAREWELL):
            self.is_in = False
            self.close()
        return answer

    def try_line(self, line):
        return self.try_hear() if self.try_say(line) else None

    def come(self, seconds=PATIENCE):
        """What the login is answered; none where no greeting comes in time, or the link is closed."""
        try:
            self.is_greeted = self.hear(seconds).endswith(b"login: ")
        except TimeoutError:
            return None
        except (EOFError, ConnectionError):
            return self.hung_up()
        answer = self.try_line(self.name)
        if answer == b"password: ":
            answer = self.try_line(PASSWORD)
        self.is_in = answer is not None
        return answer

    def hung_up(self):
        self.is_gone, self.is_in = True, False
        self.close()


class Evening:
    """The players of one evening, and what went otherwise than it should."""

    def __init__(self, server, store):
        self.server = server
        self.store = store
        self.faults = []
        self.guests = []
        self.said = []
        self.had_late = False

    def play(self):
        """From the first of the six who comes to the last who leaves."""
        self.gather()
        self.talk()
        self.leave_all()
        self.serve_late()

    def talk(self):
        """All that is said between."""
        if self.store:
            self.say_in_turn(REGISTERING)
        self.say_in_turn(BEFORE)
        time.sleep(REST)
        self.say_at_once(AT_ONCE)
        time.sleep(REST)
        self.say_in_turn(BEHIND)

    def gather(self):
        """All come in, in this order, but those behind one whom the door itself serves."""
        for name in NAMES:
            self.welcome(name, 0.05 if self.late() else GREETED)
        self.had_late = bool(self.late())

    def welcome(self, name, seconds=PATIENCE):
        """Somebody connects, and comes in; none where the server has ended."""
        guest = self.knock(name)
        if guest:
            self.guests.append(guest)
            self.come(guest, seconds)
        return guest

    def knock(self, name):
        """Somebody who has connected; none where the server has ended."""
        end = time.monotonic() + PATIENCE
        while time.monotonic() < end:
            try:
                return Guest(self.server.port, name)
            except ConnectionError:
                if not self.server.is_up():
                    return None
                time.sleep(0.005)
        raise TimeoutError(f"{name} could not connect")

    def come(self, guest, seconds=PATIENCE):
        """Somebody comes in who has connected."""
        answer = guest.come(seconds)
        if answer is not None and b"Entered as %s." % guest.name not in answer:
            self.faults.append(f"{guest.name} came in: {answer!r}")

    def gone(self):
        """The names of those who are known to have been hung up."""
        return {it.name for it in self.guests if it.is_gone}

    def late(self):
        """Those who have connected and weren't greeted yet."""
        return [it for it in self.guests if not it.is_greeted and not it.is_gone]

    def present(self, name):
        """The guest of this name, if it is in."""
        return next((it for it in self.guests if it.name == name and it.is_in), None)

    def say_in_turn(self, lines):
        for line in lines:
            self.say_at_once([line])

    def say_at_once(self, lines):
        """Says lines without a look at their answers, and then looks at these."""
        absent = {it for it in NAMES if not self.present(it)}
        speakers = [(self.present(line.who), line) for line in lines]
        under_way = [(guest, line) for guest, line in speakers if guest and guest.try_say(line.text)]
        for guest, line in under_way:
            answer = guest.try_hear()
            if answer is not None:
                guest.answered = len(self.said)
                self.said.append(Said(line, answer, absent))
                self.check_ends(guest, absent)

    def check_ends(self, guest, absent):
        """Whoever plays with one who had gone before the line was said has been told that the game is over."""
        opponent = OPPONENTS.get(guest.name)
        if guest.is_in and opponent in absent and b"<12> " in guest.seen:
            adjourned = self.store and b" adjourned} *" in guest.seen
            if not adjourned and b"%s forfeits by disconnection} " % opponent not in guest.seen:
                self.faults.append(f"{guest.name} isn't told that {opponent} is gone: {guest.seen!r}")

    def leave_all(self):
        """All that are in see nobody who is gone, and leave."""
        for guest in [it for it in self.guests if it.is_in]:
            self.say_in_turn([Line(guest.name, b"who", (guest.name,), set())])
            if guest.is_in:
                names = set(self.said[-1].answer.split(b"\n\r"))
                self.faults += [f"{it} is gone and in the hall" for it in self.gone() & names]
                self.leave(guest)

    def leave(self, guest):
        if guest.is_in:
            guest.try_line(b"quit")

    def serve_late(self):
        """Those who weren't greeted come in once the others have left."""
        for guest in self.late():
            self.come(guest)
            self.leave(guest)
            if not guest.is_greeted and not guest.is_gone:
                self.faults.append(f"{guest.name} was never greeted")

    def succeed(self):
        """Somebody comes for whom the server waits; the name of one who is gone is free. Where the door has lost a
        connection, one more is wanted."""
        name = min(self.gone(), default=NEWCOMER)
        for _ in range(3):
            guest = self.welcome(name)
            if guest:
                self.leave(guest)
            if self.server.status(1) is not None:
                return

    def judge(self, status, text):
        """Looks at all answers, now that it is known who was hung up, and at how the server ended."""
        last = {it.name: it.answered for it in self.guests if it.is_gone}
        for place, (line, answer, absent) in enumerate(self.said):
            free = absent | {name for name, answered in last.items() if answered <= place}
            good = answer.endswith(b"fics% ") if line.needs & free else any(it in answer for it in line.wanted)
            if not good:
                self.faults.append(f"{line.who} said {line.text!r}: {answer!r}")
        hung = len(self.gone())
        fits = {
            (0, b"ready\nclosed\n"): hung == 0,
            (6, b"ready\nclosed\n"): hung <= 1,
            (6, b"ready\n"): hung == 0,
            (6, b""): hung == len(self.guests),
        }
        if not fits.get((status, text), False):
            self.faults.append(f"status {status}, written {text!r}, {hung} of {len(self.guests)} hung up")


class AnyEvening(Evening):
    """An evening of lines at random: each is answered."""

    def __init__(self, server, store, seed):
        super().__init__(server, store)
        self.chance = random.Random(seed)

    def talk(self):
        for _ in range(LINES):
            present = [it.name for it in self.guests if it.is_in]
            if present:
                line = any_line(self.chance, NAMES)
                self.say_at_once([Line(self.chance.choice(present), line, (b"fics% ",), set())])

    def check_ends(self, guest, absent):
        """Who plays with whom isn't known."""


class Try:
    """An evening with one allocation refused, or none; one of lines at random where there is a seed."""

    def __init__(self, given, number, seed=None):
        self.given = given
        self.number = number
        self.seed = seed
        self.folder = tempfile.mkdtemp()
        self.counter = os.path.join(self.folder, "count")
        self.store = os.path.join(self.folder, "store") if given.store else None
        with open(self.counter, "wb") as file:
            file.write(bytes(8))
        words = ["--count", str(len(NAMES) + 1)] + (["--store", self.store] if self.store else [])
        env = loading("refuse.c", given.folder, REFUSE=str(number), COUNT=self.counter)
        self.server = Server(given.program, *words, env=env)
        known = seed is None
        self.evening = Evening(self.server, self.store) if known else AnyEvening(self.server, self.store, seed)
        self.status, self.text = None, b""
        # how many allocations there were until the six had left, and until the end
        self.until_left = self.until_end = 0

    def run(self):
        """Plays the evening, and looks at its end."""
        evening = self.evening
        try:
            evening.play()
            self.until_left = self.count()
            evening.succeed()
        except (OSError, ValueError) as fault:
            evening.faults.append(repr(fault))
        self.status = self.server.status(PATIENCE)
        self.server.stop()
        self.text = self.server.written()
        self.until_end = self.count()
        evening.judge(self.status, self.text)
        if self.store:
            self.judge_store()
        shutil.rmtree(self.folder)
        return self

    def count(self):
        """How many allocations the program has asked for."""
        return counter(self.counter)

    def is_all_kept(self):
        """Whether everything of the evening is to be found in the store: all six played, and what was refused before
        they left was tried again."""
        evening = self.evening
        lasts = self.status == 0 or 0 < self.number <= self.until_left
        return bool(self.text) and lasts and not evening.gone() and not evening.had_late

    def judge_store(self):
        """Afterwards the store is good. One that was never opened may be none."""
        words = [*shlex.split(self.given.program), "check", "--store", self.store]
        with STARTING:
            check = subprocess.Popen(words, stdin=subprocess.DEVNULL, stdout=subprocess.PIPE)
        said = check.communicate()[0], check.returncode
        most = [(b"ok: %d accounts, %d games\n" % (it, it > 1 and games), 0) for it in range(3) for games in range(2)]
        if not self.text:
            most = [most[0], (b"", 4)]
        good = said in (most[-1:] if self.is_all_kept() else most)
        if self.seed is not None:
            good = check.returncode == 0 or not self.text
        if not good:
            self.evening.faults.append(f"status {self.status}, and check says {said}")

    def kind(self):
        """What the refused allocation came to."""
        if self.until_end < self.number:
            return "it wasn't asked for"
        if not self.text:
            return "the server ended before it was ready"
        if self.evening.gone():
            return "a session ended"
        if self.evening.had_late:
            return "the door itself served a link"
        return "only the status told of it" if self.status else "nobody noticed"


def count_of(given, tale):
    """How many allocations there are where none is refused, which differs by what the clock does meanwhile."""
    tries = [Try(given, 0, it if given.evenings else None).run() for it in range(3)]
    counts = [it.until_end for it in tries]
    faults = [fault for it in tries for fault in it.evening.faults]
    tale.holds(min(counts) > 0 and not faults, f"with none refused: {counts} allocations {faults or ''}")
    return max(counts)


def places_of(given, count):
    """Which allocations are refused, each with the seed of its evening if lines are said at random."""
    if given.evenings:
        return [(random.Random(seed).randint(1, count), seed) for seed in range(given.evenings)]
    return [(number, None) for number in range(1, count + 1, given.every)]


def main(given, tale):
    with tempfile.TemporaryDirectory() as folder:
        given.folder = folder
        start = time.monotonic()
        places = places_of(given, count_of(given, tale))
        kinds = collections.Counter()
        with concurrent.futures.ThreadPoolExecutor(given.jobs) as jobs:
            for one in jobs.map(lambda it: Try(given, *it).run(), places):
                kinds[one.kind()] += 1
                for fault in one.evening.faults:
                    tale.lost(f"allocation {one.number} (seed {one.seed}): {fault}")
        tale.saw(f"{len(places)} refused one by one in {time.monotonic() - start:.0f} s")
        for kind, times in kinds.most_common():
            tale.saw(f"{times} times {kind}")


if __name__ == "__main__":
    tell(
        "growths",
        __doc__,
        main,
        [
            (("--every",), {"type": int, "default": 1, "metavar": "N", "help": "refuses the first and then each Nth"}),
            (
                ("--jobs",),
                {
                    "type": int,
                    "default": 2 * (os.cpu_count() or 1),
                    "metavar": "N",
                    "help": "so many servers at a time, which wait most of their time",
                },
            ),
            (("--store",), {"action": "store_true", "help": "the server has a store"}),
            (
                ("--evenings",),
                {
                    "type": int,
                    "default": 0,
                    "metavar": "N",
                    "help": "N evenings of lines at random, at each of which one allocation is refused",
                },
            ),
        ],
    )
