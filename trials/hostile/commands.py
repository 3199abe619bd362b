"""Each allocation of each command that isn't `serve` refused in turn, or about a hundred where there are more: it
ends with 6, having written a beginning of what it writes else, or as ever where it can do without. A command over a
store may end with 4 and nothing written: where its copy of the store can't be made whole for want of memory, that looks
like a file that is cut off.

An allocation of the program is refused by `refuse.c`, which is compiled and loaded into it. The program is the built
one, and no launcher."""

import collections
import os
import shlex
import subprocess
import tempfile

from tests.kit.records import make_full_store

from .script import tell
from .server import counter, loading

PGN = b"""[White "Ann"]
[Black "Ben"]
[Result "1-0"]

1. e4 {a remark} e5 2. Qh5 (2. Nf3 Nc6) Nc6 3. Bc4 Nf6 4. Qxf7# 1-0
"""
STORE = "--store {store}"
# the words of a command, and what it reads
COMMANDS = (
    ("board", b"e2e4\ne7e5\ng1f3\nflip\n"),
    ("replay", b"seat Ann Ben 2 12 chess\n3000 1 > e2e4\n5000 2 > e7e5\n6000 1 > who\n7000 2 > quit\n"),
    ("tourney", b"join Ann\njoin Ben\njoin Cat\nstart\nround 1\ntable\n"),
    ("tidy", PGN),
    ("bot 2", b"chess\nf3\ne5\ng4\n"),
    ("bot 1", b"crazyhouse\ne4\nd5\nexd5\n"),
    ("demo 7", b""),
    (f"check {STORE}", b""),
    (f"pgn {STORE}", b""),
    (f"examine {STORE} --game 1", b"forward 3\nback\nforward 9\nrevert\nback 2\n"),
)


def run(program, words, given, env):
    """What a command writes, and its status."""
    done = subprocess.run([*shlex.split(program), *words], input=given, capture_output=True, check=False, env=env)
    return done.stdout, done.returncode


class Refusals:
    """A command and its allocations."""

    def __init__(self, program, words, given, folder):
        self.program, self.words, self.given, self.folder = program, words, given, folder
        self.path = os.path.join(folder, "count")

    def refusing(self, number):
        """What it writes and its status with the allocation of this number refused, and how many there were."""
        with open(self.path, "wb") as file:
            file.write(bytes(8))
        env = loading("refuse.c", self.folder, REFUSE=str(number), COUNT=self.path)
        text, status = run(self.program, self.words, self.given, env)
        return text, status, counter(self.path)

    def look(self, tale, name, most):
        """Refuses one after the other, or about so many of them."""
        whole, usual, count = self.refusing(0)
        tale.holds(count > 0, f"{name}: {len(whole)} bytes, status {usual}, {count} allocations")
        kinds = collections.Counter()
        for number in range(1, count + 1, max(1, count // most)):
            text, status, _ = self.refusing(number)
            kinds[status] += 1
            unread = "--store" in self.words and (text, status) == (b"", 4)
            if not ((text, status) == (whole, usual) or (status == 6 and whole.startswith(text)) or unread):
                tale.lost(f"{name}, allocation {number}: status {status}, written {text[-200:]!r}")
        tale.saw(f"{name}: " + ", ".join(f"{times} times status {it}" for it, times in sorted(kinds.items())))


def main(given, tale):
    with tempfile.TemporaryDirectory() as folder:
        store = os.path.join(folder, "store")
        make_full_store(store, 4, 3)
        for text, reads in COMMANDS:
            words = text.format(store=store).split()
            Refusals(given.program, words, reads, folder).look(tale, text.split(" --store")[0], given.most)


if __name__ == "__main__":
    tell(
        "commands",
        __doc__,
        main,
        [(("--most",), {"type": int, "default": 100, "metavar": "N", "help": "refuses about so many of a command's"})],
    )
