"""Two who play a game beside what is hostile, and check each answer."""

import re
import threading
import time

from trials.client import PATIENCE, Client
from trials.tale import Tale

MOVES = ((b"g1f3", b"g8f6"), (b"f3g1", b"f6g8"))


class Witnesses(threading.Thread):
    """Two who play a game beside what is hostile, and check each answer. `finish` ends it, and tells what they saw."""

    def __init__(self, port: int, tale: Tale) -> None:
        super().__init__(daemon=True)
        self.tale = tale
        self.over = threading.Event()
        self.slowest = 0.0
        self.moves = 0
        self.fault: Exception | None = None
        self.white, self.black = Client(port), Client(port)
        self.white.enter(b"Wanda")
        self.black.enter(b"Boris")
        self.white.ask(b"match Boris 0 0 white")
        self.black.ask(b"accept")
        self.start()

    def run(self) -> None:
        try:
            while not self.over.is_set() and self.moves < 1100:
                for who, word in zip((self.white, self.black), MOVES[self.moves // 2 % 2]):
                    start = time.monotonic()
                    answer = who.ask(word)
                    self.slowest = max(self.slowest, time.monotonic() - start)
                    shown = re.findall(rb" N/(\w\d)-(\w\d) ", answer)
                    if not shown or b"".join(shown[-1]) != word:
                        raise ValueError(f"{word!r} was answered {answer!r}")
                    self.moves += 1
                time.sleep(0.02)
        except (OSError, ValueError, EOFError) as fault:
            self.fault = fault

    def finish(self) -> None:
        self.over.set()
        self.join(PATIENCE + 10)
        right = self.fault is None and not self.is_alive()
        if right:
            same = all(it.lines == it.answers for it in (self.white, self.black))
            right = same and self.white.quit() and self.black.quit()
        self.tale.holds(
            right,
            f"the two beside played {self.moves} half-moves, each answered, the slowest after "
            f"{self.slowest:.2f} s" + (f"; {self.fault}" if self.fault else ""),
        )
