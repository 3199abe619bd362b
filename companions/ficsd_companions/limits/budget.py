"""So many a second, and so many at once: a bucket that fills with time."""

import time
from collections.abc import Callable


class Budget:
    """Fills by `rate` a second up to `burst`, and is full at first."""

    def __init__(self, rate: float, burst: float, clock: Callable[[], float] = time.monotonic) -> None:
        self.rate, self.burst, self.clock = rate, burst, clock
        self.left, self.seen = burst, clock()

    def fill(self) -> float:
        """What there is now; below 0 where more is promised already."""
        now = self.clock()
        self.left = min(self.burst, self.left + (now - self.seen) * self.rate)
        self.seen = now
        return self.left

    @property
    def is_full(self) -> bool:
        return self.fill() >= self.burst

    @property
    def has_one(self) -> bool:
        return self.fill() >= 1

    def take(self, amount: float = 1) -> bool:
        """Whether so many are to be had, which are taken then; else none is."""
        if self.fill() < amount:
            return False
        self.left -= amount
        return True

    def wait(self, amount: float = 1) -> float:
        """In how many seconds so many are to be had; 0 where they are now."""
        return max(0, (amount - self.fill()) / self.rate)

    def promise(self, amount: float = 1) -> float:
        """Takes so many in any case: in how many seconds they are to be had."""
        self.left = self.fill() - amount
        return max(0, -self.left / self.rate)

    def give_back(self, amount: float = 1) -> None:
        """Puts back what was taken and not used."""
        self.left = min(self.burst, self.fill() + amount)
