"""The terms of a game: minutes, seconds of increment, variant, and perhaps a colour that was asked for."""

import re
from dataclasses import dataclass

NUMBER = r"(?:0|[1-9]\d*)"
VARIANT = rf"(?:chess|crazyhouse|bughouse|fischer {NUMBER})"
FORM = rf"{NUMBER} {NUMBER} {VARIANT}(?: (?:white|black))?"  # what their text looks like; the numbers have bounds
LONGEST = 600
ARRAYS = 960
COLOURS = ("white", "black")


@dataclass(frozen=True, slots=True)
class Terms:
    """The terms, as the server reads and writes them: `str(terms)` is their text."""

    minutes: int
    increment: int
    variant: str  # chess, crazyhouse, bughouse, or as `fischer 518`
    colour: str | None = None  # white, black, or none was asked for

    @classmethod
    def parsed(cls, text: str) -> "Terms | None":
        """The terms that a text says; none where it says none, or a number is out of its bounds."""
        if not re.fullmatch(FORM, text):
            return None
        minutes, increment, *words = text.split(" ")
        colour = words.pop() if words[-1] in COLOURS else None
        fits = int(minutes) <= LONGEST and int(increment) <= LONGEST and (len(words) == 1 or int(words[1]) < ARRAYS)
        return cls(int(minutes), int(increment), " ".join(words), colour) if fits else None

    def __str__(self) -> str:
        return f"{self.minutes} {self.increment} {self.variant}" + (f" {self.colour}" if self.colour else "")

    @property
    def kind(self) -> str:
        """The variant's first word: chess, crazyhouse, bughouse or fischer."""
        return self.variant.split(" ")[0]

    @property
    def array(self) -> int | None:
        """The number of the array in Fischer random."""
        return int(self.variant.split(" ")[1]) if self.kind == "fischer" else None

    @property
    def is_timed(self) -> bool:
        """Whether clocks run."""
        return self.minutes > 0 or self.increment > 0

    @property
    def has_hands(self) -> bool:
        """Whether men that were captured come into a hand."""
        return self.kind in ("crazyhouse", "bughouse")
