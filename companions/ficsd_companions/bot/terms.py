"""Which games the bot plays, and the sentence by which it turns down the others."""

import random
import re
from dataclasses import dataclass

from ficslink import Terms as GameTerms
from ficslink.terms import ARRAYS, COLOURS

VARIANTS = ("chess", "crazyhouse", "fischer")


@dataclass(frozen=True)
class Span:
    """Whole numbers from one to another, both among them."""

    least: int
    most: int

    def __contains__(self, number: int) -> bool:
        return self.least <= number <= self.most

    def __str__(self) -> str:
        return str(self.least) if self.least == self.most else f"{self.least} to {self.most}"


def kind_of(variant: str) -> str:
    """A variant without the number of its array."""
    return variant.split(" ")[0]


def named(kinds: tuple[str, ...]) -> str:
    """Kinds in a sentence, as `chess, crazyhouse and fischer`."""
    return " and ".join(it for it in (", ".join(kinds[:-1]), kinds[-1]) if it)


@dataclass(frozen=True)
class Wanted:
    """Terms of a game that the bot offers. Fischer random without a number is any of its arrays, each time another."""

    terms: GameTerms
    is_any_array: bool

    @classmethod
    def parsed(cls, text: str) -> "Wanted | None":
        """The terms that a text says: minutes, increment, and perhaps a variant and a colour; none where it says
        none."""
        parts = text.split()
        if len(parts) == 2 or parts[2:] and parts[2] in COLOURS:
            parts.insert(2, "chess")
        is_any = parts[2:3] == ["fischer"] and (len(parts) == 3 or parts[3] in COLOURS)
        if is_any:
            parts.insert(3, "0")
        terms = GameTerms.parsed(" ".join(parts))
        return cls(terms, is_any) if terms and terms.kind in VARIANTS else None

    def __str__(self) -> str:
        text = str(self.terms)
        return re.sub(r"fischer \d+", f"fischer {random.randrange(ARRAYS)}", text) if self.is_any_array else text


@dataclass(frozen=True)
class Terms:
    """What the operator allows."""

    variants: tuple[str, ...]
    minutes: Span
    increments: Span
    most: int

    def objection(self, variant: str, minutes: int, increment: int, games: int) -> str | None:
        """Why a challenge is turned down, beside so many running games; none where it is accepted."""
        if kind_of(variant) not in self.variants:
            return f"I play {named(self.variants)}."
        if minutes not in self.minutes:
            return f"I play with {self.minutes} minutes, as in: {self.example(variant)}"
        if increment not in self.increments:
            return f"I play with an increment of {self.increments} seconds, as in: {self.example(variant)}"
        if games >= self.most:
            return f"I play {games} {'game' if games == 1 else 'games'} now, and no more at a time. Please try later."
        return None

    def example(self, variant: str) -> str:
        """The terms of a game that it plays, as one types them."""
        minutes = min(max(5, self.minutes.least), self.minutes.most)
        increment = self.increments.least
        return f"{minutes} {increment} {variant}"

    def __str__(self) -> str:
        return (
            f"{named(self.variants)}, {self.minutes} minutes, an increment of {self.increments} seconds, "
            f"{self.most} {'game' if self.most == 1 else 'games'} at a time"
        )
