"""What stands: the offers and the seeks that a session knows of, and their lines for clients that asked for them."""

from collections.abc import Callable, Iterable
from dataclasses import dataclass
from typing import TYPE_CHECKING

from ficslink.lines import Sought, listed
from ficslink.terms import Terms

from .boards import kind_of

if TYPE_CHECKING:
    from .session import Session

AT_BOARD = ("draw", "abort", "adjourn", "takeback")


@dataclass(frozen=True, eq=False)
class Offer:
    """A standing offer."""

    index: int
    kind: str  # match, or one of AT_BOARD
    giver: str
    taker: str
    text: str

    @property
    def at_board(self) -> bool:
        return self.kind in AT_BOARD


class Offers:
    """The standing offers that a session knows of."""

    def __init__(self, session: "Session") -> None:
        self.session, self.last = session, 0
        self.standing: list[Offer] = []

    def line(self, offer: Offer) -> str:
        """The line of an offer: from another, or to another."""
        own = offer.giver == self.session.name
        mark, who = ("<pt>", offer.taker) if own else ("<pf>", offer.giver)
        return f"{mark} {offer.index} w={who} t={offer.kind} p={offer.text}"

    def shown(self, lines: list[str]) -> list[str]:
        return lines if self.session.is_set("pendinfo") else []

    def add(self, kind: str, giver: str, taker: str, text: str) -> list[str]:
        """The lines for a new offer, in whose place an earlier one of its kind between the two is gone."""
        gone = self.drop(lambda it: (it.kind, it.giver, it.taker) == (kind, giver, taker))
        self.last += 1
        self.standing.append(Offer(self.last, kind, giver, taker, text))
        return gone + self.shown([self.line(self.standing[-1])])

    def drop(self, goes: Callable[[Offer], bool]) -> list[str]:
        """The lines for offers that are gone."""
        gone = [it for it in self.standing if goes(it)]
        self.standing = [it for it in self.standing if it not in gone]
        return self.shown([f"<pr> {it.index}" for it in gone])

    def first(self, fits: Callable[[Offer], bool]) -> Offer | None:
        return next((it for it in self.standing if fits(it)), None)


class Seeks:
    """The seeks that a session knows of."""

    def __init__(self, session: "Session") -> None:
        self.session = session
        self.known: dict[int, tuple[str, Terms]] = {}

    def row(self, mark: str, n: int) -> list[str]:
        """A seek's line for clients that draw them."""
        who, terms = self.known[n]
        colour = terms.colour[0].upper() if terms.colour else "?"
        times = f"t={terms.minutes} i={terms.increment}"
        return [f"{mark} {n} w={who} ti=00 rt=0P {times} r=u tp={kind_of(terms)} c={colour} rr=0-9999 a=t f=f"]

    def learn(self, lines: Iterable[str]) -> list[str]:
        """Takes the server's list, and tells what is new in it and what is gone."""
        before, self.known = self.known, {}
        for line in lines:
            row = listed(line, "sought")
            if isinstance(row, Sought):
                self.known[row.number] = row.who, row.terms
        told = []
        gone = [str(it) for it in before if it not in self.known]
        if gone and self.session.is_set("seekremove"):
            told.append("<sr> " + " ".join(gone))
        if self.session.is_set("seekinfo"):
            told += [line for n in self.known if n not in before for line in self.row("<s>", n)]
        return told

    def all(self) -> list[str]:
        return [line for n in self.known for line in self.row("<s>", n)]
