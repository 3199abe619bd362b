"""Offers: which stand, and how they are accepted, declined and withdrawn."""

from ficslink.lines import PendingFrom, PendingTo, listed
from ficslink.terms import Terms

from .. import texts
from ..request import Lines, Render
from ..standing import Offer
from ..told import offer_text
from .line import Done, Line


def chosen_offer(line: Line) -> Offer | None:
    """The offer of another that `accept` or `decline` names: by its number, its giver, or its kind."""
    words, me = line.rest.split(), line.session.name
    if not words:
        return None
    wanted = words[1] if words[0] == "t" and len(words) > 1 else words[0]

    def is_meant(it: Offer) -> bool:
        return it.giver != me and (str(it.index) == wanted or it.giver.lower() == wanted.lower() or it.kind == wanted)

    return line.session.offers.first(is_meant)


def dropping(line: Line, offer: Offer | None, key: str, done: Done) -> Render:
    """The answer to what takes an offer away, whether it still stood or not."""
    render = line.answer(key, done)
    return lambda answers: render(answers) + line.session.offers.drop(lambda it: it is offer)


def accept(line: Line) -> None:
    """`accept`: at the board the server agrees to an offer by its very command."""
    offer, said = chosen_offer(line), line.rest
    if offer and offer.at_board:
        number = f" {offer.text}" if offer.kind == "takeback" else ""
        return line.ask([offer.kind + number], dropping(line, offer, "accept", lambda lines: []))
    if offer:
        said = offer.giver
    return line.ask([f"accept {said}".strip()], dropping(line, offer, "accept", lambda lines: lines))


def decline(line: Line) -> None:
    """`decline`: at the board the server takes the offer that came first."""
    offers, me, said = line.session.offers, line.session.name, line.rest
    offer = chosen_offer(line)
    if not offer and not said:
        offer = offers.first(lambda it: it.giver != me)
    first = offers.first(lambda it: it.at_board and it.giver != me)
    if offer and offer.at_board and first and offer is not first:
        return line.local(texts.DONE["decline later"].format(who=first.giver, kind=first.kind))
    if offer:
        said = "" if offer.at_board else offer.giver

    def done(lines: Lines) -> Lines:
        if not offer:
            return lines
        key = "decline match" if offer.kind == "match" else "decline"
        return [texts.DONE[key].format(who=offer.giver, kind=offer.kind)]

    return line.ask([f"decline {said}".strip()], dropping(line, offer, "decline", done))


def withdraw(line: Line) -> None:
    me, words = line.session.name, line.rest.split()
    wanted = words[-1] if words else ""

    def is_meant(it: Offer) -> bool:
        is_ones_own = it.giver == me and it.kind == "match"
        return is_ones_own and (wanted in ("", str(it.index), "match") or it.taker.lower() == wanted.lower())

    offer = line.session.offers.first(is_meant)

    def done(lines: Lines) -> Lines:
        return [texts.DONE["withdraw"].format(who=offer.taker if offer else wanted)]

    said = offer.taker if offer else line.rest
    line.ask([f"withdraw {said}".strip()], dropping(line, offer, "withdraw", done))


def pending(line: Line) -> None:
    def done(lines: Lines) -> Lines:
        told = []
        for it in lines:
            row = listed(it, "pending")
            if isinstance(row, (PendingFrom, PendingTo)):
                told.append(pending_row(line, isinstance(row, PendingFrom), row.who, row.terms))
        return told or [texts.NO_PENDING]

    line.hand_on("pending", "pending", done)


def pending_row(line: Line, is_from: bool, who: str, terms: Terms) -> str:
    me = line.session.name
    giver, taker = (who, me) if is_from else (me, who)
    offer = line.session.offers.first(lambda it: (it.kind, it.giver, it.taker) == ("match", giver, taker))
    row = texts.PENDING_FROM if is_from else texts.PENDING_TO
    return row.format(n=offer.index if offer else 0, who=who, offer=offer_text(giver, taker, terms))


def partner(line: Line) -> None:
    def done(lines: Lines) -> Lines:
        return [texts.DONE["partner"].format(line.rest)] if lines == ["Asked."] else lines

    line.hand_on(f"partner {line.rest}", "partner", done)
