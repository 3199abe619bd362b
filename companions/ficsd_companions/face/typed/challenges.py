"""How a game comes to be: challenges and seeks, and the terms that they name."""

import random
import re
from dataclasses import replace

from ficslink.lines import SeekMade, parse
from ficslink.terms import Terms

from .. import texts
from ..boards import fields_of
from ..request import Lines
from ..told import offer_text
from .line import Line

WITHOUT_MEANING = (
    "r",
    "rated",
    "m",
    "manual",
    "a",
    "auto",
    "f",
    "formula",
    "blitz",
    "standard",
    "lightning",
    "untimed",
)
UNRATED = ("u", "unrated")
COLOURS = {"w": "white", "white": "white", "b": "black", "black": "black"}
VARIANTS = {"crazyhouse": "crazyhouse", "zh": "crazyhouse", "bughouse": "bughouse", "bug": "bughouse", "chess": "chess"}
FISCHER = ("fr", "wild/fr", "fischer")
STRENGTHS = re.compile(r"\d+-\d+")  # of whom a seek is for
MATCH_TIMES, SEEK_TIMES = "2 12", "5 0"  # where none are said
NO_OPPONENT = "You have no last opponent."


def terms_of(text: str) -> str:
    """The server's words for FICS's of a match or a seek: who isn't rated, colours and variants have names of their
    own, and ways of choosing an opponent have none. Minutes alone have an increment of 0. What has no place in the
    server's words stands at their end, and is refused there."""
    words = text.split()
    numbers, rest = [it for it in words if it.isdigit()], [it.lower() for it in words if not it.isdigit()]
    if "wild" in rest and "fr" in rest:
        rest = [it for it in rest if it != "wild"]
    said: list[str] = []
    rated: list[str] = []
    colour: list[str] = []
    used = 2
    for word in rest:
        if word in UNRATED:
            rated = ["unrated"]
        elif word in COLOURS:
            colour = [COLOURS[word]]
        elif word in VARIANTS:
            said.append(VARIANTS[word])
        elif word in FISCHER:
            said += ["fischer", *(numbers[2:3] or [str(random.randrange(960))])]
            used = 3
        elif word not in WITHOUT_MEANING and not STRENGTHS.fullmatch(word):
            said.append(word)
    times = numbers[:2] + ["0"] if len(numbers) == 1 else numbers[:2]
    return " ".join(times + rated + said + colour + numbers[used:])


def shown_terms(said: str, usual: str) -> Terms:
    """The terms that a line for the server names."""
    words = [it for it in said.split() if it != "unrated"]
    has_times = bool(words) and words[0].isdigit()
    times, others = (" ".join(words[:2]), words[2:]) if has_times else (usual, words)
    colour = others.pop() if others and others[-1] in ("white", "black") else ""
    terms = Terms.parsed(f"{times} {' '.join(others) or 'chess'} {colour}".strip())
    minutes, increment = map(int, usual.split())
    return terms or Terms(minutes, increment, "chess")


def match(line: Line) -> None:
    who, _, words = line.rest.partition(" ")
    said, me = terms_of(words), line.session.name
    offer = offer_text(me, who, shown_terms(said, MATCH_TIMES))

    def done(lines: Lines) -> Lines:
        return texts.DONE["match"].format(offer=offer).split("\n") + line.session.offers.add("match", me, who, offer)

    line.hand_on(f"match {who} {said}", "match", done)


def rematch(line: Line) -> None:
    game = line.session.last_game
    if not game:
        return line.local(NO_OPPONENT)
    terms, who = game.terms, game.other_player(line.session.name)
    rest = f"{who} {terms.minutes} {terms.increment} {terms.variant}"
    return match(replace(line, text=f"match {rest}", behind=rest))


def seek(line: Line) -> None:
    session, said = line.session, terms_of(line.rest)
    terms = shown_terms(said, SEEK_TIMES)

    def done(lines: Lines) -> Lines:
        made = parse(lines[0]) if lines else None
        if not isinstance(made, SeekMade):
            return lines
        session.seeks.known[made.number] = session.name, terms
        is_shown = session.is_set("seekinfo") and session.is_set("showownseek")
        return [*(session.seeks.row("<sn>", made.number) if is_shown else []), texts.DONE["seek"].format(n=made.number)]

    line.hand_on(f"seek {said}", "seek", done)


def unseek(line: Line) -> None:
    session, rest = line.session, line.rest

    def done(lines: Lines) -> Lines:
        mine = [n for n, (who, _) in session.seeks.known.items() if who == session.name]
        gone = [n for n in mine if rest in ("", str(n))]
        for n in gone:
            del session.seeks.known[n]
        removed = ["<sr> " + " ".join(map(str, gone))] if gone and session.is_set("seekremove") else []
        return [*removed, texts.DONE["unseek one" if rest else "unseek"].format(rest)]

    line.hand_on(f"unseek {rest}", "unseek", done)


def sought(line: Line) -> None:
    seeks = line.session.seeks

    def done(lines: Lines) -> Lines:
        seeks.learn(lines)
        known = sorted(seeks.known.items())
        ads = [texts.AD.format(n=n, who=who, **fields_of(terms)) for n, (who, terms) in known]
        return [*ads, texts.ADS.format(n=len(ads))]

    line.hand_on("sought", "sought", done)


def play(line: Line) -> None:
    """`play`; a seek may be named by who made it."""
    known, wanted = line.session.seeks.known.items(), line.rest
    if not wanted.isdigit():
        wanted = next((str(n) for n, (who, _) in known if who.lower() == wanted.lower()), wanted)
    line.hand_on(f"play {wanted}", "other")
