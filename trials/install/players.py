"""The players of a booted machine: Ann and Ben, who have accounts, and their game."""

import time

from tests.kit.link import Link

from .machine import A_MOMENT, PATIENCE, SERVER, says

BOARD = "rnbqkbnr pppp-ppp -------- ----p--- ----P--- -----N-- PPPP-PPP RNBQKB-R B"  # as a game of theirs stands


def enter(name: str, password: str | None = None) -> Link:
    link = Link(SERVER)
    link.say(name, *([password] if password else []))
    link.until(f"Entered as {name}", PATIENCE)
    return link


def register(name: str, password: str = "secret") -> Link:
    """Somebody who comes in and gets an account."""
    link = enter(name)
    link.say(f"register {password}")
    link.until("^Ok")
    return link


def come_in_anew() -> tuple[Link, Link]:
    """Ann and Ben, with accounts."""
    return register("Ann", "swordfish"), register("Ben", "knight")


def enter_again() -> tuple[Link, Link]:
    return enter("Ann", "swordfish"), enter("Ben", "knight")


def play(ann: Link, ben: Link) -> None:
    """A game of three half-moves, behind which it stands as BOARD."""
    ann.say("match ben 2 12 white")
    ben.until("^Challenge")
    ben.say("accept")
    for who, last, word in ((ann, "none", "e4"), (ben, "e4", "e5"), (ann, "e5", "Nf3")):
        who.until(rf"^<12>.* {last} [01]$")
        who.say(word)
    ann.until("^<12>.* Nf3 ")


def resume(ann: Link, ben: Link) -> None:
    """Both go on with their game, which stands as it stood."""
    ben.say("resume ann")
    ben.until("^Asked")
    ann.say("resume ben")
    line = ann.until("^<12> .*").group(0)
    says("the game goes on as it stood", line[5 : 5 + len(BOARD)], BOARD)


def adjourn(ann: Link, ben: Link) -> None:
    ann.say("adjourn")
    ben.until("offers to adjourn")
    ben.say("accept")
    ann.until("adjourned}")
    time.sleep(A_MOMENT)
