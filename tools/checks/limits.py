"""The limits that docs/RULES.md tells are those of the code: each row's numbers, in their order, are constants."""
import re

from .sources import of_crates, text

PAGE = "docs/RULES.md"
ROW = re.compile(r"^\| ([^|]+) \| ([^|]+) \| [^|]+ \|$", re.MULTILINE)
SAID = re.compile(r"2\^\d+|\d[\d,]*")
CONST = re.compile(r"\bconst ([A-Z_]+): u\w+ = ([\d_]+|1 << \d+);")
# the constants of a row: a crate, or one of its files, and the name
LIMITS = {
    "members in the hall": ["lobby_state MOST_MEMBERS"],
    "desks": ["lobby_state DESKS"],
    "games that are ever started": ["lobby_state MOST_GAMES"],
    "stored games and desks in use": ["lobby_shelf MOST_STORED"],
    "half-moves on a board": ["chess_model MOST_HALVES"],
    "lines that wait for a member": ["channel_feed/src/waiting MOST"],
    "channels of a player; names on a list": ["channel_feed/src/channels MOST", "channel_feed/src/names MOST"],
    "offers and declines of a seat in a game": ["linked_desk MOST_TOLD"],
    "remarks in a game": ["linked_desk MOST_REMARKS"],
    "games at which a session looks on": ["session_core MOST_OBSERVED"],
    "a handle": ["fics_words/src/handle FEWEST", "fics_words MOST_HANDLE_LETTERS"],
    "a line of `board` or of a script": ["fics_words MOST_LINE_BYTES"],
    "minutes, increment in seconds": ["chess_model MOST_TIME"],
    "a moment": ["clock_ledger LAST_MOMENT"],
    "a client's stamp": ["clock_ledger STAMP_CYCLE"],
    "sessions of a script": ["replay_core MOST_SESSIONS"],
    "accounts": ["login_handles/src/accounts MOST"],
    "aliases of a player; letters of their names": ["command_words/src/aliases MOST", "command_words MOST_LETTERS"],
    "seeks of a player": ["seek_match/src/seek_book MOST"],
    "places of a giver": ["simul_control/src/places MOST"],
    "reads of one run": ["edge_traits MOST_READS"],
}


def value(written):
    """A number as a page or the code writes it."""
    if written.startswith(("2^", "1 << ")):
        return 1 << int(re.split(r"\^|<< ", written)[1])
    return int(written.replace(",", "").replace("_", ""))


def values_of(where):
    """What constants of this name in that crate or file are."""
    path, name = where.split()
    files = [it for it in of_crates("src") if f"crates/{path}." in str(it) or f"crates/{path}/" in str(it)]
    return {value(number) for it in files for found, number in CONST.findall(text(it)) if found == name}


def faults():
    said = dict(ROW.findall(text(PAGE).partition("\n## Limits\n")[2]))
    for row, wheres in LIMITS.items():
        numbers = SAID.findall(said.get(row, ""))
        for where, number in zip(wheres, [*numbers, *[None] * len(wheres)]):
            if number is None or values_of(where) != {value(number)}:
                yield f"{PAGE} says {number} of {row}, {where} is {sorted(values_of(where))}"
