"""What `help` says: a row for each word, with what stands behind it and what it does."""

import textwrap
from collections.abc import Iterable

WIDTH = 75
Row = tuple[str, str, str]  # a word, what stands behind it, what it does

# the server's commands, in the order of their letters
SERVER: tuple[Row, ...] = (
    ("abort", "", 'offers to end the game without a result; "abort" by the other agrees'),
    (
        "accept",
        "[NAME or N or KIND]",
        'accepts an offer: by its number, by who made it, or by its kind, as "accept '
        'draw". Without anything behind it the oldest offer at the board, and where there is none the oldest challenge',
    ),
    ("adjourn", "", "offers to go on with the game on another day, where all its players are registered"),
    (
        "alias",
        "NAME TEXT",
        "lets NAME, 1 to 15 small letters, stand for TEXT; $1 to $9 and $@ in it are the words "
        "behind the name. Without anything behind it: the aliases that you set",
    ),
    ("+channel", "N", "joins channel N, 0 to 255; at most 20"),
    ("-channel", "N", "leaves channel N"),
    ("+censor", "NAME", "keeps tells, challenges and games of NAME away"),
    ("-censor", "NAME", "takes NAME off that list"),
    ("decline", "[NAME or N or KIND]", 'turns an offer down; which one is said as behind "accept"'),
    (
        "draw",
        "",
        "offers a draw, accepts one, or claims one behind 50 moves without a pawn's move or capture, or where "
        "the position stands for the third time: the server draws no game by itself but by stalemate",
    ),
    ("flag", "", "calls the flag: nothing ends by time alone"),
    ("games", "[NAME or N]", "the games that are played"),
    ("goboard", "NAME", "goes to your game against NAME, in a simul"),
    ("inchannel", "N or NAME", "who is in channel N; the channels that you joined"),
    ("kibitz", "TEXT", "tells all who play or look on at your game, or else at the one at which you look on"),
    (
        "match",
        "NAME [MINUTES [INCREMENT]] [VARIANT] [COLOUR]",
        "challenges NAME; 2 12 where no time is said, and an "
        "increment of 0 where only the minutes are. VARIANT is crazyhouse, bughouse or wild fr; COLOUR white or black",
    ),
    ("+noplay", "NAME", "keeps challenges and games of NAME away"),
    ("-noplay", "NAME", "takes NAME off that list"),
    ("observe", "N or NAME", "looks on at game N, or at the one that NAME plays"),
    ("partner", "[NAME]", "asks NAME to be your partner at bughouse; without NAME parts with the one that you have"),
    ("pending", "", "the challenges to you and by you"),
    ("play", "N or NAME", "takes the seek of that number, or of that player"),
    ("ptell", "TEXT", "tells your partner"),
    ("quit", "", "leaves, at once: a running game is lost by that, or adjourned where both players are registered"),
    ("refresh", "", "shows the board of your game again"),
    (
        "register",
        "PASSWORD",
        "makes an account of your name. It lives as long as the server, or as its store where it has one",
    ),
    ("resign", "", "gives your game up"),
    ("resume", "NAME", "goes on with the adjourned game that you have with NAME, once NAME has typed it too"),
    (
        "seek",
        "[MINUTES [INCREMENT]] [VARIANT] [COLOUR]",
        "offers a game to whoever takes it; 5 0 where no time is said. At most 3 at a time",
    ),
    (
        "set",
        "open 0, shout 0, seek 0, or 1",
        "whether you can be challenged, hear shouts, and hear of seeks; whatever "
        "else is set is remembered and does nothing",
    ),
    ("shout", "TEXT", "tells all others who hear shouts"),
    ("simnext", "", "goes to the next of your games, in a simul"),
    ("simopen", "", "gives a simul from now on, or ends it"),
    ("simprev", "", "goes to the previous of your games, in a simul"),
    ("sought", "", "the seeks that stand"),
    ("stored", "", "your adjourned games"),
    ("style", "12", "boards come in style 12 only here"),
    ("takeback", "[N]", "offers to take N half-moves back, 1 without N"),
    ("tell", "NAME TEXT, or N TEXT", "tells NAME, or all others in channel N"),
    ("unalias", "NAME", "takes an alias away"),
    ("unobserve", "[N]", "looks on at game N no longer, or at none"),
    ("unseek", "[N]", "takes back your seek of that number, or all of them"),
    ("who", "", "who is here"),
    ("withdraw", "[NAME or N]", "takes back your challenge to NAME, or of that number, or the oldest"),
)
# words of FICS that have an answer of the go-between's own
HERE: tuple[Row, ...] = (
    ("date", "", "the time, of Greenwich"),
    ("exit", "", "quit"),
    ("finger", "[NAME]", "whether NAME is here"),
    ("help", "[WORD]", "the words that there are, and what WORD does"),
    ("iset", "VARIABLE VALUE", "a setting of a program"),
    ("ivariables", "", "the settings of your program"),
    ("messages", "[NAME TEXT]", "there are none: TEXT is told to nobody, and shown again"),
    ("moves", "[N or NAME]", "the list of moves of your game, or of one at which you look on"),
    ("rematch", "", "challenges your last opponent again"),
    ("say", "TEXT", "tells your opponent, or your last one"),
    ("showlist", "[LIST]", 'what you put on a list: channel, censor or noplay; also "=LIST"'),
    ("statistics", "[NAME]", "as finger: there are no ratings"),
    ("variables", "", 'what you have set; also "vars"'),
    ("xtell", "NAME TEXT", "tell"),
)
MOVES = "Moves: e4, e2e4, Nf3, nf3, Ng1-f3, exd5, e8=Q, O-O, and P@e4 for a man in hand. A b is file b where it can be."
MORE = 'Do "help WORD" to learn what a word does.'
TOPICS = {
    "channel_list": "All channels from 0 to 255 are free. Please use\n"
    "channels only for their designated topics.\n\nSPECIAL NOTE: none is designated here."
}
ABSENT = 'There is no help here for "{0}"; "help" has the words.'


def names(rows: Iterable[Row]) -> list[str]:
    return [row[0] for row in rows]


def overview() -> list[str]:
    """The words that there are."""
    lines = ["The server's commands:"] + folded(" ".join(names(SERVER)), "  ")
    lines += ["", "Words of FICS that are answered here:"] + folded(" ".join(names(HERE)), "  ")
    return lines + [""] + folded(MOVES) + [MORE]


def of(word: str, name: str) -> list[str]:
    """What a word does; `name` is the command that it is the beginning of, and the word itself where it is of none."""
    if word in TOPICS:
        return TOPICS[word].split("\n")
    rows = SERVER + HERE
    row = next((it for it in rows if it[0] == name), None) or only([it for it in rows if it[0].startswith(word)])
    row = row or next((it for it in rows if it[0] == "+" + name.lstrip("=")), None)
    if not row:
        return [ABSENT.format(word)]
    return [f"Usage: {row[0]} {row[1]}".rstrip(), ""] + folded(f"{row[0]}: {row[2]}.")


def only(found: list[Row]) -> Row | None:
    """The one that there is; none where there are more or fewer."""
    return found[0] if len(found) == 1 else None


def folded(text: str, before: str = "") -> list[str]:
    return textwrap.wrap(
        text, WIDTH, initial_indent=before, subsequent_indent=before, break_long_words=False, break_on_hyphens=False
    )
