"""The words of FICS that are answered here, or said in the server's words, and `help`, which tells of them."""

from dataclasses import dataclass, replace

from .. import helps
from . import challenges, games, offers, settings, talk
from .line import Line, Says, Way, as_it_is

SAME_HELP = {"bye": "exit", "logout": "exit", "vars": "variables"}


@dataclass(frozen=True)
class Command:
    """A row of the table."""

    word: str
    least: str  # the shortest beginning that means it
    code: int  # its number in block mode
    way: Way  # how it is dealt with


def leave(line: Line) -> None:
    line.hand_on("quit", "quit")


def helped(line: Line) -> None:
    """`help`: the words that there are, and what one does."""
    word = line.first.lower()
    command = command_of(word)
    if not word:
        line.local("\n".join(helps.overview()))
    elif command and isinstance(command.way, Says):
        command.way(replace(line, behind=""))
    else:
        name = command.word if command else word
        line.local("\n".join(helps.of(word, SAME_HELP.get(name, name))))


# a line whose first word begins no row goes on as it was typed; of two that it begins the first is meant
COMMANDS = (
    Command("abort", "ab", 10, as_it_is),
    Command("accept", "a", 11, offers.accept),
    Command("adjourn", "adj", 13, as_it_is),
    Command("alias", "ali", 159, settings.alias),
    Command("allobservers", "all", 14, Says("Who looks on at a game isn't told here.")),
    Command("assess", "ass", 15, Says("There are no ratings here.")),
    Command("backward", "backw", 16, Says("There is no examining here.")),
    Command("bugwho", "bug", 22, Says('Who is a partner of whom isn\'t told here; do "partner NAME" to ask one.')),
    Command("bye", "by", 97, leave),
    Command("cshout", "cs", 31, Says('There is no c-shout here; do "shout".')),
    Command("date", "da", 32, settings.date),
    Command("decline", "dec", 33, offers.decline),
    Command("draw", "dr", 34, as_it_is),
    Command("examine", "ex", 36, Says("There is no examining here.")),
    Command("exit", "exi", 97, leave),
    Command("finger", "f", 37, talk.finger),
    Command("flag", "fl", 38, as_it_is),
    Command("follow", "fo", 41, Says("You're not following anyone.")),
    Command("forward", "forw", 42, Says("There is no examining here.")),
    Command("games", "ga", 43, games.games),
    Command("ginfo", "gi", 46, Says('There is no such information here; do "games".')),
    Command("goboard", "go", 47, as_it_is),
    Command("handles", "han", 48, Says('Which names have an account isn\'t told here; do "who".')),
    Command("help", "h", 50, helped),
    Command("history", "hi", 51, Says("{0} has no history games.")),
    Command("inchannel", "inc", 53, talk.inchannel),
    Command("iset", "is", 56, settings.iset),
    Command("it", "it", 57, Says('There is no "it" here; do "shout".')),
    Command("ivariables", "iv", 58, settings.ivariables),
    Command("journal", "j", 60, Says("{0} has no journal entries.")),
    Command("kibitz", "k", 62, as_it_is),
    Command(
        "limits",
        "li",
        63,
        Says("256 players, 3 seeks, 20 channels, 100 names on a list, 32 games at which one looks on."),
    ),
    Command("llogons", "ll", 65, Says("There is no record of logons here.")),
    Command("logons", "lo", 66, Says("There is no record of logons here.")),
    Command("logout", "logou", 97, leave),
    Command("match", "m", 73, challenges.match),
    Command("messages", "mes", 74, talk.messages),
    Command("more", "more", 79, Says("There is no more: nothing is cut into pages here.")),
    Command("moretime", "mor", 76, Says("No time can be given here.")),
    Command("moves", "mo", 77, games.moves),
    Command("news", "ne", 78, Says("There are no news items.")),
    Command("next", "nex", 79, Says("There is no more: nothing is cut into pages here.")),
    Command("observe", "o", 80, games.observe),
    Command("oldmoves", "old", 81, Says("There are no finished games here.")),
    Command("partner", "par", 84, offers.partner),
    Command("password", "pas", 85, Says("A password can't be changed here.")),
    Command("pause", "pau", 86, Says("A clock can't be stopped here.")),
    Command("pending", "pe", 87, offers.pending),
    Command("pfollow", "pf", 88, Says("You're not following anyone.")),
    Command("ping", "pi", 0, Says("There is no ping here.")),
    Command("play", "pl", 158, challenges.play),
    Command("pobserve", "po", 89, Says("You see your partner's board already.")),
    Command("primary", "pri", 91, Says("You see your own game already.")),
    Command("ptell", "pt", 93, as_it_is),
    Command("quit", "q", 97, as_it_is),
    Command("refresh", "re", 101, games.refresh),
    Command("register", "reg", 0, settings.register),
    Command("rematch", "rem", 102, challenges.rematch),
    Command("resign", "res", 103, as_it_is),
    Command("resume", "resu", 104, as_it_is),
    Command("say", "sa", 107, talk.say),
    Command("seek", "see", 155, challenges.seek),
    Command("set", "set", 109, settings.set_variable),
    Command("shout", "sh", 110, as_it_is),
    Command("showlist", "show", 111, talk.showlist),
    Command("simopen", "simo", 120, as_it_is),
    Command("simnext", "simn", 118, as_it_is),
    Command("simprev", "simpr", 122, as_it_is),
    Command("smoves", "sm", 123, Says("There are no finished games here.")),
    Command("sought", "so", 157, challenges.sought),
    Command("statistics", "sta", 126, talk.finger),
    Command("stored", "sto", 127, games.stored),
    Command("style", "st", 128, settings.style),
    Command("switch", "sw", 130, Says("Colours can't be changed here.")),
    Command("takeback", "ta", 131, as_it_is),
    Command("tell", "t", 132, talk.tell),
    Command("time", "ti", 133, Says("The clocks stand in each board's line.")),
    Command("unalias", "una", 160, settings.unalias),
    Command("unexamine", "une", 137, Says("You are not examining a game.")),
    Command("unobserve", "uno", 138, games.unobserve),
    Command("unpause", "unp", 139, Says("The clock is not paused.")),
    Command("unseek", "uns", 156, challenges.unseek),
    Command("uptime", "up", 140, Says("The server doesn't tell since when it runs.")),
    Command("variables", "va", 143, settings.variables),
    Command("vars", "vars", 143, settings.variables),
    Command("whisper", "whi", 145, Says('There is no whisper here: "kibitz" is heard by the players too.')),
    Command("who", "wh", 146, talk.who),
    Command("withdraw", "wi", 147, offers.withdraw),
    Command("xtell", "xt", 150, talk.tell),
    Command("znotify", "z", 152, Says("No one from your notify list is logged on.")),
)


def command_of(word: str) -> Command | None:
    """The row of the table whose word this one begins."""
    word = word.lower()
    return next((it for it in COMMANDS if it.word.startswith(word) and word.startswith(it.least)), None)
