"""Talk, who is here, and the lists that one has."""

from dataclasses import replace

from .. import texts
from ..boards import Role
from ..request import Lines
from .challenges import NO_OPPONENT
from .line import Line

LISTS = ("channel", "censor", "noplay")
PLUS_CODE, MINUS_CODE = 12, 151  # in block mode
NO_LIST = '"{}" does not match any list name.'


def tell(line: Line) -> None:
    """`tell`; a point or a comma stands for who was told last."""
    who, _, text = line.rest.partition(" ")
    who = line.session.last_told if who in (".", ",") and line.session.last_told else who.rstrip("!")
    line.session.last_told = who
    told = f"tell {who} {text}"
    replace(line, text=told).hand_on(told, "tell channel" if who.isdigit() else "tell")


def say(line: Line) -> None:
    """`say`: tells the opponent, or the last one."""
    game = line.session.present()
    game = game if game and game.role is Role.MINE else line.session.last_game
    if not game:
        return line.local(NO_OPPONENT)
    return tell(replace(line, behind=f"{game.other_player(line.session.name)} {line.rest}"))


def messages(line: Line) -> None:
    """There are none; a text that was to be one is shown again, so that it isn't lost."""
    who, _, text = line.rest.partition(" ")
    line.local(texts.MESSAGE_LOST.format(who=who, text=text.strip()) if text else texts.NO_MESSAGES)


def who(line: Line) -> None:
    def done(lines: Lines) -> Lines:
        return [texts.WHO.format(who=it) for it in lines] + texts.WHO_END.format(n=len(lines)).split("\n")

    line.hand_on("who", "who", done)


def finger(line: Line) -> None:
    name = line.first or line.session.name

    def done(lines: Lines) -> Lines:
        found = next((it for it in lines if it.lower() == name.lower()), None)
        text = texts.FINGER if found else texts.FINGER_ABSENT
        return text.format(who=found or name).split("\n")

    line.hand_on("who", "finger", done)


def inchannel(line: Line) -> None:
    number, session = line.first, line.session
    if not number.isdigit():
        names = " ".join(session.lists["channel"])
        return line.local(texts.CHANNELS_OF.format(who=number or session.name, names=names))

    def done(lines: Lines) -> Lines:
        names = [it for it in lines if it != "none"]
        text = texts.CHANNEL if names else texts.CHANNEL_EMPTY
        return text.format(number, names=" ".join(names), n=len(names)).split("\n")

    return line.hand_on(f"inchannel {number}", "inchannel", done)


def list_of(word: str) -> str | None:
    """The list whose name a word begins."""
    return next((it for it in LISTS if word and it.startswith(word.lower())), None)


def showlist(line: Line) -> None:
    if not line.rest:
        return line.local(texts.LISTS)
    return show(line, list_of(line.rest), line.rest)


def show(line: Line, chosen: str | None, wanted: str) -> None:
    """The names on a list, where the word that was typed is the beginning of one."""
    if not chosen:
        return line.local(NO_LIST.format(wanted))
    names = line.session.lists[chosen]
    return line.local(texts.LIST.format(chosen, n=len(names), names=" ".join(names)).rstrip("\n"))


def change_list(line: Line) -> None:
    """`+LIST NAME`, `-LIST NAME` and `=LIST`."""
    sign, words = line.text[0], line.text[1:].split()
    wanted = words[0].lower() if words else ""
    chosen = list_of(wanted)
    line = replace(line, code=PLUS_CODE if sign == "+" else MINUS_CODE)
    if not chosen or sign == "=" or len(words) < 2:
        return show(line, chosen, wanted)
    entry, names = words[1], line.session.lists[chosen]
    key = sign + chosen if chosen == "channel" else sign

    def done(lines: Lines) -> Lines:
        if sign == "+":
            names.append(entry)
        else:
            names[:] = [it for it in names if it.lower() != entry.lower()]
        return [texts.DONE[key].format(entry, list=chosen)]

    return line.hand_on(f"{sign}{chosen} {entry}", key, done)
