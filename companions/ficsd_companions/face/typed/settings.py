"""What a client sets: variables, a program's own, aliases, an account; and the time."""

import time
from typing import TYPE_CHECKING

from .. import texts
from ..request import Lines
from .line import Line, as_it_is

if TYPE_CHECKING:
    from ..session import Session

FORWARDED_VARIABLES = ("open", "shout")
SWITCHES = ("open", "shout", "seek")  # which `set` turns over where it names no value
ON = {"on": "1", "true": "1", "yes": "1", "off": "0", "false": "0", "no": "0"}
ZONE = "UTC"
NAMES, NAME, VALUE = 64, 32, 200  # how many are kept, and how long
NOT_SET = texts.NOT_SET.format("{}", most=NAMES, name=NAME, value=VALUE)


def kept(values: dict[str, str], name: str, value: str) -> bool:
    """Puts a value under a name, unless there are too many or one is too long: whether it is there."""
    is_new = name not in values
    if len(name) > NAME or len(value) > VALUE or is_new and len(values) >= NAMES:
        return False
    values[name] = value
    return True


def listed(values: dict[str, str]) -> str:
    return "\n".join(f"{it}={value}" for it, value in sorted(values.items()))


def set_variable(line: Line) -> None:
    """`set`; the server hears of what it has too."""
    variable, value, *_ = [*line.rest.split(None, 1), "", ""]
    variable, value = variable.lower(), ON.get(value.lower(), value)
    if variable == "style":
        return set_style(line, value)
    if variable in SWITCHES and not value:
        value = "0" if line.session.variables[variable] != "0" else "1"
    if not kept(line.session.variables, variable, value):
        return line.local(NOT_SET.format(variable[:NAME]))
    done = texts.DONE["set"].format(variable, value)
    if variable in FORWARDED_VARIABLES:
        return line.hand_on(f"set {variable} {value}", "set", lambda lines: [done])
    return line.local(done)


def style(line: Line) -> None:
    set_style(line, line.rest)


def set_style(line: Line, value: str) -> None:
    line.local(texts.DONE["style" if value in ("", "12") else "other style"])


def iset(line: Line) -> None:
    """`iset`: what a program sets. What it wants to be told of is told from what stands."""
    session = line.session
    variable, value, *_ = [*line.rest.split(), "", ""]
    variable, value = variable.lower(), ON.get(value.lower(), value) or "1"
    done = [texts.DONE["iset off" if value == "0" else "iset on"].format(variable)]
    if variable == "seekinfo" and value != "0":
        return line.ask(["sought"], lambda answers: done + begin_seekinfo(session, answers[0], value))
    if not kept(session.settings, variable, value):
        return line.local(NOT_SET.format(variable[:NAME]))
    if variable == "pendinfo" and value != "0":
        done += [session.offers.line(it) for it in session.offers.standing]
    return line.local("\n".join(done))


def begin_seekinfo(session: "Session", sought: Lines, value: str) -> Lines:
    """The seeks that stand, for a client that is told of each from now on."""
    session.seeks.learn(sought)
    session.settings["seekinfo"] = value
    return ["<sc>", *session.seeks.all()]


def variables(line: Line) -> None:
    if line.rest.lower() not in ("", line.session.name.lower()):
        return line.local(texts.OTHERS_VARIABLES.format(line.rest))
    return line.local(listed(line.session.variables))


def ivariables(line: Line) -> None:
    line.local(listed(line.session.settings))


def alias(line: Line) -> None:
    """An alias is the server's, but for the sign before the lines that a client sends by itself. A line that begins
    with one goes on as it was typed."""
    aliases = line.session.aliases
    word, _, text = line.rest.partition(" ")
    if word == "$":
        return line.local(texts.DONE["alias"])
    if not text:
        return line.local("\n".join(texts.ALIAS.format(*it) for it in aliases.items()) or texts.NO_ALIASES)
    before, shown = aliases.get(word), line.answer("alias")
    aliases[word] = text.strip()

    def render(answers: list[Lines]) -> Lines:
        if line.refusal(answers[0]) is not None:
            aliases.pop(word, None)
            aliases.update({word: before} if before else {})
        return shown(answers)

    return line.ask([f"alias {line.rest}"], render)


def unalias(line: Line) -> None:
    def done(lines: Lines) -> Lines:
        line.session.aliases.pop(line.rest, None)
        return [texts.DONE["unalias"].format(line.rest)]

    line.hand_on(f"unalias {line.rest}", "unalias", done)


def register(line: Line) -> None:
    """The server drops blanks at a line's ends, but not at those of a password that is typed at the login: so they are
    no part of one."""
    if line.behind != line.behind.strip(" "):
        return line.local(texts.PASSWORD_BLANKS)
    return as_it_is(line)


def now() -> str:
    return time.strftime("%a %b %e, %H:%M " + ZONE + " %Y", time.gmtime())


def date(line: Line) -> None:
    line.local(texts.DATE.format(local=now()))
