"""What all lines of the server have in common."""

from dataclasses import dataclass, fields
from typing import ClassVar


@dataclass(frozen=True, slots=True)
class Line:
    """A line of the server; `str()` of it is its text."""

    FORM: ClassVar[str] = ""  # the text, with its places in braces

    def __str__(self) -> str:
        return self.FORM.format(**{it.name: getattr(self, it.name) for it in fields(self)})


class Reply(Line):
    """What a command prints of its own."""

    __slots__ = ()


class Listed(Line):
    """A line of a list that a command asks for."""

    __slots__ = ()


class News(Line):
    """What comes without being asked for."""

    __slots__ = ()


@dataclass(frozen=True, slots=True)
class Unknown(Line):
    """A line that no form fits: log it, and go on."""

    FORM = "{text}"
    text: str
