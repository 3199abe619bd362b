"""What goes wrong, each by a name of its own."""

from .refusals import Refusal


class LinkError(Exception):
    """Whatever goes wrong on a link."""


class NoServer(LinkError):
    """There is no server, or what answers there is none of this kind."""


class Closed(LinkError):
    """The link is closed: the server ended it, it broke, or one has closed it oneself."""


class TooLong(LinkError):
    """What comes has no end of a line."""


class Silent(LinkError):
    """The server owes an answer and says nothing. The link is closed by that."""


class BadLine(LinkError, ValueError):
    """A line that the server can't take: it has another byte than 0x20 to 0x7E, or more than 1,023. It isn't sent."""


class NoGame(LinkError):
    """The game isn't one's own, or is over."""


class PasswordWanted(LinkError):
    """The name has an account, and no password was given."""


class RefusalError(LinkError):
    """The server refused a line: `number` and `name` as in its table, `refusal` where it is one of those that are
    known."""

    def __init__(self, number: int, name: str) -> None:
        self.number, self.name = number, name
        self.refusal = next((it for it in Refusal if (it.value, it.word) == (number, name)), None)
        super().__init__(f"refused {number} {name}" + (f": {self.refusal.cause}" if self.refusal else ""))

    @property
    def cause(self) -> str:
        """The cause in words; nothing for a refusal that this library doesn't know."""
        return self.refusal.cause if self.refusal else ""
