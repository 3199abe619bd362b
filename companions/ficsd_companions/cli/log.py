"""The log of a program, a line each on the standard error."""

import logging

from ficslink.texts import shown


class Printable(logging.Formatter):
    """Tells by its number whatever a terminal would obey."""

    def format(self, record: logging.LogRecord) -> str:
        return shown(super().format(record))


def begin(form: str, moment: str | None = None) -> None:
    """Has the lines of this program and of its libraries written in a form of `logging`, with moments in one of
    `time.strftime`."""
    handler = logging.StreamHandler()
    handler.setFormatter(Printable(form, moment))
    logging.basicConfig(level=logging.INFO, handlers=[handler])
