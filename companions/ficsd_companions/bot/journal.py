"""The bot's log."""

import logging

from ficsd_companions.cli import log

_logger = logging.getLogger("fics_bot")


def begin() -> None:
    """Has it written, each line with the time of day."""
    log.begin("%(asctime)s %(message)s", "%H:%M:%S")


def say(text: str) -> None:
    """Writes a line."""
    _logger.info("%s", text)
