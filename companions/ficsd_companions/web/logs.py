"""What goes to the log: faults of this program, and nothing that visitors can bring about as often as they like."""

import logging

from aiohttp.http_exceptions import HttpProcessingError


class NoVisitorsFault(logging.Filter):
    """Leaves out requests that are no HTTP."""

    def filter(self, record: logging.LogRecord) -> bool:
        return not (record.exc_info and isinstance(record.exc_info[1], HttpProcessingError))


def quieten() -> None:
    """Sets aiohttp's logs so."""
    logging.getLogger("aiohttp.server").addFilter(NoVisitorsFault())
    logging.getLogger("aiohttp.websocket").setLevel(logging.ERROR)
