"""Messages for who isn't there: a file for each, which is there whole once its sender is told so, and goes once it was
handed on."""

import fcntl
import json
import logging
import os
import re
import threading
from collections.abc import Iterator
from contextlib import suppress
from dataclasses import dataclass, field
from datetime import datetime
from pathlib import Path

from ficsd_companions.cli.replacing import UNFINISHED, replace

MOST_FOR_EACH = 20
HANDLE = re.compile("[A-Za-z]{3,17}")
ENDING = ".json"
PRIVATE = 0o600  # a file that nobody else reads

logger = logging.getLogger("fics_ratings")


class Full(Exception):
    """As many messages wait for somebody as may."""


class Taken(Exception):
    """Another program has the folder."""


@dataclass(frozen=True)
class Message:
    """A message, and the file that has it."""

    sender: str
    to: str
    when: datetime
    text: str
    path: Path = field(compare=False)

    def __str__(self) -> str:
        return f"Message of {self.sender}, {self.when:%Y-%m-%d %H:%M}: {self.text}"


class Box:
    """The messages in a folder, which is one program's alone."""

    def __init__(self, folder: Path) -> None:
        """`Taken` where another program has it, `OSError` where it can't be read."""
        self.folder = folder
        self._changing = threading.Lock()
        folder.mkdir(mode=0o700, parents=True, exist_ok=True)
        self._folder = os.open(folder, os.O_RDONLY)
        try:
            fcntl.flock(self._folder, fcntl.LOCK_EX | fcntl.LOCK_NB)
        except BlockingIOError:
            os.close(self._folder)
            raise Taken(f"another program has {folder}") from None
        for it in folder.glob(f"*{UNFINISHED}"):  # of which nobody was told that they are kept
            it.unlink()
        self.waiting: dict[str, list[Message]] = {}
        for message in sorted(self._read(), key=lambda it: (it.when, it.path)):
            self.waiting.setdefault(message.to.casefold(), []).append(message)

    def close(self) -> None:
        os.close(self._folder)

    def _read(self) -> Iterator[Message]:
        for path in self.folder.glob(f"*{ENDING}"):
            try:
                kept = json.loads(path.read_text(encoding="utf-8"))
                when = datetime.fromisoformat(kept["when"])
                yield Message(str(kept["sender"]), str(kept["to"]), when, str(kept["text"]), path)
            except (ValueError, KeyError, TypeError):
                logger.warning("%s is no message, and stays as it is", path)

    def keep(self, sender: str, to: str, text: str, when: datetime) -> None:
        """Keeps a message. `Full` where that are too many; `OSError` where the disk doesn't take it, and then nothing
        of it is there."""
        path = self.folder / f"{to.lower()}-{when:%Y%m%dT%H%M%S%f}{ENDING}"
        message = Message(sender, to, when, text, path)
        with self._changing:
            if len(self.waiting.get(to.casefold(), [])) >= MOST_FOR_EACH:
                raise Full
            self._write(message)
            self.waiting.setdefault(to.casefold(), []).append(message)

    def _write(self, it: Message) -> None:
        kept = {"sender": it.sender, "to": it.to, "when": it.when.isoformat(), "text": it.text}
        try:
            replace(it.path, json.dumps(kept), mode=PRIVATE)
        except OSError:
            with suppress(OSError):
                it.path.unlink()
            raise

    def remove(self, message: Message) -> None:
        """Lets a message go that was handed on. Where its file can't be removed it is handed on once more by who reads
        the folder anew, and not before."""
        key = message.to.casefold()
        with self._changing:
            self.waiting[key].remove(message)
            if not self.waiting[key]:
                del self.waiting[key]
        try:
            message.path.unlink()
            os.fsync(self._folder)
        except OSError as fault:
            logger.error("%s can't be removed: %s", message.path, fault)
