"""A sitting's journal: a file from which it is restored, whatever ends the scribe.

The first line says whose games these are, since when, and where an earlier journal has their first half-moves; each
other line is one that the server wrote. Before the games are written into the archive, a line names the links under
which they are; so whoever finds such a journal looks whether they are there.
"""

import json
import os
from contextlib import suppress
from datetime import datetime
from pathlib import Path

from ficsd_companions.cli.replacing import replace
from ficslink.lines import GameListed
from ficslink.terms import Terms

from . import whole
from .sitting import Sitting

LINKS = "= "


class Journal:
    """A sitting, and its file. What becomes of the sitting is so from then on; `settle` brings the disk to it, and may
    be called again where that has taken less: `OSError` of each call means that."""

    def __init__(self, path: Path, sitting: Sitting, size: int = 0) -> None:
        self.path, self.sitting = path, sitting
        self._folder = path.parent  # where it is to lie
        self._file: int | None = None
        self._size = size  # of what is whole in it
        self._written = len(sitting.lines) if size else 0
        self._stands = self._is_made = size > 0  # whether there is a file, and whether it begins as it is to
        self._has_links = bool(sitting.links)
        self._is_let_go = False

    def begin(self) -> None:
        """Makes the file, whole at once, with all that is known."""
        self._is_made = False
        self.settle()

    def keep(self) -> None:
        """Adds what has come since."""
        self.settle()

    def keep_links(self) -> None:
        """Says, on the disk, under which links the games are about to be written."""
        self.settle()
        if not self._has_links:
            self._append([LINKS + " ".join(self.sitting.links)], to_disk=True)
            self._has_links = True

    def lie_in(self, folder: Path) -> None:
        """Is to lie in a folder, once it is settled."""
        self._folder = folder

    def move_to(self, folder: Path) -> None:
        self.lie_in(folder)
        self.settle()

    def remove(self) -> None:
        self._is_let_go = True
        self.settle()

    def settle(self) -> None:
        """Brings the disk to what is so."""
        if self._is_let_go:
            self.close()
            self.path.unlink(missing_ok=True)
            return
        try:
            self._move()
            if not self._is_made:
                self._make()
            if lines := self.sitting.lines[self._written :]:
                self._append(lines)
                self._written += len(lines)
        except FileNotFoundError:  # somebody has taken it away, so that it is made anew
            self._stands = self._is_made = False
            raise

    def _move(self) -> None:
        if self.path.parent == self._folder:
            return
        path = self._folder / self.path.name
        if self._stands:
            self._folder.mkdir(parents=True, exist_ok=True)
            self.close()
            os.rename(self.path, path)
        self.path = path

    def _make(self) -> None:
        """Puts a file beside it, whole, and that in its place."""
        games = [[it.number, it.white, it.black, str(it.terms)] for it in self.sitting.records.values()]
        first, lines = self.sitting.first, list(self.sitting.lines)
        head = json.dumps(
            {"games": games, "begun": first.begun.isoformat(), **({"late": True} if first.is_late else {})}
        )
        data = "".join(f"{it}\n" for it in (head, *lines)).encode()
        self._folder.mkdir(parents=True, exist_ok=True)
        replace(self.path, data, to_disk=False)
        self.close()
        self._size = len(data)
        self._stands = self._is_made = True
        self._written, self._has_links = len(lines), False

    def _append(self, lines: list[str], *, to_disk: bool = False) -> None:
        if self._file is None:
            self._file = os.open(self.path, os.O_WRONLY | os.O_CLOEXEC)
        data = "".join(f"{it}\n" for it in lines).encode()
        self._size = whole.put(self._file, self._size, data, to_disk=to_disk)

    def close(self) -> None:
        if self._file is not None:
            os.close(self._file)
            self._file = None


def name_of(sitting: Sitting) -> str:
    """A name for its file: when it was first seen, and who plays."""
    first = sitting.first
    return f"{first.begun:%Y%m%dT%H%M%S%f}-{first.number}-{first.white}-{first.black}.lines"


def restored(path: Path) -> Journal | None:
    """The journal in a file; none where that isn't one. What stands behind the last whole line is a line cut off."""
    data = path.read_bytes()
    size = data.rfind(b"\n") + 1
    head, *lines = data[:size].decode("utf-8", "replace").splitlines() or [""]
    try:
        kept = json.loads(head)
        begun = datetime.fromisoformat(kept["begun"])
        games = [
            GameListed(number, white, black, terms)
            for number, white, black, spelled in kept["games"]
            if (terms := Terms.parsed(spelled))
        ]
    except (ValueError, KeyError, TypeError):
        return None
    if not games:
        return None
    sitting = Sitting.of(games, begun, bool(kept.get("late")))
    ended = datetime.fromtimestamp(path.stat().st_mtime)
    for line in lines:
        if line.startswith(LINKS):
            sitting.links = line.removeprefix(LINKS).split()
        else:
            sitting.replay(line, ended)
    if size < len(data):
        with suppress(OSError):  # else it is cut as the next line is put there
            os.truncate(path, size)
    return Journal(path, sitting, size)
