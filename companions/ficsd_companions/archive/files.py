"""The files of the archive's days, and the games in them. A link of the file system is no file of the archive."""

import os
import re
from collections.abc import Iterator
from typing import NamedTuple

YEAR = re.compile(r"\d{4}")
NAME = re.compile(r"(\d{4}-\d\d-\d\d)(?:-[a-z]+)?\.b?pgn")
PIECE = 1 << 18  # bytes that are read and cut at a time, so that no step of it takes long
MOST_OF_A_GAME = 1 << 22  # bytes; a text that has no end within them is no game
EMPTY, NEXT = b"\n\n", b"\n[Event "
ENDS = (b"1-0", b"0-1", b"1/2-1/2", b"*")


class DayFile(NamedTuple):
    """A file of games, and by what it is seen that it has changed."""

    path: str
    day: str
    state: tuple[int, int, int]  # which file it is, its size, and when it was written

    @property
    def size(self) -> int:
        return self.state[1]

    @property
    def is_pairs(self) -> bool:
        """Whether it has pairs of bughouse as one game each."""
        return self.path.endswith(".bpgn")


def files_of(folder: str, faults: list[OSError]) -> Iterator[DayFile]:
    """All files of games in the folders of the years. A folder that isn't there has none; why others can't be read is
    put into `faults`."""
    for year in sorted(it.name for it in listed(folder, faults) if YEAR.fullmatch(it.name)):
        yield from filter(None, map(file_of, listed(os.path.join(folder, year), faults)))


def listed(folder: str, faults: list[OSError]) -> list[os.DirEntry[str]]:
    """What is in a folder; nothing where it is a link of the file system, or isn't there."""
    try:
        if os.path.islink(folder):
            return []
        with os.scandir(folder) as found:
            return list(found)
    except FileNotFoundError:
        return []
    except OSError as fault:
        faults.append(fault)
        return []


def file_of(it: os.DirEntry[str]) -> DayFile | None:
    match = NAME.fullmatch(it.name)
    try:
        if not match or not it.is_file(follow_symlinks=False):
            return None
        found = it.stat(follow_symlinks=False)
    except OSError:
        return None  # it is gone again
    return DayFile(it.path, match[1], (found.st_ino, found.st_size, found.st_mtime_ns))


def opened(path: str) -> int:
    return os.open(path, os.O_RDONLY | os.O_NOFOLLOW | os.O_CLOEXEC)


def bytes_of(path: str, offset: int, length: int) -> bytes:
    """A part of a file; fewer bytes where it ends before."""
    descriptor = opened(path)
    try:
        return os.pread(descriptor, length, offset)
    finally:
        os.close(descriptor)


def games_of(path: str, start: int) -> Iterator[tuple[int, bytes, bytes]]:
    """The whole games of a file from a byte on: where each begins, its tags, its movetext. What isn't whole is left to
    who comes again."""
    rest, at = b"", start
    with os.fdopen(opened(path), "rb", buffering=0) as file:
        file.seek(start)
        while piece := file.read(PIECE):
            rest += piece
            begin = 0
            while (found := whole(rest, begin)) is not None:
                begin, head, end = found
                if rest[head:end].rstrip().endswith(ENDS):
                    yield at + begin, rest[begin:head], rest[head:end]
                begin = end
            rest, at = rest[begin:], at + begin
            if len(rest) > MOST_OF_A_GAME:
                return


def whole(text: bytes, begin: int) -> tuple[int, int, int] | None:
    """The next game behind a place: where it begins, where its tags end, where it ends."""
    if not text.startswith(b"[", begin):
        begin = text.find(NEXT, begin) + 1
        if not begin:
            return None
    head = text.find(EMPTY, begin)
    end = text.find(EMPTY, head + 2) if head >= 0 else -1
    return (begin, head + 2, end + 2) if end >= 0 else None
