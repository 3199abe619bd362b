"""What is to come to the disk. What that doesn't take stays in memory and is tried again, so that who is told of games
never waits for a disk and never fails by one."""

import asyncio
import logging
from collections import deque
from collections.abc import Callable, Iterable
from pathlib import Path

from . import whole
from .archive import Archive
from .journal import Journal

logger = logging.getLogger("fics_scribe")
PAUSE = 1.0  # seconds, before what the disk didn't take is tried again
END_SECONDS = 10.0  # at the end, in which it is tried


class Disk:
    """The journals that are behind what is known, and the sittings that are over and not yet written."""

    def __init__(self, archive: Archive) -> None:
        self.archive = archive
        self._behind: dict[Journal, None] = {}
        self._over: deque[Journal] = deque()  # in the order in which they ended
        self._writing: asyncio.Task[None] | None = None
        self._fault, self._try_at = "", 0.0  # what was said of it last, and when it may be tried again

    # ---- what is to be done ----

    def settle(self, known: Journal, act: Callable[[], None]) -> None:
        """Does an act by which a journal is brought to the disk. One that is behind already is left to the next
        try."""
        if known in self._behind and act == known.keep:
            return
        try:
            act()
            self._behind.pop(known, None)
        except OSError as fault:
            self._behind[known] = None
            self._fails(known.path, fault)

    def write(self, *known: Journal) -> None:
        """Has sittings that are over written."""
        for it in known:
            self._behind.pop(it, None)
            self._over.append(it)

    # ---- at work ----

    def go_on(self) -> None:
        """Does what is due, beside all else: a disk may take its time to have it."""
        is_free = not self._writing or self._writing.done()
        if (self._over or self._behind) and is_free and asyncio.get_running_loop().time() >= self._try_at:
            self._writing = asyncio.create_task(self.do())

    async def do(self) -> None:
        """Does all that it can."""
        self._try_at = asyncio.get_running_loop().time() + (PAUSE if self._fault else 0)
        has_room = self._settle_all() and await self._write_all()
        if has_room and self._fault and not self._behind and not self._over:
            self._fault = ""
            logger.info("the disk takes games again, and has all that is known of them")

    def _settle_all(self) -> bool:
        """Brings what is behind to the disk; whether that has room."""
        for known in list(self._behind):
            try:
                known.settle()
            except OSError as fault:
                self._fails(known.path, fault)
                if fault.errno in whole.FULL:
                    return False
            else:
                del self._behind[known]
        return True

    async def _write_all(self) -> bool:
        """Writes what is over, one after another; whether the disk has room. One that fails by itself holds no other
        off."""
        for _ in range(len(self._over)):
            known = self._over.popleft()
            try:
                await asyncio.to_thread(self.archive.finish, known)
            except (OSError, ValueError) as fault:
                self._fails(known.path, fault)
                is_full = isinstance(fault, OSError) and fault.errno in whole.FULL
                (self._over.appendleft if is_full else self._over.append)(known)
                if is_full:
                    return False
        return True

    def _fails(self, path: Path, fault: Exception) -> None:
        """Says why the disk doesn't take something, once as long as it is the same."""
        why = str(fault.strerror if isinstance(fault, OSError) else fault)
        if why != self._fault:
            logger.error("the disk doesn't take %s: %s. What is told of games stays in memory until it does", path, why)
        self._fault = why
        self._try_at = asyncio.get_running_loop().time() + PAUSE

    async def end(self, running: Iterable[Journal]) -> int:
        """Tries all of it for some seconds more, unless it is told again to end; of how many games something isn't on
        the disk."""
        end = asyncio.get_running_loop().time() + END_SECONDS
        try:
            if self._writing:
                await asyncio.wait([self._writing])
            await self.do()
            while (self._behind or self._over) and asyncio.get_running_loop().time() < end:
                await asyncio.sleep(PAUSE)
                await self.do()
        except asyncio.CancelledError:
            pass  # at once, then
        for known in running:
            known.close()
        return len(self._behind) + len(self._over)
