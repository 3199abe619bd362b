"""The member that tells ratings, and hands messages on as those come in whom they are for."""

import asyncio
import logging
import time

from ficslink import lines
from ficslink.errors import LinkError, PasswordWanted, RefusalError
from ficslink.member import Member
from ficslink.refusals import WAITABLE

from ficsd_companions.cli.words import Address

from .answers import Answers
from .messages import Box

logger = logging.getLogger("fics_ratings")
SETTINGS = ("set open 0", "set shout 0", "set seek 0")
FIRST_PAUSE, LONGEST_PAUSE = 1.0, 60.0
AGAIN = 60.0  # seconds until a message is tried again that was refused


class Fault(Exception):
    """What ends the member."""


class Teller:
    """Answers on a server, as long as there is one."""

    def __init__(
        self, server: Address, name: str, password: str | None, answers: Answers, every: float, box: Box | None
    ) -> None:
        self.server, self.name, self.password = server, name, password
        self.answers, self.every, self.box = answers, every, box
        self.refused: dict[str, float] = {}  # to whom nothing could be told, and when

    async def run(self) -> None:
        """Goes in again whenever it is out. `Fault` where it can't."""
        while True:
            self.member = await self._come()
            logger.info("in as %s", self.member.name)
            tasks = [asyncio.create_task(self._hear()), asyncio.create_task(self._hand_on())]
            try:
                done, _ = await asyncio.wait(tasks, return_when=asyncio.FIRST_COMPLETED)
                for task in done:
                    task.result()
            except LinkError as fault:
                raise Fault(str(fault)) from fault
            finally:
                for task in tasks:
                    task.cancel()
                await asyncio.gather(*tasks, return_exceptions=True)
                await self.member.leave()
            logger.warning("the server has said good-bye")
            await asyncio.sleep(FIRST_PAUSE)

    async def _come(self) -> Member:
        """Goes in, as often as it takes while waiting may help."""
        pause = FIRST_PAUSE
        while True:
            try:
                return await self._enter()
            except RefusalError as refusal:
                if refusal.refusal not in WAITABLE:
                    raise Fault(f"the server refuses {self.name}: {refusal}") from refusal
                why: LinkError = refusal
            except PasswordWanted as fault:
                raise Fault(str(fault)) from fault
            except LinkError as fault:  # the server isn't there, or has ended meanwhile
                why = fault
            logger.warning("not in yet, next try in %g seconds: %s", pause, why)
            await asyncio.sleep(pause)
            pause = min(2 * pause, LONGEST_PAUSE)

    async def _enter(self) -> Member:
        """Goes in, and makes an account of the name where there is none and a password was given."""
        member = await Member.enter(*self.server, self.name, self.password, settings=SETTINGS)
        if self.password and not member.is_registered:
            try:
                await member.register(self.password)
            except RefusalError as refusal:
                logger.warning("%s gets no account: %s", self.name, refusal)
        return member

    async def tell(self, who: str, text: str) -> bool:
        """Tells a member something; whether that was taken."""
        try:
            await self.member.do(f"tell {who} {text}")
        except RefusalError:
            return False
        return True

    async def _hear(self) -> None:
        async for event in self.member.events():
            if isinstance(event, lines.Tell):
                try:
                    for text in await self.answers.to(event.who, event.text):
                        await self.tell(event.who, text)
                except LinkError as fault:  # it comes again by itself
                    logger.warning("%s isn't answered: %s", event.who, fault)

    # ---- messages ----

    async def _hand_on(self) -> None:
        """Looks who is there, as long as messages wait."""
        while True:
            if self.box and self.box.waiting and self.member.is_in:
                try:
                    await self._look(self.box)
                except LinkError as fault:
                    logger.warning("messages wait: %s", fault)
            await asyncio.sleep(self.every)

    async def _look(self, box: Box) -> None:
        present = {it.who.casefold(): it.who for it in (await self.member.do("who")).all(lines.Player)}
        now = time.monotonic()
        self.refused = {it: at for it, at in self.refused.items() if it in present and now - at < AGAIN}
        for key in set(box.waiting) & set(present) - set(self.refused):
            if await self._has_account(key):
                await self._tell_all(box, key, present[key])

    async def _has_account(self, name: str) -> bool:
        """Whether who is here under a name is who has the account of that name, and not a guest who came before it was
        made or after it went."""
        names = self.answers.names
        return names is not None and await asyncio.to_thread(names.has, name) is True

    async def _tell_all(self, box: Box, key: str, who: str) -> None:
        for message in list(box.waiting[key]):
            if not await self.tell(who, str(message)):
                self.refused[key] = time.monotonic()
                return
            await asyncio.to_thread(box.remove, message)
