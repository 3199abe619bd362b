"""What comes and waits to be taken, in its order."""

import asyncio
from collections import deque
from collections.abc import AsyncIterator
from typing import Generic, TypeVar

Item = TypeVar("Item")
MOST = 10_000  # so many items wait before no more is read


class Stream(Generic[Item]):
    """Items for whoever takes them by `async for`, each once. It ends behind the last one, or with an error."""

    def __init__(self) -> None:
        self._items: deque[Item] = deque()
        self._changed = asyncio.Event()
        self._has_room = asyncio.Event()
        self._has_room.set()
        self._is_over = False
        self._error: BaseException | None = None

    def put(self, *items: Item) -> None:
        """Puts items behind those that wait."""
        self._items.extend(items)
        self._changed.set()
        if len(self._items) > MOST:
            self._has_room.clear()

    def end(self, error: BaseException | None = None) -> None:
        """No more items come; whoever takes behind the last one has the error raised, where there is one."""
        self._is_over, self._error = True, error
        self._changed.set()
        self._has_room.set()

    @property
    def is_full(self) -> bool:
        """Whether so many items wait that no more is to be read."""
        return not self._has_room.is_set()

    async def room(self) -> None:
        """Waits until there is room."""
        await self._has_room.wait()

    async def __aiter__(self) -> AsyncIterator[Item]:
        while True:
            while self._items:
                item = self._items.popleft()
                if len(self._items) <= MOST // 2 or self._is_over:
                    self._has_room.set()
                yield item
            if self._is_over:
                if self._error:
                    raise self._error
                return
            self._changed.clear()
            await self._changed.wait()
