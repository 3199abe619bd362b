"""Who plays at the same desk is told that a player's tab is gone, for how long its seat is held, and that it is back;
and nobody else is."""

import json

from .evenings import seat
from .tabs import Tab, Tabs

MARK = "\x01"


class Seated(Tab):
    """A tab with a seat; `own` are the messages of the go-between's own."""

    token: str | None = None

    async def message(self) -> str:
        while (text := await super().message()).startswith(MARK):
            self.own.append(json.loads(text[1:]))
        return text

    async def sit(self, token: str | None = None) -> None:
        self.own: list[dict[str, object]] = []
        await self.send(MARK + json.dumps({"seat": token}))
        answer = json.loads((await Tab.message(self))[1:])
        self.token = answer["seat"]

    async def hears_of(self, who: str, held: int) -> None:
        """Waits until it is told so, and nothing else of that kind."""
        text = await Tab.message(self)
        while not text.startswith(MARK):
            text = await Tab.message(self)
        assert json.loads(text[1:]) == {"away": who, "held": held}


async def seated(tabs: Tabs, name: str, token: str | None = None) -> Seated:
    tab = await tabs.open(protocols=("seat",))
    it = Seated(tab.socket)
    await it.sit(token)
    if not token:
        await it.enter(name)
    return it


async def test_a_lost_link_is_told_at_the_desk_alone(tabs: Tabs) -> None:
    ann, ben, cat = [await seated(tabs, it) for it in ("Ann", "Ben", "Cat")]
    await seat(("Ann", ann), ("Ben", ben))
    ben.cut()
    await ann.hears_of("Ben", 30)
    again = await seated(tabs, "Ben", ben.token)
    await ann.hears_of("Ben", 0)
    assert await ann.ask("tell ben hi") == ["(told 1)"]
    await cat.ask("who")
    assert (ann.own, cat.own) == ([], [])
    await again.socket.close(code=1000)
    assert await ann.told(lambda it: "forfeits by disconnection" in it)
    assert ann.own == []


async def test_who_plays_nothing_is_told_nothing(tabs: Tabs) -> None:
    ann, ben = [await seated(tabs, it) for it in ("Ann", "Ben")]
    ben.cut()
    await seated(tabs, "Ben", ben.token)
    assert "Ben" in await ann.ask("who")
    assert ann.own == []
