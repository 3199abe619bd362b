"""Who is in the hall, and what they play, which the server tells who asks alone."""

from contextlib import suppress

from ficslink.errors import RefusalError
from ficslink.lines import GameListed, Player
from ficslink.member import Member

from .journal import say


class Visitors:
    """The other members as they were asked for last. Where it tells, each who comes or goes has a line of the log, and
    each game of theirs that begins or ends. With a greeting each who comes is told that."""

    def __init__(self, member: Member, tells: bool, greeting: str | None = None) -> None:
        self.member, self.tells, self.greeting = member, tells, greeting
        self.players: frozenset[str] = frozenset()
        self.games: frozenset[GameListed] = frozenset()

    async def look(self) -> None:
        """Asks who is there."""
        players = frozenset(it.who for it in (await self.member.do("who")).all(Player)) - {self.member.name}
        if self.tells:
            for who in sorted(players - self.players):
                say(f"{who} has come")
            for who in sorted(self.players - players):
                say(f"{who} has gone")
            await self.look_at_games()
        come, self.players = players - self.players, players
        for who in sorted(come) if self.greeting else ():
            with suppress(RefusalError):  # who has gone again, or hears nobody
                await self.member.do(f"tell {who} {self.greeting}")

    def is_there(self, who: str) -> bool:
        """Whether somebody is in; capitals make no difference."""
        return who.lower() in map(str.lower, self.players)

    async def look_at_games(self) -> None:
        """Asks for the games of others."""
        listed = (await self.member.do("games")).all(GameListed)
        games = frozenset(it for it in listed if self.member.name not in (it.white, it.black))
        for game in sorted(games - self.games, key=lambda it: it.game):
            say(f"game {game.game}: {game.white} plays {game.black}, {game.terms}")
        for game in sorted(self.games - games, key=lambda it: it.game):
            say(f"game {game.game}, {game.white} and {game.black}, is over")
        self.games = games
