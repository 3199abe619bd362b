"""What is told of the archive: for each place an object, as its page reads it."""

import os

from ficsd_companions.ratings import told
from ficsd_companions.ratings.rated import Ratings

from . import search
from .addresses import Place
from .files import bytes_of
from .index import Index, Player
from .kept import Kept, Span
from .search import Wish

Told = dict[str, object]  # as JSON has it
NEWEST_DAYS = 30


class Archive:
    """The archive in a folder, with the ratings that it makes where these are to be told. Each call looks at first
    whether there is anything new."""

    def __init__(self, folder: str | os.PathLike[str], rates: bool = False) -> None:
        self.index = Index(folder)
        self.ratings = Ratings(self.index) if rates else None

    def refresh(self) -> None:
        """Reads what is new."""
        (self.ratings or self.index).refresh()

    def has(self, place: Place) -> bool:
        """Whether there is anything at a place."""
        self.refresh()
        if place.kind == "day":
            return place.day in self.index.days
        if place.kind == "player":
            return self.index.player(place.name) is not None
        if place.kind == "ladder":
            return self.ratings is not None and place.name in told.POOLS
        return self.index.game(place.day, place.number) is not None

    def told(self, place: Place, asked: dict[str, str]) -> Told | None:
        """What is told of a place, and none where there is nothing. `asked` is what the address says besides."""
        self.refresh()
        wish = Wish(variant=asked.get("variant", ""), result=asked.get("result", ""), before=asked.get("before", ""))
        if place.kind == "found":
            return self._found(wish, asked)
        if place.kind == "day":
            return self._day(wish, place.day)
        if place.kind == "player":
            player = self.index.player(place.name)
            return self._player(wish, player) if player else None
        if place.kind in ("ladder", "ratings"):
            return self._rated(place, asked)
        game = self.index.game(place.day, place.number)
        return self._game(game) if game else None

    def pgn(self, place: Place) -> bytes | None:
        """A game's PGN, as it stands in its file."""
        self.refresh()
        game = self.index.game(place.day, place.number)
        return text_of(game) if game else None

    def last(self, white: str, black: str) -> Kept | None:
        """The newest game with these two as White and Black."""
        self.refresh()
        return search.last(self.index, white, black)

    # ---- places ----

    def _rows(self, wish: Wish) -> Told:
        found = search.found(self.index, wish)
        return {"games": [row_of(it) for it in found.games], "hasMore": found.has_more}

    def _found(self, wish: Wish, asked: dict[str, str]) -> Told:
        name, other = asked.get("name", "").strip(), asked.get("other", "").strip()
        rows = self._rows(Wish(name=name, other=other, variant=wish.variant, result=wish.result, before=wish.before))
        known = self.index.known_days
        newest = [[it, len(self.index.days[it])] for it in reversed(known[-NEWEST_DAYS:])]
        players = search.players(self.index, name)[: search.MOST_PLAYERS] if name else []
        return {
            "count": self.index.count,
            "days": newest,
            "firstDay": known[0] if known else None,
            "lastDay": known[-1] if known else None,
            "players": [[it.name, len(it.games)] for it in players],
            **({"ladders": told.of_pools(self.ratings)} if self.ratings else {}),
            **rows,
        }

    def _day(self, wish: Wish, day: str) -> Told | None:
        earlier, later = self.index.days_beside(day)
        if day not in self.index.days:
            return None
        rows = self._rows(Wish(day=day, variant=wish.variant, result=wish.result, before=wish.before))
        return {"day": day, "count": len(self.index.days[day]), "earlier": earlier, "later": later, **rows}

    def _player(self, wish: Wish, player: Player) -> Told:
        rows = self._rows(Wish(player=player.name, variant=wish.variant, result=wish.result, before=wish.before))
        tally = {variant: counts for variant, counts in player.tally.items() if any(counts)}
        rated = {"ratings": told.of_player(self.ratings, player.name)} if self.ratings else {}
        return {"name": player.name, "count": len(player.games), "tally": tally, **rated, **rows}

    def _rated(self, place: Place, asked: dict[str, str]) -> Told | None:
        """A ladder, or what some players are."""
        if not self.ratings:
            return None
        if place.kind == "ratings":
            return told.of_names(self.ratings, asked.get("names", ""))
        return told.of_ladder(self.ratings, place.name) if place.name in told.POOLS else None

    def _game(self, game: Kept) -> Told | None:
        text = text_of(game)
        earlier, later = self.index.beside(game)
        return (
            {
                "link": game.link,
                "pgn": text.decode("utf-8", "replace"),
                "earlier": earlier and earlier.link,
                "later": later and later.link,
                "pair": self._pair(game),
                **({"rated": told.of_game(self.ratings, game)} if self.ratings else {}),
            }
            if text
            else None
        )

    def _pair(self, game: Kept) -> Told | None:
        """The other board of a pair, and the order of the half-moves of both."""
        day, _, number = game.partner.partition("/")
        other = self.index.game(day, int(number)) if number else None
        if not other or other.partner != game.link:
            return None
        span = self.index.pairs.get(game.link) or self.index.pairs.get(other.link)
        pgn, bpgn = text_of(other) or b"", span and there(span) or b""
        return {"link": other.link, "pgn": pgn.decode("utf-8", "replace"), "bpgn": bpgn.decode("utf-8", "replace")}


def row_of(game: Kept) -> Told:
    """A game's row in a list."""
    return {
        "link": game.link,
        "white": game.white,
        "black": game.black,
        "result": game.result,
        "variant": game.variant,
        "control": game.control,
        "halfMoves": game.half_moves,
        "time": game.time,
        "partner": game.partner,
    }


def text_of(game: Kept) -> bytes | None:
    """A game's text; none where it stands there no longer, since the file was changed a moment ago."""
    text = there(game.span)
    return text if text and f'[Link "{game.link}"]'.encode() in text else None


def there(span: Span) -> bytes | None:
    try:
        return bytes_of(*span)
    except OSError:
        return None
