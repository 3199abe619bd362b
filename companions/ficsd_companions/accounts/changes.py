"""What operators change in a store: a password, a name, an account, games."""

from collections.abc import Sequence

from . import records
from .faults import Refused
from .records import Account, Game
from .store import Change, Store

PUT = "UPDATE records SET key = ?, record = ? WHERE key = ?"
INSERT = "INSERT INTO records (key, record) VALUES (?, ?)"
DELETE = "DELETE FROM records WHERE key = ?"


def account_of(store: Store, name: str) -> Account:
    """The account of that name."""
    found = [it for it in store.accounts() if it.name.lower() == name.lower()]
    if not found:
        raise Refused(f"nobody has an account as {name}; `list` shows who has one")
    return found[0]


def put_account(old: Account, new: Account) -> Change:
    return PUT, (records.account_key(new.name), new.text(), records.account_key(old.name))


def put_game(game: Game) -> Change:
    return PUT, (game.key(), game.text(), game.key())


def set_password(store: Store, account: Account, password: str) -> None:
    store.change([put_account(account, Account(account.name, records.digest_of(password)))])


def add(store: Store, name: str, password: str) -> None:
    """Makes an account."""
    store.change([(INSERT, (records.account_key(name), Account(name, records.digest_of(password)).text()))], accounts=1)


def check_room(store: Store) -> None:
    """Refuses an account more than a store may have."""
    if len(store.accounts()) >= records.MOST_ACCOUNTS:
        raise Refused(f"there are {records.MOST_ACCOUNTS} accounts, the most that there may be; `remove` makes room")


def check_new_name(store: Store, old: str, new: str) -> None:
    """Refuses a name that nobody can have, or that somebody has or had."""
    if not records.is_handle(new) or new.lower() == "guest":
        raise Refused(f"{new} can't be a name: names are 3 to 17 letters, and not the word guest")
    if new.lower() == old.lower():
        return
    if any(it.name.lower() == new.lower() for it in store.accounts()):
        raise Refused(f"{new} is somebody's account already")
    if left := store.games_of(new):
        raise Refused(
            f"{len(left)} adjourned games are of somebody who was {new}, whose games these then would be; "
            f"`clear --player {new}` takes them away"
        )


def rename(store: Store, account: Account, new: str) -> int:
    """Gives an account, and its place in each game, another name; answers how many games."""
    check_new_name(store, account.name, new)
    games = store.games_of(account.name)
    store.change(
        [
            put_account(account, Account(new, account.digest)),
            *(put_game(store.whole(it).renamed(account.name, new)) for it in games),
        ]
    )
    return len(games)


def remove(store: Store, account: Account, games: Sequence[Game]) -> None:
    """Takes an account away, and these games."""
    store.change(
        [(DELETE, (records.account_key(account.name),)), *((DELETE, (it.key(),)) for it in games)],
        accounts=-1,
        games=-len(games),
    )


def chosen_games(store: Store, player: str | None, oldest: int | None, numbers: tuple[int, int] | None) -> list[Game]:
    """The games that are meant, oldest first: those of a player, of numbers, and of these so many of the oldest."""
    games = store.games_of(player) if player else store.games()
    if numbers:
        games = [it for it in games if numbers[0] <= it.number <= numbers[1]]
    return games if oldest is None else games[:oldest]


def clear(store: Store, games: Sequence[Game]) -> None:
    store.change([(DELETE, (it.key(),)) for it in games], games=-len(games))
