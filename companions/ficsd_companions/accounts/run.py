"""Shows the accounts and adjourned games of a store, and mends them while no server has it open: a lost password, a
name, an account, games that fill the shelf.

It is no part of what is proved. What is shown is read from a copy, so that a server may run. Each change is one
transaction, before which the store is copied to a file beside it (its name and .before), and behind which `ficsd check`
has to say that all is well; else the copy comes back.
"""

import argparse
import sys
from collections import Counter
from collections.abc import Callable
from pathlib import Path

from ficsd_companions.cli.program import program
from ficsd_companions.cli.version import add_version
from ficsd_companions.cli.words import count

from . import asking, changes, records
from .faults import Refused, Spoiled
from .owner import become_owner
from .reading import Copy, copied
from .store import Store

STORE = Path("/var/lib/ficsd/club.db")
KEPT_GAMES = "whoever enters under that name then can go on with them"


number = count(10**18 - 1)


class Chosen(argparse.Namespace):
    """The words of the command line."""

    store: Path
    program: str
    show: "Show | None"
    act: "Act"
    name: str
    old: str
    new: str
    games: str | None
    oldest: int | None
    player: str | None
    numbers: tuple[int, int] | None
    yes: bool


Show = Callable[[Copy, Chosen], None]
Act = Callable[[Store, Chosen], None]


def numbers(word: str) -> tuple[int, int]:
    """The first and the last of some numbers: N, or N-M."""
    first, _, last = word.partition("-")
    low, high = number(first), number(last or first)
    if high < low:
        raise argparse.ArgumentTypeError("the second number is below the first")
    return low, high


def show_accounts(copy: Copy, chosen: Chosen) -> None:
    accounts, games = copy.accounts(), copy.games()
    of_each = Counter(name for it in games for name in {name.lower() for name in it.names})
    for account in accounts:
        print(account.name, of_each[account.name.lower()])
    print(
        f"{len(accounts)} accounts of at most {records.MOST_ACCOUNTS}, "
        f"{len(games)} adjourned games of at most {records.MOST_GAMES}"
    )


def show_games(copy: Copy, chosen: Chosen) -> None:
    for game in copy.games_of(chosen.name) if chosen.name else copy.games():
        print(game.line())


def add(store: Store, chosen: Chosen) -> None:
    changes.check_new_name(store, "", chosen.name)
    changes.check_room(store)
    changes.add(store, chosen.name, asking.password(chosen.name))
    print(f"{chosen.name} has an account")


def set_password(store: Store, chosen: Chosen) -> None:
    account = changes.account_of(store, chosen.name)
    changes.set_password(store, account, asking.password(account.name))
    print(f"{account.name} has the new password")


def rename(store: Store, chosen: Chosen) -> None:
    account = changes.account_of(store, chosen.old)
    games = changes.rename(store, account, chosen.new)
    print(f"{account.name} is {chosen.new} now, also in {games} adjourned games")


def remove(store: Store, chosen: Chosen) -> None:
    account = changes.account_of(store, chosen.name)
    games = store.games_of(account.name)
    what = chosen.games
    if games and not what:
        what = asking.one_of(
            f"{account.name} is in {len(games)} adjourned games. Remove them too, or keep them? "
            f"(Kept, {KEPT_GAMES}.)",
            ("remove", "keep"),
        )
    gone = games if what == "remove" else []
    changes.remove(store, account, gone)
    print(f"{account.name} has no account any more; {len(gone)} adjourned games went with it")


def clear(store: Store, chosen: Chosen) -> None:
    games = changes.chosen_games(store, chosen.player, chosen.oldest, chosen.numbers)
    if not games:
        raise Refused("there are no such games")
    for game in games:
        print(game.line())
    if not chosen.yes and asking.one_of(f"Clear these {len(games)} adjourned games?", ("yes", "no")) == "no":
        raise Refused("nothing was changed")
    changes.clear(store, games)
    print(f"{len(games)} adjourned games are cleared")


def read_words() -> Chosen:
    words = argparse.ArgumentParser(
        prog="fics_accounts",
        description=(__doc__ or "").split("\n\n")[0],
        epilog="Statuses: 0 done; 1 nothing was changed, and why is said; 2 other words than these; 3 a change could "
        "neither be kept nor taken back, and where the copy lies is said.",
    )
    says = f"the store: {STORE} where it is left out"
    words.add_argument("--store", type=Path, default=STORE, metavar="FILE", help=says)
    says = "the ficsd that checks the store: the one that this belongs to where it is left out"
    words.add_argument("--program", default=program(), metavar="FILE", help=says)
    add_version(words)
    clearing = add_commands(words)
    chosen = words.parse_args(namespace=Chosen())
    if not chosen.show and chosen.act is clear and not (chosen.oldest or chosen.player or chosen.numbers):
        clearing.error("which games? --oldest, --player or --numbers say it")
    return chosen


def add_commands(words: argparse.ArgumentParser) -> argparse.ArgumentParser:
    """Gives a command line its commands; that of the last one, `clear`."""
    commands = words.add_subparsers(required=True, metavar="COMMAND")

    def shown(name: str, show: Show, says: str) -> argparse.ArgumentParser:
        it = commands.add_parser(name, help=says, description=says)
        it.set_defaults(show=show)
        return it

    def command(name: str, act: Act, says: str) -> argparse.ArgumentParser:
        it = commands.add_parser(name, help=says, description=says)
        it.set_defaults(show=None, act=act)
        return it

    shown("list", show_accounts, "who has an account, and in how many adjourned games each is")
    says = "adjourned games, those that lie longest first: number, players, minutes, increment, variant, half-moves"
    it = shown("games", show_games, says)
    it.add_argument("name", nargs="?", default="", help="those of this player alone")
    it = command("add", add, "makes an account, whose password is asked for twice")
    it.add_argument("name")
    it = command("password", set_password, "sets a password, which is asked for twice")
    it.add_argument("name")
    it = command("rename", rename, "gives an account another name, in its adjourned games too")
    it.add_argument("old")
    it.add_argument("new")
    it = command("remove", remove, "takes an account away")
    it.add_argument("name")
    says = f"what becomes of its adjourned games; it is asked for where this is left out. Kept, {KEPT_GAMES}"
    it.add_argument("--games", choices=("remove", "keep"), help=says)
    it = command("clear", clear, "takes adjourned games away: those that all of these words fit")
    it.add_argument("--oldest", type=number, metavar="N", help="as many of them, those that lie longest")
    it.add_argument("--player", metavar="NAME", help="those that this player is in")
    says = "those of these numbers, or of one; a new game gets the least number that is free, so that a number doesn't "
    it.add_argument("--numbers", type=numbers, metavar="N-M", help=says + "say how old a game is")
    it.add_argument("--yes", action="store_true", help="doesn't ask")
    return it


def main() -> int:
    chosen = read_words()
    try:
        become_owner(chosen.store)
        if chosen.show:
            with copied(chosen.store) as copy:
                chosen.show(copy, chosen)
        else:
            with Store(chosen.store, chosen.program) as store:
                chosen.act(store, chosen)
    except (Refused, Spoiled) as why:
        print(f"fics_accounts: {why}", file=sys.stderr)
        return 1 if isinstance(why, Refused) else 3
    except KeyboardInterrupt:
        return 130
    return 0
