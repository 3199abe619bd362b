"""A store as full as it may be."""

import resource
from collections import Counter

from tests.kit import records

from .conftest import Store

ACCOUNTS, GAMES = 4096, 10_000
MOST_SECONDS = 5.0  # of a processor; each account's games counted by themselves take fifty


def test_a_full_store_is_listed(store: Store) -> None:
    store.path.unlink()
    records.make_full_store(store.path, ACCOUNTS, GAMES)
    players: Counter[str] = Counter()
    for n in range(GAMES):
        white, black = n % ACCOUNTS, (7 * n + 1) % ACCOUNTS
        players.update(map(records.handle_of, (white, black if black != white else (n + 1) % ACCOUNTS)))
    names = sorted(records.handle_of(n) for n in range(ACCOUNTS))
    before = resource.getrusage(resource.RUSAGE_CHILDREN)
    said = store.tool("list").stdout.splitlines()
    after = resource.getrusage(resource.RUSAGE_CHILDREN)
    assert said[:-1] == [f"{it} {players[it]}" for it in names]
    assert said[-1] == "4096 accounts of at most 4096, 10000 adjourned games of at most 10000"
    assert after.ru_utime + after.ru_stime - before.ru_utime - before.ru_stime < MOST_SECONDS
