"""Players are numbered by the ratings of an archive."""

from pathlib import Path

import pytest
from ficsd_companions.director import seeds
from ficsd_companions.director.ledger import Ledger
from ficslink.terms import Terms

from tests.archive.archives import put
from tests.director.conftest import Evening
from tests.kit import paths
from tests.kit.running import ended
from tests.ratings.evenings import rated


@pytest.fixture
def archive(tmp_path: Path) -> Path:
    """One in which Cat is sure to be better than Ben, Eve has beaten Dan once, and Fay has played bullet alone."""
    folder = tmp_path / "archive"
    for n in range(60):
        day = f"2026-11-{1 + n // 6:02}"
        put(folder, rated(1 + n % 6, "Cat", "Ben", ("1-0", "0-1", "1-0")[n % 3], day=day), day)
    put(folder, rated(7, "Eve", "Dan", day="2026-11-10"), "2026-11-10")
    put(folder, rated(8, "Fay", "Dan", day="2026-11-10", TimeControl="60"), "2026-11-10")
    return folder


def order(archive: Path, terms: str, *players: str) -> list[str]:
    read = Terms.parsed(terms)
    assert read
    return list(seeds.standings(archive, read, players))


def test_sure_ones_first_and_then_provisional_ones_and_who_has_none(archive: Path) -> None:
    joined = "Fay", "Dan", "Ann", "Ben", "Eve", "cat"
    assert order(archive, "5 0 chess", *joined) == ["cat", "Ben", "Eve", "Dan", "Fay", "Ann"]
    assert order(archive, "1 0 chess", *joined) == ["Fay", "Dan", "Ann", "Ben", "Eve", "cat"]
    assert order(archive, "5 0 crazyhouse", *joined) == list(joined)


def test_the_order_in_words(archive: Path) -> None:
    read = Terms.parsed("5 0 chess")
    assert read
    [line] = seeds.said(seeds.standings(archive, read, ["Ann", "Eve", "Cat"]))
    first, second, third = line.split(", ")
    assert first.startswith("Cat ") and first[4:].isdigit()
    assert second.startswith("Eve ") and second.endswith("?") and third == "Ann"


async def test_a_ledger_in_another_order(tmp_path: Path) -> None:
    ledger = Ledger(tmp_path / "evening.tourney", str(paths.program))
    await ledger.open()
    for name in ("Ann", "Ben", "Cat"):
        await ledger.add(f"join {name}")
    await ledger.number(["Cat", "Ann", "Ben"])
    await ledger.add("start")
    assert (tmp_path / "evening.tourney").read_text() == "join Cat\njoin Ann\njoin Ben\nstart\n"
    assert ledger.evening.players == ["Cat", "Ann", "Ben"]


async def test_an_evening_by_rating(evening: Evening, archive: Path) -> None:
    evening.direct("--seeded", "--archive", archive)
    await evening.come("Ann", "Ben", "Cat")
    await evening.begin(3)
    await evening.end()
    assert evening.lines()[:4] == ["join Cat", "join Ben", "join Ann", "start"]
    assert "By rating: Cat " in evening.log()


def test_words_that_dont_go_together(tmp_path: Path) -> None:
    words = paths.companion("fics_director"), "--server", "localhost:5000", "--file", tmp_path / "x", "--chief", "Zoe"
    for more in (("--seeded",), ("--archive", tmp_path), ("--pgn", tmp_path / "y")):
        done = ended(*words, *more)
        assert done.returncode == 2 and "--archive" in done.stderr
