"""An evening out of its lines, by the program's answers written down here, and the file that keeps them."""

from collections.abc import Callable
from pathlib import Path

import pytest

from ficsd_companions.director.evening import BadFile, Pair, Row, questions, read
from ficsd_companions.director.ledger import Ledger, Refused
from tests.director.conftest import table_of
from tests.kit import paths

Ledgers = Callable[[], Ledger]

JOINED = ["join Ann", "join Ben", "join Cat"]
OKS = ["Ok."] * 3
ROUNDS = ["Ben - Cat", "Ann - Ben", "Cat - Ann"]


def test_before_the_start() -> None:
    evening = read(JOINED, OKS)
    assert (evening.players, evening.has_started, evening.open) == (["Ann", "Ben", "Cat"], False, 0)
    assert questions(JOINED) == []


def test_an_open_round() -> None:
    lines = [*JOINED, "start", "round 1", "result ben CAT 1-0", "round 2"]
    said = [*OKS, "rounds 3", "Ben - Cat", "Ok.", "Ann - Ben", *ROUNDS, "1 Ben 1 2", "2 Ann 0 0", "3 Cat 1 0"]
    assert questions(lines) == ["round 1", "round 2", "round 3", "table"]
    evening = read(lines, said)
    assert (evening.open, evening.pairs) == (2, [Pair("Ann", "Ben")])
    assert evening.results == {Pair("Ben", "Cat"): "1-0"}
    assert evening.without_result() == [Pair("Ann", "Ben")]
    assert evening.table[0] == Row(1, "Ben", 1, 2)
    assert evening.pair_of("cat") is None
    assert evening.pair_of("ANN") == Pair("Ann", "Ben")


def test_refused_and_missing_answers() -> None:
    evening = read(["join Ann", "join ann"], ["Ok.", "refused 24 HandleTaken"])
    assert evening.players == ["Ann"]
    with pytest.raises(BadFile):
        read(JOINED, OKS[:2])


@pytest.fixture
def file(tmp_path: Path) -> Path:
    return tmp_path / "evening.tourney"


@pytest.fixture
def ledgers(file: Path) -> Ledgers:
    """Makes a ledger of the file."""
    return lambda: Ledger(file, str(paths.program))


async def test_lines_are_kept_and_read_again(file: Path, ledgers: Ledgers) -> None:
    ledger = ledgers()
    await ledger.open()
    for line in (*JOINED, "start", "round 1", "result Ben Cat 1-0"):
        await ledger.add(line)
    again = ledgers()
    await again.open()
    assert again.lines == [*JOINED, "start", "round 1", "result Ben Cat 1-0"]
    assert again.evening.rounds == [[Pair(*it.split(" - "))] for it in ROUNDS]
    assert table_of(file)[0] == ["1", "Ben", "1", "2"]


async def test_what_is_refused_is_not_written(file: Path, ledgers: Ledgers) -> None:
    ledger = ledgers()
    for line in ("join Ann", "join Ben", "start"):
        await ledger.add(line)
    before = file.read_text()
    for line in ("join Cat", "result Ben Ann 1-0"):
        with pytest.raises(Refused):
            await ledger.add(line)
    with pytest.raises(Refused):
        await ledger.rule("Ben", "Ann", "1-0")
    assert file.read_text() == before


async def test_a_ruling_is_in_the_place_of_the_result(file: Path, ledgers: Ledgers) -> None:
    ledger = ledgers()
    for line in ("join Ann", "join Ben", "start", "round 1", "result Ann Ben 0-1"):
        await ledger.add(line)
    await ledger.rule("ann", "ben", "1-0")
    assert file.read_text().splitlines()[3:] == ["round 1", "result ann ben 1-0"]
    assert ledger.evening.results == {Pair("Ann", "Ben"): "1-0"}


async def test_empty_lines_stay(file: Path, ledgers: Ledgers) -> None:
    file.write_text("join Ann\r\n\njoin Ben\n\n")
    ledger = ledgers()
    await ledger.open()
    await ledger.add("start")
    assert file.read_text() == "join Ann\n\njoin Ben\nstart\n"
    assert ledger.evening.rounds == [[Pair("Ann", "Ben")]]


async def test_bad_files(file: Path, ledgers: Ledgers) -> None:
    for text, says in (
        ("join Ann\n\nnonsense\n", "bad line 3"),
        ("join Ann\n\njoin ann\n", "line 3"),
        ("result Ann Ben 1-0\n", "line 1"),
    ):
        file.write_text(text)
        with pytest.raises(BadFile, match=says):
            await ledgers().open()
