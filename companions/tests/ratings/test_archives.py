"""Ratings of archives: those that a reader by the paper's formulas has too, whatever becomes of the files."""

import os
from pathlib import Path
from unittest import mock

import pytest
from ficsd_companions.ratings.rated import Ratings
from ficsd_companions.archive.index import Index
from ficsd_companions.ratings.table import Table

from tests.archive.archives import put

from . import paper
from .conftest import Figures, Rated, now_of
from .evenings import put_days, rated


def assert_as_by_paper(folder: Path, figures: Figures) -> None:
    plain = paper.rate(folder)
    assert set(figures) == set(plain) and plain
    for key, player in plain.items():
        assert list(figures[key]) == pytest.approx(player, abs=1e-6), key


@pytest.mark.parametrize("seed", range(1, 6))
def test_a_reader_by_the_papers_formulas_agrees(archive: Rated, seed: int) -> None:
    put_days(archive.folder, 40, seed)
    figures = archive.now()
    assert_as_by_paper(archive.folder, figures)
    assert {pool for pool, _ in figures} == {
        "bullet",
        "blitz",
        "rapid",
        "classical",
        "crazyhouse",
        "bughouse",
        "fischer",
    }


def test_a_day_that_grows_is_counted_anew_and_no_other(archive: Rated) -> None:
    days = put_days(archive.folder, 30)
    archive.now()
    with mock.patch.object(Table, "rate", autospec=True, side_effect=Table.rate) as rate:
        archive.now()
        assert not rate.called
        put(archive.folder, rated(90, "Cat", "Dan", day=days[-1]), days[-1])
        figures = archive.now()
        assert rate.call_count == 1
    assert_as_by_paper(archive.folder, figures)


def test_a_game_that_is_corrected_corrects_all_behind_it(archive: Rated) -> None:
    days = put_days(archive.folder, 30)
    before = archive.now()
    file = archive.folder / days[10][:4] / f"{days[10]}.pgn"
    text = file.read_text(encoding="utf-8")
    first, rest = text.split("\n\n[Event", 1) if "\n\n[Event" in text else (text, "")
    turned = {"1-0": "0-1", "0-1": "1-0", "1/2-1/2": "1-0"}
    result = next(it for it in turned if f'[Result "{it}"]' in first)
    first = first.replace(f'[Result "{result}"]', f'[Result "{turned[result]}"]')
    file.write_text(first + ("\n\n[Event" + rest if rest else ""), encoding="utf-8")
    with mock.patch.object(Table, "rate", autospec=True, side_effect=Table.rate) as rate:
        behind = archive.now()
        assert rate.call_count == 20
    assert behind != before
    assert_as_by_paper(archive.folder, behind)
    assert behind == now_of(Ratings(Index(archive.folder)))


def test_a_file_that_goes_takes_its_games_along(archive: Rated) -> None:
    days = put_days(archive.folder, 12)
    archive.now()
    for it in archive.folder.glob(f"*/{days[0]}*"):
        it.unlink()
    assert_as_by_paper(archive.folder, archive.now())
    for it in archive.folder.glob("*/*"):
        it.unlink()
    assert archive.now() == {}


def test_the_order_in_which_files_come_makes_no_difference(archive: Rated, tmp_path: Path) -> None:
    put_days(archive.folder, 12)
    whole = archive.now()
    other = Rated(tmp_path / "other")
    for file in sorted(archive.folder.glob("*/*"), reverse=True):
        there = other.folder / file.relative_to(archive.folder)
        there.parent.mkdir(parents=True, exist_ok=True)
        there.write_bytes(file.read_bytes())
        other.now()
    assert other.now() == whole


def test_games_of_one_day_count_by_what_was_before_it(archive: Rated) -> None:
    """So their order makes no difference."""
    put(archive.folder, rated(1) + rated(2, "Ben", "Cat"))
    one = archive.now()
    file = put(archive.folder, "")
    file.write_text(rated(2) + rated(1, "Ben", "Cat"), encoding="utf-8")
    os.utime(file, ns=(1, 1))
    other = archive.now()
    assert {key: list(it) for key, it in one.items()} == {key: pytest.approx(it) for key, it in other.items()}


def test_deviations_grow_until_the_archives_newest_day(archive: Rated) -> None:
    put(archive.folder, rated(1))
    first = archive.now()["blitz", "Ann"]
    put(archive.folder, rated(1, "Cat", "Dan", day="2027-03-30"), "2027-03-30")
    second = archive.now()["blitz", "Ann"]
    assert second[0] == pytest.approx(first[0]) and second[1] > first[1]
    assert_as_by_paper(archive.folder, archive.now())


def test_an_archive_that_nobody_has_made(archive: Rated) -> None:
    archive.folder.rmdir()
    assert archive.now() == {} and archive.verdicts() == []
