"""The archive: each game once, whatever ends the scribe and whenever; games that wait; a disk that is full."""

import os
from datetime import datetime, timedelta
from pathlib import Path
from unittest import mock

import pytest

from ficsd_companions.scribe.archive import Archive, whole_length
from ficsd_companions.scribe.journal import Journal
from ficslink.lines import GameListed

from .archived import files_of, games_of, half_moves_of
from .boards import NOON, board, listed, over


class Killed(BaseException):
    """Stands for a kill at a call: nothing behind it runs."""


class TestArchives:
    @pytest.fixture(autouse=True)
    def begin(self, tmp_path: Path) -> None:
        self.folder = tmp_path

    def archive(self) -> Archive:
        it = Archive(self.folder, "chess.example.org")
        it.open()
        return it

    def played(self, kept: Archive, plies: range = range(5), games: list[GameListed] | None = None) -> Journal:
        """A game that is kept up to a board, in its journal."""
        games = games or [listed()]
        boards = [board(min(plies), it.game, it.white, it.black) for it in games]
        it = kept.begin(games, boards, NOON)
        it.begin()
        for ply in plies:
            for game in games:
                it.sitting.hear(board(ply, game.game, game.white, game.black), NOON)
                it.keep()
        return it

    def end(self, it: Journal, reason: str = "Ben resigns", result: str = "1-0") -> None:
        """Its end, at noon; a scribe that finds the journal later knows that by the file's time."""
        for record in list(it.sitting.records.values()):
            it.sitting.hear(over(reason, result, record.number, record.white, record.black), NOON)
        it.keep()
        os.utime(it.path, (NOON.timestamp(), NOON.timestamp()))

    def moves(self) -> list[tuple[str, list[str]]]:
        """The games that are written: of each its link and its half-moves."""
        return [(tags["Link"], half_moves_of(text)) for tags, text in games_of(self.folder)]

    def test_written_once_over(self) -> None:
        kept = self.archive()
        for _ in range(3):
            it = self.played(kept)
            self.end(it)
            kept.finish(it)
        half_moves = ["e4", "e5", "Nf3", "Nc6"]
        assert self.moves() == [(f"2026-11-30/{n}", half_moves) for n in (1, 2, 3)]
        assert list(files_of(self.folder)) == ["2026-11-30.pgn"]
        assert list(kept.running.iterdir()) == []

    def test_numbers_go_on(self) -> None:
        for _ in range(2):
            kept = self.archive()
            it = self.played(kept)
            self.end(it)
            kept.finish(it)
        assert [link for link, _ in self.moves()] == ["2026-11-30/1", "2026-11-30/2"]

    def test_killed_at_each_step(self) -> None:
        """At each call by which the end of a game reaches the disk a scribe is killed; the next one makes it whole."""
        scribe = "ficsd_companions.scribe"
        calls = (
            f"{scribe}.journal.Journal.keep_links",
            f"{scribe}.archive.append",
            f"{scribe}.journal.Journal.remove",
            "os.fsync",
            "pathlib.Path.unlink",
        )
        for at, call in enumerate(calls):
            kept = self.archive()
            it = self.played(kept)
            self.end(it)
            with mock.patch(call, side_effect=Killed), pytest.raises(Killed):
                kept.finish(it)
            self.archive()
            assert [link for link, _ in self.moves()] == [f"2026-11-30/{n + 1}" for n in range(at + 1)], call
            assert list(kept.running.iterdir()) == []

    def test_killed_within_a_write(self) -> None:
        """Whatever part of a game has reached the file, the next scribe leaves it there once and whole."""
        kept = self.archive()
        first = self.played(kept)
        self.end(first)
        kept.finish(first)
        file = self.folder / "2026" / "2026-11-30.pgn"
        size = file.stat().st_size
        second = self.played(kept)
        self.end(second)
        journal_text = second.path.read_bytes()
        kept.finish(second)
        whole = file.read_bytes()
        for length in range(size, len(whole), 7):
            file.write_bytes(whole[:length])
            second.path.write_bytes(journal_text + b"= 2026-11-30/2\n")
            self.archive()
            assert file.read_bytes() == whole, f"cut at {length}"

    def test_journal_cut_within_a_line(self) -> None:
        kept = self.archive()
        it = self.played(kept, range(4))
        it.close()
        text = it.path.read_bytes()
        it.path.write_bytes(text[:-20])
        after = self.archive()
        assert [half.short for half in after.left[0].sitting.first.half_moves] == ["e4", "e5"]
        assert it.path.read_bytes().endswith(b"\n")

    def test_goes_on_with_what_runs(self) -> None:
        """A scribe that was killed goes on with the game where it finds it: at the place, or one half-move behind."""
        for plies in (range(3), range(2)):
            kept = self.archive()
            self.played(kept, plies).close()
            after = self.archive()
            again = after.begin([listed(game=9)], [board(2, 9)], datetime.now())
            for ply in (2, 3, 4):
                again.sitting.hear(board(ply, 9), NOON)
            assert [half.short for half in again.sitting.first.half_moves] == ["e4", "e5", "Nf3", "Nc6"]
            assert again.sitting.first.is_whole
            again.remove()

    def test_a_pair_goes_on(self) -> None:
        """Where one half-move was made at one of its boards. Of two, one at each, nobody knows which came first."""
        games = [listed("5 0 bughouse", 1), listed("5 0 bughouse", 2, "Cat", "Dan")]
        for first, second, goes_on in ((2, 2, True), (3, 2, True), (2, 3, True), (3, 3, False), (4, 2, False)):
            kept = self.archive()
            before = self.played(kept, range(3), games)
            before.close()
            after = self.archive()
            boards = [board(first), board(second, 2, "Cat", "Dan")]
            again = after.begin(games, boards, datetime.now())
            assert (again.path == before.path) == goes_on, f"{first} and {second}"
            before.remove()

    def test_a_pair_that_does_not_go_on(self) -> None:
        """The half-move that one of its boards had already stands in the earlier record alone."""
        games = [listed("5 0 bughouse", 1), listed("5 0 bughouse", 2, "Cat", "Dan")]
        self.played(self.archive(), range(2), games).close()
        boards = [board(1), board(3, 2, "Cat", "Dan")]
        again = self.archive().begin(games, boards, datetime.now() + timedelta(seconds=1))
        for told in (*boards, board(2)):
            again.sitting.hear(told, NOON)
        again.begin()
        for it in (again, *self.archive().left):
            if it.path == again.path:
                first, second = it.sitting.records.values()
                assert [half.short for half in first.half_moves] == ["e5"]
                assert (first.first_ply, second.first_ply) == (1, 3)

    def test_killed_where_it_goes_on(self) -> None:
        """A game that was adjourned and goes on, at another desk or the same, is whole behind a kill there, too."""
        for names in ([("Ann", "Ben")], [("Ann", "Ben"), ("Cat", "Dan")]):
            for first in (7, 1):
                games = [
                    [listed("5 0 bughouse", number, *it) for number, it in enumerate(names, at)] for at in (1, first)
                ]
                kept = self.archive()
                it = self.played(kept, range(3), games[0])
                self.end(it, "adjourned", "*")
                kept.finish(it)
                again = kept.begin(games[1], [board(2, it.game, it.white, it.black) for it in games[1]], NOON)
                again.begin()
                for game in games[1]:
                    again.sitting.hear(board(3, game.game, game.white, game.black), NOON)
                again.keep()
                again.close()
                [left] = self.archive().left
                assert list(left.sitting.records) == [it.game for it in games[1]]
                for record in left.sitting.records.values():
                    assert [it.short for it in record.half_moves] == ["e4", "e5", "Nf3"]
                left.remove()

    def test_half_moves_that_nobody_saw(self) -> None:
        """Where more than one half-move was missed another record begins, with the position that is there."""
        kept = self.archive()
        self.played(kept, range(2)).close()
        after = self.archive()
        again = after.begin([listed()], [board(4)], datetime.now())
        again.sitting.hear(board(4), NOON)
        assert not again.sitting.first.is_whole
        assert len(after.left) == 1

    def test_adjourned(self) -> None:
        kept = self.archive()
        it = self.played(kept, range(3))
        self.end(it, "adjourned", "*")
        kept.finish(it)
        assert self.moves() == []
        assert len(list(kept.waiting.iterdir())) == 1
        after = self.archive()
        again = after.begin([listed(game=7)], [board(2, 7)], datetime.now())
        for ply in (2, 3, 4):
            again.sitting.hear(board(ply, 7), NOON)
        again.begin()
        self.end(again)
        after.finish(again)
        assert [half for _, half in self.moves()] == [["e4", "e5", "Nf3", "Nc6"]]
        assert list(after.waiting.iterdir()) + list(after.running.iterdir()) == []

    def test_lost_sight_of(self) -> None:
        """A game that nobody saw end waits, and is written without an end once it was lost for long."""
        kept = self.archive()
        it = self.played(kept, range(4))
        kept.wait(it)
        assert kept.given_up(datetime.now() - timedelta(days=1)) == []
        for it in kept.given_up(datetime.now() + timedelta(days=1)):
            kept.finish(it)
        assert kept.waits == []
        [(tags, text)] = games_of(self.folder)
        assert (tags["Result"], tags["Termination"]) == ("*", "unterminated")
        assert half_moves_of(text) == ["e4", "e5", "Nf3"]

    def test_a_fresh_game_of_the_same_two(self) -> None:
        """One that was lost sight of doesn't take a later game of the same two for its own."""
        kept = self.archive()
        kept.wait(self.played(kept, range(2)))
        again = kept.begin([listed()], [board(1)], datetime.now())
        assert again.sitting.first.half_moves == []
        assert len(kept.waits) == 1

    def test_disk_is_full(self) -> None:
        kept = self.archive()
        it = self.played(kept)
        self.end(it)
        with mock.patch("os.fsync", side_effect=OSError(28, "No space left on device")), pytest.raises(OSError):
            kept.finish(it)
        assert self.moves() == []
        kept.finish(it)
        assert len(self.moves()) == 1
        assert list(kept.running.iterdir()) == []

    def test_a_journal_that_somebody_has_taken_away(self) -> None:
        """It is made anew with all that is known."""
        kept = self.archive()
        it = self.played(kept, range(3))
        it.close()
        it.path.unlink()
        it.sitting.hear(board(3), NOON)
        with pytest.raises(FileNotFoundError):
            it.keep()
        it.settle()
        it.close()
        [left] = self.archive().left
        assert [half.short for half in left.sitting.first.half_moves] == ["e4", "e5", "Nf3"]

    def test_disk_is_full_and_then_it_is_killed(self) -> None:
        """The links for which there was no room at once are on the disk before the game is."""
        kept = self.archive()
        it = self.played(kept)
        self.end(it)
        with mock.patch("os.fsync", side_effect=OSError(28, "No space left on device")), pytest.raises(OSError):
            kept.finish(it)
        with mock.patch("ficsd_companions.scribe.journal.Journal.remove", side_effect=Killed), pytest.raises(Killed):
            kept.finish(it)
        self.archive()
        assert [link for link, _ in self.moves()] == ["2026-11-30/1"]
        assert list(kept.running.iterdir()) == []

    def test_nothing_was_played(self) -> None:
        kept = self.archive()
        it = self.played(kept, range(1))
        self.end(it, "aborted", "*")
        kept.finish(it)
        assert self.moves() == []
        it = self.played(kept, range(1))
        self.end(it, "Ann resigns", "0-1")
        kept.finish(it)
        assert self.moves() == [("2026-11-30/1", [])]

    def test_pair(self) -> None:
        games = [listed("5 0 bughouse", 1), listed("5 0 bughouse", 2, "Cat", "Dan")]
        kept = self.archive()
        it = self.played(kept, range(3), games)
        it.sitting.hear(over("Ben resigns", "1-0"), NOON)
        assert not it.sitting.is_over
        it.sitting.hear(over("partner's game ended", "0-1", 2, "Cat", "Dan"), NOON)
        it.keep()
        kept.finish(it)
        assert sorted(files_of(self.folder)) == ["2026-11-30-bughouse.bpgn", "2026-11-30-bughouse.pgn"]
        (first, _), (second, _) = games_of(self.folder)
        assert (first["Partner"], second["Partner"]) == (second["Link"], first["Link"])
        order = "1A. e4{300} 1B. e4{300} 1a. e5{300} 1b. e5{300} {Ben resigns} 1-0"
        assert order in files_of(self.folder)["2026-11-30-bughouse.bpgn"]

    def test_what_is_no_journal(self, caplog: pytest.LogCaptureFixture) -> None:
        (self.folder / "running").mkdir()
        strange = self.folder / "running" / "x.lines"
        strange.write_text("hello\n")
        self.archive()
        assert "is no journal" in caplog.text
        assert strange.exists()

    def test_whole_length(self) -> None:
        game = '[Event "x"]\n[Result "*"]\n\n1. e4 *\n\n'
        for text, wanted in (
            ("", 0),
            (game, len(game)),
            (game * 2, 2 * len(game)),
            (game + game[:-1], len(game)),
            (game + '[Event "x"]\n[Res', len(game)),
            (game[:-3], 0),
            ("[Eve", 0),
            (game + "4 *\n\n", len(game)),
            (game + "4 *\n\n" + game, 2 * len(game) + len("4 *\n\n")),
            (game + "4 *\n\n" + game[:-3], len(game)),
        ):
            assert whole_length(text) == wanted, repr(text)
