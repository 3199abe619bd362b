"""What a record makes of board lines: whole games, games that are come to late, takebacks, hands, arrays."""


from collections.abc import Iterable

from ficsd_companions.scribe.record import Place, Record, follows

from .boards import NOON, board, listed, parsed


def record(variant: str = "5 0 chess") -> Record:
    it = listed(variant)
    return Record(1, it.white, it.black, it.terms, NOON)


def heard(plies: Iterable[int], variant: str = "5 0 chess") -> Record:
    it = record(variant)
    for ply in plies:
        it.hear(board(ply))
    return it


class TestRecords:
    def shorts(self, it: Record) -> list[str]:
        return [half.short for half in it.half_moves]

    def test_from_the_array(self) -> None:
        it = heard(range(5))
        assert self.shorts(it) == ["e4", "e5", "Nf3", "Nc6"]
        assert [half.took for half in it.half_moves] == ["0:00", "0:00", "0:04", "0:07"]
        assert [half.left for half in it.half_moves] == [300, 300, 296, 293]
        assert it.is_whole
        assert it.fen() == ""

    def test_come_to_behind_one_half_move(self) -> None:
        """The first board tells the half-move that led to it, and that from the array is the first one."""
        it = heard((1, 2))
        assert self.shorts(it) == ["e4", "e5"]
        assert it.is_whole

    def test_come_to_late(self) -> None:
        it = heard((2, 3, 4))
        assert not it.is_whole
        assert self.shorts(it) == ["Nf3", "Nc6"]
        assert it.fen() == "rnbqkbnr/pppp1ppp/8/4p3/4P3/8/PPPP1PPP/RNBQKBNR w KQkq e6 0 2"

    def test_told_again(self) -> None:
        assert self.shorts(heard((0, 1, 1, 2, 2))) == ["e4", "e5"]

    def test_taken_back(self) -> None:
        it = heard((0, 1, 2, 3, 1))
        assert self.shorts(it) == ["e4"]
        it.hear(board(2))
        assert self.shorts(it) == ["e4", "e5"]

    def test_taken_back_to_the_array(self) -> None:
        it = heard((0, 1, 2, 0))
        assert self.shorts(it) == []
        assert it.is_whole

    def test_taken_back_behind_what_was_seen(self) -> None:
        """Nothing is known of the half-move before the first board, so the record begins anew with what is shown."""
        it = heard((3, 4, 2))
        assert self.shorts(it) == []
        assert it.first == str(board(2))

    def test_gap(self) -> None:
        """No half-move is made up: where one was missed the record begins anew behind it."""
        it = heard((0, 1, 3, 4))
        assert self.shorts(it) == ["Nc6"]
        assert it.first == str(board(3))

    def test_fischer_random(self) -> None:
        """Array 0 is bbqnnrkr: its FEN has the rooks' files, h and f."""
        it = record("5 0 fischer 0")
        assert it.array == "BBQNNRKR"
        assert it.fen() == "bbqnnrkr/pppppppp/8/8/8/8/PPPPPPPP/BBQNNRKR w HFhf - 0 1"

    def test_hands_of_a_game_that_is_come_to_late(self) -> None:
        """Black's d5 was taken with c4xd5: the pawn came, so nothing was in hand before it."""
        before = parsed(
            "<12> rnbqkbnr ppp-pppp -------- ---p---- --P----- -------- PP-PPPPP RNBQKBNR W 3 1 1 1 1 "
            "0 1 Ann Ben 0 5 0 39 39 300 300 2 P/d7-d5 (0:00) d5 0"
        )
        after = parsed(
            "<12> rnbqkbnr ppp-pppp -------- ---P---- -------- -------- PP-PPPPP RNBQKBNR B -1 1 1 1 1 "
            "0 1 Ann Ben 0 5 0 39 38 300 300 2 P/c4-d5 (0:00) cxd5 0"
        )
        it = record("5 0 crazyhouse")
        it.hear(before)
        it.hear(after)
        it.hear_hands(("NP", "Q"), "P")
        assert it.hands == ("N", "Q")
        assert it.fen() == "rnbqkbnr/ppp1pppp/8/3p4/2P5/8/PP1PPPPP/RNBQKBNR[Nq] w KQkq d6 0 2"

    def test_hands_behind_a_drop(self) -> None:
        it = heard((4,), "5 0 crazyhouse")
        ranks = "r-bqkbnr pppp-ppp --n----- ----p-N- ----P--- -----N-- PPPP-PPP RNBQKB-R"
        it.hear(parsed(f"<12> {ranks} B -1 1 1 1 1 1 1 Ann Ben 0 5 0 39 39 290 293 3 N/@@-g5 (0:06) N@g5 0"))
        it.hear_hands(("P", ""))
        assert it.hands == ("PN", "")


class TestFollows:
    """Whether a board's own previous half-move leads to it."""

    def test_rows(self) -> None:
        place = Place.of(board(2))
        assert follows(place, board(3))
        assert not follows(place, board(4))
        assert not follows(Place.of(board(1)), board(3))

    def test_another_game(self) -> None:
        """The same half-move from another place changes squares that it doesn't touch."""
        place = Place(tuple("rnbqkbnr ppp-pppp -------- ---p---- ----P--- -------- PPPP-PPP RNBQKBNR".split()), "W", 2)
        assert not follows(place, board(3))

    def test_en_passant_and_castling(self) -> None:
        place = Place(tuple("rnbqkbnr ppp-pppp -------- ---pP--- -------- -------- PPPP-PPP RNBQKBNR".split()), "W", 4)
        after = parsed(
            "<12> rnbqkbnr ppp-pppp ---P---- -------- -------- -------- PPPP-PPP RNBQKBNR B -1 1 1 1 1 "
            "0 1 Ann Ben 0 5 0 39 38 300 300 3 P/e5-d6 (0:00) exd6 0"
        )
        assert follows(place, after)
        place = Place(tuple("r-bqkbnr pppp-ppp --n----- ----p--- --B-P--- -----N-- PPPP-PPP RNBQK--R".split()), "W", 6)
        after = parsed(
            "<12> r-bqkbnr pppp-ppp --n----- ----p--- --B-P--- -----N-- PPPP-PPP RNBQ-RK- B -1 0 0 1 1 "
            "5 1 Ann Ben 0 5 0 39 39 300 300 4 o-o (0:00) O-O 0"
        )
        assert follows(place, after)
