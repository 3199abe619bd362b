"""What a game looks like to an engine. The positions were set up by hand."""

from ficsd_companions.bot import position
from ficslink import Board
from tests.bot.boards import board, game

AFTER_E4 = "rnbqkbnr pppppppp -------- -------- ----P--- -------- PPPP-PPP RNBQKBNR"
AFTER_E5 = "rnbqkbnr pppp-ppp -------- ----p--- ----P--- -------- PPPP-PPP RNBQKBNR"
CASTLED = "rnbqkbnr pppppppp -------- -------- -------- -------- PPPPPPPP RNBQ-RK-"
# the array 0 of Fischer random: bishops on b and a, the queen on c, the knights on d and e
ARRAY_0 = "bbqnnrkr pppppppp -------- -------- -------- -------- PPPPPPPP BBQNNRKR"


def opened() -> list[Board]:
    """A game behind 1. e4 e5."""
    return [
        board(),
        board(ranks=AFTER_E4, side="B", push=4, long="P/e2-e4", short="e4", relation=-1),
        board(ranks=AFTER_E5, push=4, number=2, long="P/e7-e5", short="e5"),
    ]


def shuffled(times: int, **last: object) -> list[Board]:
    """A game in which the knights go out and back so many times; `last` are fields of its last board."""
    out = AFTER_E4.replace("----P---", "--------").replace("PPPP-PPP", "PPPPPPPP")
    places = (
        (out.replace("RNBQKBNR", "RNBQKB-R").replace("-------- PPPPPPPP", "-----N-- PPPPPPPP"), "N/g1-f3"),
        (None, "N/g8-f6"),
        (None, "N/f3-g1"),
        (out, "N/f6-g8"),
    )
    boards = [board()]
    for n in range(4 * times):
        ranks, long = places[n % 4]
        more = last if n == 4 * times - 1 else {}
        boards.append(
            board(
                ranks=ranks or places[0][0],
                side="WB"[(n + 1) % 2],
                quiet=n + 1,
                number=(n + 1) // 2 + 1,
                long=long,
                short="Nf3",
                **more,
            )
        )
    return boards


def test_half_moves_as_the_server_takes_them() -> None:
    rows = (
        ("P/e2-e4", "e2e4"),
        ("P/e7-e8=Q", "e7e8=Q"),
        ("P/a2-b1=N", "a2b1=N"),
        ("N/@@-f3", "N@f3"),
        ("o-o", "O-O"),
        ("o-o-o", "O-O-O"),
        ("K/e1-d1", "e1d1"),
    )
    for long, word in rows:
        assert position.word_of(board(long=long, short="e4")) == word


def test_the_house_reads_the_variant_and_all_half_moves() -> None:
    assert position.for_house(game(boards=opened()), []) == "chess\ne2e4\ne7e5\n"
    assert position.for_house(game("fischer 0", [board(ranks=ARRAY_0)]), []) == "fischer 0\n"


def test_a_game_that_goes_on_is_known_by_what_led_to_it() -> None:
    later = game(boards=opened()[2:])
    assert position.for_house(later, []) is None
    assert position.for_house(later, ["e2e4"]) is None
    assert position.for_house(later, ["e2e4", "e7e5"]) == "chess\ne2e4\ne7e5\n"
    # behind a takeback of one what led here is longer than the way to the board
    assert position.for_house(game(boards=opened()[1:2]), ["e2e4", "e7e5"]) == "chess\ne2e4\n"


def test_uci_has_the_first_board_and_the_half_moves() -> None:
    assert position.for_uci(game()) == "startpos"
    assert position.for_uci(game(boards=opened())) == "startpos moves e2e4 e7e5"
    later = "fen rnbqkbnr/pppp1ppp/8/4p3/4P3/8/PPPP1PPP/RNBQKBNR w KQkq e6 0 2"
    assert position.for_uci(game(boards=opened()[2:])) == later


def test_uci_has_fischers_castling_as_the_king_that_takes_its_rook() -> None:
    short = board(
        ranks="bbqnnrkr pppppppp -------- -------- -------- -------- PPPPPPPP BBQNNRK-",
        side="B",
        rights="0 0 1 1",
        quiet=1,
        long="o-o",
        short="O-O",
        relation=-1,
    )
    assert (
        position.for_uci(game("fischer 0", [board(ranks=ARRAY_0), short]))
        == "fen bbqnnrkr/pppppppp/8/8/8/8/PPPPPPPP/BBQNNRKR w HFhf - 0 1 moves g1h1"
    )


def test_uci_has_the_men_in_hand() -> None:
    later = game("crazyhouse", opened()[2:], hands=("PN", "Q"))
    assert position.for_uci(later) == "fen rnbqkbnr/pppp1ppp/8/4p3/4P3/8/PPPP1PPP/RNBQKBNR[PNq] w KQkq e6 0 2"
    dropped = board(ranks=AFTER_E4, side="B", long="P/@@-e4", short="P@e4", relation=-1)
    assert position.for_uci(game("crazyhouse", [board(), dropped])) == "startpos moves P@e4"


def test_a_position_for_the_third_time() -> None:
    assert not game(boards=shuffled(1)).may_claim_draw
    assert game(boards=shuffled(2)).may_claim_draw
    assert not game(boards=shuffled(2, rights="1 1 1 0")).may_claim_draw, "a right is gone"


def test_fifty_moves_without_a_capture() -> None:
    assert not game(boards=[board(quiet=99, number=70)]).may_claim_draw
    assert game(boards=[board(quiet=100, number=70)]).may_claim_draw


def test_a_double_push_counts_where_it_can_be_taken() -> None:
    beside = "rnbqkbnr ppp-pppp -------- -------- ---pP--- -------- PPPP-PPP RNBQKBNR"
    assert board(ranks=beside, side="B", push=4).repeated[-1] == 4
    assert board(ranks=AFTER_E4, side="B", push=4).repeated[-1] == -1
    edge = "rnbqkbnr ppppppp- -------- -------- P------p -------- -PPPPPPP RNBQKBNR"
    assert board(ranks=edge, side="B", push=0).repeated[-1] == -1, "h is beside no a"


def test_no_men_that_mate() -> None:
    def bare(rank: str, material: str, variant: str = "chess") -> bool:
        ranks = f"----k--- {rank} -------- -------- -------- -------- -------- ----K---"
        return position.is_dead(game(variant, [board(ranks=ranks, material=material, number=90)]))

    assert bare("--------", "0 0")
    assert bare("-----N--", "3 0")
    assert bare("-----b--", "0 3")
    assert not bare("-----R--", "5 0")
    assert not bare("PPP-----", "3 0"), "three pawns are worth three too"
    assert not bare("-----N--", "3 3")
    assert not bare("--------", "0 0", "crazyhouse")
