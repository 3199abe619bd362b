"""How long the bot thinks."""

import pytest

from ficsd_companions.bot import clock


def test_with_whatever_is_left_it_is_never_used_up() -> None:
    for tenths in range(3, 6000):
        own = tenths / 10
        given = clock.budget(own, 300, 0)
        assert given.own < own
        assert given.stop < given.fail
        assert given.fail < own + 0.25, "where an engine fails a stand-in has what is left"
        assert clock.share(given) <= own / 5
        assert given.own < (own - 1 if own > 2 else own)
    assert clock.budget(10, 300, 0).fail < 9


def test_with_much_time_an_engine_is_awaited_for_a_part_of_it() -> None:
    assert clock.budget(1802, 1800, 0).stop == pytest.approx(361)
    assert clock.budget(12, 60, 1).stop == pytest.approx(5)


def test_a_clock_below_zero_is_thought_with_as_if_there_were_a_little() -> None:
    assert clock.budget(-3, 10, 0).own == clock.LEAST


def test_without_clocks_there_is_a_fixed_time() -> None:
    given = clock.budget(None, None, 0)
    assert not given.is_timed
    assert (given.stop, clock.share(given)) == (clock.UNTIMED_THOUGHT, clock.UNTIMED_THOUGHT)


def test_a_crowd_of_games_shares_the_processors() -> None:
    alone, crowded = clock.budget(60, 60, 2), clock.budget(60, 60, 2, 4)
    assert (crowded.own, crowded.increment) == (alone.own / 4, 0.5)
    assert (crowded.stop, crowded.fail) == (alone.stop, alone.fail)
    assert clock.budget(60, 60, 2, 0.25) == alone, "a few games have what one has"


def test_an_increment_is_kept_where_little_is_left() -> None:
    assert clock.budget(4.9, 60, 1).increment == 0
    assert clock.budget(5.1, 60, 1).increment == 1


def test_an_increment_is_used() -> None:
    assert clock.share(clock.budget(600, 600, 10)) == pytest.approx(598 / 40 + 7)
