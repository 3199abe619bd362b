"""The house as a host: it opens as people do, and not always alike; it doesn't agree to a draw before it has played;
and it plays as strongly as its guest has chosen."""

import subprocess

import pytest
from ficsd_companions.bot import openings
from ficsd_companions.bot.levels import Levels
from ficsd_companions.bot.talk import About, Answers
from ficsd_companions.bot.terms import Span, Terms
from ficslink.lines import OfferDeclined

from tests.bot.conftest import Evening
from tests.kit import paths

TERMS = Terms(("chess",), Span(1, 10), Span(0, 5), 1)


@pytest.mark.parametrize("line", openings.BOOK, ids=" ".join)
def test_each_opening_is_one_that_the_server_takes(line: tuple[str, ...]) -> None:
    """The server's program prints a board behind each half-move, and ends with 0."""
    done = subprocess.run([paths.program, "board"], input="\n".join(line) + "\n", capture_output=True, text=True)
    boards = [it for it in done.stdout.splitlines() if it.startswith("<12> ")]
    assert (done.returncode, len(boards)) == (0, len(line)), done


def test_there_is_some_variety() -> None:
    for led in ((), ("e2e4",), ("d2d4",), ("e2e4", "e7e5", "g1f3", "b8c6")):
        assert len({openings.next_word(led) for _ in range(300)}) >= 3, led
    assert openings.next_word(("a2a3",)) is None
    assert openings.next_word(("b1a3", "e7e5")) is None


async def test_it_begins_by_an_opening_and_agrees_to_no_draw_at_once(evening: Evening) -> None:
    evening.bot()
    ann = await evening.guest("Ann")
    game = await ann.challenges("5 0 black")
    await ann.turn(game, 1)
    assert game.board.short in ("e4", "d4", "c4", "Nf3")
    for ply, word in ((1, "e7e6"), (3, "g8f6"), (5, "f8e7")):  # whatever White plays, these are allowed
        await ann.turn(game, ply)
        await ann.member.act(game, "draw")
        await ann.member.move(game, word)
    await ann.turn(game, 7)
    await ann.member.act(game, "draw")
    await ann.until(lambda it: isinstance(it, OfferDeclined), "declined")
    assert not game.is_over


def test_a_level_is_chosen_by_a_word() -> None:
    levels = Levels(3)
    said = About("House", "the house", TERMS, levels)
    assert (levels.of("Ann"), levels.of("Ben")) == (3, 3)
    assert said.answer("Ann", "Level 1!", 0) == ["From your next game on I play at level 1 of 3."]
    assert (levels.of("Ann"), levels.of("Ben")) == (1, 3)
    for word in ("level 0", "level 4", "level 99"):
        assert said.answer("Ann", word, 0) == ["I have the levels 1 to 3."]
    assert levels.of("Ann") == 1
    (answer,) = said.answer("Ann", "level", 0) or []
    assert answer.startswith("You play me at level 1 of 3. For another strength")
    assert said.answer("Ann", "level up", 0) is None
    assert any("level 1 to level 3" in it for it in Answers(said).to("Ann", "help", 0))
    assert About("Stocky", "an engine", TERMS).answer("Ann", "level 1", 0) is None


async def test_it_says_how_strong_it_is_to_whoever_challenges_it(evening: Evening) -> None:
    evening.bot(engine="house:2")
    ann = await evening.guest("Ann")
    await ann.challenges()
    await ann.tell("This is level 2. For another strength tell me level 1 to level 2")
