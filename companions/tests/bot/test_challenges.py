"""Which games the bot plays, and what it says to others."""

import re

import pytest

from ficsd_companions.bot.talk import About, Answers
from ficsd_companions.bot.terms import Span, Terms, Wanted

TERMS = Terms(("chess", "fischer"), Span(1, 30), Span(0, 10), 2)


def test_each_bound_has_its_sentence() -> None:
    rows = (
        (("chess", 1, 0, 0), None),
        (("fischer 518", 30, 10, 1), None),
        (("crazyhouse", 5, 0, 0), "I play chess and fischer."),
        (("bughouse", 5, 0, 0), "I play chess and fischer."),
        (("chess", 0, 10, 0), "I play with 1 to 30 minutes, as in: 5 0 chess"),
        (("fischer 7", 31, 0, 0), "I play with 1 to 30 minutes, as in: 5 0 fischer 7"),
        (("chess", 5, 11, 0), "I play with an increment of 0 to 10 seconds, as in: 5 0 chess"),
        (("chess", 5, 0, 2), "I play 2 games now, and no more at a time. Please try later."),
    )
    for challenge, said in rows:
        assert TERMS.objection(*challenge) == said, challenge


def test_the_example_is_one_that_is_accepted() -> None:
    for minutes in (Span(0, 3), Span(7, 9), Span(5, 5)):
        terms = Terms(("chess",), minutes, Span(2, 3), 1)
        offered, increment, variant = terms.example("chess").split()
        assert terms.objection(variant, int(offered), int(increment), 0) is None


def test_games_that_it_offers() -> None:
    rows = (
        ("5 0", "5 0 chess"),
        ("0 1 white", "0 1 chess white"),
        ("2 12 crazyhouse", "2 12 crazyhouse"),
        ("5 0 fischer 518 black", "5 0 fischer 518 black"),
        ("5 0 bughouse", None),
        ("5", None),
        ("", None),
        ("601 0", None),
        ("5 0 fischer 960", None),
        ("5 0 chess green", None),
    )
    for text, terms in rows:
        wanted = Wanted.parsed(text)
        assert (wanted and str(wanted)) == terms, text


def test_any_array_is_another_one_each_time() -> None:
    wanted = Wanted.parsed("5 0 fischer white")
    arrays = {str(wanted) for _ in range(50)}
    assert len(arrays) > 10
    for it in arrays:
        assert re.search(r"^5 0 fischer \d+ white$", it)


@pytest.fixture
def answers() -> Answers:
    return Answers(About("House", "an engine", TERMS))


def test_help_says_what_it_plays(answers: Answers) -> None:
    said = answers.to("Ann", "Help!", 0)
    assert said[0] == (
        "I am a program, an engine. I play chess and fischer, 1 to 30 minutes, an increment "
        "of 0 to 10 seconds, 2 games at a time."
    )
    assert said[1] == "To play, type: match House 5 0 chess"


def test_no_line_is_longer_than_the_server_takes() -> None:
    widest = Terms(("chess", "crazyhouse", "fischer"), Span(0, 600), Span(0, 600), 32)
    for it in Answers(About("A" * 17, "E" * 200, widest)).to("Ann", "help", 0):
        assert len(f"tell {'B' * 17} {it}") <= 800


def test_words(answers: Answers) -> None:
    assert answers.to("Ann", "engine", 1) == ["I play by an engine."]
    assert answers.to("Ben", " status ", 1) == ["I play 1 of at most 2 games."]


def test_two_programs_dont_talk_without_end(answers: Answers) -> None:
    assert len(answers.to("Ann", "what do you want?", 0)) == 1
    for _ in range(5):
        assert answers.to("Ann", "I know few words. Type: help", 0) == []
    assert answers.to("Ann", "help", 0) == [], "right behind an answer there is none"
