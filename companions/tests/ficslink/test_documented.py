"""The classes of lines are held to docs/CLIENTS.md in both directions, over what the server says in the evenings of
`tests/page/lines`, which bring each of its texts."""

import dataclasses
import json
import re
import subprocess
from collections import defaultdict
from typing import Any

import pytest

from ficslink import lines, terms
from ficslink.board import Board
from ficslink.errors import RefusalError
from ficslink.line import Line
from ficslink.refusals import Refusal
from tests.kit import paths

PAGE = paths.TOP / "docs" / "CLIENTS.md"
TELL = paths.COMPANIONS / "tests" / "page" / "lines" / "tell.mjs"


class Form:
    """A text of the page."""

    def __init__(self, told: dict[str, Any]) -> None:
        self.unit, self.text = told["unit"], told["text"]
        self.commands, self.has_text = told["commands"], told["hasText"]
        self.pattern = re.compile(told["pattern"].strip("^$"))


class Evenings:
    """What the server has said in all evenings, and the forms of the page."""

    def __init__(self) -> None:
        words = ["node", TELL, paths.program, PAGE]
        told = json.loads(subprocess.run(words, stdout=subprocess.PIPE, check=True).stdout)
        self.forms, self.beyond = [Form(it) for it in told["forms"]], set(told["beyond"])
        self.told = list(dict.fromkeys((it["command"], it["text"]) for it in told["lines"]))

    def form_of(self, command: str, text: str) -> Form | None:
        """The form of a line: the one that has just these letters, or one of the command that it answers, or one of
        any."""
        fitting = [it for it in self.forms if it.pattern.fullmatch(text)]
        rows = (
            [it for it in fitting if it.text == text],
            [it for it in fitting if command in it.commands],
            [it for it in fitting if not it.commands],
        )
        return next((row[0] for row in rows if row), None)

    def documented(self, command: str, text: str) -> Form:
        """The form of a line, which has one."""
        form = self.form_of(command, text)
        assert form, f"not in the docs: {text} (behind {command!r})"
        return form


@pytest.fixture(scope="module")
def evenings() -> Evenings:
    return Evenings()


def test_each_line_is_documented_and_is_read_whole(evenings: Evenings) -> None:
    for command, text in evenings.told:
        form, line = evenings.documented(command, text), lines.parse(text, command)
        assert type(line) is not lines.Unknown, f"{text} (behind {command!r})"
        assert str(line) == text
        check_places(form, line, text)


def check_places(form: Form, line: Line, text: str) -> None:
    """The places of a documented form are fields; minutes, increment and variant are in its terms."""
    values = [getattr(line, it.name) for it in dataclasses.fields(line)]
    said = {str(it) for it in values if not isinstance(it, tuple)}
    said |= {word for it in values if isinstance(it, terms.Terms) for word in (*str(it).split(" "), it.variant)}
    for value in form.pattern.fullmatch(text).groups():
        assert value in said or form.unit.startswith("{Game") and value in str(line), f"{value}: {text}"


def test_each_text_of_the_docs_comes_and_is_known(evenings: Evenings) -> None:
    seen = {evenings.form_of(command, text) for command, text in evenings.told}
    for form in evenings.forms:
        if form.text in evenings.beyond:
            assert form not in seen, f"a script brings it: {form.text}"
            assert type(lines.parse(form.text)) is not lines.Unknown, form.text
        else:
            assert form in seen, f"no line of the evenings is: {form.text}"


def test_each_class_is_in_the_docs(evenings: Evenings) -> None:
    seen = {type(lines.parse(text, command)) for command, text in evenings.told}
    assert set(lines.ALL) - seen == set()


def test_texts_that_the_docs_tell_apart_are_of_different_classes(evenings: Evenings) -> None:
    kinds = defaultdict(set)
    for command, text in evenings.told:
        kinds[evenings.documented(command, text).unit].add(type(lines.parse(text, command)))
    owners = defaultdict(set)
    for unit, its_kinds in kinds.items():
        for kind in its_kinds:
            owners[kind].add(unit)
    assert {kind.__name__: units for kind, units in owners.items() if len(units) > 1} == {}


def test_a_line_with_more_or_less_in_it_is_none(evenings: Evenings) -> None:
    for command, text in evenings.told:
        others = [f"x {text}", f" {text}"]
        if not evenings.documented(command, text).has_text:
            others += [f"{text} x", f"{text}.", text[:-1]]
        for other in others:
            line = lines.parse(other, command)
            is_known = not isinstance(line, lines.Unknown) and getattr(line, "is_known", True)
            assert not (is_known and not evenings.form_of(command, other)), f"{line!r}: {other}"


def test_the_refusals_are_those_of_the_page() -> None:
    page = PAGE.read_text(encoding="utf-8").partition("\n## Refusals\n")[2]
    rows = re.findall(r"^\| (\d+) \| (\w+) \| (.+) \|$", page, re.MULTILINE)
    assert len(rows) > 50
    assert {int(number): (name, cause) for number, name, cause in rows} == {
        it.value: (it.word, it.cause) for it in Refusal
    }
    assert RefusalError(25, "HallFull").cause == "at the login: 256 are in"
    assert RefusalError(25, "Else").cause == ""


def test_the_fields_of_the_board_are_those_of_the_page() -> None:
    page = PAGE.read_text(encoding="utf-8").partition("\n### The board line\n")[2]
    rows = re.findall(r"^\| ([\d, to]+) \| (.+) \|$", page.partition("\n### ")[0], re.MULTILINE)
    last = int(rows[-1][0])
    documented = sum(len(it.name == "ranks" and "x" * 8 or "x") for it in dataclasses.fields(Board)) + 1
    assert documented == last
    assert f"{last} fields" in page
