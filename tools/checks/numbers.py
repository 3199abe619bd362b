"""Numbers that pages state are those of the code: refusals beside their names, and the bounds of edits and crates."""
import re

from . import crates, edits
from .sources import text, tracked

REFUSALS = "crates/fics_words/src/refusal.rt"
CLIENTS = "docs/CLIENTS.md"
# those of exams and of round robins, which no client of the server is told, stand on pages of their own
OF_COMMANDS = range(57, 66)
VARIANT = re.compile(r"^    ([A-Z]\w+)(?: = 1)?,$", re.MULTILINE)
ROW = re.compile(r"^\| (\d+) \| (\w+) \|", re.MULTILINE)
NAMED = re.compile(r"\b(\d{1,2}) ([A-Z][a-z]+[A-Za-z]*)\b")
BOUNDS = {
    "CONTRIBUTING.md": [
        (r"cost at most ([\d,]+) seconds together", edits.MOST_SECONDS),
        (r"at most (\d+) crates of tests", crates.MOST_TESTS)],
}


def refusals():
    """Each refusal's name with its number, as the code counts them."""
    enum = text(REFUSALS).split("pub enum Refusal {")[1].split("\n}")[0]
    return {name: number for number, name in enumerate(VARIANT.findall(enum), 1)}


def faults():
    known = refusals()
    for page in [it for it in tracked() if it.suffix == ".md"]:
        for number, name in NAMED.findall(text(page)):
            if known.get(name, int(number)) != int(number):
                yield f"{page} has {number} {name}, which is {known[name]}"
    listed = {name: int(number) for number, name in ROW.findall(text(CLIENTS))}
    told = {name for page in tracked() if page.suffix == ".md" for _, name in NAMED.findall(text(page))}
    for name, number in known.items():
        if listed.get(name) != number and (number not in OF_COMMANDS or name not in told):
            yield f"{CLIENTS} has no row of the refusal {number} {name}"
    for page, bounds in BOUNDS.items():
        for form, bound in bounds:
            for said in re.findall(form, text(page)) or [None]:
                if said is None or int(said.replace(",", "")) != bound:
                    yield f"{page} says {said} where {bound} is asked for: {form}"
