"""The page's texts: each language has each text with the same places, and each text that the page names is there."""

import json
import re
import subprocess

import pytest

from tests.kit import paths

TABLES = (
    "const tables = {}; for (const code of process.argv.slice(1)) { "
    "tables[code] = (await import(`${process.cwd()}/${code}.mjs`)).TEXTS; } console.log(JSON.stringify(tables));"
)
NAMED = (
    r'\bt\(\s*"([^"]+)"',
    r'data-t(?:-label|-placeholder|-title)?="([^"]+)"',
    r'"((?:[a-z-]+\.)[a-z-]+)" : "',
    r': "((?:[a-z-]+\.)[a-z-]+)"\)',
)
LANGUAGE = re.compile("[a-z]{2}")
BUILT = r"\bt(?:\(\s*| = )`([^`$]+)\$\{"  # the beginning of a key that ends in something else


Tables = dict[str, dict[str, str]]


@pytest.fixture(scope="module")
def tables(tmp_path_factory: pytest.TempPathFactory) -> Tables:
    """Of each language's code its texts, as the page's modules have them."""
    folder = tmp_path_factory.mktemp("texts")
    files = [it for it in (paths.PAGE / "texts").glob("*.js") if LANGUAGE.fullmatch(it.stem)]
    for it in files:
        (folder / f"{it.stem}.mjs").write_text(it.read_text())
    words = ["node", "--input-type=module", "-e", TABLES, *(it.stem for it in files)]
    told = subprocess.run(words, cwd=folder, check=True, capture_output=True, text=True).stdout
    found: Tables = json.loads(told)
    return found


def sources() -> list[str]:
    """The page's modules, and its files of HTML."""
    modules = (it for it in paths.PAGE.rglob("*.js") if it.parent.name != "texts" or not LANGUAGE.fullmatch(it.stem))
    return [it.read_text() for it in [*modules, *paths.PAGE.glob("*.html")]]


def test_all_languages_have_the_same_texts(tables: Tables) -> None:
    assert "de" in tables
    english = tables["en"]
    for code, texts in tables.items():
        assert sorted(texts) == sorted(english), code
        for key, text in texts.items():
            assert text.strip(), (code, key)
            here, there = (set(re.findall(r"\{\w+\}", it)) for it in (text, english[key]))
            assert here == there, (code, key)


def test_each_refusal_has_its_text(tables: Tables) -> None:
    documented = (paths.TOP / "docs" / "CLIENTS.md").read_text().partition("\n## Refusals\n")[2]
    numbers = re.findall(r"^\| (\d+) \| \w+ \|", documented, re.M)
    assert len(numbers) > 50
    texts = sorted(it for it in tables["en"] if it.startswith("refusal."))
    assert texts == sorted(f"refusal.{it}" for it in numbers)


def test_each_text_that_the_page_names_is_there(tables: Tables) -> None:
    english = tables["en"]
    for source in sources():
        for form in NAMED:
            for key in re.findall(form, source):
                assert key in english
        for beginning in re.findall(BUILT, source):
            assert any(key.startswith(beginning) for key in english), beginning
