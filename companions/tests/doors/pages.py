"""The examples of the pages."""

import re

from tests.kit import paths


def example(page: str, kind: str) -> str:
    """The one block of that kind in a page of docs/."""
    text = (paths.TOP / "docs" / page).read_text(encoding="utf-8")
    (found,) = re.findall(rf"^```{kind}\n(.*?)^```$", text, re.M | re.S)
    return str(found)
