"""Links of pages lead to files that are there, and to headings that these have."""
import re
from functools import lru_cache
from pathlib import Path

from .sources import text, tracked

LINK = re.compile(r"\]\(([^()\s]+)\)")
CODE = re.compile(r"^```.*?^```$|`[^`\n]*`", re.MULTILINE | re.DOTALL)
HEADING = re.compile(r"^#+ +(.*)$", re.MULTILINE)
ELSEWHERE = re.compile(r"\w+:")  # a scheme, as of https


def slug(heading):
    """The anchor of a heading, as the pages' readers on the web make it: small letters, blanks as hyphens, and no other
    signs."""
    return re.sub(r"[^\w\- ]", "", heading.strip().lower()).replace(" ", "-")


@lru_cache
def anchors(page):
    """The anchors of a page. Of several headings with one text the second has `-1` behind it, and so on."""
    slugs = [slug(it) for it in HEADING.findall(re.sub(r"(?ms)^```.*?^```$", "", text(page)))]
    return {it if at == 0 else f"{it}-{at}" for n, it in enumerate(slugs) for at in [slugs[:n].count(it)]}


def faults():
    files = set(tracked())
    folders = {parent for file in files for parent in file.parents}
    for page in [it for it in files if it.suffix == ".md"]:
        for link in LINK.findall(CODE.sub("", text(page))):
            if ELSEWHERE.match(link):
                continue
            path, _, anchor = link.partition("#")
            target = Path(*resolved(page.parent, path)) if path else page
            if target not in files and target not in folders:
                yield f"{page} leads to {link}, and there is no {target}"
            elif anchor and target.suffix == ".md" and anchor not in anchors(target):
                yield f"{page} leads to {link}, and {target} has no such heading"


def resolved(folder, path):
    """The parts of a path that is seen from a folder, from the top."""
    parts = list(folder.parts)
    for part in Path(path).parts:
        if part == "..":
            parts = parts[:-1]
        elif part != ".":
            parts.append(part)
    return parts
