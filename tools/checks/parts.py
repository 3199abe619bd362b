"""What is printed into pages from the code: a part that a tool makes, in the place of the one that stands there."""
import sys

from .sources import TOP


def behind(page, start, last):
    """Where the part ends that begins there: behind the line that begins with its last line's beginning, or behind a
    table's last row where there is none."""
    if last:
        return page.index("\n", page.index(last, start)) + 1
    while page[start] == "|":
        start = page.index("\n", start) + 1
    return start


def with_part(page, part, last=None):
    """The page with this part in place of the one that has its head."""
    start = page.index(part[0])
    return page[:start] + "\n".join(part) + "\n" + page[behind(page, start, last):]


def run(tool, words, usage, parts):
    """Prints the parts, compares them with the files, or puts them in. `parts` has of each file's name the lines, and
    what the file is with them, by what it is without."""
    if words not in ([], ["--check"], ["--write"]):
        print(usage, file=sys.stderr)
        return 2
    status = 0
    for name, (lines, meant_of) in parts.items():
        if not words:
            print("\n".join(lines), end="\n\n")
            continue
        path = TOP / name
        page = path.read_text(encoding="utf-8")
        meant = meant_of(page)
        if words == ["--write"]:
            path.write_text(meant, encoding="utf-8")
        elif meant != page:
            print(f"{tool}: {name} has something else; tools/print/{tool} --write mends it", file=sys.stderr)
            status = 1
    return status
