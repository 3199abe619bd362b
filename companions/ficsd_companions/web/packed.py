"""The page packed for who comes from afar: of each HTML file its modules are one script and its sheets one sheet, under
names with a sum of what is in them, which a browser may keep for a year, and so are the drawings.

Debian's esbuild does it, as the go-between starts. The page itself has no build: where esbuild isn't there, or a file
has changed since, the files are served as they are."""

import hashlib
import math
import re
import shutil
import subprocess
import sys
import time
from collections.abc import Iterator
from pathlib import Path

from .files import File

BUNDLER = "esbuild"
LOOK_SECONDS = 1  # between two looks at the files: there are a hundred of them
MOST_SECONDS = 60  # that it may take, on a machine that is busy
AS_MODULE = ("--bundle", "--format=esm", "--minify", "--charset=utf8", "--target=es2022", "--log-level=error")
AS_SHEET = ("--loader=css", "--minify", "--charset=utf8", "--log-level=error")
FOLDER = "packed/"  # where the names with sums lie
HEAD = "<head>\n"
SHEET = re.compile(r'<link rel="stylesheet" href="(/?)([^"]+)">\n')
SCRIPT = re.compile(r'<script type="module" src="(/?)([^"]+)"></script>')
DRAWING = re.compile(r'(?<=")(/?)(\w+\.svg)(?=[#"])')

State = frozenset[tuple[str, int, int]]  # of each file its name, when it was written, and its size


def state_of(folder: Path) -> State:
    """How the files of a folder stand."""
    found = ((it, it.stat()) for it in folder.rglob("*"))
    return frozenset((str(path), it.st_mtime_ns, it.st_size) for path, it in found)


class NotPacked(Exception):
    """Why a page isn't packed."""


class Packed:
    """The packed files of a page, by their names; none where there is nothing to pack, or nothing that packs."""

    def __init__(self, folder: Path) -> None:
        self.folder = folder
        self.parts: dict[str, File] = {}
        self.pages: dict[str, File] = {}
        self.looked, self.was_fresh = -math.inf, True
        try:
            self.state = state_of(folder)
            for page in self.to_pack():
                self.pages[page.name] = File(page.suffix, self.pack(page.read_text()).encode())
        except (NotPacked, OSError, subprocess.TimeoutExpired) as fault:
            self.pages.clear()
            print(f"fics_web: the page is served in many files: {fault}", file=sys.stderr, flush=True)

    def to_pack(self) -> Iterator[Path]:
        return (it for it in sorted(self.folder.glob("*.html")) if SCRIPT.search(it.read_text()))

    def find(self, name: str) -> File | None:
        """The file of that name as it is packed. A page of which something has changed isn't."""
        if name not in self.pages:
            return self.parts.get(name)
        return self.pages[name] if self.is_fresh() else None

    def is_fresh(self) -> bool:
        """Whether no file of the page has changed, as it was looked at within the last second."""
        if time.monotonic() - self.looked > LOOK_SECONDS:
            self.looked = time.monotonic()
            try:
                self.was_fresh = state_of(self.folder) == self.state
            except OSError:  # a file has just gone
                self.was_fresh = False
        return self.was_fresh

    def pack(self, page: str) -> str:
        """An HTML file with the names of what is packed, which is kept."""
        sheets, script = SHEET.findall(page), SCRIPT.search(page)
        assert script
        root, name = script.groups()
        bundle = self.keep(root, name, bundled([self.within(name), *AS_MODULE]))
        head = f'<script type="module" src="{bundle}"></script>'
        if sheets:
            together = "".join(self.within(it).read_text() for _, it in sheets)
            sheet = self.keep(root, sheets[0][1], bundled(AS_SHEET, together))
            head = f'<link rel="stylesheet" href="{sheet}">\n{head}'
        # what is largest is asked for first, by the connection that is there
        first = f'{HEAD}<link rel="modulepreload" href="{bundle}">\n'
        page = SHEET.sub("", page).replace(script[0], head, 1).replace(HEAD, first, 1)
        return DRAWING.sub(lambda it: self.keep(it[1], it[2], self.within(it[2]).read_bytes()), page)

    def within(self, name: str) -> Path:
        return self.folder / name

    def keep(self, root: str, name: str, content: bytes) -> str:
        """Keeps a file, and says at which address."""
        path = Path(name)
        packed = f"{FOLDER}{path.stem}.{hashlib.sha256(content).hexdigest()[:16]}{path.suffix}"
        if packed not in self.parts:
            self.parts[packed] = File(path.suffix, content, lasts=True)
        return root + packed


def bundled(words: list[Path | str] | tuple[str, ...], text: str = "") -> bytes:
    """What the bundler makes of a file that its words name, or of a text."""
    program = shutil.which(BUNDLER)
    if not program:
        raise NotPacked(f"Debian's package {BUNDLER} isn't there")
    done = subprocess.run([program, *words], input=text.encode(), capture_output=True, timeout=MOST_SECONDS)
    if done.returncode:
        raise NotPacked(f"{BUNDLER}: {done.stderr.decode(errors='replace').strip()}")
    return done.stdout
