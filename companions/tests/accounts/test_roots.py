"""Root in a folder of another user, who may put a link in the place of any file there at any moment."""

import os
import shutil
import stat
import subprocess
import sys
import tempfile
from collections.abc import Iterator
from pathlib import Path

import pytest

from tests.kit import paths
from tests.kit.running import LOOK_EVERY

from .conftest import Store

OWNER = 12345
# calls by which a file gets another owner or mode; the owner of the folder acts while root is held at one
CALLS = "chown,fchownat,lchown,fchown,chmod,fchmodat,fchmod"
HELD = 3_000_000  # microseconds
# puts a link in the place of a file as soon as that is there
PUTS_LINK = f"""
import os, sys, time
place, target = sys.argv[1:]
while not os.path.lexists(place):
    time.sleep({LOOK_EVERY})
os.unlink(place)
os.symlink(target, place)
"""

pytestmark = pytest.mark.root


@pytest.fixture
def owned() -> Iterator[Store]:
    """A store in a folder of a user, and a file of root's beside that folder."""
    with tempfile.TemporaryDirectory() as folder:
        Path(folder).chmod(0o755)
        shutil.copy(paths.program, Path(folder, "program"))
        house = Path(folder, "house")
        house.mkdir(0o700)
        store = Store(house / "club.db")
        store.path.chmod(0o600)
        store.program = Path(folder, "program")
        for it in (house, store.path):
            os.chown(it, OWNER, OWNER)
        Path(folder, "roots").write_bytes(b"")
        Path(folder, "roots").chmod(0o600)
        yield store


def test_a_link_leads_root_nowhere(owned: Store) -> None:
    roots = owned.path.parent.with_name("roots")
    place = owned.path.with_name("club.db.before.new")
    owner = ["setpriv", "--reuid", str(OWNER), "--regid", str(OWNER), "--clear-groups"]
    with subprocess.Popen([*owner, sys.executable, "-c", PUTS_LINK, str(place), str(roots)]) as other:
        hold = "strace", "-f", "-qqq", "-o", "/dev/null", "-e", f"trace={CALLS}"
        try:
            done = owned.tool(
                "password", "ann", given="a\na\n", ahead=[*hold, "-e", f"inject={CALLS}:delay_enter={HELD}:when=1"]
            )
            other.wait(10)
        finally:
            other.kill()
    found = roots.stat()
    assert (found.st_uid, stat.S_IMODE(found.st_mode), roots.read_bytes()) == (0, 0o600, b"")
    assert done.returncode == 1, done.stderr


def test_nothing_there_is_roots(owned: Store) -> None:
    owned.done("password", "ann", given="a\na\n")
    assert owned.tool("list").returncode == 0
    files = list(owned.path.parent.iterdir())
    assert sorted(it.name for it in files) == ["club.db", "club.db.before"]
    assert {(it.stat().st_uid, stat.S_IMODE(it.stat().st_mode)) for it in files} == {(OWNER, 0o600)}
