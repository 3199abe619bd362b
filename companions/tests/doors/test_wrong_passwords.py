"""Wrong passwords are logged with the address from which they came, as the filter for fail2ban reads them."""

import re
import shutil
import socket
from pathlib import Path

import pytest
from ficslink.texts import LOGIN, PASSWORD

from tests.kit import paths
from tests.kit.link import Link
from tests.kit.running import ended, wait_until

from .conftest import Face
from .pages import example

FILTERS = paths.COMPANIONS / "fail2ban"
FAIL2BAN = Path("/etc/fail2ban")


class LinkFrom(Link):
    """A link from an address of this machine."""

    def __init__(self, port: int, address: str) -> None:
        super().__init__(port)
        self.link.close()
        self.link = socket.create_connection(("127.0.0.1", port), source_address=(address, 0))


def guess(port: int, address: str, *passwords: str) -> None:
    """Tries passwords of Ann."""
    link = LinkFrom(port, address)
    for it in passwords:
        link.until_prompt(LOGIN)
        link.say("Ann")
        link.until_prompt(PASSWORD)
        link.say(it)
        link.until(r"Invalid password|Starting FICS session as Ann")
    link.link.close()


def test_each_is_logged(face: Face) -> None:
    """With its address, and nothing that was typed; a right one isn't."""
    guess(face.port, "127.0.0.2", "wrong", "tuna fish")
    guess(face.port, "127.0.0.3", "wrong")
    guess(face.port, "127.0.0.4", "tuna")
    wanted = [f"fics_face: wrong password from 127.0.0.{it}" for it in (2, 2, 3)]
    assert wait_until(lambda: face.log == wanted), face.log
    assert "fics_face: wrong password from 192.0.2.7" in (paths.TOP / "docs/OPERATING.md").read_text(encoding="utf-8")


@pytest.mark.skipif(not shutil.which("fail2ban-regex"), reason="fail2ban isn't installed")
class TestFilter:
    @pytest.fixture
    def folder(self, tmp_path: Path) -> Path:
        """The settings of fail2ban as they are with the package's."""
        shutil.copytree(FAIL2BAN, tmp_path / "fail2ban")
        shutil.copytree(FILTERS, tmp_path / "fail2ban", dirs_exist_ok=True)
        return tmp_path / "fail2ban"

    def matched(self, folder: Path, lines: list[str]) -> list[str]:
        """Which lines of a journal the filter takes."""
        (folder / "log").write_text("".join(f"Dec 01 17:00:00 club {it}\n" for it in lines), encoding="utf-8")
        words = "fail2ban-regex", "-c", folder, "--print-all-matched", folder / "log", folder / "filter.d/ficsd.conf"
        done = ended(*words)
        assert done.returncode in (0, 1), done.stderr
        _, _, matched = done.stdout.partition("Matched line(s):\n")
        return re.findall(r"^\|  Dec 01 17:00:00 club (.*)$", matched.partition("\n`-")[0], re.M)

    def test_what_is_logged_is_read(self, folder: Path, face: Face) -> None:
        guess(face.port, "127.0.0.2", "wrong", "wrong")
        assert wait_until(lambda: len(face.log) == 2)
        lines = [f"fics_face[12]: {it}" for it in face.log]
        assert self.matched(folder, lines) == lines

    def test_others_are_not(self, folder: Path) -> None:
        taken = [
            "fics_web[12]: fics_web: wrong password from 2001:db8::7",
            "fics_web_blue[12]: fics_web: wrong password from 192.0.2.8",
        ]
        left = [
            "fics_web[12]: fics_web: wrong password from an unknown address",
            "fics_face[12]: fics_face: wrong password from 192.0.2.9 and more",
            "other[12]: fics_face: wrong password from 192.0.2.9",
            "fics_face[12]: fics_face: [Errno 98] wrong password from 192.0.2.9",
        ]
        assert self.matched(folder, [*taken, *left]) == taken

    def test_the_jail_is_off_until_it_is_turned_on(self, folder: Path) -> None:
        def dumped() -> str:
            done = ended("fail2ban-client", "-c", folder, "-d")
            assert done.returncode == 0, done.stderr
            return done.stdout

        assert "'ficsd'" not in dumped()
        text = example("OPERATING.md", "sh(?=\nprintf '.ficsd)")
        first = text.splitlines()[0].replace("/etc/fail2ban", str(folder))
        assert ended("sh", "-c", first).returncode == 0
        assert "['start', 'ficsd']" in dumped()
