"""The words of the command line."""

import socket
from pathlib import Path

import pytest

from tests.kit import paths
from tests.kit.running import PATIENCE, Run, ended


def test_a_server_at_an_address_of_ipv6(tmp_path: Path) -> None:
    with socket.create_server(("::1", 0), family=socket.AF_INET6) as door:
        door.settimeout(PATIENCE)
        place = f"[::1]:{door.getsockname()[1]}"
        scribe = Run(paths.companion("fics_scribe"), "--server", place, "--archive", tmp_path)
        try:
            door.accept()[0].close()
        finally:
            scribe.end()


@pytest.mark.parametrize("server", ["x", "::1:5000", "[::1]", ":5000", "localhost:0"])
def test_other_words(tmp_path: Path, server: str) -> None:
    assert ended(paths.companion("fics_scribe"), "--server", server, "--archive", tmp_path).returncode == 2
