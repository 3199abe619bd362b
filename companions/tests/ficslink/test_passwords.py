"""A password in a file: whose file it is, who else may read it, and what stands in it."""

import os
from pathlib import Path
from unittest import mock

import pytest

from ficslink import secret


@pytest.fixture
def path(tmp_path: Path) -> Path:
    return tmp_path / "password"


def write(path: Path, text: bytes, mode: int = 0o600) -> None:
    path.write_bytes(text)
    path.chmod(mode)


def refused(path: Path, says: str) -> secret.BadSecret:
    """The error that says so, and never the password."""
    with pytest.raises(secret.BadSecret, match=says) as told:
        secret.password_in(path)
    assert "swordfish" not in str(told.value)
    return told.value


def test_the_first_line_is_it_without_its_end(path: Path) -> None:
    rows = (
        (b"sword fish\nmore\n", "sword fish"),
        (b"sword fish", "sword fish"),
        (b"sword fish\r\n", "sword fish"),
        (b" x \n", " x "),
        (b"a" * 800 + b"\n", "a" * 800),
        (b"a" * 800 + b"\r\n", "a" * 800),
        (b"x\nsch\xc3\xb6n\n", "x"),
    )
    for text, wanted in rows:
        write(path, text)
        assert secret.password_in(path) == wanted
        assert secret.password_in(str(path)) == wanted


def test_one_that_others_read_or_write_is_refused(path: Path) -> None:
    for mode in (0o640, 0o604, 0o620, 0o602, 0o610, 0o601, 0o644):
        write(path, b"swordfish\n", mode)
        refused(path, f"others may read or write .*: chmod 600 {path}")
    for mode in (0o600, 0o400, 0o700):
        write(path, b"swordfish\n", mode)
        assert secret.password_in(path) == "swordfish"


def test_that_of_another_user_is_refused(path: Path) -> None:
    write(path, b"swordfish\n")
    other = os.geteuid() + 1
    with mock.patch("os.geteuid", return_value=other):
        refused(path, f"belongs to another user: chown {other} {path}")


def test_one_that_the_server_wouldnt_take_is_refused(path: Path) -> None:
    for text in (
        b"",
        b"\n",
        b"\r\n",
        b"\nx\n",
        b"a" * 801,
        b"a" * 801 + b"\n",
        b"sch\xc3\xb6n\n",
        b"tab\there\n",
        b"a\rb\n",
        b"x\0\n",
        b"x\r\r\n",
    ):
        write(path, text)
        refused(path, "is no password: 1 to 800 characters")


def test_where_there_is_none(path: Path) -> None:
    assert isinstance(refused(path, "there is no file"), secret.NoSecret)


def test_what_is_no_file(path: Path) -> None:
    os.mkdir(path, 0o700)
    refused(path, "is no file")
    os.rmdir(path)
    os.mkfifo(path, 0o600)  # which would be waited for without end
    refused(path, "is no file")


def test_what_cant_be_read(path: Path) -> None:
    write(path, b"swordfish\n")
    with mock.patch("os.open", side_effect=PermissionError(13, "Permission denied")):
        assert not isinstance(refused(path, "can't be read: Permission denied"), secret.NoSecret)
    path.unlink()
    path.symlink_to(path)
    refused(path, "can't be read: Too many levels")


def test_a_new_one_is_made_where_that_is_asked_for(path: Path) -> None:
    made = secret.kept_password(path)
    assert len(made) >= 20
    assert path.stat().st_mode & 0o777 == 0o600
    assert secret.kept_password(path) == made
    assert secret.password_in(path) == made


def test_a_bad_one_isnt_made_anew(path: Path) -> None:
    write(path, b"swordfish\n", 0o644)
    with pytest.raises(secret.BadSecret):
        secret.kept_password(path)
    assert path.read_bytes() == b"swordfish\n"


def test_where_none_can_be_made(path: Path) -> None:
    with pytest.raises(secret.BadSecret, match="no password can be kept in"):
        secret.kept_password(path.parent / "absent" / "password")
