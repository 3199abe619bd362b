"""The password of an account in a file that nobody but its owner reads."""

import os
import secrets
import stat
from pathlib import Path

LONGEST = 800  # characters that the server takes


class BadSecret(Exception):
    """The file can't be used, and why."""


class NoSecret(BadSecret):
    """There is no such file."""


def password_in(path: str | Path) -> str:
    """The password that stands in a file as its first line, without that line's end. `NoSecret` where there is no file;
    `BadSecret` where it can't be read or is none, belongs to somebody else, may be read or written by others, or has
    no password there that the server takes."""
    try:
        descriptor = os.open(path, os.O_RDONLY | os.O_NONBLOCK)  # a pipe isn't waited for
        try:
            _look_at(path, os.fstat(descriptor))
            text = os.read(descriptor, LONGEST + len("\r\n"))
        finally:
            os.close(descriptor)
    except FileNotFoundError as fault:
        raise NoSecret(f"there is no file {path} with a password") from fault
    except OSError as fault:
        raise BadSecret(f"the password in {path} can't be read: {fault.strerror}") from fault
    password = text.partition(b"\n")[0].removesuffix(b"\r").decode("latin-1")
    if not 1 <= len(password) <= LONGEST or any(not " " <= it <= "~" for it in password):
        raise BadSecret(f"the first line of {path} is no password: 1 to {LONGEST} characters from 0x20 to 0x7E")
    return password


def _look_at(path: str | Path, status: os.stat_result) -> None:
    """Looks whose file it is, and who else may read it."""
    if not stat.S_ISREG(status.st_mode):
        raise BadSecret(f"{path} is no file")
    if status.st_uid != os.geteuid():
        raise BadSecret(f"{path} belongs to another user: chown {os.geteuid()} {path}")
    if status.st_mode & (stat.S_IRWXG | stat.S_IRWXO):
        raise BadSecret(f"others may read or write {path}: chmod 600 {path}")


def kept_password(path: str | Path) -> str:
    """The same, but where there is no file a new one is made, with a password by chance."""
    try:
        return password_in(path)
    except NoSecret:
        return _new_password(path)


def _new_password(path: str | Path) -> str:
    password = secrets.token_urlsafe(18)
    try:
        with open(os.open(path, os.O_WRONLY | os.O_CREAT | os.O_EXCL, 0o600), "w", encoding="ascii") as file:
            file.write(password + "\n")
    except OSError as fault:
        raise BadSecret(f"no password can be kept in {path}: {fault.strerror}") from fault
    return password
