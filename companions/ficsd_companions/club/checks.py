"""What has to be so before anything is started, each with a sentence that helps."""

import socket
import subprocess
from pathlib import Path

from ficsd_companions.accounts.faults import Refused
from ficsd_companions.accounts.reading import copied
from ficsd_companions.bot.options import HOUSE as SEARCH
from ficsd_companions.bot.uci import NoEngine, path_of

PAGE_PYTHON = "/usr/bin/python3"  # the one by which companions/fics_web runs


class Missing(Exception):
    """Something that is needed isn't there."""


def check_page() -> None:
    """The page's program needs aiohttp."""
    try:
        done = subprocess.run([PAGE_PYTHON, "-c", "import aiohttp"], capture_output=True, check=False)
    except OSError as fault:
        raise Missing(f"{PAGE_PYTHON} can't be run: sudo apt-get install -y python3 python3-aiohttp") from fault
    if done.returncode:
        raise Missing(
            "the page needs aiohttp, which isn't there; this installs it: sudo apt-get install -y python3-aiohttp"
        )


def check_port(port: int) -> None:
    """A port is free on this machine."""
    with socket.socket() as door:
        door.setsockopt(socket.SOL_SOCKET, socket.SO_REUSEADDR, 1)
        try:
            door.bind(("127.0.0.1", port))
        except OSError as fault:
            raise Missing(
                f"port {port} can't be had ({fault.strerror}); ss -ltnp says who has it, and --port chooses "
                "another one"
            ) from fault


def is_answering(port: int) -> bool:
    """Whether one can connect to a port of this machine."""
    try:
        with socket.create_connection(("127.0.0.1", port), timeout=1):
            return True
    except OSError:
        return False


def check_folder(store: Path) -> None:
    """House's files can lie beside the store."""
    folder = store.absolute().parent
    probe = folder / f"{store.name}.probe"
    try:
        probe.touch()
        probe.unlink()
    except OSError as fault:
        raise Missing(f"{folder} can't be written: {fault.strerror}") from fault


def check_engine(name: str) -> None:
    """House's engine is the house's search, or a program that is there."""
    if SEARCH.fullmatch(name):
        return
    try:
        path_of(name)
    except NoEngine as fault:
        raise Missing(f"House can't begin: {fault}, and it is none of house:1 to house:4") from fault


def check_password(store: Path, house: str) -> None:
    """A House that has an account has its password beside the store."""
    password = store.with_name(f"{store.name}-house")
    if password.exists() or not store.exists():
        return
    try:
        with copied(store) as copy:
            names = [it.name for it in copy.accounts()]
    except Refused:
        return  # of which the server tells
    if house in names:
        raise Missing(
            f"{house} has an account in {store}, and {password}, its password, isn't there. Put that file back, or set "
            f"another password by `companions/fics_accounts --store {store} password {house}` and write it there"
        )
