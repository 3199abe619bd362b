"""nginx and Caddy before a go-between, as the files of companions/proxies stand but for ports and the certificate."""

import asyncio
import os
import shutil
import socket
import ssl
import subprocess
from collections.abc import Callable, Iterator, Mapping
from contextlib import contextmanager
from pathlib import Path
from typing import NamedTuple

import aiohttp
import pytest
from aiohttp.abc import AbstractResolver

from . import paths
from .ports import free_port
from .running import Run, async_wait_until

FILES = paths.COMPANIONS / "proxies"
HOST = "chess.example.org"
# the words that docs/WEB.md names for a go-between behind a proxy
WORDS = "--host", HOST, "--trusted-proxy", "127.0.0.1"
BEHIND = "127.0.0.1:5002"  # where the files have the go-between
# where the files and the pages have the certificate and its key
PRINTED = f"/etc/letsencrypt/live/{HOST}/"
CERTIFICATE, KEY = "fullchain.pem", "privkey.pem"
NGINX = """
pid {folder}/pid;
error_log stderr;
events {{}}
http {{
    access_log off;
    client_body_temp_path {folder}; proxy_temp_path {folder};
    fastcgi_temp_path {folder}; uwsgi_temp_path {folder}; scgi_temp_path {folder};
    {site}
}}
"""
CADDY = """{{
    admin off
    local_certs
    skip_install_trust
    http_port {http}
    https_port {port}
    storage file_system {folder}/store
}}
{site}
"""


class Started(NamedTuple):
    """The words with which a proxy is started, and its environment."""

    words: list[object]
    env: Mapping[str, str]


def replaced(text: str, *pairs: tuple[str, object]) -> str:
    """A text with others in the place of these, each of which it has."""
    for old, new in pairs:
        assert old in text, (old, text)
        text = text.replace(old, str(new))
    return text


def certify(folder: Path) -> str:
    """Makes a certificate in a folder that nobody else has signed; the path, with a stroke behind it."""
    words = "req -x509 -newkey rsa:2048 -nodes -days 1 -subj".split()
    files = "-keyout", str(folder / KEY), "-out", str(folder / CERTIFICATE)
    subprocess.run(["openssl", *words, f"/CN={HOST}", *files], check=True, capture_output=True)
    return f"{folder}/"


def nginx(folder: Path, port: int, behind: int) -> Started:
    site = replaced(
        (FILES / "nginx.conf").read_text(encoding="utf-8"),
        ("listen 443 ssl", f"listen 127.0.0.1:{port} ssl"),
        ("listen [::]:443 ssl", f"listen [::1]:{port} ssl"),
        (PRINTED, certify(folder)),
        (BEHIND, f"127.0.0.1:{behind}"),
    )
    whole = folder / "nginx.conf"
    whole.write_text(NGINX.format(folder=folder, site=site), encoding="utf-8")
    return Started(["nginx", "-p", folder, "-c", whole, "-g", "daemon off;"], os.environ)


def caddy(folder: Path, port: int, behind: int) -> Started:
    site = replaced((FILES / "Caddyfile").read_text(encoding="utf-8"), (BEHIND, f"127.0.0.1:{behind}"))
    whole = folder / "Caddyfile"
    whole.write_text(CADDY.format(http=free_port(), port=port, folder=folder, site=site), encoding="utf-8")
    words: list[object] = ["caddy", "run", "--config", whole, "--adapter", "caddyfile"]
    return Started(words, {**os.environ, "HOME": str(folder), "XDG_DATA_HOME": str(folder)})


PROXIES: Mapping[str, Callable[[Path, int, int], Started]] = {"nginx": nginx, "caddy": caddy}


@contextmanager
def proxy(name: str, folder: Path, behind: int) -> Iterator[int]:
    """The port of a proxy before the go-between at a port."""
    if not shutil.which(name):
        pytest.skip(f"wants Debian's {name}")
    port = free_port()
    words, env = PROXIES[name](folder, port, behind)
    it = Run(*words, env=env)
    try:
        assert asyncio.run(async_wait_until(lambda: is_https(port), unless=it.has_told_all)), it.log
        yield port
    finally:
        it.terminate()  # with what it has started


# ---- who comes by it ----


class Here(AbstractResolver):
    """Each name is this machine's."""

    async def resolve(self, host: str, port: int = 0, family: int = socket.AF_INET) -> list[dict[str, object]]:
        return [{"hostname": host, "host": "127.0.0.1", "port": port, "family": socket.AF_INET, "proto": 0, "flags": 0}]

    async def close(self) -> None:
        pass


def untrusting() -> ssl.SSLContext:
    """TLS whatever the certificate."""
    it = ssl.create_default_context()
    it.check_hostname, it.verify_mode = False, ssl.CERT_NONE
    return it


def visitor(address: str = "127.0.0.1") -> aiohttp.ClientSession:
    """Who comes from an address of this machine, by TLS."""
    connector = aiohttp.TCPConnector(resolver=Here(), local_addr=(address, 0), ssl=untrusting())
    return aiohttp.ClientSession(connector=connector)


async def is_https(port: int) -> bool:
    """Whether something answers there by TLS under the pages' name."""
    try:
        async with visitor() as it, it.get(f"https://{HOST}:{port}/"):
            return True
    except (aiohttp.ClientError, asyncio.TimeoutError):
        return False
