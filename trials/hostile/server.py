"""A server of a hostile trial, in a process group of its own, and what is counted of it."""

import functools
import os
import shlex
import signal
import struct
import subprocess
import tempfile
import threading
import time
from collections.abc import Callable
from pathlib import Path

from tests.kit.ports import free_port
from trials.client import PATIENCE
from trials.tale import Tale

HERE = Path(__file__).resolve().parent
# one process is started at a time: one that another thread has just forked would hold the socket by which a port was
# tried
STARTING = threading.Lock()


def socket_that_listens(port: int) -> str | None:
    """The number of the socket that listens on a port of this machine; none where none does."""
    with open("/proc/net/tcp") as table:
        for row in list(table)[1:]:
            words = row.split()
            if words[1].endswith(f":{port:04X}") and words[3] == "0A":
                return words[9]
    return None


def holder_of(number: str | None) -> int | None:
    """The process that holds a socket; none where it is nobody's who may be looked at."""
    for name in filter(str.isdigit, os.listdir("/proc")):
        try:
            folder = f"/proc/{name}/fd"
            links = [os.readlink(os.path.join(folder, it)) for it in os.listdir(folder)]
        except OSError:
            continue
        if f"socket:[{number}]" in links:
            return int(name)
    return None


def loading(source: str, folder: str, **names: str) -> dict[str, str]:
    """An environment in which a program loads a library, made of a C file of this folder, that reads these names."""
    library = os.path.join(folder, source.replace(".c", ".so"))
    if not os.path.exists(library):
        subprocess.run(["cc", "-O2", "-shared", "-fPIC", "-o", library, HERE / source], check=True)
    return {**os.environ, "LD_PRELOAD": library, **names}


def counter(path: str) -> int:
    """The number that such a library keeps in a file."""
    number: int = struct.unpack("=q", Path(path).read_bytes())[0]
    return number


class Server:
    """`serve` on a free port of this machine, in a process group of its own."""

    def __init__(
        self, program: str, *words: str, before: Callable[[], None] | None = None, env: dict[str, str] | None = None
    ) -> None:
        self.out = tempfile.TemporaryFile()
        self.errors = tempfile.TemporaryFile()
        with STARTING:
            self.port = free_port()
            command = [*shlex.split(program), "serve", "--port", str(self.port), *words]
            self.process = subprocess.Popen(
                command,
                stdin=subprocess.DEVNULL,
                stdout=self.out,
                stderr=self.errors,
                preexec_fn=before,
                start_new_session=True,
                env=env,
            )

    def __enter__(self) -> "Server":
        """The server once it listens."""
        if not self.listens():
            self.stop()
            raise ValueError(f"it doesn't serve: status {self.process.poll()}, written {self.written()!r}")
        return self

    def __exit__(self, *_fault: object) -> None:
        self.stop()

    def listens(self, seconds: float = 900) -> bool:
        """Waits until it listens; False where it has ended before."""
        end = time.monotonic() + seconds
        while time.monotonic() < end:
            if socket_that_listens(self.port):
                return True
            if self.process.poll() is not None:
                return False
            time.sleep(0.02)
        return False

    @functools.cached_property
    def pid(self) -> int:
        """The process that listens, which may be another one than the launcher that was started here."""
        return holder_of(socket_that_listens(self.port)) or self.process.pid

    def is_up(self) -> bool:
        return self.process.poll() is None

    def memory(self) -> int:
        """The resident memory in KiB."""
        return self.number_of("VmRSS:")

    def threads(self) -> int:
        return self.number_of("Threads:")

    def number_of(self, name: str) -> int:
        with open(f"/proc/{self.pid}/status") as status:
            return next(int(line.split()[1]) for line in status if line.startswith(name))

    def processor(self) -> float:
        """The seconds of processors that it has used."""
        with open(f"/proc/{self.pid}/stat") as stat:
            words = stat.read().rpartition(")")[2].split()
        return (int(words[11]) + int(words[12])) / os.sysconf("SC_CLK_TCK")

    def descriptors(self) -> int:
        return len(os.listdir(f"/proc/{self.pid}/fd"))

    def size(self) -> str:
        return f"{self.memory()} KiB resident, {self.threads()} threads, {self.descriptors()} descriptors"

    def written(self) -> bytes:
        self.out.seek(0)
        return self.out.read()

    def status(self, seconds: float = PATIENCE) -> int | None:
        """The status with which it ends by itself; none where it doesn't."""
        try:
            return self.process.wait(seconds)
        except subprocess.TimeoutExpired:
            return None

    def ends(self, tale: Tale, wanted: int = 0) -> None:
        """Tells how it ends by itself: with this status, and both of its lines written."""
        status, text = self.status(), self.written()
        tale.holds((status, text) == (wanted, b"ready\nclosed\n"), f"it wrote {text!r}, status {status}")

    def stop(self) -> None:
        """Ends the process group that was started here, and nothing else."""
        if self.process.poll() is None:
            os.killpg(self.process.pid, signal.SIGTERM)
            try:
                self.process.wait(20)
            except subprocess.TimeoutExpired:
                os.killpg(self.process.pid, signal.SIGKILL)
                self.process.wait()


def settles(read: Callable[[], int], least: int, seconds: float = 30) -> int:
    """Waits until a number has come down to this one, and gives the last that was read."""
    end = time.monotonic() + seconds
    while (number := read()) > least and time.monotonic() < end:
        time.sleep(0.1)
    return number
