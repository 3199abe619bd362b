"""A server over a store and the people who come to it, for the scripts beside this file."""

import os
import signal
import subprocess
import sys
import time
from pathlib import Path

from bench.measure import peak_of, processor_seconds
from tests.kit import paths
from tests.kit.link import Link
from tests.kit.ports import free_port

PATIENCE = 60


class Program:
    """The words that run the program."""

    def __init__(self, words: list[str], unproved: bool) -> None:
        self.words = words
        self.unproved = unproved  # it begins minutes later, and shows `ready` only where it ends by itself

    def run(self, *words: object, given: str = "") -> tuple[str, int]:
        """What a command writes, and its status."""
        done = subprocess.run(
            [*self.words, *map(str, words)], input=given, stdout=subprocess.PIPE, stderr=subprocess.DEVNULL, text=True
        )
        return done.stdout, done.returncode

    def check(self, path: str) -> tuple[str, int]:
        """What `check` says of a store, and its status."""
        return self.run("check", "--store", path)


def program_of(words: list[str]) -> Program:
    """The program that the words of the call name: one of its own, the unproved one, or the built one."""
    if words == ["--unproved"]:
        return Program([str(paths.TOP / "ficsd"), "--unproved"], True)
    program = Path(words[0]).resolve() if words else paths.program
    if not os.access(program, os.X_OK):
        sys.exit(f"store: {program} isn't there; `./ficsd --build` builds it")
    return Program([str(program)], False)


class Server:
    """A server that was started, over a store where a path is given."""

    def __init__(self, program: Program, path: str | None = None, count: int | None = None) -> None:
        self.program = program
        self.port = free_port()
        words = ["serve", "--port", self.port]
        words += ["--store", path] if path else []
        words += ["--count", count] if count else []
        self.start = time.monotonic()
        # so SIGXFSZ, which Python ignores, is ignored there too, and a write past a limit fails
        self.process = subprocess.Popen(
            [*program.words, *map(str, words)],
            stdin=subprocess.DEVNULL,
            stdout=subprocess.PIPE,
            stderr=subprocess.DEVNULL,
            text=True,
            restore_signals=False,
        )
        self.first = self.wait_until_ready()
        self.seconds = time.monotonic() - self.start

    def wait_until_ready(self) -> str:
        """What it has written once it listens or has ended."""
        if not self.program.unproved:
            return self.process.stdout.readline()
        while self.process.poll() is None and not is_listened_to(self.port):
            time.sleep(0.2)
        return ""

    def pid(self) -> int:
        """The process that serves: the program itself, which `rt try` has started where it is unproved."""
        pid = self.process.pid
        while self.program.unproved:
            with open(f"/proc/{pid}/task/{pid}/children", encoding="ascii") as file:
                children = file.read().split()
            if not children:
                break
            pid = int(children[-1])
        return pid

    def knock(self, name: str, password: str | None = None) -> Link:
        """Somebody who has said this handle, and a password where one is given."""
        link = Link(self.port)
        link.until_prompt("login: ")
        link.say(name)
        if password is not None:
            link.until_prompt("password: ")
            link.say(password)
        return link

    def enter(self, name: str, password: str | None = None) -> Link:
        """Somebody who has come in under this handle."""
        link = self.knock(name, password)
        link.until(r"Entered as ")
        link.until_prompt("fics% ")
        return link

    def ends(self) -> tuple[str, int]:
        """All that it writes, and its status, once it has ended by itself."""
        rest, _ = self.process.communicate(timeout=10 * PATIENCE)
        return self.first + rest, self.process.returncode

    def kill(self) -> None:
        """Ends it as `kill -9` does, or as a machine whose power is cut."""
        os.kill(self.pid(), signal.SIGKILL)
        self.process.communicate()

    def processor(self) -> float:
        """The seconds of processors that it has used."""
        return processor_seconds(self.pid())

    def peak(self) -> int:
        """Its greatest memory in KiB."""
        return peak_of(self.pid())


def is_listened_to(port: int) -> bool:
    """Whether somebody listens on the port of this machine."""
    return f"0100007F:{port:04X} 00000000:0000 0A" in Path("/proc/net/tcp").read_text(encoding="ascii")


def leave(*links: Link) -> None:
    """Lets people quit."""
    for link in links:
        link.say("quit")
        link.until(r"^Goodbye\.")
        link.link.close()


def answers(link: Link, line: str, *patterns: str) -> list[str]:
    """Says a line, and gives the lines that are found for the patterns, in their order."""
    link.say(line)
    return [link.until(it).string for it in patterns]


def register(link: Link, password: str) -> None:
    answers(link, f"register {password}", r"^Ok\.")
