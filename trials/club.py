"""`./club` as somebody uses it who has just cloned it: the command, the page in Chromium, and a game against House by
clicks, to mate. What is clicked is what Stockfish finds. No part of the gate.

It needs Debian's python3-aiohttp, python3-selenium, chromium, chromium-driver and stockfish. Ends with 0 where the game
ended by mate and the club in order.
"""

import argparse
import asyncio
import signal
import subprocess
import sys
import threading
import time
from pathlib import Path

from ficsd_companions.bot import clock, uci
from tests.kit import paths
from tests.web import browser

PORT = 25700
START_SECONDS, GAME_SECONDS = 1800, 1500
THOUGHT = clock.Budget(0, 0, 0, False, 0.3, 30.0)


class Club:
    """The command, and what it writes."""

    def __init__(self, words):
        self.began = time.monotonic()
        self.process = subprocess.Popen(
            [paths.TOP / "club", "--port", str(PORT), *words],
            stdout=subprocess.PIPE,
            stderr=subprocess.STDOUT,
            text=True,
        )
        self.lines = []
        threading.Thread(target=self.read, daemon=True).start()

    def read(self):
        for line in self.process.stdout:
            self.lines.append(line)
            print(f"{time.monotonic() - self.began:6.1f} {line}", end="", flush=True)

    def wait(self):
        """Waits until it can be opened."""
        while not any(it.startswith("Open ") for it in self.lines):
            if self.process.poll() is not None or time.monotonic() - self.began > START_SECONDS:
                raise SystemExit("the club doesn't open")
            time.sleep(0.1)


async def play(window, pictures):
    """Plays White by clicks until the game is over; how often it moved."""
    engine = uci.Engine(uci.path_of("stockfish"), {})
    await engine.begin()
    await engine.begin_game("chess")
    clicked, deadline = 0, time.monotonic() + GAME_SECONDS
    try:
        while not is_over(window):
            if time.monotonic() > deadline:
                raise SystemExit("the game doesn't end")
            before = window.men()
            found = await engine.best(f"fen {fen(before)}", True, THOUGHT)
            window.move(found.move[:2], found.move[2:4])
            clicked += 1
            window.until(lambda before=before: is_over(window) or answered(before, window.men()), "House's half-move")
            if clicked == 3:
                window.picture(pictures / "3_game.png")
    finally:
        await engine.end()
    return clicked


def is_over(window):
    """Whether the page says how the game ended."""
    return "1-0" in (window.text("#status") or "") or "0-1" in (window.text("#status") or "")


def answered(before, after):
    """Whether a black man stands elsewhere than before."""

    def black(men):
        return {square: man for square, man in men.items() if man[0] == "b"}

    return any(black(before).get(square) != man for square, man in black(after).items())


def fen(men):
    """The placement as a FEN, for White to move, without castling: enough to find a mate."""
    rows = []
    for rank in "87654321":
        row, empty = "", 0
        for file in "abcdefgh":
            man = men.get(file + rank)
            if not man:
                empty += 1
                continue
            row += (str(empty) if empty else "") + (man[1].upper() if man[0] == "w" else man[1].lower())
            empty = 0
        rows.append(row + (str(empty) if empty else ""))
    return "/".join(rows) + " w - - 0 1"


def main():
    parser = argparse.ArgumentParser(prog="trial club", description=__doc__.split("\n\n")[0])
    parser.add_argument(
        "--pictures", type=Path, required=True, metavar="FOLDER", help="where pictures of the page come"
    )
    chosen, words = parser.parse_known_args()  # the others are those of ./club, as --unproved or --program FILE
    pictures = chosen.pictures
    pictures.mkdir(exist_ok=True)
    club = Club(words)
    try:
        club.wait()
        shown = browser.started(browser.WIDE)
        window = browser.Window(shown, f"http://localhost:{PORT + 2}/", "Ann")
        window.picture(pictures / "1_login.png")
        window.enter()
        window.until(lambda: "House" in " ".join(window.texts("#players *")), "House among the players")
        window.picture(pictures / "2_lobby.png")
        window.challenge("House", minutes=10, increment=0, colour="white")
        window.until(lambda: len(window.men()) == 32 and window.is_seen("#board"), "the board")
        print(f"a game {time.monotonic() - club.began:.0f} seconds behind the command", flush=True)
        clicked = asyncio.run(play(window, pictures))
        window.picture(pictures / "4_mate.png")
        print(f"{clicked} half-moves: {window.text('#status')}", flush=True)
        complaints = window.complaints()
        shown.end()
    finally:
        club.process.send_signal(signal.SIGINT)
        status = club.process.wait(60)
    print(f"the club ended with status {status}; the page complained of {complaints}", flush=True)
    return 0 if status == 0 and not complaints else 1


if __name__ == "__main__":
    sys.exit(main())
