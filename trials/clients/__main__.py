"""Tries the go-between before the built program with what graphical clients do, as far as no person is needed, and the
example of a client at the program itself.

- Forms: what eboard and PyChess send behind their login; each answer has to have the form that the client waits for.
- Crowd: pairs play random moves through the go-between and tell each other a numbered line behind each half-move.
  Each player has to be sent every board and every line, once and in order.
- The example: `example.py` plays a game against itself over two links, and one between two programs.
- A bot: xboard's zippy with fairymax, in a window that nobody sees, plays ten games against a player of random moves.
- The end: the server is ended, and the go-between has to end by itself.

Ends with 0 only where nothing was lost. It isn't part of the gate.
"""

import argparse
import os
import random
import re
import shutil
import subprocess
import sys
import tempfile
import threading
import time
from pathlib import Path

from ficslink import Refusal
from tests.kit import paths
from tests.kit.link import Link
from tests.kit.ports import free_port
from tests.kit.running import Run, Server
from trials.squares import tries

EXAMPLE = [sys.executable, "-m", "trials.clients.example"]
# of a word of a move that the server doesn't take
OF_MOVES = {Refusal.AMBIGUOUS, Refusal.LEAVES_KING, Refusal.CASTLE_FORBIDDEN, Refusal.CANNOT_REACH}
HALF_MOVES = 40
GAME_SECONDS = 600
END = r"^\{Game \d+ \(\w+ vs\. \w+\) .+\} (1-0|0-1|1/2-1/2|\*)"
BOARD = r"^<12> "
GAMES_PATH = os.environ.get("PATH", "") + ":/usr/games"
# what a client sends behind its login, and the line for which it waits
EBOARD = (
    ("set interface eboard 1.1.3/Linux", r"^interface set"),
    ("iset startpos 1", r"^startpos set\."),
    ("iset defprompt 1", r"^defprompt set\."),
    ("iset ms 1", r"^ms set\."),
    ("iset premove 1", r"^premove set\."),
    ("iset seekinfo 1", r"^<sc>"),
    ("iset seekremove 1", r"^seekremove set\."),
    ("iset lock 1", r"^lock set\."),
    ("style 12", r"^Style 12 set\."),
    ("games", r"\d+ games displayed\."),
    ("sough", r"\d+ ads? displayed\."),
    ("finger", r"^Finger of "),
    ("history", r"has no history games\."),
    ("allob 1", r"."),
    ("var", r"="),
)
PYCHESS = (
    ("iset block 1", r"^block set\."),
    ("2 iset defprompt 1", r"defprompt set\."),
    ("3 iset ms 1", r"ms set\."),
    ("4 set interface PyChess 1.0.3", r"interface set"),
    ("5 showlist", "Lists:"),
    ("6 iset seekinfo 1", r"<sc>"),
    ("7 iset pendinfo 1", r"pendinfo set\."),
    ("8 stored", r"has no adjourned games\."),
    ("9 history", r"has no history games\."),
    ("10 journal", r"has no journal entries\."),
    ("11 news", r"news items"),
    ("12 help channel_list", "channels only for their designated topics"),
    ("13 who IbslwBzSLx", "layers displayed"),
    ("14 games /bslwBzSLx", r"games displayed\."),
    ("15 date", r"^GMT"),
    ("16 follow", r"not following"),
    ("17 showlist censor", r"-- censor list: 0 \w+ --"),
    ("18 primary", r"."),
    ("19 seek 5 0 u  m 0-9999", r"index \d"),
    ("20 iset seekremove 1", r"seekremove set\."),
    ("21 unseek", r"<sr> \d"),
)


def login(port, name):
    """A player who has entered by the go-between."""
    link = Link(port)
    link.until_prompt("login: ")
    link.say(name)
    link.until_prompt(f'"{name}":')
    link.say("")
    link.until(r"^\*\*\*\* Starting FICS session as " + name)
    return link


def name_of(n, side):
    """A handle of a pair's player."""
    return side + "".join("abcdefghij"[int(it)] for it in f"{n:03}")


def try_forms(port):
    """The answers that have not the form for which a client waits."""
    missing = []
    for client, rows in (("Eboard", EBOARD), ("Pychess", PYCHESS)):
        link = login(port, client)
        for line, form in rows:
            link.say(line)
            try:
                link.until(form, 10)
            except TimeoutError:
                missing.append(f"{client}: {line!r} wasn't answered by {form!r}")
        link.link.close()
    return missing


class Pair(threading.Thread):
    """Two players by the go-between, who count what they were sent."""

    def __init__(self, port, n):
        super().__init__()
        self.port, self.n = port, n
        self.wrong, self.half_moves = [], 0
        self.random = random.Random(n)

    def run(self):
        try:
            self.play()
        except (OSError, EOFError, ValueError) as error:
            self.wrong.append(f"pair {self.n}: {error!r}")

    def play(self):
        names = [name_of(self.n, side) for side in ("White", "Black")]
        players = [login(self.port, it) for it in names]
        variant = ("chess", "crazyhouse")[self.n % 2]
        players[0].say(f"match {names[1]} 10 0 u w {variant}")
        players[1].until(r"^Challenge: " + names[0])
        players[1].say("accept")
        boards = [it.until(BOARD).string for it in players]
        over = None
        while self.half_moves < HALF_MOVES and not over:
            mover, other = self.half_moves % 2, 1 - self.half_moves % 2
            over = self.move(players[mover], tries(boards[mover]))
            boards[mover] = next(it for it in reversed(players[mover].lines) if it.startswith("<12>"))
            boards[other] = players[other].until(BOARD).string
            players[mover].say(f"tell {names[other]} line {self.half_moves}")
            players[mover].until(r"^\(told ")
            self.half_moves += 1
        if not over:
            players[0].say("resign")
        for player in players:
            if not any(re.match(END, it) for it in player.lines):
                player.until(END)
        for player in players:
            player.say("quit")
            player.until(r"^Logging you out\.")
        self.count(names, players)

    def move(self, player, words):
        """Makes some allowed move; the end of the game where it brings that."""
        self.random.shuffle(words)
        for word in words:
            player.say(word)
            match = player.until(r"^<12> |^Illegal move")
            if match[0] == "<12> ":
                player.say("")  # an end of the game comes with the board or not at all
                player.until_prompt("fics% ")
                return next((it for it in player.lines[player.read - 1 :] if re.match(END, it)), None)
        raise ValueError("no move is allowed, and the game isn't over")

    def count(self, names, players):
        """What each player should have been sent, and was not, or twice."""
        for n, player in enumerate(players):
            plies = [
                2 * (int(it.split()[26]) - 1) + (it.split()[9] == "B") for it in player.lines if it.startswith("<12>")
            ]
            if plies != list(range(self.half_moves + 1)):
                self.wrong.append(f"pair {self.n}: {names[n]} saw the half-moves {plies}")
            told = [it for it in player.lines if "tells you: " in it]
            due = [f"{names[1 - n]} tells you: line {it}" for it in range(self.half_moves) if it % 2 != n]
            if told != due:
                self.wrong.append(f"pair {self.n}: {names[n]} was told {told}")
            if sum(bool(re.match(END, it)) for it in player.lines) != 1:
                self.wrong.append(f"pair {self.n}: {names[n]} wasn't told the end once")


def try_crowd(port, pairs):
    """Lets pairs play; what was lost."""
    crowd = [Pair(port, it) for it in range(pairs)]
    for it in crowd:
        it.start()
    for it in crowd:
        it.join()
    print(f"crowd: {pairs} pairs, {sum(it.half_moves for it in crowd)} half-moves")
    return [wrong for it in crowd for wrong in it.wrong]


def try_example(port):
    """Lets the example play against itself, and two of it against each other; what didn't end as a game does."""
    port, wrong = str(port), []
    for games in ([[port]], [[port, "Exbert"], [port, "Exanna", "Exbert"]]):
        playing = []
        for words in games:
            playing.append(subprocess.Popen([*EXAMPLE, *words], stdout=subprocess.PIPE, text=True))
            time.sleep(2)  # who is challenged has to be in
        for it in playing:
            try:
                lines = it.communicate(timeout=GAME_SECONDS)[0].splitlines()
            except subprocess.TimeoutExpired:
                it.kill()
                lines = it.communicate()[0].splitlines()
            print(f"example: {len(lines)} lines, {lines[-1:]}")
            if it.returncode or not re.search(r"checkmated|drawn by|resigns", lines[-1]):
                wrong.append(f"example: ended with {it.returncode} behind {lines[-1:]}")
    return wrong


def start_bot(link, name):
    """Challenges that one until it has accepted: its program may still be starting."""
    for _ in range(12):
        link.say(f"match {name} 1 0")
        try:
            return link.until(r"^\{Game \d+ .* Creating ", 10)
        except TimeoutError:
            link.say(f"withdraw {name}")
    raise TimeoutError(f"{name} accepts no challenge")


def play_bot(link, name):
    """One game of random moves against that one: the line of its end."""
    start_bot(link, name)
    words, board = [], None
    while True:
        match = link.until(r"^<12> |^refused (?P<number>\d+)|" + END, GAME_SECONDS)
        if match[0].startswith("{"):
            return match.string
        if match[0] == "<12> ":
            link.until_prompt("fics% ")
            if any(re.match(END, it) for it in link.lines[link.read :]):
                continue
            board = match.string.split()
            words = tries(match.string)
            random.shuffle(words)
        elif int(match["number"]) not in OF_MOVES:
            return match.string
        if board and board[19] == "1" and words:
            link.say(words.pop())


def try_bot(server_port, face_port, games, folder):
    """Lets zippy play; the games that didn't end on the board."""
    display_read, display_write = os.pipe()
    window = subprocess.Popen(
        ["Xvfb", "-displayfd", str(display_write), "-screen", "0", "800x600x24"],
        pass_fds=[display_write],
        stderr=subprocess.DEVNULL,
    )
    display = ":" + os.read(display_read, 20).decode().strip()
    start = os.path.join(folder, "zippy.ini")
    with open(start, "w", encoding="ascii") as file:
        file.write("Zippy\n\n")
    bot = subprocess.Popen(
        [
            "xboard",
            "-zp",
            "-ics",
            "-icshost",
            "localhost",
            "-icsport",
            str(face_port),
            "-icslogon",
            start,
            "-fcp",
            shutil.which("fairymax", path=GAMES_PATH),
            "-autoflag",
            "-xponder",
        ],
        env={**os.environ, "DISPLAY": display, "HOME": folder, "PATH": GAMES_PATH},
        stdin=subprocess.PIPE,
        stdout=subprocess.DEVNULL,
        stderr=subprocess.DEVNULL,
        cwd=folder,
    )
    wrong = []
    try:
        link = Link(server_port)
        link.say("Random")
        link.until(r"Entered as")
        while True:
            link.say("who")
            if link.until(r"^(Zippy|Random)$", 30)[0] == "Random":
                # the names come in the order of the letters, so Zippy would stand behind
                link.say("tell Zippy hello")
                if link.until(rf"^\(told|^refused {Refusal.NO_SUCH_PLAYER:d} ")[0] == "(told":
                    break
        for n in range(games):
            end = play_bot(link, "Zippy")
            print(f"bot: game {n + 1}: {end}")
            if not re.search(r"checkmated|drawn by|forfeits on time", end):
                wrong.append(f"bot: {end}")
        link.say("quit")
    except (OSError, EOFError) as error:
        wrong.append(f"bot: {error!r}")
    finally:
        for process in (bot, window):
            process.terminate()
            process.wait()
        os.close(display_read)
        os.close(display_write)
    return wrong


def main():
    words = argparse.ArgumentParser(prog="trial clients", description=__doc__.split("\n\n")[0])
    words.add_argument("--program", type=Path, default=paths.program, metavar="FILE", help="the server's program")
    words.add_argument("--pairs", type=int, default=60, metavar="N", help="%(default)s without it")
    words.add_argument("--games", type=int, default=10, metavar="N", help="of the bot, %(default)s without it")
    words.add_argument("--without-windows", action="store_true", help="leave xboard out")
    chosen = words.parse_args()
    needed = (
        []
        if chosen.without_windows
        else [it for it in ("xboard", "Xvfb", "fairymax") if not shutil.which(it, path=GAMES_PATH)]
    )
    if needed:
        raise SystemExit(f"{', '.join(needed)} isn't installed; --without-windows leaves the bot out")
    paths.program = chosen.program.resolve()
    server, face_port = Server(), free_port()
    face = Run(paths.companion("fics_face"), "--server", server.address, "--listen", face_port)
    face.begin()
    try:
        wrong = try_forms(face_port)
        print(f"forms: {len(EBOARD) + len(PYCHESS)} lines of clients")
        wrong += try_crowd(face_port, chosen.pairs)
        wrong += try_example(server.port)
        if not chosen.without_windows:
            with tempfile.TemporaryDirectory() as folder:
                wrong += try_bot(server.port, face_port, chosen.games, folder)
    finally:
        server.terminate()
    try:
        status = face.rest()
        if status or face.out[-1:] != ["closed"]:
            wrong.append(f"end: the go-between ended with {status}")
    except subprocess.TimeoutExpired:
        wrong.append("end: the go-between didn't end")
        face.end()
    print("\n".join(wrong) or "nothing was lost")
    return 1 if wrong else 0


if __name__ == "__main__":
    sys.exit(main())
