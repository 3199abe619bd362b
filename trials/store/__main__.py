"""Tries the program over a store as its operators and players would: evenings that go on after the server was stopped
or killed, commands beside it, what is no store, a disk without room, a full store, and what keeping costs.

usage: tools/trial store [PROGRAM | --unproved]; without a word the program that `./ficsd --build` builds. With
`--unproved` each start takes minutes. The command `sqlite3` is Debian's; without it its lines are left out. Ends with 1
where something came otherwise than it should. It isn't part of the gate.
"""

import os
import re
import resource
import shutil
import subprocess
import sys
import tempfile
import threading
import time

from bench.measure import files_of, machine, peak_of
from tests.kit.records import PASSWORD, account, game, handle_of, make_full_store, make_store
from trials.tale import Tale

from .server import Server, answers, leave, program_of, register

A_MOMENT = 1  # seconds; what is new is kept about ten times in each
ACCOUNTS, GAMES = 4096, 10_000
LINES = 20_000
PGN = """[Event "?"]
[Site "?"]
[Date "????.??.??"]
[Round "?"]
[White "Ann"]
[Black "Ben"]
[Result "*"]

1. e4 e5 2. Nf3 *

"""
START = "rnbqkbnr pppppppp -------- -------- -------- -------- PPPPPPPP RNBQKBNR"
tale = Tale()
PROGRAM = program_of(sys.argv[1:])
says = tale.says


def holding(accounts, games):
    """What `check` says of a store that has so many, and its status."""
    return f"ok: {accounts} accounts, {games} games\n", 0


def checks(path, accounts, games, name="check"):
    says(f"{name}: {accounts} accounts, {games} games", PROGRAM.check(path), holding(accounts, games))


def comes_to(path, accounts, name):
    """Waits until the store has so many accounts, and no game."""
    for _ in range(60):
        said = PROGRAM.check(path)
        if said == holding(accounts, 0):
            break
        time.sleep(0.25)
    says(name, said, holding(accounts, 0))


def accounts_of(path):
    """How many accounts `check` finds; -1 where it finds no store."""
    text, status = PROGRAM.check(path)
    return int(text.split()[1]) if status == 0 else -1


def board_of(line):
    """A board line, or one of men in hand, without the game's number, which another desk may change."""
    words = line.split()
    number = 16 if words[0] == "<12>" else 2
    return words[:number] + words[number + 1 :]


# evenings


class Evening:
    """A game: who plays it at which seats, how it begins, and what is seen of it."""

    def __init__(self, name, people, match, words, hands, stored):
        self.name = name
        self.people = people
        self.match = match
        self.words = words  # of Ann and Ben in turn
        self.hands = hands  # those of each board, with which a game has them, behind the third half-move
        self.lines = len(people) // 2 + len(hands)  # how many boards and hands each of them is shown
        self.stored = stored


CHESS = Evening("chess", ("Ann", "Ben"), "match ben 2 12 white", ("e4", "e5", "Nf3"), (), "1 Ann Ben 2 12 chess")
EVENINGS = (
    CHESS,
    Evening(
        "crazyhouse",
        ("Ann", "Ben"),
        "match ben 3 1 crazyhouse white",
        ("e4", "d5", "exd5", "Qxd5"),
        ("white [P] black []",),
        "1 Ann Ben 3 1 crazyhouse",
    ),
    Evening(
        "bughouse",
        ("Ann", "Ben", "Cat", "Dan"),
        "match ben 5 0 bughouse white",
        ("e4", "d5", "exd5"),
        ("white [] black []", "white [] black [P]"),
        "1 Ann Ben Cat Dan 5 0 bughouse",
    ),
)


def become_partners(links):
    """The first plays with the fourth, and the second with the third."""
    for one, other, name in ((0, 3, "dan"), (3, 0, "ann"), (1, 2, "cat"), (2, 1, "ben")):
        answers(links[one], f"partner {name}", r"partner|^Asked|^Ok")


def play(evening, links):
    """A game from its challenge on: the half-moves are made in turn, the third after two seconds."""
    ann, ben = links[:2]
    if len(links) == 4:
        become_partners(links)
    answers(ann, evening.match, r"^(Ok|Asked)\.")
    ben.until(r"^Challenge: Ann ")
    answers(ben, "accept", r"Creating", r"^<12> ")
    ann.until(r"^<12> ")
    for n, word in enumerate(evening.words):
        time.sleep(2 if n == 2 else 0)
        links[n % 2].say(word)
        for link in links:
            link.until(rf"^<12> .* {re.escape(word)} [01]$")


def shown(link, count):
    """The boards and hands that one sees."""
    answers(link, "inchannel 255", r"^none")
    return [board_of(it) for it in answers(link, "refresh", *[r"^<(12|b1)> "] * count)]


def adjourn(links):
    """All agree to adjourn."""
    links[0].say("adjourn")
    for before, link in zip(links, links[1:]):
        answers(before, "inchannel 255", r"^none")
        link.say("accept")
    for link in links:
        link.until(r"adjourned\} \*")


def come_again(evening, server):
    """People who come with their passwords, and go on with their game."""
    link = server.knock("Ann", "wrong")
    says(f"{evening.name}: a wrong password", link.until(r"refused \d+ \w+").group(), "refused 23 WrongPassword")
    link.link.close()
    links = [server.enter(it, f"pw{it}") for it in evening.people]
    for link in links:
        says(f"{evening.name}: stored", answers(link, "stored", r"^\d+ Ann")[0], evening.stored)
    for n, link in enumerate(links):
        answers(link, "resume ben" if n == 0 else "resume ann", r"^Asked\.|Continuing")
    for link in links[:-1]:
        link.until(r"Continuing")
    return links


def looks_at_hands(evening, path, name):
    """`examine` in a game with men in hand, up to the capture that is its third half-move, and a half-move to try."""
    text, status = PROGRAM.run("examine", "--store", path, "--game", 1, given="forward 3\nNf6\n")
    lines = text.splitlines()
    shown_once = ["<12>"] + ["<b1>"] * len(evening.hands)
    tried = ["refused"] if len(evening.people) == 4 else shown_once
    says(f"{name}: examine", [it.split()[0] for it in lines] + [status], shown_once * 2 + tried + [0])
    hands = lines[len(shown_once) + 1 : 2 * len(shown_once)]
    says(f"{name}: examine, the hands", [" ".join(it.split()[3:7]) for it in hands], list(evening.hands))


def try_evening(evening, folder, killed):
    """People register and play, adjourn, and go on at the next server over the same file: they see what they saw."""
    name = f"{evening.name}, {'killed' if killed else 'ended'}"
    path = os.path.join(folder, name.replace(", ", "_"))
    server = Server(PROGRAM, path, len(evening.people))
    links = [server.enter(it) for it in evening.people]
    for it, link in zip(evening.people, links):
        register(link, f"pw{it}")
    play(evening, links)
    before = [shown(it, evening.lines) for it in links]
    adjourn(links)
    if killed:
        time.sleep(A_MOMENT)
        server.kill()
    else:
        leave(*links)
        says(f"{name}: the end", server.ends(), ("ready\nclosed\n", 0))
    checks(path, len(links), 1, name)
    if evening.hands:
        looks_at_hands(evening, path, name)
    server = Server(PROGRAM, path, len(links) + 1)
    links = come_again(evening, server)
    says(f"{name}: boards, hands and clocks", [shown(it, evening.lines) for it in links], before)
    leave(*links)
    says(f"{name}: the second end", server.ends(), ("ready\nclosed\n", 0))
    # who leaves adjourns a game of one board, and loses that of a pair
    checks(path, len(links), 1 if len(links) == 2 else 0, name)
    return path


# commands beside a server


def sqlite(path, text):
    """What the command `sqlite3` prints."""
    done = subprocess.run(["sqlite3", path, text], capture_output=True, text=True)
    return done.stdout + done.stderr


def looks(path, name):
    """The three commands over a store with the game of `CHESS`: what they write, and that they change no file."""
    folder = os.path.dirname(path)
    before = files_of(folder)
    checks(path, 2, 1, name)
    says(f"{name}: pgn", PROGRAM.run("pgn", "--store", path), (PGN, 0))
    text, status = PROGRAM.run("examine", "--store", path, "--game", 1, given="forward 3\nback 5\nforward\n")
    lines = text.split("\n")
    says(
        f"{name}: examine, at first",
        lines[0],
        f"<12> {START} W -1 1 1 1 1 0 1 Ann Ben 2 2 12 39 39 120 120 1 none " "(0:00) none 0",
    )
    says(f"{name}: examine, the end", lines[1].split()[27:], ["N/g1-f3", "(0:02)", "Nf3", "0"])
    says(
        f"{name}: examine, too far",
        lines[2:] + [status],
        ["refused 58 NoEarlierMoves", "refused 57 NoMoreMoves", "", 0],
    )
    tries_moves(path, name, lines)
    says(f"{name}: no such game", PROGRAM.run("examine", "--store", path, "--game", 2), ("no such game\n", 10))
    says(f"{name}: the files", files_of(folder) == before, True)


def tries_moves(path, name, through):
    """Another half-move in the game of `CHESS`, and back to what is stored, by the boards of its start and its end."""
    given = "forward 2\nBc4\nforward\nKe3\nback 3\nforward 3\nrevert\nforward\n" "back 3\nrevert\nforward 0\nback\n"
    text, status = PROGRAM.run("examine", "--store", path, "--game", 1, given=given)
    start, end = through[:2]
    e5 = (
        "<12> rnbqkbnr pppp-ppp -------- ----p--- ----P--- -------- PPPP-PPP RNBQKBNR W 4 1 1 1 1 0 "
        "1 Ann Ben 2 2 12 39 39 120 120 2 P/e7-e5 (0:00) e5 0"
    )
    bc4 = (
        "<12> rnbqkbnr pppp-ppp -------- ----p--- --B-P--- -------- PPPP-PPP RNBQK-NR B -1 1 1 1 1 1 "
        "1 Ann Ben 2 2 12 39 39 120 120 2 B/f1-c4 (0:00) Bc4 0"
    )
    says(
        f"{name}: examine, another move and back",
        text.split("\n"),
        [
            start,
            e5,
            bc4,
            "refused 57 NoMoreMoves",
            "refused 9 CannotReach",
            start,
            bc4,
            e5,
            end,
            start,
            start,
            "bad line 11",
            "",
        ],
    )
    says(f"{name}: examine, a bad line", status, 7)


def try_commands(folder, path):
    """The commands before a server comes, beside it, once it was killed and once one has ended."""
    looks(path, "before")
    server = Server(PROGRAM, path)
    ann = server.enter("Ann", "pwAnn")
    looks(path, "during")
    if shutil.which("sqlite3"):
        says("sqlite3 beside it", "database is locked" in sqlite(path, "SELECT count(*) FROM records"), True)
    register(server.enter("Eve"), "pwEve")
    time.sleep(A_MOMENT)
    checks(path, 3, 1, "an account that came")
    ann.link.close()
    server.kill()
    checks(path, 3, 1, "after a kill")
    says("the log", os.path.getsize(f"{path}-wal") > 0, True)
    server = Server(PROGRAM, path, 1)
    leave(server.enter("Eve", "pwEve"))
    says("the next end", server.ends(), ("ready\nclosed\n", 0))
    says("the log behind it has no record", os.path.getsize(f"{path}-wal") < 100, True)
    if shutil.which("sqlite3"):
        names = "SELECT cast(key AS text) FROM records WHERE key < x'62'"
        says("sqlite3 behind it", sqlite(path, names), "aann\naben\naeve\n")
        removal = "DELETE FROM records WHERE key = CAST('aeve' AS blob)"
        says("sqlite3 takes an account away", sqlite(path, removal), "")
        looks(path, "after")
    missing = os.path.join(folder, "nowhere")
    for words in (("check",), ("pgn",), ("examine", "--game", 1)):
        says(f"{words[0]} where nothing is", PROGRAM.run(*words, "--store", missing), ("", 4))
    says("no file is made", [it for it in os.listdir(folder) if it.startswith("nowhere")], [])


def try_bad_records(folder):
    """A record that isn't one ends both a server and the commands with 5, and changes nothing."""
    path = os.path.join(folder, "bad")
    make_store(path, [(b"a", b"\x00"), account("Ann", PASSWORD), (b"zz", b"")])
    before = open(path, "rb").read()
    for words in (("serve", "--port", 1), ("check",), ("pgn",), ("examine", "--game", 1)):
        says(f"{words[0]} over a bad record", PROGRAM.run(*words, "--store", path), ("bad record 61\n", 5))
    says("the file", open(path, "rb").read() == before, True)


# what is no store


def serves_not(name, path):
    """A server that can't have its store ends with 4 before `ready`."""
    says(name, PROGRAM.run("serve", "--port", 1, "--store", path), ("", 4))


def try_no_stores(folder):
    path = os.path.join(folder, "taken")
    server = Server(PROGRAM, path)
    register(server.enter("Ann"), "pwAnn")
    serves_not("a second server", path)
    register(server.enter("Ben"), "pwBen")
    comes_to(path, 2, "the first goes on")
    server.kill()
    text = os.path.join(folder, "text")
    with open(text, "w", encoding="ascii") as file:
        file.write("no database\n" * 1000)
    inside = os.path.join(folder, "no_folder", "store")
    for name, where in (("a folder", folder), ("a text", text), ("a folder that isn't there", inside)):
        serves_not(f"serve: {name}", where)
        says(f"check: {name}", PROGRAM.check(where), ("", 4))
    says("the text", open(text, encoding="ascii").read(), "no database\n" * 1000)
    if os.geteuid() != 0:
        only = os.path.join(folder, "only")
        make_store(only, [account("Ann", PASSWORD)])
        os.chmod(only, 0o444)
        serves_not("serve: a file that may only be read", only)
        checks(only, 1, 0, "check of it")


# a disk without room


class SmallFiles:
    """A limit of the system on how long the server's files may get, which stands for a disk without room."""

    def __init__(self, folder):
        self.folder = folder

    def fill(self, server):
        size = max(os.path.getsize(os.path.join(self.folder, it)) for it in os.listdir(self.folder))
        resource.prlimit(server.pid(), resource.RLIMIT_FSIZE, (size, resource.RLIM_INFINITY))

    def free(self, server):
        resource.prlimit(server.pid(), resource.RLIMIT_FSIZE, (resource.RLIM_INFINITY, resource.RLIM_INFINITY))

    def make_room(self):
        """The limit was that one server's."""


class SmallDisk:
    """A disk in memory, and a file that takes what room is left."""

    def __init__(self, folder):
        self.filler = os.path.join(folder, "filler")

    def fill(self, server):
        with open(self.filler, "wb", buffering=0) as file:
            try:
                while file.write(b"-" * 4096):
                    pass
            except OSError:
                pass

    def free(self, server):
        self.make_room()

    def make_room(self):
        os.remove(self.filler)


def registers(server, place, count):
    """So many new accounts; their players stay."""
    links = []
    for n in range(place, place + count):
        links.append(server.enter(handle_of(n)))
        register(links[-1], PASSWORD)
    return links


def try_room(name, folder, disk):
    """Accounts are made while the disk has room, has none, has some again, and has none at the end."""
    path = os.path.join(folder, "room")
    many = 40  # more than fit into what is left of a page
    server = Server(PROGRAM, path, 4 * many)
    links = registers(server, 0, many)
    comes_to(path, many, f"{name}: with room")
    disk.fill(server)
    links += registers(server, many, many)
    time.sleep(A_MOMENT)
    count = accounts_of(path)
    says(f"{name}: without room what was kept is there, and not all is kept", many <= count < 2 * many, True)
    print(f"{name}: {count - many} of {many} accounts were kept without room")
    disk.free(server)
    comes_to(path, 2 * many, f"{name}: with room again")
    disk.fill(server)
    links += registers(server, 2 * many, 2 * many)
    leave(*links)
    says(f"{name}: the end without room", server.ends(), ("ready\nclosed\n", 4))
    says(f"{name}: behind it", 2 * many <= accounts_of(path) < 4 * many, True)
    disk.make_room()
    server = Server(PROGRAM, path, 1)
    leave(server.enter(handle_of(2 * many - 1), PASSWORD))
    says(f"{name}: the next server", server.ends(), ("ready\nclosed\n", 0))


def try_full_disks():
    if not PROGRAM.unproved:
        with tempfile.TemporaryDirectory() as folder:
            try_room("files at their limit", folder, SmallFiles(folder))
    if os.geteuid() != 0:
        return
    with tempfile.TemporaryDirectory() as folder:
        mount = ["mount", "-t", "tmpfs", "-o", "size=8m", "none", folder]
        if subprocess.run(mount, stderr=subprocess.DEVNULL).returncode:
            print("a small disk: not tried, since none can be mounted here")
            return
        try:
            try_room("a small disk", folder, SmallDisk(folder))
        finally:
            subprocess.run(["umount", folder], check=True)


# a full store, and what keeping costs


def timed(*words):
    """The seconds of a command, those of a processor, the greatest memory in KiB, and what it writes."""
    start, used, peak = time.monotonic(), resource.getrusage(resource.RUSAGE_CHILDREN), 0
    process = subprocess.Popen(
        [*PROGRAM.words, *map(str, words)],
        stdin=subprocess.DEVNULL,
        stdout=subprocess.PIPE,
        stderr=subprocess.DEVNULL,
        text=True,
    )
    while process.poll() is None:
        peak = max(peak, peak_of(process.pid))
        time.sleep(0.002)
    seconds, after = time.monotonic() - start, resource.getrusage(resource.RUSAGE_CHILDREN)
    busy = after.ru_utime + after.ru_stime - used.ru_utime - used.ru_stime
    return seconds, busy, peak, (process.stdout.read(), process.returncode)


def try_full_store(folder):
    path = os.path.join(folder, "full")
    make_full_store(path, ACCOUNTS, GAMES)
    print(f"a full store: {os.path.getsize(path) / 1e6:.1f} MB")
    seconds, busy, peak, said = timed("check", "--store", path)
    says("check of a full store", said, (f"ok: {ACCOUNTS} accounts, {GAMES} games\n", 0))
    print(f"check of a full store: {seconds:.2f} s, {busy:.2f} s of a processor, {peak / 1024:.0f} MiB")
    server = Server(PROGRAM, path, 2)
    print(
        f"a server over a full store: ready after {server.seconds:.2f} s, {server.processor():.2f} s of a processor, "
        f"{server.peak() / 1024:.0f} MiB"
    )
    link = server.enter("Newcomer")
    says("one account more", answers(link, "register x", r"^(Ok|refused \d+ \w+)")[0], "refused 47 AccountsFull")
    leave(link)
    link = server.enter(handle_of(0), PASSWORD)
    says("a game of a full store", answers(link, "stored", r"^\d+ Aaaaa ")[0].split()[3:], ["2", "12", "chess"])
    leave(link)
    says("the end over a full store", server.ends(), ("ready\nclosed\n", 0))


def try_overfull_stores(folder):
    """One account or one game more than a store may have is a bad record: the last one in the order of the keys."""
    for name, accounts, games in (("account", ACCOUNTS + 1, 1), ("game", 2, GAMES + 1)):
        path = os.path.join(folder, f"one_{name}_more")
        make_full_store(path, accounts, games)
        key = account(handle_of(ACCOUNTS), PASSWORD)[0] if name == "account" else game(games, "Ann", "Ben", [])[0]
        says(f"one {name} more", PROGRAM.check(path), (f"bad record {key.hex()}\n", 5))


class Registrars(threading.Thread):
    """Somebody who comes, registers and leaves, over and over."""

    def __init__(self, server, registering):
        super().__init__()
        self.server, self.registering = server, registering
        self.going, self.count = True, 0

    def run(self):
        while self.going:
            link = self.server.enter(handle_of(self.count))
            if self.registering:
                register(link, PASSWORD)
            leave(link)
            self.count += 1


def trips(server, registering):
    """Round trips a second of one link's lines, while others come and go, and how many of them came a second."""
    link = server.enter("Walker")
    others = Registrars(server, registering)
    others.start()
    start = time.monotonic()
    for n in range(LINES):
        answers(link, f"inchannel {n % 256}", r"^none")
    seconds = time.monotonic() - start
    others.going = False
    others.join()
    leave(link)
    return f"{LINES / seconds:.0f} round trips a second, {others.count / seconds:.0f} people a second"


def try_pace(folder):
    for name, path in (("without a store", None), ("with a store", os.path.join(folder, "pace"))):
        server = Server(PROGRAM, path)
        print(f"{name}, people come and leave: {trips(server, False)}", flush=True)
        print(f"{name}, people register too: {trips(server, True)}", flush=True)
        server.kill()


def main():
    print(machine())
    with tempfile.TemporaryDirectory() as folder:
        for evening in EVENINGS:
            for killed in (False, True):
                place = os.path.join(folder, f"{evening.name}_{killed}")
                os.mkdir(place)
                path = try_evening(evening, place, killed)
                if evening is CHESS and not killed:
                    chess = path
        try_commands(os.path.dirname(chess), chess)
        try_bad_records(folder)
        try_no_stores(folder)
        try_full_disks()
        try_full_store(folder)
        try_overfull_stores(folder)
        try_pace(folder)
    tale.end()


if __name__ == "__main__":
    main()
