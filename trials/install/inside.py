"""Runs in a Debian machine that this trial has booted: sets the server up as its operators do, and looks that it
starts, stops, comes back and keeps what it has.

usage: inside.py STOPS, which is how many stops with a running game there are; the lines of docs/OPERATING.md, the
packages and, in the folder `older`, older ones lie in /root/try. Each line that it prints says what was tried; it ends
with 1 where something came otherwise than it should. It reboots the machine once, and goes on behind that.
`inside.py play` is two people at a game, who stay.
"""

import json
import os
import re
import signal
import socket
import subprocess
import sys
import time
from pathlib import Path

from . import members
from .machine import (
    A_MOMENT,
    CLUB,
    CLUB_PAGE,
    FACE,
    FOLDER,
    OTHER_PORT,
    PATIENCE,
    PROGRAM,
    SERVER,
    STORE,
    UNITS,
    WEB,
    addresses,
    all_up,
    check,
    comes,
    journal,
    journal_length,
    journal_of,
    listening,
    main_process,
    run_lines,
    says,
    servers,
    shell,
    shown,
    states,
    tale,
    text_of,
)
from .players import adjourn, come_in_anew, enter, enter_again, play, register, resume

WHOLE = "ok: 2 accounts, 1 games\n"  # what `check` says once two people have registered and their game is adjourned
ALL_OF_ONE = "1 of the 1 that ran between players with accounts are among them"
WRONG = FOLDER / "wrong"  # what came otherwise than it should before the machine was rebooted
HOUSES = (Path("/usr/lib/ficsd"), Path("/usr/lib/ficsd-companions"))  # where the packages have what they run
passed_over: list[str] = []


def try_stop_and_start() -> None:
    shell("systemctl stop ficsd")
    says("stop: all are inactive", states(), ["inactive"] * 3)
    time.sleep(8)
    says("stop: all stay inactive for longer than any rests before it starts again", states(), ["inactive"] * 3)
    says("stop: nobody listens", listening(), [])
    says("stop: no process is left", servers(), [])
    says("stop: it ended well", shown("ficsd", "Result"), "success")
    says(
        "start: it ends well, and the server listens at once",
        (shell("systemctl start ficsd")[1], SERVER in listening()),
        (0, True),
    )
    all_up("start")
    before = servers()
    shell("systemctl restart ficsd")
    all_up("restart")
    says("restart: one server, and another one", (len(servers()), servers() != before), (1, True))


def try_kills() -> None:
    for name, is_program in (("the program", True), ("the command that runs it", False)):
        before = servers()
        os.kill(int(before[0] if is_program else main_process()), signal.SIGKILL)
        comes(f"kill -9 of {name}: another one serves", lambda: len(servers()) == 1 and servers() != before, True)
        all_up(f"kill -9 of {name}")
        says(f"kill -9 of {name}: the store is good", check(), WHOLE)


def cuts_links() -> bool:
    """Whether this machine's kernel lets `ss -K` cut a link."""
    link = enter("Tester")
    link.link.settimeout(PATIENCE)
    shell(f"ss -tK state established 'sport = :{SERVER}'")
    time.sleep(A_MOMENT)
    try:
        return link.link.recv(1000) == b""
    except ConnectionResetError:
        return True
    except TimeoutError:
        return False
    finally:
        link.link.close()


def stop_with_game() -> tuple[str, str, list[str]]:
    """A stop while a game runs: how it ended, what is kept, and what the journal says of it."""
    since = journal_length()
    shell("systemctl stop ficsd")
    said = [it for it in journal(since) if "kept" in it or "LOST" in it or "status" in it]
    return shown("ficsd", "Result"), check(), said


def try_stops_with_game(stops: int) -> None:
    """A game that runs as the server is stopped is there afterwards, each time."""
    ann, ben = come_in_anew()
    play(ann, ben)
    time.sleep(A_MOMENT)
    kept = f"ficsd: kept: 2 accounts and 1 adjourned games; {ALL_OF_ONE}"
    for turn in range(1, stops + 1):
        says(
            f"stop {turn} with a game: it ends well, the game is kept, and the journal says so",
            stop_with_game(),
            ("success", WHOLE, [kept]),
        )
        shell("systemctl start ficsd")
        ann, ben = enter_again()
        ann.say("stored")
        says("stored", ann.until("^1 .*").group(0), "1 Ann Ben 2 12 chess")
        resume(ann, ben)
        time.sleep(A_MOMENT)
    adjourn(ann, ben)
    all_up("behind the stops")
    says("no address is in the journal", re.findall(r"127\.0\.0\.1:\d+|ESTAB", "\n".join(journal(0))), [])


def try_backup() -> None:
    run_lines("backup")
    run_lines("hot")
    all_up("behind the copies")
    shell(f"systemctl stop ficsd; rm {STORE} {STORE}-wal")
    run_lines("restore")
    all_up("behind the restoring")
    says("restored", check(), WHOLE)
    ann = enter("Ann", "swordfish")
    ann.say("stored")
    says("restored: stored", ann.until("^1 .*").group(0), "1 Ann Ben 2 12 chess")


def start_fails(name: str, status: int, means: str) -> None:
    """A start fails and says so, and all units rest or come back as that status has it."""
    since = journal_length()
    says(f"{name}: `systemctl start` fails", shell("systemctl start ficsd")[1] != 0, True)
    comes(f"{name}: the journal names the status", lambda: f"status={status}/" in "\n".join(journal(since)), True)
    says(f"{name}: the journal says what it means", means in "\n".join(journal(since)), True)


def try_port_in_use() -> None:
    done = subprocess.run(
        ["ficsd", "serve", "--port", str(SERVER)], stdin=subprocess.DEVNULL, capture_output=True, text=True
    )
    says("a second server: its status and a word", (done.returncode, "port is in use" in done.stderr), (8, True))
    shell("systemctl stop ficsd")
    with socket.create_server(("0.0.0.0", SERVER)):
        start_fails("a port in use", 8, "the port is in use")
    all_up("behind a port in use")


def rests(name: str) -> None:
    """No unit is started again for longer than any waits before that."""
    before = [shown(it, "NRestarts") for it in UNITS]
    time.sleep(12)
    says(f"{name}: all units rest", [it in ("failed", "inactive") for it in states()], [True] * 3)
    says(f"{name}: none was started again", [shown(it, "NRestarts") for it in UNITS], before)


def try_bad_stores() -> None:
    shell(f"systemctl stop ficsd; chown root:root {STORE}; chmod 600 {STORE}")
    start_fails("a store of somebody else", 78, "(not permitted): ficsd may not read and write")
    rests("a store of somebody else")
    shell(f"chown ficsd:ficsd {STORE}; systemctl start ficsd")
    all_up("behind chown")
    shell(f"systemctl stop ficsd; mv {STORE} {STORE}.good")
    shell(f"sqlite3 {STORE} 'CREATE TABLE records (key TEXT, record TEXT)'; chown ficsd:ficsd {STORE}")
    start_fails("another table", 78, "(another table)")
    rests("another table")
    shell(f"mv {STORE}.good {STORE}; systemctl start ficsd")
    all_up("behind another table")
    shell(f"systemctl stop ficsd; sqlite3 {STORE} \"INSERT INTO records VALUES (x'7A', x'00')\"; chown ficsd: {STORE}*")
    start_fails("a bad record", 5, "`bad record` names its key")
    rests("a bad record")
    shell(f"sqlite3 {STORE} \"DELETE FROM records WHERE key = x'7A'\"; chown ficsd: {STORE}*; systemctl start ficsd")
    all_up("behind a bad record")


def try_full_disk() -> None:
    """A stop over a disk that takes nothing, nor for files of a moment, says what is kept and that some is lost."""
    shell(
        "systemctl stop ficsd; mount -t tmpfs -o size=2M,mode=700,uid=$(id -u ficsd),gid=$(id -g ficsd) tmpfs "
        "/var/lib/ficsd; mount -t tmpfs -o size=2M,mode=1777 tmpfs /tmp; systemctl start ficsd"
    )
    ann, ben = come_in_anew()
    play(ann, ben)
    time.sleep(A_MOMENT)
    shell("for it in /var/lib/ficsd /tmp; do head -c 9M /dev/zero >$it/fill; done")
    for n in range(100):  # more than the room that the log has already
        register(f"Guest{chr(ord('a') + n // 26)}{chr(ord('a') + n % 26)}")
    result, _, said = stop_with_game()
    said = [re.sub(r"\d+ accounts", "... accounts", it) for it in said if it.startswith("ficsd: ")]
    says(
        "a full disk: the stop fails, and the journal says what is kept and that some is lost",
        (result, said),
        (
            "exit-code",
            [
                f"ficsd: kept: ... accounts and 0 adjourned games; {ALL_OF_ONE.replace('1', '0', 1)}",
                "ficsd: not kept: Ann - Ben",
                "ficsd: LOST: the disk takes nothing (No space left on device), so accounts and games that are "
                "new since then are lost, 1 of those that ran just now among them",
            ],
        ),
    )
    for it in (ann, ben):
        it.link.close()
    shell("umount /var/lib/ficsd; umount -l /tmp; systemctl reset-failed ficsd; systemctl start ficsd")
    all_up("behind a full disk")
    says("behind a full disk: the store", check(), WHOLE)


def is_heard(port: int) -> bool:
    """Whether somebody listens there."""
    return f":{port} " in shell("ss -ltnH")[0]


def try_club() -> None:
    """A second club has a port and a store of its own, and its stop is as that of the first."""
    run_lines("club")
    comes("a second club: it listens", lambda: is_heard(CLUB), True)
    run_lines("club_page")
    comes("a second club: its page", lambda: is_heard(CLUB_PAGE), True)
    says("a second club: the first one's store is its own", check(), WHOLE)
    shell("systemctl stop fics_server@blue")
    says("a second club: it ends well", shown("fics_server@blue", "Result"), "success")
    says(
        "a second club: its page has ended too, and the first one runs on",
        (shown("fics_web_blue", "ActiveState"), states()),
        ("inactive", ["active"] * 3),
    )
    shell("systemctl start fics_server@blue")
    comes("a second club: its page is started with it", lambda: is_heard(CLUB_PAGE), True)


def try_port() -> None:
    """The server's port is changed for all units by the lines of the page, and a game is kept meanwhile."""
    says("the server is open to this machine alone", addresses(SERVER), ["127.0.0.1"])
    before = check()
    run_lines("port")
    comes("another port: it is listened to, on this machine alone", lambda: addresses(OTHER_PORT), ["127.0.0.1"])
    comes("another port: the go-betweens are there", listening, [FACE, WEB])
    members.try_doors()
    says("another port: a watch finds the server", shell("systemctl start fics_watch")[1], 0)
    says("another port: the store is kept", check(), before)
    shell(f"sed -i 's/^PORT=.*/PORT={SERVER}/' /etc/default/ficsd; systemctl restart ficsd")
    all_up("the first port again")


def try_accounts() -> None:
    words = "fics_accounts password ann"
    says("a password while the server runs", shell(f"printf 'tuna\\ntuna\\n' | {words}")[1], 1)
    shell("systemctl stop ficsd")
    says("a password", shell(f"printf 'tuna\\ntuna\\n' | {words}")[1], 0)
    says("a password: whose the store is", shell(f"stat -c %U {STORE}*")[0].split(), ["ficsd"] * 2)
    shell("systemctl start ficsd")
    ann = enter("Ann", "tuna")
    ann.link.close()
    shell(f"systemctl stop ficsd; printf 'swordfish\\nswordfish\\n' | {words}; systemctl start ficsd")
    all_up("behind passwords")


def try_watch() -> None:
    says(
        "a watch: all is well", (shell("systemctl start fics_watch")[1], shown("fics_watch", "Result")), (0, "success")
    )
    text, status = shell(f"fics_watch --port {SERVER} --shelf 0")
    says("a watch: a bound is crossed", (status, "more than 0 adjourned games" in text), (3, True))
    says("a watch: its timer is on", shown("fics_watch.timer", "ActiveState"), "active")
    kept = "/run/fics_meter/metrics"
    comes("a meter: it keeps what Prometheus reads", lambda: "ficsd_up 1\n" in text_of(kept), True)
    comes("a meter: it has the refusals", lambda: 'by="fics_face",why="wrong password"} 1\n' in text_of(kept), True)
    comes(
        "a meter: its lines are in the journal",
        lambda: "fics_watch: 0 members, 0 games, 1 stored games, 2 accounts" in journal_of("fics_meter"),
        True,
    )


def version(package: str) -> str:
    return shell(f"dpkg-query -W -f '${{Version}}' {package}")[0]


def try_update() -> None:
    """The packages are replaced while a game runs, which is kept."""
    says("cp over a running program is refused", shell(f"cp {PROGRAM} /tmp/it && cp /tmp/it {PROGRAM}")[1], 1)
    before, games = version("ficsd"), check()
    ann, ben = enter_again()
    ben.say("resume ann")
    ben.until("^Asked")
    ann.say("resume ben")
    ann.until("^<12>")
    time.sleep(A_MOMENT)
    club = shown("fics_server@blue", "MainPID")
    run_lines("update")
    says("update: another version", version("ficsd") != before, True)
    all_up("update")
    says("update: the game is kept", check(), games)
    says("update: the second club was restarted", shown("fics_server@blue", "MainPID") not in (club, "0"), True)
    members.members_up("update")


def try_removal() -> None:
    whole = check()
    shell("apt-get remove -y ficsd ficsd-companions")
    says("remove: nobody listens, and no process is left", (listening(), servers()), ([], []))
    says("remove: no member is left", members.states_of_members(), ["inactive"] * len(members.MEMBERS))
    says("remove: the second club's is gone too", (is_heard(CLUB), is_heard(CLUB_PAGE)), (False, False))
    says("remove: the store stays", os.path.exists(STORE), True)
    text, status = shell("apt-get purge -y ficsd ficsd-companions")
    says(
        "purge: it says where the store and the archive lie",
        (status, "stay, in /var/lib/ficsd" in text, "stays, in /var/lib/private/fics_scribe" in text),
        (0, True, True),
    )
    says("purge: the store and the archive stay", (os.path.exists(STORE), members.archive() != ""), (True, True))
    says("purge: nothing else is left of what was run", [it for it in HOUSES if it.exists()], [])
    shell(f"cd {FOLDER} && apt-get install -y ./ficsd_*.deb ./ficsd-companions_*.deb")
    all_up("installed anew")
    says("installed anew: the store is taken up", check(), whole)


def tell_end() -> int:
    for it in passed_over:
        tale.saw(f"NOT TRIED: {it}")
    tale.saw("\n".join(f"WRONG: {it}" for it in tale.losses) or "all came as it should")
    return 1 if tale.losses or passed_over else 0


def begin(stops: int) -> int:
    """All up to the reboot, behind which this script is started again."""
    run_lines("setup", FOLDER / "older")
    all_up("set up")
    says("--version says the revision", shell("ficsd --version")[0].startswith("ficsd "), True)
    members.try_doors()
    members.try_exposures()
    try_stop_and_start()
    if not cuts_links():
        passed_over.append("stops with a game and all behind: this kernel doesn't let `ss -K` cut links")
        return tell_end()
    try_stops_with_game(stops)
    for act in (
        try_kills,
        try_backup,
        try_port_in_use,
        try_bad_stores,
        try_full_disk,
        try_accounts,
        members.try_wrong_password,
        try_watch,
        try_port,
        try_club,
        members.try_members,
        members.try_evening,
        members.try_stop_with_members,
    ):
        act()
    WRONG.write_text(json.dumps(tale.losses), encoding="utf-8")
    members.reboot()
    return 1


def go_on() -> int:
    """All behind the reboot."""
    tale.losses += json.loads(WRONG.read_text(encoding="utf-8"))
    all_up("behind a reboot")
    members.behind_reboot()
    try_update()
    try_removal()
    return tell_end()


def main() -> int:
    if sys.argv[1:] == ["play"]:
        members.play_until_the_end()
    return go_on() if WRONG.exists() else begin(int(sys.argv[1]))


if __name__ == "__main__":
    sys.exit(main())
