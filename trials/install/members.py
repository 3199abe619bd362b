"""What runs beside the server in a booted machine, as its operator enables it: the go-betweens, and members that are
programs. Each does what it is for, and is stopped and started with the server."""

import re
import socket
import time
import urllib.request
from typing import NoReturn

from tests.kit.link import Link

from .machine import A_MOMENT, FACE, FOLDER, PATIENCE, WEB, comes, journal_of, says, shell, shown, text_of
from .players import adjourn, enter, enter_again, resume

MEMBERS = ("fics_bot", "fics_director", "fics_ratings", "fics_scribe")
WITHOUT_A_STORE = (*MEMBERS, "fics_face", "fics_web")
MOST_EXPOSED = 2.0  # of the ten points of `systemd-analyze security`
EVENING, GAMES = (f"/var/lib/fics_director/evening.{it}" for it in ("tourney", "pgn"))
WORDS = 'FICS_DIRECTOR_WORDS="--chief Ann --channel 5 ' f'--pgn {GAMES} --archive /run/fics_archive"'
GAME = r'\[White "(.*)"\]\n\[Black "(.*)"\]\n\[Result "(.*)"\]'
PLAYING = FOLDER / "playing"


def archive() -> str:
    """What the scribe's archive has."""
    return text_of("/var/lib/private/fics_scribe/*/*.pgn")


def states_of_members() -> list[str]:
    return [shown(it, "ActiveState") for it in MEMBERS]


def members_up(name: str) -> None:
    comes(f"{name}: the members are active", states_of_members, ["active"] * len(MEMBERS))


def try_members() -> None:
    """The members that a club enables; Ann plays House, which the scribe keeps, and joins the director's evening."""
    says(
        "a director without words: it isn't started, and rests",
        (shell("systemctl start fics_director; sleep 8")[1], shown("fics_director", "ActiveState")),
        (0, "failed"),
    )
    shell(f"echo '{WORDS}' >>/etc/default/fics_director")
    says("members: enabled", shell(f"systemctl enable --now {' '.join(MEMBERS)}")[1], 0)
    members_up("enabled")
    ann = enter("Ann", "swordfish")
    comes("members: House, Director and Scribe are in", lambda: are_in(ann, "House", "Director", "Scribe"), True)
    says(
        "members: nobody else reads House's password",
        shell("stat -L -c %a /var/lib/fics_bot /var/lib/fics_bot/password")[0].split(),
        ["700", "600"],
    )
    ann.say("match house 5 0 white")
    ann.until("^<12>.* none [01]$")
    ann.say("e4")
    ann.until("^<12>.* W .* [a-hNBRQKO][^ ]* [01]$")
    ann.say("resign")
    comes("members: the scribe has that game", lambda: re.findall(GAME, archive()), [("Ann", "House", "0-1")])
    says("members: and that Ann had an account", '[WhiteAccount "yes"]' in archive(), True)
    says(
        "members: that game isn't rated",
        re.findall("Ann - House 0-1 (.*)", shell("fics_ratings --archive /var/lib/private/fics_scribe history ann")[0]),
        ["not rated: it has fewer than two moves"],
    )
    ann.say("tell scribe message ben see you on Friday")
    ann.until("Scribe tells you: It is kept")
    says(
        "members: nobody else reads messages",
        shell("stat -L -c %a /var/lib/fics_ratings /var/lib/fics_ratings/messages/*")[0].split(),
        ["700", "600"],
    )
    ann.say("tell Director join")
    ann.until("You have joined")
    says("members: the director has noted it", "join Ann\n" in text_of(EVENING), True)
    ann.link.close()


def try_evening() -> None:
    """A round robin of two to its end, whose game the director's unit takes out of what the scribe's unit keeps; then
    another evening can begin."""
    ann, ben = enter_again()
    ben.say("tell Director join")
    ben.until("You have joined")
    ann.say("tell Director start")
    ann.until("Type: match ben")
    ann.say("match ben 5 0 white")
    ben.until("^Challenge")
    ben.say("accept ann")
    ann.until("^<12>.* none [01]$")
    ann.say("e4")
    ben.until("^<12>.* e4 [01]$")
    time.sleep(A_MOMENT)  # in which the director looks on
    ben.say("resign")
    comes("an evening: the director ends with its table", lambda: shown("fics_director", "ActiveState"), "inactive")
    says("an evening: it ended well", shown("fics_director", "Result"), "success")
    says("an evening: its game is out of the archive", re.findall(GAME, text_of(GAMES)), [("Ann", "Ben", "1-0")])
    for it in (ann, ben):
        it.link.close()
    shell(f"rm {EVENING} {GAMES}; systemctl start fics_director")
    members_up("another evening")


def are_in(link: Link, *names: str) -> bool:
    """Whether these are in the hall."""
    link.say("who", "zzz")
    start = link.read
    link.until("^refused 26 ")
    return set(names) <= set(link.lines[start : link.read])


def try_doors() -> None:
    """The go-betweens let people in."""
    with socket.create_connection(("127.0.0.1", FACE), PATIENCE) as link:
        heard = b""
        while b"login:" not in heard and (piece := link.recv(1000)):
            heard += piece
    says("fics_face: it asks for a name", b"login:" in heard, True)
    with urllib.request.urlopen(f"http://127.0.0.1:{WEB}/", timeout=PATIENCE) as page:
        says("fics_web: it has the page", (page.status, b"<html" in page.read()), (200, True))


def try_wrong_password() -> None:
    """One that comes by the go-between is in the journal with its address."""
    link = Link(FACE)
    link.say("Ann", "no fish")
    link.until("Invalid password", PATIENCE)
    link.link.close()
    comes(
        "a wrong password is in the journal",
        lambda: journal_of("fics_face").splitlines().count("fics_face: wrong password from 127.0.0.1"),
        1,
    )


def try_stop_with_members() -> None:
    """What runs beside the server is stopped with it, ends well, and is started with it."""
    shell("systemctl stop ficsd")
    says(
        "members: they are stopped with the server, and end well",
        [(shown(it, "ActiveState"), shown(it, "Result")) for it in WITHOUT_A_STORE],
        [("inactive", "success")] * len(WITHOUT_A_STORE),
    )
    shell("systemctl start ficsd")
    members_up("started with the server")


def try_exposures() -> None:
    """Each unit reaches little of the machine, as systemd counts it."""
    for unit in (*WITHOUT_A_STORE, "fics_names", "fics_watch", "fics_meter", "ficsd", "fics_server@blue"):
        said = shell(f"systemd-analyze security --no-pager {unit}")[0]
        level = re.search(r"Overall exposure level for \S+: ([\d.]+)", said)
        says(
            f"{unit}: its exposure, {level and level[1]}, is below {MOST_EXPOSED}",
            level is not None and float(level[1]) < MOST_EXPOSED,
            True,
        )


def play_until_the_end() -> NoReturn:
    """Ann and Ben play and one looks on, until the machine goes down."""
    ann, ben = enter_again()
    resume(ann, ben)
    other = enter("Cat")
    other.say("observe 1")
    other.until("^<12>")
    PLAYING.touch()
    while True:
        time.sleep(PATIENCE)


def reboot() -> None:
    """Reboots the machine while people are in the hall, whose links nothing cuts but the stop of the server."""
    shell(
        f"rm -f {PLAYING}; systemd-run -q --unit=players -p DefaultDependencies=no "
        f"-p StandardOutput=append:{FOLDER}/said -p WorkingDirectory={FOLDER} "
        "/usr/bin/python3 -Bm trials.install.inside play"
    )
    comes("a reboot: a game runs", lambda: shell(f"test -e {PLAYING}")[1], 0)
    shell("systemctl reboot")
    time.sleep(PATIENCE * 5)


def behind_reboot() -> None:
    """What the journal has of the stop before it, and that all is there again."""
    lines = shell("journalctl -u ficsd -b -1 --output=cat")[0].splitlines()
    last = lines[max(at for at, it in enumerate(lines) if it.startswith("Started ")) :]
    says(
        "a reboot: the game is kept, and the journal says so",
        [re.sub("kept: .* and 1 adj", "kept: 1 adj", it) for it in last if "kept:" in it or "LOST" in it],
        ["ficsd: kept: 1 adjourned games; 1 of the 1 that ran between players with accounts are among them"],
    )
    says(
        "a reboot: it didn't end as failed, and no status is told",
        [it for it in last if "Failed with" in it or "status" in it],
        [],
    )
    members_up("behind a reboot")
    ann, ben = enter_again()
    resume(ann, ben)
    adjourn(ann, ben)
