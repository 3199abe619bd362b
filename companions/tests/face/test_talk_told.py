"""What a client is told of what others say, and what it may say itself: talk that comes faster than it can be read is
left out and counted, and who says more than others read is told so."""

import re

from .conftest import End, Face

FLOOD, AT_ONCE, SAID_AT_ONCE = 5000, 40, 10  # lines; of one who speaks; of one client
LEFT_OUT = re.compile(r"\((\d+) lines? of talk left out\)")
TOO_MUCH = "Not said, since that is more than others can read: another line in 2 seconds.\n\rfics% "


def test_a_flood_is_left_out_and_counted(face: Face) -> None:
    client, server = face.entered()
    flood = "".join(f"Flo shouts: {n}\n\r" for n in range(FLOOD))
    server.say(f"\n\r{flood}Ben tells you: and I\n\rfics% ")
    heard = client.until(b"left out)\n\rfics% ")
    lines = heard.split("\n\r")
    shouts = [it for it in lines if it.startswith("Flo shouts: ")]
    assert shouts[:AT_ONCE] == [f"Flo shouts: {n}" for n in range(AT_ONCE)]
    assert len(shouts) < 2 * AT_ONCE
    assert "Ben tells you: and I" in lines
    left_out = [int(it[1]) for line in lines if (it := LEFT_OUT.fullmatch(line))]
    assert sum(left_out) == FLOOD - len(shouts)


def test_news_that_were_left_out_are_not_told(face: Face) -> None:
    client, server = face.entered()
    server.say("\n\r" + "".join(f"Flo shouts: {n}\n\r" for n in range(AT_ONCE)) + "fics% ")
    client.until(b"fics% ")
    server.say("\n\rFlo shouts: more\n\rfics% \n\rBen tells you: hm\n\rfics% ")
    assert client.until(b"fics% ") == "\n\rBen tells you: hm\n\rfics% "


def says(client: End, server: End, line: str) -> bool:
    """Whether a line is passed on to the server; else the client is told why not."""
    client.say(f"{line}\nbacklog\n")
    said = server.until(b"\n")
    is_said = said != "backlog\n"
    if is_said:
        server.say("(told 1)\n\rfics% ")
        client.until(b"fics% ")
        assert server.until(b"\n") == "backlog\n"
    else:
        assert client.until(b"fics% ") == TOO_MUCH
    server.say("refused 26 BadMove\n\rfics% ")
    client.until(b"fics% ")
    return is_said


def test_who_says_too_much_is_told_so(face: Face) -> None:
    client, server = face.entered()
    for line in ("shout hi", "tell Ben hi", "t 7 hi"):
        client.say(f"{line}\n")
        assert server.until(b"\n").split(" ")[0] == line.split(" ")[0].replace("t", "tell", line[:2] == "t ")
        server.say("(told 1)\n\rfics% ")
        client.until(b"fics% ")
    said = [says(client, server, "shout hi") for _ in range(SAID_AT_ONCE)]
    assert all(said[: SAID_AT_ONCE - 3])
    assert not all(said)
