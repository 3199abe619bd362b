"""Games as clients are told of them, and news."""

import time

from .boards import AFTER_E4, AFTER_E5, START
from .conftest import Face, check


def test_nothing_is_asked_while_the_opponent_thinks(face: Face) -> None:
    client, server = face.entered()
    begun = "\n\r{Game 1 (Ann vs. Ben) Creating 2 12 chess match.}\n\r<12> "
    server.say(begun + AFTER_E4.format(rel=-1) + "\n\rfics% ")
    client.until(b"e4 0 0 0\n\rfics% ")
    time.sleep(0.3)  # longer than the server lets who has just moved wait for news
    server.say("\n\r<12> " + AFTER_E5.replace(" 0 2 12 ", " 1 2 12 ") + "\n\rfics% ")
    assert client.until(b"fics% ") == "\n\r<12> " + AFTER_E5.replace(" 0 2 12 ", " 1 2 12 ") + " 1 0\n\rfics% "
    check(
        client,
        server,
        "who",
        ["who"],
        ["Ann\n\r"],
        "++++ Ann\n\n 1 players displayed (of 1). (*) indicates system administrator.\n",
    )
    check(client, server, "tell ben hi", ["tell ben hi"], ["(told 1)\n\r"], "(told ben)\n")
    assert (server.heard, client.heard) == (b"", b"")


def test_a_game_in_milliseconds(face: Face) -> None:
    client, server = face.entered()
    check(client, server, "iset ms 1", [], [], "ms set.\n")
    check(client, server, "iset pendinfo 1", [], [], "pendinfo set.\n")
    server.say("\n\rChallenge: Ben 2 12 chess white\n\rfics% ")
    assert client.until(b"fics% ").replace("\n\r", "\n") == (
        "\nChallenge: Ben (----) [white] Ann (----) unrated blitz 2 12.\n"
        'You can "accept" or "decline", or propose different parameters.\n'
        "<pf> 1 w=Ben t=match p=Ben (----) [white] Ann (----) unrated blitz 2 12\nfics% "
    )
    start = "<12> " + START.format(game=1, rel=1)
    shown = start.replace(" 120 120 ", " 120000 120000 ").replace("(0:00)", "(0:00.000)") + " 0 0"
    check(
        client,
        server,
        "accept 1",
        ["accept Ben"],
        ["{Game 1 (Ann vs. Ben) Creating 2 12 chess match.}\n\r" + start + "\n\r"],
        "<pr> 1\nCreating: Ann (++++) Ben (++++) unrated blitz 2 12\n"
        "{Game 1 (Ann vs. Ben) Creating unrated blitz match.}\n\n" + shown + "\n",
    )
    server.say("\n\r{Game 1 (Ann vs. Ben) drawn by agreement} 1/2-1/2\n\rfics% ")
    assert client.until(b"fics% ") == "\n\r{Game 1 (Ann vs. Ben) Game drawn by mutual agreement} 1/2-1/2\n\rfics% "


def test_offers_at_the_board(face: Face) -> None:
    client, server = face.entered()
    check(client, server, "iset pendinfo 1", [], [], "pendinfo set.\n")
    server.say(
        "\n\r{Game 1 (Ann vs. Ben) Creating 2 12 chess match.}\n\r<12> "
        + AFTER_E4.format(rel=-1)
        + "\n\rfics% \n\rBen offers to take back 1.\n\rfics% \n\rBen offers a draw.\n\rfics% "
    )
    client.until(b"e4 0 0 0\n\rfics% ")
    assert (
        client.until(b"fics% ").replace("\n\r", "\n")
        == "\nBen would like to take back 1 half move(s).\n<pf> 1 w=Ben t=takeback p=1\nfics% "
    )
    assert client.until(b"fics% ").replace("\n\r", "\n") == "\nBen offers you a draw.\n<pf> 2 w=Ben t=draw p=#\nfics% "
    check(
        client,
        server,
        "decline 2",
        [],
        [],
        "The takeback request from Ben came first: accept or decline that one before.\n",
    )
    check(client, server, "decline 1", ["decline"], ["Ok.\n\r"], "You decline the takeback request from Ben.\n<pr> 1\n")
    check(
        client,
        server,
        "accept 2",
        ["draw"],
        ["{Game 1 (Ann vs. Ben) drawn by agreement} 1/2-1/2\n\r"],
        "{Game 1 (Ann vs. Ben) Game drawn by mutual agreement} 1/2-1/2\n<pr> 2\n",
    )


def test_looking_on_with_the_moves_before(face: Face) -> None:
    player, at_player = face.entered()
    at_player.say(
        "\n\r{Game 1 (Ann vs. Ben) Creating 2 12 chess match.}\n\r<12> "
        + START.format(game=1, rel=1)
        + "\n\rfics% \n\r<12> "
        + AFTER_E4.format(rel=-1)
        + "\n\rfics% "
    )
    player.until(b"e4 0 0 0\n\rfics% ")
    client, server = face.entered("Cat")
    game = "Game 1: Ann (++++) Ben (++++) unrated blitz 2 12\n\n"
    check(
        client,
        server,
        "observe 1",
        ["games", "observe 1"],
        ["1 Ann Ben 2 12 chess\n\r", "<12> " + AFTER_E4.format(rel=0) + "\n\r"],
        "You are now observing game 1.\n" + game + "<12> " + AFTER_E4.format(rel=0) + " 0 0\n",
    )
    server.say("\n\r<12> " + AFTER_E5 + "\n\rfics% ")
    assert client.until(b"fics% ") == "\n\r<12> " + AFTER_E5 + " 1 0\n\rfics% "
    client.say("moves 1\n")
    moves = client.until(b"fics% ").replace("\n\r", "\n")
    assert "  1.  e4      (0:00)          e5      (0:03)\n      {Still in progress} *\n" in moves
    check(client, server, "unobserve 1", ["unobserve 1"], ["Ok.\n\r"], "Removing game 1 from observation list.\n")


def test_men_in_hand_stand_behind_each_board(face: Face) -> None:
    client, server = face.entered()
    e4, e5 = AFTER_E4.format(rel=-1), AFTER_E5.replace(" 0 2 12 ", " 1 2 12 ")
    hands = "<b1> game 1 white [P] black []"
    server.say(
        "\n\r{Game 1 (Ann vs. Ben) Creating 2 12 crazyhouse match.}\n\r<12> "
        + e4
        + "\n\r"
        + hands
        + " <- P\n\rfics% \n\r<12> "
        + e5
        + "\n\rfics% "
    )
    assert client.until(b"fics% ").endswith(e4 + " 0 0\n\r" + hands + "\n\rfics% ")
    assert client.until(b"fics% ") == "\n\r<12> " + e5 + " 1 0\n\r" + hands + "\n\rfics% "
