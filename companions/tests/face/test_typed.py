"""What a client types, what the server is asked, and what the client is shown."""

import re

from ficsd_companions.face import helps
from ficsd_companions.face.typed.line import Says
from ficsd_companions.face.typed.table import COMMANDS, SAME_HELP
from tests.kit import paths

from .conftest import Face, Row, check

WORDS = paths.TOP / "crates" / "command_words" / "src" / "rows.rt"  # the server's own


def test_lines_of_the_client(face: Face) -> None:
    client, server = face.entered()
    rows: tuple[Row, ...] = (
        ("e2e4", ["e2e4"], ["refused 20 NotPlaying\n\r"], "You are not playing a game.\n"),
        ("e7e8=Q", ["e7e8=q"], ["refused 9 CannotReach\n\r"], "Illegal move (e7e8=Q).\n"),
        ("o-o", ["O-O"], ["refused 3 CastleForbidden\n\r"], "Illegal move (o-o).\n"),
        ("nf3", ["Nf3"], ["refused 10 GameOver\n\r"], "You are not playing a game.\n"),
        ("1. e4 e5", ["1. e4 e5"], ["refused 26 Unknown\n\r"], "1.: Command not found.\n"),
        ("seek 5", ["seek 5 0"], ["Your seek is 3.\n\r"], "Your seek has been posted with index 3.\n"),
        ("match Ben 5", ["match Ben 5 0"], ["Ok.\n\r"], "Issuing: Ann (----) Ben (----) unrated blitz 5 0.\n"),
        (
            "match Ben 2 12 5 3",
            ["match Ben 2 12 5 3"],
            ["refused 28 BadArguments\n\r"],
            "Command failed: match doesn't take that.\n",
        ),
        (
            "seek 2 12 u w m crazyhouse 0-9999",
            ["seek 2 12 unrated crazyhouse white"],
            ["Your seek is 4.\n\r"],
            "Your seek has been posted with index 4.\n",
        ),
        (
            "sough",
            ["sought"],
            ["4 Ann 2 12 crazyhouse white\n\r7 Ben 5 0 chess\n\r"],
            "  4 ++++ Ann                 2  12 unrated crazyhouse    [white] 0-9999\n"
            "  7 ++++ Ben                 5   0 unrated blitz                 0-9999\n2 ads displayed.\n",
        ),
        (
            "games",
            ["games"],
            ["1 Cat Dog 5 0 crazyhouse\n\r"],
            "  1 ++++ Cat        ++++ Dog        [ zu  5   0]   5:00 -  5:00 (39-39) W:  1\n\n"
            "  1 games displayed.\n",
        ),
        ("t ben hi", ["tell ben hi"], ["(told 1)\n\r"], "(told ben)\n"),
        ("tell 4 hi", ["tell 4 hi"], ["(told 3)\n\r"], "(told 3 players in channel 4)\n"),
        ("+channel 4", ["+channel 4"], ["Ok.\n\r"], "[4] added to your channel list.\n"),
        ("showlist channel", [], [], "-- channel list: 1 names --\n4\n"),
        (
            "finger ben",
            ["who"],
            ["Ann\n\rBen\n\r"],
            "Finger of Ben:\n\nOn for: some time   Idle: 0 secs\n\nBen has not played any rated games.\n\n",
        ),
        ("history", [], [], "Ann has no history games.\n"),
        ("message", [], [], "You have no messages.\n"),
        (
            "message ben see you",
            [],
            [],
            "There are no messages here, and ben wasn't told: see you\n" 'Do "tell ben see you" while ben is here.\n',
        ),
        ("next", [], [], "There is no more: nothing is cut into pages here.\n"),
        ("moves", [], [], "You are neither playing nor observing a game.\n"),
        ("=ch", [], [], "-- channel list: 1 names --\n4\n"),
        ("vars", [], [], "open=1\nseek=1\nshout=1\nstyle=12\n"),
        ("variables ben", [], [], "What ben has set isn't told here.\n"),
        ("set interface x", [], [], "interface set to x.\n"),
        ("style 12", [], [], "Style 12 set.\n"),
        ("iset lock 1", [], [], "lock set.\n"),
        (
            "match Ben 5 0 u",
            ["match Ben 5 0 unrated"],
            ["refused 36 Refuses\n\r"],
            "Ben is not open to match requests, or is censoring you.\n",
        ),
        (
            "match Ben 5 0 u",
            ["match Ben 5 0 unrated"],
            ["Ok.\n\r"],
            "Issuing: Ann (----) Ben (----) unrated blitz 5 0.\n",
        ),
        (
            "stored",
            ["stored"],
            ["3 Ben Ann 5 0 chess\n\r"],
            "Stored games for Ann:\n    C Opponent       On Type          Str  M    ECO Date\n"
            " 1: B Ben            N [ bu  5   0] 39-39 W1   --- Thu Jan  1, 00:00 ??? 1970\n",
        ),
        ("stored", ["stored"], ["none\n\r"], "Ann has no adjourned games.\n"),
        ("register secret", ["register secret"], ["Ok.\n\r"], "Ann is registered now.\n"),
        ("alias $ @", [], [], "Alias set.\n"),
        ("$iset startpos 1", [], [], "startpos set.\n"),
        (
            "help register",
            [],
            [],
            "Usage: register PASSWORD\n\nregister: makes an account of your name. "
            "It lives as long as the server, or\nas its store where it has one.\n",
        ),
        ("help t", [], [], "Usage: tell NAME TEXT, or N TEXT\n\ntell: tells NAME, or all others in channel N.\n"),
        ("help bye", [], [], "Usage: exit\n\nexit: quit.\n"),
        ("help history", [], [], "Ann has no history games.\n"),
        ("help bughous", [], [], 'There is no help here for "bughous"; "help" has the words.\n'),
        ("nonsense 1", ["nonsense 1"], ["refused 26 Unknown\n\r"], "nonsense: Command not found.\n"),
        ("", [""], [""], ""),
    )
    for row in rows:
        check(client, server, *row)


def test_help_names_each_word(face: Face) -> None:
    client, server = face.entered()
    client.say("help\n")
    shown = client.until(b"fics% ")
    for word in helps.names(helps.SERVER + helps.HERE):
        assert f" {word}" in shown
    commands = re.findall(r'Row\(\*b"(.{9})"', WORDS.read_text(encoding="ascii"))
    assert sorted(it.strip() for it in commands) == sorted(helps.names(helps.SERVER))
    for it in COMMANDS:
        known = isinstance(it.way, Says) or SAME_HELP.get(it.word, it.word) in helps.names(helps.SERVER + helps.HERE)
        assert known, it.word


def test_aliases_go_on_as_they_were_typed(face: Face) -> None:
    client, server = face.entered()
    rows: tuple[Row, ...] = (
        ("hi ben", [], [], "ben has no history games.\n"),
        ("alias hi tell $1 hello", ["alias hi tell $1 hello"], ["Ok.\n\r"], "Alias set.\n"),
        ("alias", [], [], "hi -> tell $1 hello\n"),
        ("hi ben", ["hi ben"], ["(told 1)\n\r"], "(told 1)\n"),
        ("alias HI x", ["alias HI x"], ["refused 28 BadArguments\n\r"], "Command failed: alias doesn't take that.\n"),
        ("alias", [], [], "hi -> tell $1 hello\n"),
        ("unalias hi", ["unalias hi"], ["Ok.\n\r"], "Alias hi removed.\n"),
        ("hi ben", [], [], "ben has no history games.\n"),
    )
    for row in rows:
        check(client, server, *row)


def test_moves_as_they_are_typed_at_fics(face: Face) -> None:
    client, server = face.entered()
    bishops = (
        "rnbqkbnr pp-ppppp -------- -------- --p-P--- -P------ P-PP-PPP RNBQKBNR W -1 1 1 1 1 0 1 Ann Ben "
        "1 2 12 39 39 120 120 3 P/c5-c4 (0:00) c4 0"
    )
    server.say("\n\r{Game 1 (Ann vs. Ben) Creating 2 12 chess match.}\n\r<12> " + bishops + "\n\rfics% ")
    client.until(b"c4 0 1 0\n\rfics% ")
    rows = (
        ("nf3", "Nf3"),
        ("e5!?", "e5"),
        ("1. e5", "e5"),
        ("3...Nf6", "Nf6"),
        ("Ng1-f3", "Ng1f3"),
        ("qh5", "Qh5"),
        ("oo", "O-O"),
        ("g1xf3", "g1f3"),
        ("exd8=Q#", "exd8=Q"),
        ("n@f7", "N@f7"),
        # Bf1 takes on c4, and so does the pawn of b3: the server reads the pawn's
        ("bxc4", "bxc4"),
        ("bc4!", "bc4"),
        ("Bxc4", "Bxc4"),
        ("bd3", "Bd3"),
        ("bb2", "Bb2"),
        ("b4", "b4"),
        # behind Bc1 and Bf1 there is no pawn of file b that goes there, nor does a bishop
        ("bb5", "bb5"),
        ("bc6", "bc6"),
        ("bxa8=Q", "bxa8=Q"),
        ("bfd3", "Bfd3"),
        ("bf1-d3", "Bf1d3"),
        ("b1c3", "b1c3"),
    )
    for typed, asked in rows:
        check(client, server, typed, [asked], ["refused 9 CannotReach\n\r"], f"Illegal move ({typed}).\n")
    # what is typed behind a line that waits for its answer is for a board that nobody saw yet
    client.say("bd3\nbe2\n")
    assert server.until(b"be2\n") == "Bd3\nbe2\n"


def test_blocks(face: Face) -> None:
    client, server = face.entered()
    client.say("iset block 1\n7 who\n8 date\n")
    assert client.until(b"fics% ") == "block set.\n\rfics% "
    assert server.until(b"\n") == "who\n"
    server.say("Ann\n\rBen tells you: hi\n\rfics% ")
    assert client.until(b"fics% ").replace("\n\r", "\n") == (
        "\x157\x16146\x16++++ Ann\n\n"
        " 1 players displayed (of 1). (*) indicates system administrator.\n\x17\n"
        "Ben tells you: hi\nfics% "
    )
    assert client.until(b"\x17\n\rfics% ").startswith("\x158\x1632\x16Local time")
