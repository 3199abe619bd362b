"""Who comes in, and how: names, passwords, and lines that are sent ahead."""

from .conftest import Face, Row, check


def test_blanks_at_the_ends_of_a_password(face: Face) -> None:
    client, server = face.link()
    client.say("Ann\n")
    server.until(b"Ann\n")
    server.say("password: ")
    client.until(b"password: ")
    for typed in (" secret", "secret ", " "):
        client.say(typed + "\n")
        assert "A password has no blanks at its beginning and its end" in client.until(b"password: ")
    client.say("my secret\n")
    assert server.until(b"\n") == "my secret\n"
    client, server = face.entered("Ben")
    no_blanks = "A password has no blanks at its beginning and its end: type it without them.\n"
    rows: tuple[Row, ...] = (
        ("register  secret", [], [], no_blanks),
        ("register secret ", [], [], no_blanks),
        ("register my  secret", ["register my  secret"], ["Ok.\n\r"], "Ben is registered now.\n"),
    )
    for row in rows:
        check(client, server, *row)


def test_a_guest_a_password_and_a_refused_name(face: Face) -> None:
    client, server = face.link()
    client.say("x\n")
    assert server.until(b"\n") == "x\n"
    server.say("refused 22 BadHandle\n\rlogin: ")
    assert "Try again." in client.until(b"login: ")
    client.say("Ann\n")
    assert server.until(b"\n") == "Ann\n"
    server.say("password: ")
    assert '"Ann" is a registered name.' in client.until(b"password: ")
    client.say("wrong\n")
    assert server.until(b"\n") == "wrong\n"
    server.say("refused 23 WrongPassword\n\rlogin: ")
    assert "**** Invalid password! ****" in client.until(b"login: ")
    client.say("guest\n")
    assert server.until(b"\n") == "guest\n"
    server.say("Entered as GuestAAAA.\n\rfics% \n\rBen tells you: hi\n\rfics% ")
    assert "Press return to enter the server as" in client.until(b'"GuestAAAA":')
    client.say("\n")
    assert client.until(b"fics% ") == (
        "\n\r**** Starting FICS session as GuestAAAA(U) ****\n\r\n\rBen tells you: hi\n\rfics% "
    )


def test_what_is_sent_ahead_is_no_name(face: Face) -> None:
    client, server = face.link()
    client.say("Ann\nswordfish\nwho\n")
    assert server.until(b"\n") == "Ann\n"
    server.say("refused 24 HandleTaken\n\rlogin: ")
    assert (
        client.until(b"login: ")
        .replace("\n\r", "\n")
        .endswith(
            '"Ann" is already logged in.\nWhat you sent behind it isn\'t taken for a name: it might be a password.\n\n'
            "login: "
        )
    )
    client.say("Bea\nswordfish\nwho\n")
    assert server.until(b"\n") == "Bea\n"
    server.say("password: ")
    assert server.until(b"\n") == "swordfish\n"
    server.say("Entered as Bea.\n\rfics% ")
    assert server.until(b"\n") == "who\n"
