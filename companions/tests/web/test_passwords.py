"""Blanks at the ends of a password are refused at both doors and those within it are kept; a password that is given for
a free name asks whether to make an account of it."""

import pytest

from .browser import Evening

pytestmark = pytest.mark.browser

SECRET = "my  secret"


def test_the_register_form(evening: Evening) -> None:
    ann = evening.window("Ann")
    ann.open("settings", "#settings-open")
    for word in (" secret", "secret ", "  "):
        ann.write("register-password", word)
        ann.click("#register")
        ann.sees("no blanks at its beginning and its end", "#notice")
    ann.write("register-password", SECRET)
    ann.click("#register")
    ann.sees("has an account now", "#notice")
    ann.shut("settings")
    ann.click("#leave")
    ann.until(lambda: ann.is_seen("#login"), "the login")
    ann.write("login-name", "Ann")
    ann.write("login-password", SECRET + " ")
    ann.click("#enter")
    ann.sees("no blanks at its beginning and its end", "#notice")
    ann.write("login-password", SECRET)
    ann.click("#enter")
    ann.until(lambda: ann.text("#me") == "Ann", "is in")


def test_a_line_that_is_typed(evening: Evening) -> None:
    ann = evening.window("Ann")
    ann.command("register  secret")
    ann.sees("no blanks at its beginning and its end", "#notice")
    ann.command("register secret")
    ann.sees("Ok.", "#output")


def test_a_free_name_is_asked_about(evening: Evening) -> None:
    ann = evening.window("Ann", enters=False)
    ann.write("login-name", "Ann")
    ann.write("login-password", "secret")
    ann.click("#enter")
    ann.until(lambda: ann.is_seen("#register-ask"), "the question")
    ann.click("#register-yes")
    ann.sees("has an account now", "#notice")
    ann.click("#leave")
    ann.until(lambda: ann.is_seen("#login"), "the login")
    ann.enter("secret")
    assert not ann.is_seen("#register-ask")


def test_it_is_only_asked(evening: Evening) -> None:
    ann = evening.window("Ann", enters=False)
    ann.write("login-name", "Ann")
    ann.write("login-password", "secret")
    ann.click("#enter")
    ann.click("#register-no")
    ann.click("#leave")
    ann.until(lambda: ann.is_seen("#login"), "the login")
    ann.enter()
