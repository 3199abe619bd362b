"""What the limits count, without a clock and without sockets."""

import ipaddress

from ficsd_companions.limits.addresses import Addresses, network_of
from ficsd_companions.limits.budget import Budget
from ficsd_companions.web.hosts import Hosts
from ficsd_companions.web.kept import MOST, Kept
from ficsd_companions.web.proxies import Proxies
from ficsd_companions.web.talk import as_news
from multidict import CIMultiDict, CIMultiDictProxy


class Clock:
    """A clock that is set by hand."""

    now = 0.0

    def __call__(self) -> float:
        return self.now


def test_a_budget() -> None:
    clock = Clock()
    budget = Budget(2, 10, clock)
    assert [budget.take() for _ in range(11)] == [True] * 10 + [False]
    clock.now = 1.0
    assert [budget.take() for _ in range(3)] == [True, True, False]
    clock.now = 100.0
    assert budget.is_full
    assert not budget.take(11)
    assert budget.take(10)


def test_a_promise_is_kept_in_order() -> None:
    clock = Clock()
    budget = Budget(0.1, 2, clock)
    assert [budget.promise() for _ in range(4)] == [0, 0, 10, 20]
    clock.now = 10.0
    assert budget.promise() == 20
    budget.give_back()
    assert budget.promise() == 20


def test_networks() -> None:
    for one, other in (
        ("203.0.113.7", "::ffff:203.0.113.7"),
        ("2001:db8::1", "2001:db8::ffff:1:2:3"),
        ("fe80::1%eth0", "fe80::2"),
    ):
        assert network_of(one) == network_of(other)
    for one, other in (("203.0.113.7", "203.0.113.8"), ("2001:db8::1", "2001:db8:0:1::1")):
        assert network_of(one) != network_of(other)


def test_addresses_are_forgotten_and_none_that_is_here() -> None:
    addresses = Addresses(32)
    here = addresses.of("203.0.113.7")
    here.links += 1
    for n in range(3 * 4096):
        addresses.of(f"10.{n >> 16}.{n >> 8 & 255}.{n & 255}").requests.take(5)
    assert len(addresses.known) <= 4096
    assert addresses.of("203.0.113.7") is here


def test_whose_word_counts() -> None:
    proxies = Proxies(map(ipaddress.ip_network, ("127.0.0.1", "10.0.0.0/8")))
    for peer, said, visitor in (
        ("127.0.0.1", ["203.0.113.7"], "203.0.113.7"),
        ("203.0.113.9", ["203.0.113.7"], "203.0.113.9"),
        ("127.0.0.1", ["9.9.9.9, 203.0.113.7"], "203.0.113.7"),
        ("127.0.0.1", [], "127.0.0.1"),
        ("127.0.0.1", ["9.9.9.9", "203.0.113.7, 10.1.2.3"], "203.0.113.7"),
        ("127.0.0.1", ["x"], "x"),
    ):
        headers = CIMultiDictProxy(CIMultiDict([("X-Forwarded-For", it) for it in said]))
        assert proxies.visitor(peer, headers) == visitor


def test_names() -> None:
    hosts = Hosts(["Chess.example.org"])
    for host in ("chess.example.org", "CHESS.EXAMPLE.ORG.:443", "localhost:5002", "192.0.2.1", "[2001:db8::1]:80"):
        assert hosts.has(host), host
    for host in ("", "evil.example", "chess.example.org.evil.example", "xchess.example.org", "[::1", "a:b:c", "1.2.3"):
        assert not hosts.has(host), host


def test_what_was_told_goes_first() -> None:
    kept = Kept(keeps_told=True)
    kept.add([str(n) for n in range(MOST)], True)
    assert [kept.next() for _ in range(100)] == [str(n) for n in range(100)]
    kept.add([str(MOST + n) for n in range(50)], True)
    assert (kept.first, kept.at, kept.untold) == (50, 100, MOST - 50)
    assert not kept.go_back(49)
    assert kept.go_back(50)
    assert kept.next() == "50"


def test_while_somebody_is_there_nothing_goes_that_wasnt_told() -> None:
    kept = Kept(keeps_told=True)
    kept.add(["x"] * 3 * MOST, True)
    assert kept.is_full
    assert kept.untold == 3 * MOST
    kept.add((), False)
    assert (kept.untold, kept.at) == (MOST, 2 * MOST)


def test_bytes_count_too() -> None:
    kept = Kept(keeps_told=True)
    kept.add(["x" * 1000] * 200, False)
    assert kept.untold == 131


def test_parts_as_news() -> None:
    for messages, is_within, told in (
        ([], False, []),
        ([], True, [""]),
        (["fics% "], False, []),
        (["Ann", "fics% "], False, ["", "Ann", "fics% "]),
        (["", "hi", "fics% ", "fics% ", "Ok.", "fics% "], False, ["", "hi", "fics% ", "", "Ok.", "fics% "]),
        (["half", "fics% ", "Ann"], True, ["", "half", "fics% ", "", "Ann"]),
    ):
        assert as_news(messages, is_within) == told
