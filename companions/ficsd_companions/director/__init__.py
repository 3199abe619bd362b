"""The parts of fics_director: `evening` reads what stands in its file, `ledger` keeps that file, `due` says what is to
be done now, `director` is the director among the members, `open_round` its round at the boards, `answers` what it does
for who tells it something, `talk` how it says things, `games` finds the evening's games in an archive, `seeds` numbers
players by the ratings that it makes, and `options` is its command line."""
