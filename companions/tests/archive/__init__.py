"""Tests of what reads the scribe's archive: a subject a file, but for the helpers. Of these `archives` makes archives,
and `random_games.mjs` and `shown.mjs` are run by node."""
