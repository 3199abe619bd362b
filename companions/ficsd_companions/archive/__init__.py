"""The archive that `fics_scribe` writes, as others read it: what is in it, and nothing of how it is shown.

`kept` is one game's row, `files` finds the files of days and cuts them into games, `index` has all rows in memory and
reads what is new, `search` finds some of them, `addresses` are the paths under which all of it is asked for, `answers`
what is told then. Nothing here writes into the folder."""
