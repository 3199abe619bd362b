# What the launcher `ficsd` and the command that tools/pack/install lays out say: the page of --help, the usage line,
# and what a status means. Both source this file.

usage_line="usage: ficsd board, replay, demo N, check --store PATH, serve --port P"

# a row of the page of --help; $1 is how the program is called, $2 a command and what it does, with a # between
help_row() {
  local words=${2%%#*} says=${2#*#}
  words="  ${words//@/$1}"
  ((${#words} <= 38)) || { echo "$words"; words=; }
  printf '%-40s%s\n' "$words" "$says"
}

# the page of --help; $1 is how the program is called
help() {
  printf 'A telnet chess server. Its commands, each with an example:\n\n'
  local row
  while IFS= read -r row; do
    help_row "$1" "$row"
  done <<'END'
@ serve --port 5000#serves players on this machine, who come by `telnet localhost 5000`
@ serve --port 5000 --bind 0.0.0.0#the same for players from everywhere
@ serve --port 5000 --store club.db#keeps accounts and adjourned games in that file, from one run to the next
@ serve --port 5000 --count 2#ends once two connections have come and gone
@ check --store club.db#says how many accounts and adjourned games the file has
@ pgn --store club.db#writes its games of chess as PGN
echo forward | @ examine --store club.db --game 1#goes through an adjourned game step by step
echo e2e4 | @ board#answers the moves of one game, a line each
printf 'seat Ann Ben 2 12 chess\n3000 1 > e2e4\n' | @ replay#an evening that a script tells: what each player is sent
printf 'join Ann\njoin Ben\nstart\nround 1\n' | @ tourney#directs a round robin: pairs, results and the table
@ tidy < games.pgn#writes the games of PGN text in the export form, without comments and variations
printf 'chess\nf3\ne5\ng4\n' | @ bot 1#answers a position with its best move and value, up to 4 half-moves ahead
@ demo 7#plays an evening of 40 guests that the number makes, and counts what happened
@ --help#this page
@ --version#the revision
END
}

# where a store that is bad is written of; $1 is how the program is called
page_of_stores() {
  case $1 in
    ./*) echo "docs/OPERATING.md, The store" ;;
    *) echo "\`man ficsd\`, THE STORE" ;;
  esac
}

# what a status of the program means and what helps; $1 is how the program is called, $2 the command, $3 the status, or
# the signal that ended it. tools/print/statuses prints what docs/OPERATING.md and docs/ficsd.6 have of it
meaning() {
  case $2-$3 in
    *-1) echo "the words aren't those of a command; \`$1 --help\` shows each with an example" ;;
    *-2) echo "the standard input could not be read" ;;
    *-3) echo "the standard output could not be written: what reads it is gone, or its disk is full" ;;
    serve-4)
      echo "the store could not be opened, read or written. Its folder has to be there, and this user has to be able" \
        "to write it and the file; the file has to be a store; and no other server and no sqlite3 may have it open." \
        "Where \`closed\` was written, what was new at the end isn't in the store" ;;
    *-4)
      echo "the store could not be read: there is none at that path, or this user may not read it, or the file is no" \
        "store" ;;
    *-5)
      echo "a record of the store isn't one: \`bad record\` names its key, and nothing was changed. sqlite3 shows the" \
        "record and takes it away ($(page_of_stores "$1")), or start over a copy made earlier" ;;
    *-6) echo "memory ran out" ;;
    *-7) echo "\`bad line\` is the first line of the input that is none of this command's, counted from 1" ;;
    serve-8)
      echo "it can't listen there: the port is in use (\`ss -ltnp\` says by whom), or the address is none of this" \
        "machine, or the port is below 1024 and this user may not have it" ;;
    serve-9) echo "2147483648 connections have come; start it again" ;;
    *-9) echo "the input took 2^40 reads" ;;
    *-10) echo "the store has no game of that number; \`stored\` tells players the numbers of theirs" ;;
    *-KILL) echo "it was killed; where nobody did, the system has run out of memory" ;;
    *) echo "that isn't a status of this program: a fault of the machine or of the toolchain" ;;
  esac
}
