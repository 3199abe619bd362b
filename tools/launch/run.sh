# Runs a program for the launcher `ficsd` and for the command that tools/pack/install lays out. Both source this file.
# It is done by `run`, which is no bash, since bash's `wait` loses a status where signals come together.

run=$(dirname "$(readlink -f "${BASH_SOURCE[0]}")")/run

# Runs the program over the words in place of this script, and says what its status means where it isn't 0; $1 is how it
# is called, $2 its file.
run_and_tell() {
  exec "$run" --called "$@"
}

# Runs the words, which are ended where this script is.
run_tied() {
  local tied=()
  command -v setpriv >/dev/null && tied=(setpriv --pdeathsig TERM --)
  "${tied[@]}" "$run" "$@"
}
