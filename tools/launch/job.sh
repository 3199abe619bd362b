# Which words behind the program's name are a job, as crates/cmd_job reads them: the launcher looks before it builds.

declare -A given

# a decimal without leading zeros from 1 to the greatest one; $1 is the text, $2 the greatest
is_positive() {
  local LC_ALL=C
  [[ $1 =~ ^[1-9][0-9]*$ ]] || return 1
  ((${#1} < ${#2})) || [[ ${#1} == "${#2}" && ! $1 > $2 ]]
}

# takes options with their values, each at most once; $1 has the names of those that the command has
read_options() {
  local known=$1 name value
  shift
  given=()
  while (($#)); do
    name=${1%%=*}
    if [[ $1 == *=* ]]; then
      value=${1#*=}
    else
      value=${2-}
      shift
    fi
    (($#)) && shift
    [[ $name =~ ^--[a-z]+$ && " $known " == *" $name "* && -z ${given[$name]-} ]] || return 1
    [[ -n $value && $value != -* ]] || return 1
    given[$name]=$value
  done
}

# whether an option that may be left out has a value up to the greatest one; $1 is its name, $2 the greatest
is_left_out_or_positive() {
  [[ -z ${given[$1]-} ]] || is_positive "${given[$1]}" "$2"
}

is_job() {
  local command=${1-}
  shift
  case $command in
    board | replay | tourney | tidy) (($# == 0)) ;;
    bot) (($# == 1)) && [[ $1 =~ ^[0-4]$ ]] ;;
    demo) (($# == 1)) && [[ $1 =~ ^(0|[1-9][0-9]{0,5})$ ]] ;;
    check | pgn) read_options --store "$@" && [[ -n ${given[--store]-} ]] ;;
    examine)
      read_options "--store --game" "$@" && [[ -n ${given[--store]-} ]] &&
        is_positive "${given[--game]-}" 18446744073709551615 ;;
    serve)
      read_options "--port --bind --count --store" "$@" && is_positive "${given[--port]-}" 65535 &&
        is_left_out_or_positive --count 2147483648 ;;
    *) false ;;
  esac
}
