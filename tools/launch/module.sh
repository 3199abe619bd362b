# Runs a module of a folder of the repository by the system's Python, which finds the tests' kit and ficslink too. The
# commands tools/trial and tools/bench source this file.

# runs a module over the words; $1 is its folder, $2 its name in there
run_module() {
  local folder=$1 top
  top=$(cd "$(dirname "$(readlink -f "${BASH_SOURCE[0]}")")/../.." && pwd)
  shift
  if [[ $# == 0 || $1 == -* ]]; then
    echo "usage: tools/$(basename "$0") NAME [WORD ..]; $folder/README.md has the names" >&2
    exit 2
  fi
  local name=$1
  shift
  export PYTHONPATH=$top:$top/companions PYTHONDONTWRITEBYTECODE=1
  exec /usr/bin/python3 -m "$folder.$name" "$@"
}
