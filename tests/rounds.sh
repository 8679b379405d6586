#!/bin/sh
# Puts loops calls to the program cases_rounds and compares what it prints with a second solver's answers: the verdict,
# the rounds exactly, and the refusals with plan and place. Some calls have answers that are known beforehand: the path
# 1-2-...-s for every s, parts that take different rounds, missing commands. The others are drawn at random, right and
# damaged. Then it compares what is printed where the input ends early or a size is too large.
#
#   tests/rounds.sh [PROGRAM]   PROGRAM: by default target/bin/cases_rounds, which is made first if it is missing or old
#
# SEED (default 1) and CALLS (default 300000) set the random calls.
set -e
cd "$(dirname "$0")/.."
program=${1:-target/bin/cases_rounds}
cc=${CC:-gcc}
if ! command -v "$cc" >/dev/null 2>&1; then
  echo "$0: skipped: there is no C compiler on this machine: no command $cc"
  exit 0
fi
if [ -z "$1" ]; then
  . tests/made.sh
  made "$program" cases_rounds cases_rounds run
fi
out=target/tests
mkdir -p "$out"
"$cc" -O2 -Wall -Wextra tests/rounds.c tests/supply.c tests/solver.c -o "$out/rounds"

# The calls are drawn twice, from the same seed: to be asked, and to be compared.
seed=${SEED:-1} calls=${CALLS:-300000}
if ! "$out/rounds" ask "$seed" "$calls" | "$program" | "$out/rounds" check "$seed" "$calls"; then
  echo "rounds: the program and the solver differ" >&2
  exit 1
fi

# Where reading ends: the catalogue of one command, and two plans.
count=0
prints() { # LINES PART...: a part is bytes as printf takes them, or xN for N bytes 0
  printf "$1" >"$out/rounds.expected"
  shift
  for part in "$@"; do
    case $part in
      x*) head -c "${part#x}" /dev/zero ;;
      *) printf "$part" ;;
    esac
  done >"$out/rounds.input"
  "$program" <"$out/rounds.input" >"$out/rounds.printed"
  if ! cmp -s "$out/rounds.expected" "$out/rounds.printed"; then
    echo "rounds: for target/tests/rounds.input the program printed" >&2
    cat "$out/rounds.printed" >&2
    echo "rounds: and this was expected" >&2
    cat "$out/rounds.expected" >&2
    exit 1
  fi
  count=$((count + 1))
}
call='\003\000\001\000\001\000\001\000\000\001\201'
prints ''
prints 'apart 0\n' "$call"
prints 'apart 0\napart 0\n' "$call" "$call"
prints 'apart 0\n' "$call" '\003\000\001\000\001'
prints 'apart 0\n' "$call" '\003\000\001\000\001\000'
prints 'apart 0\n' "$call" '\003\000\001\000\001\000\001\000'
prints 'apart 0\n' "$call" '\003\000\001\000\001\000\001\000\000'
prints 'apart 0\n' "$call" '\003\000\001\000\001\000\001\000\000\001'
prints 'refused 1 0 0\napart 0\n' '\000\004\001\000\001\000' x1026 "$call"
prints '' '\001\004\001\000\001\000' x1027 "$call"
prints 'refused 7 1 0\napart 0\n' '\003\000\114\004\001\000\001\000\000' x1101 "$call"
prints '' '\003\000\115\004\001\000\001\000\000' x1102 "$call"
prints 'refused 7 2 0\napart 0\n' '\003\000\001\000\114\004\001\000\000' x1101 "$call"
prints '' '\003\000\001\000\115\004\001\000\000' x1102 "$call"
echo "rounds: the program reads as expected $count inputs, some that end early or have a size that is too large"
