#!/bin/sh
# Measures the library beside two C programs with the same calls, in one run: bench/beads.c, which is written for speed,
# and the plain solver of tests/.
#
#   bench/run.sh [LIBRARY]                 processor time
#   bench/run.sh instructions [LIBRARY]    instructions, which are the same each time; needs valgrind
#
# LIBRARY: another archive or shared library with the calls of include/busplan.h
set -e
what=time
if [ "$1" = instructions ]; then
  what=instructions
  shift
  if ! command -v valgrind >/dev/null 2>&1; then
    echo "$0: skipped: valgrind, which counts the instructions, is not on this machine"
    exit 0
  fi
fi
. "$(dirname "$0")/../tests/library.sh"
out=target/bench
mkdir -p "$out"
"$cc" -O3 -Wall -Wextra -Iinclude -Itests bench/bench.c bench/beads.c tests/supply.c tests/reader.c tests/solver.c \
  "$library" -Wl,-rpath,"$(dirname "$library")" -o "$out/bench"
if [ $what = time ]; then
  "$out/bench"
else
  valgrind -q --tool=callgrind --callgrind-out-file="$out/callgrind.out" --toggle-collect=counted_call \
    --dump-after=counted_call "$out/bench" "$out/callgrind.out"
  rm -f "$out/callgrind.out"
fi
