#!/bin/sh
# Holds the header to the Rattle source, then compiles the C tests against the library's archive and runs them: the
# table of cases, the example console, an installed library, the stack of each call, calls from several threads, more
# than a million random calls beside a second solver, and a million random texts beside a second reader.
#
#   tests/run.sh [LIBRARY]     LIBRARY: another archive or shared library with the calls of include/busplan.h, which is
#                              then not installed
#
# SEED (default 1), CALLS (default 3000000) and TEXTS (default 1000000) set the random calls and texts.
set -e
"$(dirname "$0")/header.sh"
. "$(dirname "$0")/library.sh"
out=target/tests
mkdir -p "$out"
compile() { # NAME SOURCE...
  name=$1
  shift
  "$cc" -O2 -Wall -Wextra -pthread -Iinclude "$@" "$library" -Wl,-rpath,"$(dirname "$library")" -o "$out/$name"
}
compile cases tests/cases.c tests/guarded.c tests/reader.c tests/solver.c
compile stack tests/stack.c tests/texts.c tests/reader.c tests/supply.c tests/solver.c
compile threads tests/threads.c tests/texts.c tests/reader.c tests/supply.c tests/solver.c
compile differential tests/differential.c tests/guarded.c tests/supply.c tests/brute.c tests/reader.c tests/solver.c
compile notation tests/notation.c tests/guarded.c tests/texts.c tests/reader.c tests/supply.c tests/solver.c

"$out/cases"
tests/console.sh "$library"
if [ -z "$1" ]; then tests/install.sh; fi
"$out/stack"
"$out/threads"
"$out/differential" "${SEED:-1}" "${CALLS:-3000000}"
"$out/notation" "${SEED:-1}" "${TEXTS:-1000000}"
