#!/bin/sh
# Runs the wrong programs of the tables in docs/DECISIONS.md, sections "Must-fail edits" and "Must-fail edits of the
# notation". A row of them names an edit, a row of crates/cases/stdin or crates/cases_texts/stdin, the library's answer
# to that row and the wrong program's. The edit's changes of the code go into a copy, and `rt try` runs the program
# there, unproved, with that row of stdin alone: interpreted, unless that takes more steps than rt allows, and compiled
# with checks. Each row takes some 20 seconds of a processor, most of them to read and compile the sources, and ./test
# runs it.
#
#   tests/edits.sh [EDIT...]     EDIT: CRATE/LABEL; by default all in the tables
#
# AT_A_TIME sets how many rows are tried side by side (by default as many as there are processors).
set -e
cd "$(dirname "$0")/.."
if ! command -v rt >/dev/null 2>&1; then
  echo "$0: the Rattle kit is not on this machine: no command rt" >&2
  exit 1
fi
root=$(pwd -P)
room=$(mktemp -d)
at_a_time=${AT_A_TIME:-$(getconf _NPROCESSORS_ONLN 2>/dev/null || echo 2)}
workers=''
trap 'rm -rf "$room"' EXIT
trap 'kill $workers 2>/dev/null; wait; exit 1' HUP INT TERM

# The tables, a line for each row: edit, program, case, right answer, wrong answer, with tabs between them.
awk -F '|' '
  function cell(text) { gsub(/^[ `]+|[ `]+$/, "", text); return text }
  /^## / { program = ""; heads = 2 }
  $0 == "## Must-fail edits" { program = "cases" }
  $0 == "## Must-fail edits of the notation" { program = "cases_texts" }
  program == "" || !/^\|/ || heads-- > 0 { next }
  NF != 7 { print "edits: a row of the table has not five cells: " $0 > "/dev/stderr"; exit 1 }
  { printf "%s\t%s\t%s\t%s\t%s\n", cell($3), program, cell($4), cell($5), cell($6) }
' docs/DECISIONS.md >"$room/table"

# An edit whose comment names a case stands in the table with that case.
for edit in crates/*/must-fail/*.edit; do
  named=${edit#crates/}
  named=${named%%/*}/$(basename "$edit" .edit)
  for number in $(sed -n 's/^#.*[( ]case \([0-9]*\).*/\1/p' "$edit"); do
    if ! grep -q "^$named	cases	case ${number}[	 ,]" "$room/table"; then
      echo "edits: $edit names case $number, and the table has no row of both" >&2
      exit 1
    fi
  done
done

for edit in "$@"; do
  if ! grep "^$edit	" "$room/table" >>"$room/wanted"; then
    echo "edits: $edit is in no table" >&2
    exit 1
  fi
done
if [ $# -gt 0 ]; then mv "$room/wanted" "$room/table"; fi
rows=$(awk 'END { print NR }' "$room/table")

# The sources, which a row copies: the program cases without its rounds over every small plan, for which the interpreter
# is too slow.
for crate in crates/*; do
  mkdir -p "$room/sources/$crate"
  cp -R "$crate/src" "$room/sources/$crate"
done
cp crates.txt "$room/sources"
sed '/^    every(/d' crates/cases/src/main.rt >"$room/sources/crates/cases/src/main.rt"
if [ "$(diff crates/cases/src/main.rt "$room/sources/crates/cases/src/main.rt" | grep -c '^<')" != 2 ]; then
  echo "edits: crates/cases/src/main.rt has not the two calls of every that are left out here" >&2
  exit 1
fi

# Applies those blocks of an edit that are for files under src/, as rt must-fail does: an old text stands once in its
# file.
apply() { # EDIT FOLDER
  file='' old='' blocks=0
  while IFS= read -r line || [ -n "$line" ]; do
    case $line in
      'file: '*) file=${line#file: } ;;
      'old: '*) old=${line#old: } ;;
      'new:'*)
        case $file in src/*) ;; *) continue ;; esac
        new=${line#new:}
        if ! OLD=$old NEW=${new# } awk '
          { text = text $0 "\n" }
          END {
            old = ENVIRON["OLD"]
            at = index(text, old)
            rest = substr(text, at + length(old))
            if (old == "" || !at || index(rest, old)) exit 1
            printf "%s%s%s", substr(text, 1, at - 1), ENVIRON["NEW"], rest
          }' "$2/$file" >"$2/edited"; then
          echo "this does not stand once in $file: $old"
          return 1
        fi
        mv "$2/edited" "$2/$file"
        blocks=$((blocks + 1))
        ;;
    esac
  done <"$1"
  if [ "$blocks" = 0 ]; then echo "the edit changes no code"; return 1; fi
}

# Whether the program ran and printed what was expected. One that stops is stopped by a check; one that runs on has no
# end within the interpreter's steps, and is stopped where it writes past a row.
as_expected() { # WRONG SAID
  case $1 in
    stops) grep -q '^case=1 run=fault ' "$2" ;;
    'runs on')
      grep -q '^interpreter: no-answer: the run did not finish within [0-9]* steps' "$2" &&
        grep -q '^checked: fault kind=index-out-of-bounds ' "$2"
      ;;
    *) grep -q '^case=1 run=ended status=0 .*output=expected' "$2" ;;
  esac
}

# A case's row of stdin, and the program's lines where it answers so and the library answers right: for cases, which
# puts its rows to a second solver too, and for cases_texts, which prints the text of a row in quotes.
row_of() { # PROGRAM CASE
  case $1 in
    cases) CASE="$2: " awk 'index($0, ENVIRON["CASE"]) == 1' "$root/crates/cases/stdin" ;;
    *) grep -xF "$(printf '%s\n' "$2" | sed 's/"//; s/"$//')" "$root/crates/$1/stdin" ;;
  esac
}
said_of() { # PROGRAM CASE RIGHT ANSWER
  case $1 in
    cases) printf '%s: %s | %s\n' "$2" "$4" "$3" ;;
    *) printf '%s: %s\n' "$2" "$4" ;;
  esac
}
last_of() { # PROGRAM
  case $1 in
    cases) echo '0 of 1 cases agree' ;;
    *) echo '1 rows' ;;
  esac
}

# Runs one row of the table. Says what is wrong, if something is, and fails then.
try_row() { # NUMBER EDIT PROGRAM CASE RIGHT WRONG
  crate=${2%/*} copy=$room/$1 program=$root/crates/$3
  edit=$root/crates/$crate/must-fail/${2#*/}.edit
  if [ ! -f "$edit" ]; then echo "there is no such edit"; return 1; fi
  if [ "$5" = "$6" ]; then echo "the wrong answer is the right one"; return 1; fi
  if ! grep -qxF "$(said_of "$3" "$4" "$5" "$5")" "$program/stdout"; then
    echo "crates/$3/stdout has another right answer"
    return 1
  fi
  cp -R "$room/sources" "$copy"
  apply "$edit" "$copy/crates/$crate" || return 1
  mkdir "$copy/rows"
  row_of "$3" "$4" >"$copy/rows/1"
  if [ "$(grep -c '' "$copy/rows/1")" != 1 ]; then
    echo "crates/$3/stdin has not one row with this name"
    return 1
  fi
  { said_of "$3" "$4" "$5" "$6"; last_of "$3"; } >"$copy/rows/1.stdout"
  (cd "$copy/crates/$3" && rt try --cases ../../rows) >"$copy/said" 2>&1 || true
  as_expected "$6" "$copy/said" || { cat "$copy/said"; return 1; }
  rm -rf "$copy"
}

# Every so many rows, from one on. A row that is as it should be leaves a file behind.
worker() { # FIRST
  number=0
  while IFS='	' read -r edit program name right wrong; do
    number=$((number + 1))
    if [ $((number % at_a_time)) = "$1" ]; then
      if try_row "$number" "$edit" "$program" "$name" "$right" "$wrong" >"$room/$number.fault" 2>&1; then
        : >"$room/$number.good"
      fi
    fi
  done <"$room/table"
}

first=0
while [ "$first" -lt "$at_a_time" ]; do
  worker "$first" &
  workers="$workers $!"
  first=$((first + 1))
done
wait

number=0 faults=0
while IFS= read -r row; do
  number=$((number + 1))
  if [ ! -e "$room/$number.good" ]; then
    echo "edits: $row" >&2
    if [ -e "$room/$number.fault" ]; then cut -c1-400 "$room/$number.fault" >&2; fi
    faults=$((faults + 1))
  fi
done <"$room/table"
if [ "$faults" != 0 ] || [ "$rows" = 0 ]; then
  echo "edits: of $rows rows of the tables $faults do not hold" >&2
  exit 1
fi
echo "edits: $rows wrong programs change the answer of their case"
