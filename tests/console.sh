#!/bin/sh
# Compiles examples/console.c, plainly and with the address and undefined behaviour sanitizers where the compiler has
# them, and tries every build on the inputs of tests/console_inputs and on some that are made here. NAME.in has to
# print NAME.out and to report NAME.err, where there is one, and the exit status is 1 exactly if something is reported.
# Lead-ins are cut off, since they are free. At the end the last build gets damaged inputs.
#
#   tests/console.sh [LIBRARY]     LIBRARY: another archive or shared library with the calls of include/busplan.h
#
# SEED (default 1) and MUTANTS (default 2000) set the damaged inputs.
#
# talk.py beside the inputs talks to the console on a terminal.
set -e
. "$(dirname "$0")/library.sh"
export LC_ALL=C ASAN_OPTIONS=exitcode=99 UBSAN_OPTIONS=exitcode=99 # the sanitizers' own status would be 1
out=target/tests/console
rm -rf "$out"
mkdir -p "$out/made" "$out/mutants"
count=0

fail() { # MESSAGE
  echo "console: $1" >&2
  exit 1
}

# ---- Builds

compile() { # NAME FLAG...: the name goes to builds
  name=$1
  shift
  "$cc" -Wall -Wextra -Wpedantic -Wconversion -Iinclude "$@" examples/console.c "$library" \
    -Wl,-rpath,"$(cd "$(dirname "$library")" && pwd)" -o "$out/$name"
  builds="$builds $name"
}

builds=
compile plain -std=c99 -O2
sanitizers="-fsanitize=address,undefined -fno-sanitize-recover=all"
echo 'int main(void) { return 0; }' >"$out/trivial.c"
# shellcheck disable=SC2086 # the flags are several words
if "$cc" $sanitizers "$out/trivial.c" -o "$out/trivial" 2>/dev/null && "$out/trivial" 2>/dev/null; then
  compile sanitized $sanitizers -g -O1
else
  echo "console: no sanitizers: $cc can't link or run a program with $sanitizers"
fi

# ---- Inputs that are made here

made() { # NAME PRINTED REPORTED: the input is on standard input
  cat >"$out/made/$1.in"
  printf '%b' "$2" >"$out/made/$1.out"
  printf '%b' "$3" >"$out/made/$1.err"
}

repeat() { # N TEXT: the text N times
  awk -v n="$1" -v text="$2" 'BEGIN { while (n-- > 0) printf "%s", text }'
}

blanks() { # N
  printf "%$1s" ''
}

awaited() { # LINE [COMMANDS [and gives PAIRS]]
  echo "after the mistake on line $1 a conflicts line${2:+ that names $2} is awaited (conflicts alone keeps what holds)"
}

corrected() { # LINE
  echo "line $1 counts as corrected"
}

nul="nothing of this line is taken: a NUL byte"
cr="nothing of this line is taken: a CR that is not at its end"
long="nothing of this line is taken: over 1,048,576 bytes"

# Line ends.
printf 'commands 4\nconflicts 1-2\nnormal 1 2 -1' | made no_last_newline 'normal form: 1 2 -1\n' ''
printf 'commands 4\nconflicts 1-2\nconflicts 2-3x' | made mistake_without_newline '' \
  'line 3: not a pair of two different commands from 1 to 4: 2-3x\n'
printf 'commands 4\r\nconflicts 1-2\r\n\r\nnormal 1 2 -1\r\nnormal\r\nequal 1 / 1\r\n# \r\nquit\r\n' | made cr_lf \
  'normal form: 1 2 -1\nnormal form: (empty)\nequal\n' ''
printf 'commands 4\r\nnormal 1\r' | made cr_at_the_end 'normal form: 1\n' ''
printf 'commands 4\rconflicts 1-2\rnormal 1 2 -1\r' | made cr_alone '' "line 1: $cr\n"
printf 'commands 4\nconflicts 1-2\r 2-3\nnormal 1\n' | made cr_between '' \
  "line 2: $cr\nline 3: not answered: $(awaited 2 "1 2 3 and gives 1-2 2-3")\n"
printf 'commands 4\nconflicts 1-2 # x\rconflicts 3-4\nnormal 1\nconflicts 1-2 3-4\nnormal 3 4 -3\n' |
  made cr_in_comment "$(corrected 2)\nnormal form: 3 4 -3\n" \
  "line 2: $cr\nline 3: not answered: $(awaited 2 "1 2 3 4 and gives 1-2 3-4")\n"
printf '# 4\rconflicts 1-2\r\ncommands 3\nnormal 1 2 -1\n' | made cr_before_conflicts \
  "no question is answered: $(awaited 1 "1 2 and gives 1-2")\n" \
  "line 1: $cr\nline 3: not answered: $(awaited 1 "1 2 and gives 1-2")\n"
printf 'commands 4\r\r\nconflicts 1-2\r\r\nnormal 1 2 -1\r\r' | made cr_twice 'normal form: 1 2 -1\n' ''

# NUL bytes.
printf 'commands 4\nconflicts 1-2\000 2-3\nnormal 2 3 -2\nconflicts 1-2 2-3\nnormal 2 3 -2\n' | made nul_in_conflicts \
  "$(corrected 2)\nnormal form: 2 3 -2\n" "line 2: $nul\nline 3: not answered: $(awaited 2 "1 2 3 and gives 2-3")\n"
printf 'commands 4\ncommands 4\000\nnormal 1\ncommands 3\nnormal 1\n' | made nul_in_commands \
  "conflicts cleared: 0\n$(corrected 2)\nnormal form: 1\n" \
  "line 2: $nul\nline 3: not answered: after the mistake on line 2 a commands line is awaited\n"
printf 'commands 4\nnormal 1 \000 2\nnormal 1 2\000\nnormal 3\n' | made nul_in_question 'normal form: 3\n' \
  "line 2: $nul\nline 3: $nul\n"
printf 'commands 4\nnor\000mal 1\nnormal 1\nconflicts\nnormal\000\nnormal 1\n' | made nul_in_first_word \
  "$(corrected 2)\n" \
  "line 2: $nul\nline 3: not answered: $(awaited 2 1)\nline 5: $nul\nline 6: not answered: $(awaited 5)\n"
printf 'commands 4\n  \000 conflicts 1-2\nnormal 1\n' | made nul_before_first_word '' \
  "line 2: $nul\nline 3: not answered: $(awaited 2 "1 2 and gives 1-2")\n"
printf 'commands 4\n# \000\n  #\000\nnormal 1 # \000\nconflicts# \000\nnormal 1\n' | made nul_in_comment '' \
  "line 2: $nul\nline 3: $nul\nline 4: $nul\nline 5: $nul\nline 6: not answered: $(awaited 5)\n"
printf 'commands 4\nnormal 1\n\000' | made nul_at_the_end 'normal form: 1\n' "line 3: $nul\n"

# Lines at the limit of 1,048,576 bytes and over it: what stands behind the limit is no line of its own.
{ echo 'commands 4'; printf 'conflicts 1-2%s2-3\n' "$(blanks 1048560)"; echo 'normal 2 3 -2'; } |
  made line_at_the_limit 'normal form: 2 3 -2\n' ''
{ echo 'commands 4'; printf 'conflicts 1-2%snormal 1\nnormal 1\n' "$(blanks 1048563)"; } |
  made long_conflicts '' "line 2: $long\nline 3: not answered: $(awaited 2 "1 2")\n"
{ printf 'commands 4%snormal 1\nnormal 1\ncommands 4\nnormal 1\n' "$(blanks 1048566)"; } |
  made long_commands "$(corrected 1)\nnormal form: 1\n" \
    "line 1: $long\nline 2: not answered: after the mistake on line 1 a commands line is awaited\n"
{ printf 'commands 4\nnormal '; repeat 600000 '1 '; printf '\nnormal 2\n'; } |
  made long_question 'normal form: 2\n' "line 2: $long\n"
{ printf 'commands 4\n'; repeat 1048577 n; printf '\nnormal 2\n'; } |
  made long_first_word '' "line 2: $long\nline 3: not answered: $(awaited 2)\n"
{ printf 'commands 4\n%sconflicts 1-2\nnormal 2\n' "$(blanks 1048576)"; } |
  made long_blanks '' "line 2: $long\nline 3: not answered: $(awaited 2 "1 2")\n"
{ printf 'commands 4\n# '; repeat 1048577 n; printf '\nnormal 2\n'; } |
  made long_comment 'normal form: 2\n' "line 2: $long\n"
{ printf 'commands 4\nnormal 2\n'; repeat 3000000 n; } | made long_last_line 'normal form: 2\n' "line 3: $long\n"

# Plans at their limit and over it, typed one by one and in groups; a lead-in has the same limit here. A text may be as
# long as its line.
ones=$(repeat 1024 '1 ')
over="has over 1,024 commands when it is written out, more than can be typed"
printf 'commands 24\nnormal %s\nnormal 1 %s\ncore (%s)1 -1\nnormal ((1)16)64\n' "$ones" "$ones" "$ones" |
  made plan_of_1025 "normal form: ${ones% }\nnormal form: ${ones% }\n" "\
line 3: the plan $over
line 4: the plan $over
"
printf 'commands 24\nequal %s / ((1)64)16\nequal 1 / %s 1\nloops %s -1 / 9\nloops 9 / %s%s\n' \
  "$ones" "$ones" "$ones" "$ones" "$ones" | made plans_of_1025 'equal\n' "\
line 3: plan 2 $over
line 4: plan 1 $over
line 5: plan 2 $over
"
printf 'commands 24\ncheck 1 / 1 / %s\ncheck 1 / 1 / %s 1\ncheck 1 / 1 / ((1)255)192\n' "$ones" "$ones" |
  made lead_in_of_1025 'yes, a lead-in\n' "\
line 3: plan 3 $over
line 4: plan 3 $over
"
zeros=$(repeat 200000 '(1)0 ')
printf 'commands 4\nplan %s2\nplan %s5\nplan %s2)\n' "$zeros" "$zeros" "$zeros" | made plan_of_a_million_bytes \
  'plan: 2\n' "\
line 3: the plan, column 1000006: 5 is no command of this catalogue
line 4: the plan, column 1000007: no bracket is open: 2)
"

# Slots and places at their limits: as many slots as a plan can have, and as many places as a line can, of which the one
# that is wrong is found by its column. Each of the places that do not stay is asked and told.
printf 'commands 1\nslots ((1)16)64\n' | made slots_of_1024 "$(awk -v ones="${ones% }" 'BEGIN {
  printf "normal form: %s\nslots in use: 1024\n", ones
  for (slot = 0; slot < 1024; slot++) printf "  slot %d: 1\n", slot
}')\n" ''
pairs=$(repeat 260000 '0 1 ')
printf 'commands 2\nconflicts 1-2\nprecedence 1 2/%s\nprecedence 1 2/%s0 2\nprecedence 1 2/%s1\n' \
  "$pairs" "$pairs" "$pairs" | made precedence_of_a_million_bytes 'normal form: 1 2\nyes, in every arrangement\n' "\
line 4: the places, column 1040018: the normal form has the places 0 to 1: 2
line 5: the places, column 1040016: a place without a second one: 1
"
printf 'commands 2\nprecedence 1 2 / %s0 1\n' "$(repeat 999 '0 1,')" | made precedence_of_none "\
normal form: 1 2\nno, not in every arrangement\n\
$(repeat 1000 '  1 at place 0 does not stay before 2 at place 1\n')\n" ''
printf 'commands 2\nprecedence ((1)16)64 / 0 1023\nprecedence ((1)16)64 / 0 1024\n' | made precedence_of_1024 \
  "normal form: ${ones% }\nyes, in every arrangement\n" \
  'line 3: the places, column 26: the normal form has the places 0 to 1023: 1024\n'

# ---- Catalogues

# A catalogue of 24 commands by the pairs that hold, for some seeds and shares in a hundred, with a question for each
# pair: a b equals b a unless they conflict.
random_pairs() { # SEED SHARE FILE
  awk -v seed="$1" -v share="$2" -v input="$3.in" -v printed="$3.out" 'BEGIN {
    srand(seed)
    print "commands 24" >input
    for (a = 1; a <= 24; a++) for (b = a + 1; b <= 24; b++) if (100 * rand() < share) {
      holds[a, b] = 1
      print (rand() < 0.5 ? "conflicts " a "-" b : "conflicts " b "-" a) >input
    }
    for (a = 1; a <= 24; a++) for (b = a + 1; b <= 24; b++) {
      print "equal " a " " b " / " b " " a >input
      if (!((a, b) in holds)) print "equal" >printed
      else printf "not equal; the normal forms are\n  plan 1: %d %d\n  plan 2: %d %d\n", a, b, b, a >printed
    }
  }'
}

for share in 0 10 30 50 70 90 100; do
  random_pairs "$share" "$share" "$out/made/pairs_$share"
done

# A record for each pair: up to 255 pairs in the first edition, and more, up to 276, in the second, in which R and every
# index take two bytes, low byte first. A line that fails changes nothing of it.
some_pairs() { # N: the first N pairs of 24 commands, each behind a blank
  awk -v n="$1" 'BEGIN { for (a = 1; a <= 24; a++) for (b = a + 1; b <= 24; b++) if (n-- > 0) printf " %d-%d", a, b }'
}
catalogue_of() { # N: what the console shows of these pairs
  awk -v n="$1" -v pairs="$(some_pairs "$1")" '
    function in_bytes(number) { return sprintf(second ? " %02x %02x" : " %02x", number % 256, int(number / 256)) }
    BEGIN {
      second = n > 255
      printf "24 commands\nconflicts:%s\nbytes: %02x%s", pairs, 24 + 128 * second, in_bytes(n)
      for (a = 1; a <= 24; a++) {
        printf "%s", in_bytes(a < 24 && used < n ? used + 1 : 0)
        for (b = a + 1; b <= 24 && used < n; b++) {
          used++
          records = records sprintf(" %02x", b) in_bytes(b < 24 && used < n ? used + 1 : 0)
        }
      }
      print records
    }'
}
for pairs in 1 254 255 256 257 276; do
  printf 'commands 24\nconflicts%s\ncatalogue\n' "$(some_pairs "$pairs")" |
    made "all_pairs_$pairs" "$(catalogue_of "$pairs")\n" ''
done
printf 'commands 24\nconflicts%s\nconflicts 24-22x\nconflicts 24-23 22-24 24-24\nconflicts\ncatalogue\n' \
  "$(some_pairs 255)" | made all_pairs_with_mistakes "$(corrected 3)\n$(corrected 4)\n$(catalogue_of 255)\n" "\
line 3: not a pair of two different commands from 1 to 24: 24-22x
line 4: not a pair of two different commands from 1 to 24: 24-24
"
{
  printf 'commands 24\nconflicts%s\n' "$(some_pairs 276)"
  echo 'normal 24 1 -24'
  echo 'equal 23 24 / 24 23'
  echo 'loops 1 2 24 / 24 1 2'
  echo 'commands 24'
  echo 'normal 24 1 -24'
} | made all_pairs_asked "\
normal form: 24 1 -24
not equal; the normal forms are
  plan 1: 23 24
  plan 2: 24 23
joined, lead-in
conflicts cleared: 276
normal form: 1
" ''

# ---- Lead-ins: what loops says is put to check

cat >"$out/lead_ins.in" <<'END'
commands 6
conflicts 1-2 2-3 3-4 5-6
loops 1 2 / 2 1
loops 3 2 1 4 -3 1 / 2 1 4 1
loops 5 6 6 1 2 3 / 2 3 1 6 5 6
loops 5 -1 2 -5 3 / 3 -1 2
loops / -(1 2) 1 2
END
"$out/plain" <"$out/lead_ins.in" | sed -n 's/^joined, lead-in: //p' | sed 's/(empty)//' >"$out/lead_ins"
sed -n 's/^loops/check/p' "$out/lead_ins.in" | paste -d/ - "$out/lead_ins" | sed 's,/\([^/]*\)$, / \1,' >"$out/checks"
{ head -n 2 "$out/lead_ins.in"; cat "$out/checks"; } | made lead_ins_checked "$(repeat 5 'yes, a lead-in\n')\n" ''

# ---- All inputs with all builds

# Runs a build on an input; sets status, and leaves what it prints and reports in $out/printed and $out/reported.
run() { # BUILD INPUT
  status=0
  "$out/$1" <"$2" >"$out/printed" 2>"$out/reported" || status=$?
}

same() { # FOLDER/NAME
  for build in $builds; do
    run "$build" "$1.in"
    sed 's/joined, lead-in: .*/joined, lead-in/' "$out/printed" >"$out/cut"
    expected=/dev/null
    [ ! -e "$1.err" ] || expected=$1.err
    diff "$1.out" "$out/cut" >&2 || fail "$1: $build build: prints something else"
    diff "$expected" "$out/reported" >&2 || fail "$1: $build build: reports something else"
    wanted=0
    [ ! -s "$expected" ] || wanted=1
    [ "$status" -eq "$wanted" ] || fail "$1: $build build: exit status $status, not $wanted"
  done
  count=$((count + 1))
}

for input in tests/console_inputs/*.in "$out"/made/*.in; do
  same "${input%.in}"
done

# The manual shows one of them as a session.
session=tests/console_inputs/manual_session
{ sed 's/^/> /' "$session.in"; cat "$session.out" "$session.err"; } | while IFS= read -r line; do
  grep -qxF "    $line" docs/MANUAL.md || fail "docs/MANUAL.md does not show this line: $line"
done

# ---- Input and output that fail

refuses() { # NAME REPORT: a run has just ended
  [ "$status" -eq 1 ] || fail "$1: $build build: exit status $status, not 1"
  echo "$2" | cmp -s - "$out/reported" || fail "$1: $build build: reports something else: $(cat "$out/reported")"
}

printf 'commands 4\nnormal 1\nnormal 2\n' >"$out/short.in"
for build in $builds; do
  if [ -w /dev/full ]; then
    status=0
    "$out/$build" <"$out/short.in" >/dev/full 2>"$out/reported" || status=$?
    refuses full_output "line 2: cannot write standard output"
    status=0
    "$out/$build" <"$out/made/plan_of_1025.in" >/dev/full 2>"$out/reported" || status=$?
    refuses full_output_long "line 2: cannot write standard output"
  fi
  status=0
  "$out/$build" <"$out/short.in" >&- 2>"$out/reported" || status=$?
  refuses closed_output "line 2: cannot write standard output"
  run "$build" .
  refuses folder_as_input "line 1: cannot read standard input"
  status=0
  "$out/$build" <&- >"$out/printed" 2>"$out/reported" || status=$?
  refuses closed_input "line 1: cannot read standard input"
  status=0
  "$out/$build" "$out/short.in" <"$out/short.in" >"$out/printed" 2>"$out/reported" || status=$?
  if [ "$status" -ne 2 ] || [ -s "$out/printed" ] || ! grep -q 'takes no arguments' "$out/reported"; then
    fail "an argument is not refused: $build build"
  fi
done

# ---- Terminals and pipes

if command -v python3 >/dev/null 2>&1; then
  for build in $builds; do
    python3 tests/console_inputs/talk.py "$out/$build" || fail "on a terminal or in a pipe: $build build"
  done
  terminal="a terminal and pipes"
else
  terminal="no terminal (there is no python3)"
fi

# ---- Damaged inputs, for 10 seconds at most: no crash, the status 0 or 1, and a report exactly if it is 1

awk -v seed="${SEED:-1}" -v mutants="${MUTANTS:-2000}" -v folder="$out/mutants" '
  function any(n) { return 1 + int(n * rand()) }
  function piece(  kind) {
    kind = any(13)
    if (kind == 1) return sprintf("%c", any(256) - 1)
    if (kind == 2) return sprintf("%c", 0)
    if (kind == 3) return "\n"
    if (kind == 4) return any(30)
    if (kind == 5) return "4294967296" any(9)
    if (kind == 6) return "\nconflicts " any(5) "-" any(5) "\n"
    if (kind == 7) return "\ncommands " any(26) "\n"
    if (kind == 8) return "\nplan -(" any(6) " (" any(6) ")" any(300) ")" any(9) "\n"
    if (kind == 9) return "\nprecedence " any(4) " " any(4) "/" any(4) - 1 " " any(4) - 1 "\n"
    return substr(" \t,-/#;x\r\n0+()", any(14), 1)
  }
  function damage(text,  at, size) {
    at = any(length(text) + 1)
    size = rand() < 0.8 ? any(3) : any(60)
    if (rand() < 0.3) return substr(text, 1, at - 1) substr(text, at + size)
    if (rand() < 0.2) return substr(text, 1, at - 1) substr(text, any(length(text)), size) substr(text, at)
    return substr(text, 1, at - 1) piece() substr(text, rand() < 0.5 ? at : at + 1)
  }
  FNR == 1 { files++ }
  { text[files] = text[files] $0 "\n" }
  END {
    srand(seed)
    for (n = 1; n <= mutants; n++) {
      mutant = substr(text[any(files)], 1, 600)
      for (edits = any(8); edits > 0; edits--) mutant = damage(mutant)
      printf "%s", mutant >(folder "/" n)
      close(folder "/" n)
    }
  }' tests/console_inputs/*.in
ASAN_OPTIONS=exitcode=99:detect_leaks=0 # quicker
last=${builds##* }
mutants=0
start=$(date +%s)
for mutant in "$out"/mutants/*; do
  status=0
  "$out/$last" <"$mutant" >"$out/printed" 2>"$mutant.err" || status=$?
  case $status in
    0) [ ! -s "$mutant.err" ] || fail "$mutant: exit status 0 and a report" ;;
    1) [ -s "$mutant.err" ] || fail "$mutant: exit status 1 and no report" ;;
    *) cat "$mutant.err" >&2; fail "$mutant: exit status $status" ;;
  esac
  mutants=$((mutants + 1))
  if [ $((mutants % 100)) -eq 0 ] && [ $(($(date +%s) - start)) -ge 10 ]; then break; fi
done
find "$out/mutants" -name '*.err' -exec cat {} + >"$out/reports"
if grep -v '^line [1-9][0-9]*: ' "$out/reports" >&2; then fail "damaged inputs: a report without a line number"; fi

echo "console: $count inputs, failing input and output, $terminal, with each build:$builds; $mutants damaged inputs"
