#!/bin/sh
# Calls ./run in each of its ways, and compares standard output to the byte, a sentence of standard error, and the
# status. Where crates are to be proved, or not to be provable, it does so in a small repository that is made here.
set -e
cd "$(dirname "$0")/.."
root=$(pwd -P)
out=$root/target/tests/program
rm -rf "$out"
mkdir -p "$out"
if [ ! -e target/bin/loops ]; then ./run >/dev/null; fi
room=$(mktemp -d) # what may not stand in the repository: a link, and a repository
trap 'rm -rf "$room"' EXIT
count=0

expect() { # STATUS OUTPUT SENTENCE COMMAND...: the command ends so, prints that, and says the sentence
  status=$1 output=$2 sentence=$3 got=0
  shift 3
  "$@" >"$out/printed" 2>"$out/said" || got=$?
  printf "$output" >"$out/expected"
  if [ "$got" != "$status" ] || ! cmp -s "$out/expected" "$out/printed" || ! grep -qF -- "$sentence" "$out/said"; then
    echo "program: $*: expected status $status, on standard error: $sentence" >&2
    echo "program: and on standard output: $output" >&2
    echo "program: the status was $got, on standard output:" >&2
    cat "$out/printed" >&2
    echo "program: and on standard error:" >&2
    cat "$out/said" >&2
    exit 1
  fi
  count=$((count + 1))
}

said() { # SENTENCE: the last command said this too
  if ! grep -qF -- "$1" "$out/said"; then
    echo "program: not said: $1" >&2
    cat "$out/said" >&2
    exit 1
  fi
}

answers() { # LINE SENTENCE BYTES: the program's answer to these bytes, and what is said last
  printf "$3" >"$out/input"
  expect 0 "loops 1\n$1\n" "$2" ./run "$out/input"
  if [ "$(tail -n 1 "$out/said")" != "run: $2" ]; then
    echo "program: this is not said last: $2" >&2
    exit 1
  fi
}

refused() { # LINE FAULT BYTES: the program refuses these bytes
  answers "refused $1" "refused by line ${1%% *} of the manual's table: $2." "$3"
}

# The ways to call it. The example is joined, the other input apart.
example='loops 1\njoined 2\n'
apart='loops 1\napart\n'
shows="loops gets the manual's example"
none="no lead-in, of any length, makes one into the other"
k='\004\003\001\002\003\000\002\000\003\000\004\000'
apart_plans='\001\000\001\001\000\201'
for name in apart -x "a name with spaces"; do printf "$k$apart_plans" >"$out/$name"; done

expect 0 "$example" "$shows" ./run <&-
expect 0 "$example" "$shows" ./run </dev/null
said "The core of each has 2 letters."
said "nothing is to be proved"
expect 0 "$example" "$shows" ./run <"$out/apart"
mkfifo "$out/endless"
exec 9<>"$out/endless"
printf unread >&9
expect 0 "$example" "$shows" timeout 60 ./run <&9
if [ "$(dd bs=1 count=6 <&9 2>/dev/null)" != unread ]; then
  echo "program: ./run without an argument has read standard input" >&2
  exit 1
fi
exec 9<&-

expect 0 "$apart" "$none" ./run "$out/apart"
expect 0 "$apart" "loops gets the file target/tests/program/apart" ./run target/tests/program/apart
expect 0 "$apart" "$none" ./run "$out/a name with spaces"
cd "$out"
expect 0 "$apart" "loops gets the file ./-x" "$root/run" ./-x
expect 0 "$apart" "loops gets the file apart" ../../../run apart
cd "$root"

expect 0 "$example" "loops gets standard input" ./run - <crates/loops/stdin
expect 0 "$apart" "loops gets standard input" ./run - <"$out/apart"
expect 0 'loops 1\nrefused 11 0 0\n' "the input is badly framed" ./run - </dev/null
expect 0 'loops 1\nrefused 11 0 0\n' "the input is badly framed" sh -c 'false | ./run -'
expect 0 "$example" "loops gets standard input" sh -c 'cat crates/loops/stdin | ./run -'
expect 2 '' "standard input is closed" ./run - <&-
expect 2 '' "standard input is a directory" ./run - <.

usage="usage: ./run"
expect 2 '' "$usage" ./run "$out/apart" "$out/apart"
said "there are 2 arguments"
expect 2 '' "$usage" ./run "$out/missing"
said "there is no file $out/missing"
expect 2 '' "$usage" ./run ''
expect 2 '' "$usage" ./run "$out"
said "$out is a directory"
expect 2 '' "$usage" ./run -x
said "there is no option -x"
expect 0 '' "$usage" ./run --help
if [ "$(id -u)" != 0 ]; then
  chmod a-r "$out/a name with spaces"
  expect 2 '' "cannot be read" ./run "$out/a name with spaces"
fi
mkdir "$room/no_rt"
ln -s "$(command -v dirname)" "$room/no_rt"
expect 1 '' "the Rattle kit is not on this machine" env PATH="$room/no_rt" ./run

# Each answer in words.
zeros() { awk -v n="$1" 'BEGIN { while (n-- > 0) printf "\\000" }'; }
joined="the two loops are joined: some lead-in makes one into the other. The core of each has"
answers "joined 1" "$joined 1 letter." "$k"'\003\000\001\002\201\001\000\002'
answers "joined 0" "$joined 0 letters." '\000\000\000\000\000\000'
answers "apart" "the two loops are apart: $none." "$k$apart_plans"
refused "2 0 0" "the catalogue has more than 24 commands" '\031\000'"$(zeros 25)"'\000\000\000\000'
refused "3 0 4" "the catalogue has, at place 4 (counted from 0), a head or next index above R" \
  '\003\001\000\000\002\001\000\000\000\000\000'
refused "4 0 5" "the catalogue has, at place 5 (counted from 0), a record's command that is 0 or above N" \
  '\003\001\000\000\001\004\000\000\000\000\000'
refused "5 0 3" "the catalogue has, at place 3 (counted from 0), the head of command 2, whose chain doesn't end" \
  '\003\001\000\001\000\001\001\000\000\000\000'
refused "6 0 4" "the catalogue has, at place 4 (counted from 0), the head of command 3, which stands in its own chain" \
  '\003\001\000\000\001\003\000\000\000\000\000'
refused "7 2 0" "plan 2 has more than 1,024 bytes" "$k"'\000\000\001\004'"$(zeros 1025)"
refused "8 1 0" "plan 1 has, at place 0 (counted from 0), a byte that is not 0, 1 to N or 129 to 128 + N" \
  "$k"'\001\000\005\000\000'
refused "11 0 0" "the input is badly framed: it ends early, has bytes left over or is longer than 8,192 bytes" \
  "$k"'\000\000\000\000\000'

# The same of the second edition. The program gets every byte as it is, also the first.
k2='\204\003\000\001\000\002\000\003\000\000\000\002\000\000\003\000\000\004\000\000'
answers "joined 1" "$joined 1 letter." "$k2"'\003\000\001\002\201\001\000\002'
refused "2 0 0" "the catalogue has more than 24 commands" '\231\000\000'"$(zeros 50)"'\000\000\000\000'
refused "17 0 1" "the catalogue has more than 1,024 records" '\200\001\004'"$(zeros 3075)"'\000\000\000\000'
refused "5 0 5" "the catalogue has, at place 5 (counted from 0), the head of command 2, whose chain doesn't end" \
  '\202\001\000\000\000\001\000\001\001\000\000\000\000\000'
refused "6 0 7" "the catalogue has, at place 7 (counted from 0), the head of command 3, which stands in its own chain" \
  '\203\001\000\000\000\000\000\001\000\003\000\000\000\000\000\000'
refused "11 0 0" "the input is badly framed: it ends early, has bytes left over or is longer than 8,192 bytes" \
  '\200\000'

# The first time, a time when nothing has changed, and a proof that fails, in a repository of two crates and one more
# that the program does not need.
small=$room/small
mkdir -p "$small/tests" "$small/crates/half/src" "$small/crates/unneeded/src" "$small/crates/loops/src"
cp run "$small"
cp tests/made.sh "$small/tests"
cat >"$small/crates.txt" <<'END'
half:
unneeded: half # and not provable
loops: half io
END
cat >"$small/crates/half/src/lib.rt" <<'END'
#![tactic(auto)]

pub fn half(x: u64) -> u64 {
    x / 2
}
END
printf '#![tactic(auto)]\n\npub fn unneeded(x: u64) -> u64 {\n    half::half(x) + x\n}\n' >"$small/crates/unneeded/src/lib.rt"
cat >"$small/crates/loops/src/main.rt" <<'END'
#![tactic(auto)]

fn main() {
    io::write_all(1, b"loops 1\napart\n");
}
END
printf "$apart" >"$small/crates/loops/stdout"
: >"$small/crates/loops/stdin"
first_time() { # the first crate is told while it is being proved
  "$small/run" &
  waited=0
  until grep -q -e 'proving crate half' -e 'run: proved' "$out/said" || [ "$waited" = 100 ]; do
    sleep 1
    waited=$((waited + 1))
  done
  if grep 'run: proved' "$out/said"; then return 1; fi
  wait $!
}
expect 0 "$apart" "stands on 2 crates, itself counted, and 2 of them are not proved here yet" first_time
said "run: the first time this takes some minutes"
said "run: proving crate half (1 of 2)"
said "run: proving crate loops (2 of 2)"
said "run: proved 2 of 2 crates in "
expect 0 "$apart" "run: nothing is to be proved: the program loops is newer" "$small/run"
touch "$small/crates/half/src/lib.rt"
expect 0 "$apart" "run: nothing is to be proved: all 2 crates are as they were" "$small/run"
expect 0 "$apart" "run: nothing is to be proved: the program loops is newer" "$small/run"
rm "$small/target/bin/loops" "$small/crates/loops/out/loops"
expect 0 "$apart" "run: proved 1 of 2 crates" "$small/run"
if grep 'proving crate half' "$out/said" >&2; then exit 1; fi # it is as it was
printf 'pub fn half(x: u64, y: u64) -> u64 {\n    x / y\n}\n' >"$small/crates/half/src/lib.rt"
expect 1 '' "run: crate half is not proved; the end of target/log/run.txt:" "$small/run"
said "fn half::half: no proof"

# README.md shows, as they are, the example's bytes, a caller in Rattle, what it prints, and what another hands on.
bytes=$(od -An -v -tx1 crates/loops/stdin | tr -s ' \n' '  ' | sed 's/^ *//; s/ *$//')
caller=$(sed -n '/^fn /,$p' crates/example/src/main.rt | sed 's/^./    &/')
prints=$(sed 's/^/    /' crates/example/stdout)
hands_on=$(sed -n '/^fn show/,/^}/p' crates/example_slice/src/main.rt | sed 's/^./    &/')
for shown in "$bytes" "$caller" "$prints" "$hands_on"; do
  case $(cat README.md) in
    *"$shown"*) ;;
    *)
      echo "program: README.md does not show this: $shown" >&2
      exit 1
      ;;
  esac
done
echo "program: ./run does what is expected in $count calls"
