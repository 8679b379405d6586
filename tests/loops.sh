#!/bin/sh
# Feeds the program loops the inputs of tests/loops_inputs and some long ones that are made here, and compares what it
# prints to the byte.
#
#   tests/loops.sh [PROGRAM]     PROGRAM: by default target/bin/loops, which is made first if it is missing or old
set -e
cd "$(dirname "$0")/.."
program=${1:-target/bin/loops}
if [ -z "$1" ]; then
  . tests/made.sh
  made "$program" loops loops run
fi
out=target/tests/loops
mkdir -p "$out"
count=0

# Hexadecimal digits to bytes, by octal escapes, which every printf knows.
bytes() {
  escapes=$(awk '
    BEGIN { digits = "0123456789abcdef" }
    { gsub(/[^0-9a-f]/, "")
      for (i = 1; i < length($0); i += 2)
        printf "\\%03o", 16 * (index(digits, substr($0, i, 1)) - 1) + index(digits, substr($0, i + 1, 1)) - 1 }')
  printf "$escapes"
}

same() { # NAME: NAME.in makes the program print NAME.out
  "$program" <"$out/$1.in" >"$out/$1.got"
  if ! cmp -s "$out/$1.out" "$out/$1.got"; then
    echo "loops: $1: expected" >&2
    cat "$out/$1.out" >&2
    echo "loops: $1: printed" >&2
    cat "$out/$1.got" >&2
    exit 1
  fi
  count=$((count + 1))
}

long() { # NAME LINE PART...: a part is bytes in hexadecimal, or xN for N bytes 0, or yN for N bytes 1
  name=$1
  printf 'loops 1\n%s\n' "$2" >"$out/$name.out"
  shift 2
  for part in "$@"; do
    case $part in
      x*) head -c "${part#x}" /dev/zero ;;
      y*) head -c "${part#y}" /dev/zero | tr '\000' '\001' ;;
      *) echo "$part" | bytes ;;
    esac
  done >"$out/$name.in"
  same "$name"
}

for hex in tests/loops_inputs/*.hex; do
  name=$(basename "$hex" .hex)
  bytes <"$hex" >"$out/$name.in"
  cp "${hex%.hex}.out" "$out/$name.out"
  same "$name"
done

k="04 03 01 02 03 00 02 00 03 00 04 00"
records=$(awk 'BEGIN { while (n++ < 255) printf "01 00 " }')
long commands_127 "refused 2 0 0" "7f 00" x127 "00 00 00 00"
long commands_127_one_less "refused 11 0 0" "7f 00" x126 "00 00 00 00"
long records_255 "refused 2 0 0" "7f ff" x637 "00 00 00 00"
long largest_catalogue "joined 1024" "18 ff" x24 "$records 00 04" y1024 "00 04" y1024
long plans_of_1024 "joined 1024" "$k 00 04" y1024 "00 04" y1024
long plan_1_of_1025 "refused 7 1 0" "$k 01 04" x1025 "00 00"
long plan_2_of_1025 "refused 7 2 0" "$k 00 00 01 04" x1025
long byte_before_size "refused 8 1 0" "$k 01 00 05 01 04" x1025
long bytes_8192 "refused 7 2 0" "$k 00 04" x1024 "f0 1b" x7152
long bytes_8193 "refused 11 0 0" "$k 00 04" x1024 "f1 1b" x7153
long bytes_100000 "refused 11 0 0" "$k" x99988

# The second edition: 1,024 records in one chain, which command 1 has, and R or N too large in the right size or not.
k2="84 03 00 01 00 02 00 03 00 00 00 02 00 00 03 00 00 04 00 00"
chain=$(awk 'BEGIN { for (r = 2; r <= 1024; r++) printf "02 %02x %02x ", r % 256, r / 256; print "02 00 00" }')
long second_largest_catalogue "joined 2" "98 00 04 01 00" x46 "$chain 02 00 01 02 02 00 02 01"
long second_largest_input "joined 1024" "98 00 04 01 00" x46 "$chain 00 04" y1024 "00 04" y1024
long second_records_1025 "refused 17 0 1" "98 01 04" x3123 "00 00 00 00"
long second_records_1025_one_less "refused 11 0 0" "98 01 04" x3122 "00 00 00 00"
long second_records_1025_of_25 "refused 2 0 0" "99 01 04" x3125 "00 00 00 00"
long second_records_1025_and_a_head "refused 17 0 1" "81 01 04 ff ff" x3075 "00 00 00 00"
long second_records_2728 "refused 17 0 1" "80 a8 0a" x8184 "00 00 00 00"
long second_records_2729 "refused 11 0 0" "80 a9 0a" x8187 "00 00 00 00"
long second_mark_left_in_n "refused 11 0 0" "84 00 00" x264 "00 00 00 00"
long second_commands_127 "refused 2 0 0" "ff 00 00" x254 "00 00 00 00"
long second_commands_127_one_less "refused 11 0 0" "ff 00 00" x253 "00 00 00 00"
long second_plan_1_of_1025 "refused 7 1 0" "$k2 01 04" x1025 "00 00"
long second_bytes_8192 "refused 7 2 0" "$k2 00 04" x1024 "e8 1b" x7144
long second_bytes_8193 "refused 11 0 0" "$k2 00 04" x1024 "e9 1b" x7145
echo "loops: prints what is expected for $count inputs"
