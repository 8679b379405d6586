#!/bin/sh
# Holds include/busplan.h to the Rattle source, which no compiler does: the functions that the crate busplan_c exports, by
# name, order, result and parameters; the numbers of the refusals and the limits, as the crate spec has them. Number 10
# is retired and must be no refusal's. Then it damages copies of the header, and each must be caught. It needs neither
# rt nor a C compiler.
#
#   tests/header.sh [HEADER]     HEADER: by default include/busplan.h
set -e
header=${1:+$(cd "$(dirname "$1")" && pwd)/$(basename "$1")}
cd "$(dirname "$0")/.."
header=${header:-include/busplan.h}
out=target/tests/header
mkdir -p "$out"

# Both sides write a line for each thing to compare: its name, a tab, and its form in C.

# The functions of the Rattle source. A slice is a pointer and a length in C; an array there is an array of C.
exported() {
  awk '
    BEGIN {
      split("u8 uint8_t u16 uint16_t u32 uint32_t u64 uint64_t usize size_t i64 int64_t i32 int32_t bool bool", t, " ")
      for (i = 1; i in t; i += 2) in_c[t[i]] = t[i + 1]
    }
    function type(name) { return name in in_c ? in_c[name] : "(no type of C: " name ")" }
    function parameter(text,   name, lent, count) {
      name = text
      sub(/ *:.*/, "", name)
      sub(/^[^:]*: */, "", text)
      if (text !~ /^&/) return type(text) " " name
      lent = text ~ /^&mut / ? "" : "const "
      gsub(/^&(mut )?\[|\]$/, "", text)
      if (split(text, count, / *; */) == 2) return lent type(count[1]) " " name "[" count[2] "]"
      return lent type(text) " *" name ", size_t " name "_size"
    }
    function show(text,   name, result, list, n, i, form) {
      name = result = text
      gsub(/.* fn | *\(.*/, "", name)
      gsub(/.*\) *-> *|[ {]*$/, "", result)
      gsub(/^[^(]*\( *|,? *\).*/, "", text)
      n = split(text, list, / *, */)
      for (i = 1; i <= n; i++) form = form (i > 1 ? ", " : "") parameter(list[i])
      print name "\t" type(result) " " name "(" (n > 0 ? form : "void") ")"
    }
    { sub(/\/\/.*/, "") }
    /#\[unsafe\(no_mangle\)\]/ { marked = 1 }
    marked && /pub extern "C" fn/ { reading = 1; marked = 0; text = "" }
    reading { text = text " " $0 }
    reading && /\)/ { show(text); reading = 0 }
  ' crates/busplan_c/src/*.rt
}

# The refusals and the limits of the specification.
specified() {
  awk '
    $1 == "number_of" && $3 == "=" {
      name = $2
      gsub(/[A-Z]/, "_&", name)
      print "BUSPLAN" toupper(name) "\tBUSPLAN" toupper(name) " = " $4
    }
  ' crates/spec/specs/Table.antt
  limit 's/^count_line c = holds (ltb \([0-9]*\) .*/BUSPLAN_MAX_COMMANDS \1/p' crates/spec/specs/Catalogue.antt
  limit 's/^records_line c = holds (ltb \([0-9]*\) .*/BUSPLAN_MAX_RECORDS \1/p' crates/spec/specs/Catalogue.antt
  limit 's/^plan_limit = /BUSPLAN_MAX_PLAN /p' crates/spec/specs/Calls.antt
  limit 's/^lead_in_limit = /BUSPLAN_MAX_LEAD_IN /p' crates/spec/specs/Loops.antt
  limit 's/^first_deep d i (opening .*(leb \([0-9]*\) d).*/BUSPLAN_MAX_NESTING \1/p' crates/spec/specs/Notation.antt
}

limit() { sed -n "$1" "$2" | awk '{ print $1 "\t" $1 " " $2 }'; } # SCRIPT FILE: the script leaves a name and a number

# The header's functions, refusals and limits.
declared() { # HEADER
  uncommented "$1" >"$out/uncommented"
  prototypes <"$out/uncommented"
  sed -n '/^enum busplan_refusal {/,/}/s/^ *\(BUSPLAN[A-Z_]*\) *= *\([0-9]*\).*/\1	\1 = \2/p' "$out/uncommented"
  for largest in COMMANDS RECORDS PLAN LEAD_IN NESTING; do
    limit "s/^#define \(BUSPLAN_MAX_$largest \)/\1/p" "$1"
  done
}

# Without comments and without lines for the preprocessor.
uncommented() { # HEADER
  awk '
    { all = all $0 "\n" }
    END {
      while (i = index(all, "/*")) {
        rest = substr(all, i + 2)
        all = substr(all, 1, i - 1) substr(rest, index(rest, "*/") + 2)
      }
      printf "%s", all
    }
  ' "$1" | awk '/^ *#/ || more { more = /\\$/; next } { print }'
}

# The declarations with parameters, but no function whose body stands here. What encloses all for C++ is no body.
prototypes() {
  awk '
    function show(text,   name) {
      gsub(/[ \t]+/, " ", text)
      gsub(/^ | $/, "", text)
      gsub(/ ?\* ?/, " *", text)
      gsub(/ ?, ?/, ", ", text)
      gsub(/ ?\( ?/, "(", text)
      gsub(/ ?\) ?/, ")", text)
      name = text
      gsub(/\(.*/, "", name)
      gsub(/.*[ *]/, "", name)
      print name "\t" text
    }
    { sub(/extern "C" \{/, ""); all = all " " $0 }
    END {
      for (i = 1; i <= length(all); i++) {
        c = substr(all, i, 1)
        if (c == "{") depth++
        else if (c == "}") { if (depth > 0) depth--; text = "" }
        else if (c == ";" && depth == 0) { if (text ~ /\(/) show(text); text = "" }
        else if (depth == 0) text = text c
      }
    }
  '
}

compare() { # HEADER: says what differs, and fails if anything does
  declared "$1" >"$out/declared"
  awk -F '\t' '
    function wrong(what) { print "header: " what; failed = 1 }
    FNR == NR { source[$1] = $2; place[$1] = FNR; next }
    $1 in form { wrong($1 " is in the header twice") }
    { name[FNR] = $1; form[$1] = $2; n = FNR }
    !($1 in source) { wrong($1 " is in the header and not in the Rattle source: " $2) }
    END {
      for (i in source) if (!(i in form)) wrong(i " is in the Rattle source and not in the header: " source[i])
      for (i = 1; i <= n; i++) if (name[i] in source && form[name[i]] != source[name[i]])
        wrong(name[i] ":\n  the Rattle source: " source[name[i]] "\n  the header:        " form[name[i]])
      for (i = 1; i <= n && !failed; i++) if (place[name[i]] != i)
        wrong(name[i] " is number " i " in the header and number " place[name[i]] " in the Rattle source")
      exit failed
    }
  ' "$out/source" "$out/declared"
}

{ exported; specified; } >"$out/source"
for name in busplan_normal_form BUSPLAN_FRAMING \
  BUSPLAN_MAX_COMMANDS BUSPLAN_MAX_RECORDS BUSPLAN_MAX_PLAN BUSPLAN_MAX_LEAD_IN BUSPLAN_MAX_NESTING; do
  if ! grep -q "^$name	" "$out/source"; then
    echo "header: $name is not found in the Rattle source" >&2
    exit 1
  fi
done
retired() { ! grep ' = 10$' "$1"; } # SOURCE
if ! retired "$out/source" >&2; then
  echo "header: 10 is retired, and the Rattle source uses it again" >&2
  exit 1
fi
sed 's/\(BUSPLAN_FRAMING.*\) = 11$/\1 = 10/' "$out/source" >"$out/reused"
if retired "$out/reused" >"$out/said"; then
  echo "header: a retired number that the Rattle source uses again is not caught" >&2
  exit 1
fi
compare "$header" >&2

# A way to damage the header: what it is, the name that must be told, and what sed does.
damages=0
while IFS='|' read -r what name script; do
  sed "$script" "$header" >"$out/damaged.h"
  if cmp -s "$header" "$out/damaged.h"; then
    echo "header: $what: the header is not damaged by it" >&2
    exit 1
  fi
  if compare "$out/damaged.h" >"$out/told" || ! grep -q "^header: ${name}[: ]" "$out/told"; then
    echo "header: $what: not caught" >&2
    exit 1
  fi
  damages=$((damages + 1))
done <<'END'
a function renamed|busplan_same|s/^int64_t busplan_equal(/int64_t busplan_same(/
its old name missing|busplan_equal|s/^int64_t busplan_equal(/int64_t busplan_same(/
a function left out|busplan_equal|/^int64_t busplan_equal(/,/;/d
a function too many|busplan_more|s/^int64_t busplan_equal(/int64_t busplan_more(void); &/
a function declared twice|busplan_core|s/^int64_t busplan_core(/int64_t busplan_core(void); &/
two functions in another order|busplan_core|s/_core(/_x(/;s/_normal_form(/_core(/;s/_x(/_normal_form(/
parameters swapped|busplan_equal|/ busplan_equal(/,/;/y/vw/wv/
a parameter left out|busplan_loops|/ busplan_loops(/,/;/s/const uint8_t \*w, size_t w_size,//
const dropped|busplan_equal|/ busplan_equal(/,/;/s/const uint8_t \*w/uint8_t *w/
const too many|busplan_loops|/ busplan_loops(/,/;/s/uint8_t \*area/const uint8_t *area/
a length of another type|busplan_loops|/ busplan_loops(/,/;/s/size_t w_size/uint32_t w_size/
a length of another name|busplan_loops|/ busplan_loops(/,/;/s/size_t area_size/size_t size/
a result of another type|busplan_equal|s/^int64_t busplan_equal(/int32_t busplan_equal(/
an array of another length|busplan_fault|s/uint64_t fault\[2\]/uint64_t fault[3]/
a refusal of another number|BUSPLAN_INDEX|s/BUSPLAN_INDEX = 3/BUSPLAN_INDEX = 4/
a refusal renamed|BUSPLAN_PLACE|s/BUSPLAN_INDEX = 3/BUSPLAN_PLACE = 3/
a refusal left out|BUSPLAN_FRAMING|/BUSPLAN_FRAMING = 11/d
a refusal that is retired|BUSPLAN_UNSETTLED|s/.* 10 is retired.*/BUSPLAN_UNSETTLED = 10,/
the number of one that is retired|BUSPLAN_FRAMING|s/BUSPLAN_FRAMING = 11/BUSPLAN_FRAMING = 10/
another limit|BUSPLAN_MAX_PLAN|s/^#define BUSPLAN_MAX_PLAN .*/#define BUSPLAN_MAX_PLAN 1023/
another nesting|BUSPLAN_MAX_NESTING|s/^#define BUSPLAN_MAX_NESTING .*/#define BUSPLAN_MAX_NESTING 9/
a call on texts left out|busplan_text_fault|/^int64_t busplan_text_fault(/,/;/d
a number for each byte|busplan_slots|/ busplan_slots(/,/;/s/uint16_t \*slots/uint8_t *slots/
a list that may be changed|busplan_precedence|/ busplan_precedence(/,/;/s/const uint16_t \*places/uint16_t *places/
room for one number more|busplan_slots|s/uint64_t in_use\[1\]/uint64_t in_use[2]/
a refusal of places left out|BUSPLAN_PLACES|/BUSPLAN_PLACES = 16/d
a refusal of the second edition left out|BUSPLAN_RECORD_COUNT|/BUSPLAN_RECORD_COUNT = 17/d
another limit on records|BUSPLAN_MAX_RECORDS|s/^#define BUSPLAN_MAX_RECORDS .*/#define BUSPLAN_MAX_RECORDS 255/
END
echo "header: $(awk 'END { print NR }' "$out/source") names as in the Rattle source; $damages damaged copies caught"
