#!/bin/sh
# Installs the library under target/tests and looks at what is there: the files, the pkg-config file, and a program that
# is compiled with what pkg-config tells, as C and as C++, where there is a compiler for that. Every macro of the header
# is used.
set -e
. "$(dirname "$0")/library.sh"
root=$(pwd -P)
out=$root/target/tests/install
rm -rf "$out"
mkdir -p "$out"

wrong() {
  echo "install: $*" >&2
  if [ -s "$out/said" ]; then cat "$out/said" >&2; fi
  exit 1
}

# Installs from the folder out, under a DESTDIR. Nothing is to be printed, and a line said.
installs() { # DESTDIR PREFIX
  (cd "$out" && DESTDIR=$1 "$root/install" "$2") >"$out/printed" 2>"$out/said" || wrong "./install $2 fails"
  if [ -s "$out/printed" ] || [ "$(wc -l <"$out/said")" != 1 ]; then wrong "./install $2 says more than a line"; fi
}

installed() { # FOLDER PREFIX: the files are in the folder, for use under the prefix, as the pkg-config file writes it
  cmp "$library" "$1/lib/libbusplan.a"
  cmp include/busplan.h "$1/include/busplan.h"
  pc=$1/lib/pkgconfig/busplan.pc
  version=$(sed -n 's/^Version: //p' "$pc")
  if ! grep -q "^#define BUSPLAN_VERSION \"$version\"\$" include/busplan.h; then wrong "$pc has another version"; fi
  if [ "$(sed -n 's/^prefix=//p' "$pc")" != "$2" ]; then wrong "$pc has not the prefix $2"; fi
}

# What pkg-config tells, or what it would tell: words as a shell reads them.
flags() { # FOLDER
  if command -v pkg-config >/dev/null 2>&1; then
    PKG_CONFIG_PATH=$1/lib/pkgconfig pkg-config --cflags --libs busplan
  else
    sed -n 's/^prefix=\(.*\)/-I\1\/include -L\1\/lib -lbusplan/p' "$1/lib/pkgconfig/busplan.pc"
  fi
}

strict="-Wall -Wextra -Wpedantic -Werror"
compiles() { # FOLDER COMPILER...: the program, and one that uses every macro
  told=$(flags "$1")
  shift
  eval "\"\$@\" $strict tests/installed.c $told" '-o "$out/program"'
  if [ "$("$out/program")" != "1 3, -8 1 1" ]; then wrong "the program prints something else: $*"; fi
  eval "\"\$@\" $strict" '"$out/macros.c"' "$told" '-o "$out/program"'
  "$out/program"
}

# Each macro that stands for something, with 1 for each parameter.
{
  printf '#include <busplan.h>\nint main(void) {\n'
  sed -n 's/^#define \(BUSPLAN_[A-Z0-9_]*\)\(([a-z0-9_, ]*)\)* .*/\1\2/p' include/busplan.h |
    sed 's/[a-z][a-z0-9_]*/1/g; s/.*/    (void)(&);/'
  printf '    return 0;\n}\n'
} >"$out/macros.c"

escaped=$(printf '%s\n' "$out" | sed 's/ /\\ /g')
installs '' plain
installed "$out/plain" "$escaped/plain"
installs '' "./with a blank//."
installed "$out/with a blank" "$escaped/with\\ a\\ blank"
installs '' "$out/plain/"
installed "$out/plain" "$escaped/plain"
installs "$out/stage" /opt/busplan
installed "$out/stage/opt/busplan" /opt/busplan
installs stage /
installed "$out/stage" ''

languages="C99 and C11"
for folder in "$out/plain" "$out/with a blank"; do
  compiles "$folder" "$cc" -std=c99
  compiles "$folder" "$cc" -std=c11
  if command -v "${CXX:-g++}" >/dev/null 2>&1; then
    compiles "$folder" "${CXX:-g++}" -x c++
    languages="C99, C11 and C++"
  fi
done

refuses() { # ARGUMENT...
  status=0
  (cd "$out" && "$root/install" "$@") >"$out/printed" 2>"$out/said" || status=$?
  if [ "$status" != 2 ] || [ -s "$out/printed" ] || [ ! -s "$out/said" ]; then wrong "./install $* is not refused"; fi
}
before=$(find "$out" | wc -l)
refuses
refuses ''
refuses one two
refuses --help
refuses 'dollar$sign'
if [ "$(find "$out" | wc -l)" != "$before" ]; then wrong "a refused call leaves files"; fi
echo "install: files and pkg-config file as they should be; a program compiles as $languages"
