# Read in at the repository's root by what needs something that rt builds. What is kept of it stands under target/, since
# `rt ci` sets aside what stands in a crate's out/.

# Prints a file or folder of the crates that is newer than a file, if there is one. What rt makes does not count: a crate's
# out/, and the folder of the crate, which is newer when out/ is new.
newer() { # FILE
  find crates crates.txt -name out -prune -o \( -type f -o -path 'crates/*/*' \) -newer "$1" -print | head -n 1
}

# Has rt prove a crate and all below it, and build it, if FILE is missing or older than a crate; then FILE is a copy of
# what was built. A file of the crates that is changed meanwhile is newer.
made() { # FILE CRATE BUILT WORD...: rt WORD... builds crates/CRATE/out/BUILT
  file=$1 crate=$2 built=$3
  shift 3
  if [ -e "$file" ] && [ -z "$(newer "$file")" ]; then return; fi
  if ! command -v rt >/dev/null 2>&1; then
    echo "$0: the Rattle kit is not on this machine: no command rt" >&2
    exit 1
  fi
  echo "$0: $file is missing or older than a crate, and is made: every crate that it needs is proved" >&2
  mkdir -p "$(dirname "$file")"
  : >"$file.mark"
  (cd "crates/$crate" && rt "$@" </dev/null) >&2
  cp "crates/$crate/out/$built" "$file"
  touch -r "$file.mark" "$file"
  rm "$file.mark"
}
