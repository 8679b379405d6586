# Read in with their arguments by the scripts that compile against the library: goes to the repository's root and sets
# cc, the C compiler, and library, the archive to link.
library=${1:+$(cd "$(dirname "$1")" && pwd)/$(basename "$1")}
cd "$(dirname "$0")/.."
cc=${CC:-gcc}
if ! command -v "$cc" >/dev/null 2>&1; then
  echo "$0: skipped: there is no C compiler on this machine: no command $cc"
  exit 0
fi
if [ -z "$library" ]; then
  . tests/archive.sh
  library=$archive
fi
