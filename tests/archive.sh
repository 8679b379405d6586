# Read in at the repository's root, by tests/library.sh and by install: sets archive, the library's archive. Makes it
# first if it is missing or older than a crate. `sh tests/archive.sh` does that alone.
. tests/made.sh
archive=target/staticlib/libbusplan.a
made "$archive" busplan_c libbusplan_c.a lib
