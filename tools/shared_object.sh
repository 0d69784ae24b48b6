#!/usr/bin/env bash
# Makes a shared object of a version's library, so that two versions can be loaded by path in one run of the speed comparison.
#   tools/library.sh && tools/shared_object.sh OUT.so
set -euo pipefail
archive="$(dirname "$0")/../target/staticlib/libbrine.a"
[ -f "$archive" ] || { echo "there is no $archive: run 'tools/library.sh'" >&2; exit 2; }
cc -shared -Wl,--whole-archive "$archive" -Wl,--no-whole-archive -o "${1:?name the shared object to write}"
