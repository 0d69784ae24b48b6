#!/usr/bin/env bash
# The front for C: the header alone, in C and in C++ where there is a compiler; each function; both example programs.
# It needs target/staticlib/libbrine.a ('tools/library.sh'), or the folder of libbrine.a in BRINE_LIBRARY_FOLDER.
set -euo pipefail
cd "$(dirname "$0")/.."
archive=${BRINE_LIBRARY_FOLDER:-target/staticlib}/libbrine.a
[ -f "$archive" ] || { echo "there is no $archive: run 'tools/library.sh'" >&2; exit 2; }
scratch=$(mktemp -d)
trap 'rm -rf -- "$scratch"' EXIT
warnings=(-Wall -Wextra -Wpedantic -Werror)

echo '#include "brinetoggle.h"' > "$scratch/header.c"
cc -std=c99 "${warnings[@]}" -Iinclude -fsyntax-only "$scratch/header.c"
if command -v c++ > /dev/null; then
  cp "$scratch/header.c" "$scratch/header.cpp"
  c++ -std=c++11 "${warnings[@]}" -Iinclude -fsyntax-only "$scratch/header.cpp"
fi

build() {
  cc -std=c99 -O1 "${warnings[@]}" -Iinclude "$1" "$archive" -o "$scratch/program"
}

build tests/front.c
timeout 60 "$scratch/program"

build examples/convert.c
for expected in tests/examples/*.out; do
  mesh=examples/$(basename "$expected" .out).mesh
  timeout 60 "$scratch/program" < "$mesh" > "$scratch/out" || [ "$(head -c 3 "$expected")" = 'NO ' ]
  cmp "$expected" "$scratch/out"
done

build examples/tables.c
timeout 60 "$scratch/program" | tail -n 1 | grep -qx '6 positive, 0 zero, 0 negative, 0 unsound'
echo "tests/c.sh: the header, every function and both examples pass"
