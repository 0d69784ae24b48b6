#!/usr/bin/env bash
# Tests of the script ./brinetoggle and of the program behind it: the examples, every vector, refused and missing files, odd
# names, broken programs. BRINETOGGLE_PROGRAM names another program to test, as the script says.
set -uo pipefail
cd "$(dirname "$0")/.." || exit 2
root=$PWD
scratch=$(mktemp -d) || exit 2
trap 'rm -rf -- "$scratch"' EXIT
failures=0
checks=0

# Whether a test holds; what was found is printed where it does not.
expect() {
  checks=$((checks + 1))
  if [ "$2" != "$3" ]; then
    failures=$((failures + 1))
    printf 'FAILED: %s\n-- expected --\n%s\n-- found --\n%s\n' "$1" "$2" "$3"
    [ ! -s "$scratch/err" ] || { echo '-- standard error --'; head -c 2000 "$scratch/err"; }
  fi
}

# Runs the script, which may not hang; its status, standard output and error are left in status and in files.
run() {
  timeout 120 "$root/brinetoggle" "$@" > "$scratch/out" 2> "$scratch/err"
  status=$?
}

# The status that stands for an expected output.
status_of() {
  if [ "$(head -c 3 "$1")" = 'NO ' ]; then echo 1; else echo 0; fi
}

same() {
  if cmp -s "$1" "$2"; then echo same; else echo different; fi
}

# build before the clock of the first test starts
"$root/brinetoggle" < examples/prism.mesh > /dev/null || { echo 'FAILED: the first run'; exit 1; }

echo '- the examples are what they say'
expect 'examples/shell-wall.mesh is what its script prints' same "$(python3 tools/shell_wall.py | same - examples/shell-wall.mesh)"
expect 'the same with 1,250' same "$(sed 's/1\.250/1,250/g' examples/shell-wall.mesh | same - examples/shell-wall-comma.mesh)"

echo '- the examples, from standard input and by name'
for expected in tests/examples/*.out; do
  mesh=examples/$(basename "$expected" .out).mesh
  run < "$mesh"
  expect "$mesh from standard input" "$(status_of "$expected") same" "$status $(same "$expected" "$scratch/out")"
  run "$mesh"
  expect "$mesh by name" "$(status_of "$expected") same" "$status $(same "$expected" "$scratch/out")"
  words=$([ -s "$scratch/err" ] && echo words || echo none)
  expect "$mesh: words on standard error" "$([ "$status" -eq 1 ] && echo words || echo none)" "$words"
done

echo '- every vector, as a list'
mkdir "$scratch/vectors"
cp tests/vectors/*.in "$scratch/vectors"
printf '%s\n' "$scratch"/vectors/*.in > "$scratch/list"
run --list "$scratch/list"
expect 'a list with refused files' 1 "$status"
cut=0
refused=0
for input in "$scratch"/vectors/*.in; do
  expected=tests/vectors/$(basename "$input" .in).out
  if [ "$(status_of "$expected")" -eq 0 ]; then
    cut=$((cut + 1))
    expect "the cut of $(basename "$input")" same "$(same "$expected" "$input.cut")"
  else
    refused=$((refused + 1))
    line=$(grep -F "$input " "$scratch/out")
    expect "no cut of $(basename "$input")" none "$([ -e "$input.cut" ] && echo one || echo none)"
    expect "the refusal of $(basename "$input")" "$(cat "$expected")" "$(grep -oE 'NO [0-9]+ [0-9]+ [0-9]+' <<< "$line" | head -n 1)"
  fi
done
expect 'the last line' "$((cut + refused)) files: $cut cut, $refused refused, 0 failed" \
  "$(tail -n 1 "$scratch/out" | sed 's/ (.*)//')"
expect 'nothing half-written' '' "$(find "$scratch/vectors" -name '*.part.*')"

echo '- odd names'
mkdir "$scratch/odd"
cd "$scratch/odd" || exit 2
# shellcheck disable=SC2016
odd=('two  words' '-minus' "quote'd \"name\"" '*' '$HOME' $'new\nline' '[a]' 'back\slash' 'ümlaut')
for name in "${odd[@]}"; do
  cp -- "$root/examples/prism.mesh" "./$name"
done
run -- "${odd[@]}"
expect 'odd names' 0 "$status"
for name in "${odd[@]}"; do
  expect "the cut of $name" same "$(same "$root/tests/examples/prism.out" "./$name.cut")"
done
cd "$root" || exit 2

echo '- missing files'
run "$scratch/none"
expect 'a missing file' '2 0' "$status $(wc -c < "$scratch/out")"
cp examples/prism.mesh examples/shell-wall-comma.mesh "$scratch"
run "$scratch/prism.mesh" "$scratch/none" "$scratch/shell-wall-comma.mesh" "$scratch/odd"
expect 'a missing file among others' 2 "$status"
expect 'the others are done' same "$(same tests/examples/prism.out "$scratch/prism.mesh.cut")"
expect 'the table, in the order of the names' 'cut failed refused failed' "$(sed '$d' "$scratch/out" | cut -d ' ' -f 1 | paste -sd ' ')"
expect 'its last line' '4 files: 1 cut, 1 refused (1 COMMA), 2 failed' "$(tail -n 1 "$scratch/out")"
run --list "$scratch/none"
expect 'a missing list' '2 0' "$status $(wc -c < "$scratch/out")"

echo '- lists, folders, options'
: > "$scratch/empty"
run --list "$scratch/empty"
expect 'an empty list' 2 "$status"
printf '%s\n\n%s' "$scratch/prism.mesh" "$scratch/prism.mesh" | timeout 60 ./brinetoggle --list - --into "$scratch/new folder/in" > "$scratch/out" 2> "$scratch/err"
expect 'a list from standard input' 0 "$?"
expect 'into a new folder' same "$(same tests/examples/prism.out "$scratch/new folder/in/prism.mesh.cut")"
expect 'a file named twice is cut once' '1 files: 1 cut, 0 refused, 0 failed' "$(tail -n 1 "$scratch/out")"
cp examples/prism.mesh "$scratch/odd/prism.mesh"
run --into "$scratch/other" "$scratch/prism.mesh" "$scratch/odd/prism.mesh"
expect 'two cuts in one place' '2 0' "$status $(find "$scratch/other" -type f | wc -l)"
run "$scratch/prism.mesh" "$scratch/prism.mesh.cut"
expect 'a mesh where a cut goes' 2 "$status"
run --beside "$scratch/shell-wall-comma.mesh"
expect 'one refused, beside' 1 "$status"
cp tests/examples/prism.out "$scratch/shell-wall-comma.mesh.cut"
run --beside "$scratch/shell-wall-comma.mesh"
expect 'an older cut of a refused mesh is removed' none "$([ -e "$scratch/shell-wall-comma.mesh.cut" ] && echo one || echo none)"
run --help
expect 'help' '0 yes' "$status $(grep -q 'Exit status' "$scratch/out" && echo yes)"
run --unknown
expect 'an unknown option' '2 0' "$status $(wc -c < "$scratch/out")"
run --into
expect 'an option without its name' 2 "$status"

echo '- reads and writes that fail'
run < "$scratch"
expect 'standard input that cannot be read' '2 0' "$status $(wc -c < "$scratch/out")"
run <&-
expect 'standard input that is closed' '2 0' "$status $(wc -c < "$scratch/out")"
timeout 60 ./brinetoggle examples/prism.mesh > /dev/full 2> "$scratch/err"
expect 'standard output that is full' 2 "$?"

echo '- programs that break off'
broken() {
  printf '#!/bin/sh\n%s\n' "$2" > "$scratch/broken"
  chmod +x "$scratch/broken"
  BRINETOGGLE_PROGRAM=$scratch/broken run "$scratch/prism.mesh"
  expect "$1, one mesh" '2 0' "$status $(wc -c < "$scratch/out")"
  BRINETOGGLE_PROGRAM=$scratch/broken run --beside "$scratch/prism.mesh"
  expect "$1, a table" '2 none' "$status $([ -e "$scratch/prism.mesh.cut" ] && echo one || echo none)"
}
broken 'a program that writes nothing' 'exit 0'
broken 'a program that writes half a mesh' 'printf "VX 0.000 0.000 0.000\nEN 1"'
broken 'a program that ends in a failure' 'printf "EN 0 0\n"; exit 3'
broken 'a program that is killed' 'kill -9 $$'
BRINETOGGLE_PROGRAM=$scratch/absent run "$scratch/prism.mesh"
expect 'a program that is not there' '2 0' "$status $(wc -c < "$scratch/out")"

if [ "$failures" -gt 0 ]; then
  echo "tests/script.sh: $failures of $checks checks failed"
  exit 1
fi
echo "tests/script.sh: $checks checks passed"
