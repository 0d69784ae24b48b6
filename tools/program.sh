#!/usr/bin/env bash
# Proves and builds the program: target/bin/brinetoggle. The kit builds a program where it runs it, so it is run once, on an empty file.
set -euo pipefail
cd "$(dirname "$(readlink -f "$0")")/.."
said=$(mktemp)
trap 'rm -f -- "$said"' EXIT
(cd crates/brinetoggle && rt run) < /dev/null > "$said" 2>&1 || true
if ! grep -qx 'NO 10 1 0' "$said" || [ ! -x crates/brinetoggle/out/brinetoggle ]; then
  cat -- "$said" >&2
  exit 1
fi
mkdir -p target/bin
cp -- crates/brinetoggle/out/brinetoggle target/bin/brinetoggle
