#!/usr/bin/env bash
# Proves and builds the library for C and Rust: target/staticlib/libbrine.a, the exports of the crate brine_c.
set -euo pipefail
cd "$(dirname "$(readlink -f "$0")")/.."
(cd crates/brine_c && rt lib)
mkdir -p target/staticlib
cp -- crates/brine_c/out/libbrine_c.a target/staticlib/libbrine.a
