#!/usr/bin/env bash
# SHA-256 here against plain C compiled by gcc -O3, on the same bytes in the same run.
set -e
cd "$(dirname "$0")/.."
build=$(mktemp -d)
trap 'rm -rf "$build"' EXIT
(cd crates/export_sha256 && rt lib) >"$build/log" 2>&1 || { cat "$build/log"; exit 1; }
gcc -O3 -o "$build/bench" bench/time_sha256.c bench/sha256.c crates/export_sha256/out/libexport_sha256.a
"$build/bench"
