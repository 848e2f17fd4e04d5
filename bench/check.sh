#!/usr/bin/env bash
# The customer's check here against plain C compiled by gcc -O3, on the same file of depth 20 in the same run.
set -e
cd "$(dirname "$0")/.."
build=$(mktemp -d)
trap 'rm -rf "$build"' EXIT
(cd crates/export_check && rt lib) >"$build/log" 2>&1 || { cat "$build/log"; exit 1; }
gcc -O3 -o "$build/bench" bench/time_check.c bench/check_plain.c bench/sha256.c crates/export_check/out/libexport_check.a
"$build/bench"
