#!/usr/bin/env bash
# How long `check` takes over a database of 65,536 messages with 16 signals each: a small program that depends on
# bench_model is proved and built in a folder of its own, and run five times. Wanted is well under a second.
#
#   bench/check_database.sh
set -euo pipefail
top="$(cd "$(dirname "${BASH_SOURCE[0]}")/.." && pwd)"
work="$(mktemp -d)"
trap 'rm -rf "$work"' EXIT
mkdir "$work/crates"
cp -a "$top"/crates/{exact_scale,multiplex_tree,bench_model} "$top/bench/check_database" "$work/crates"
grep -E '^(exact_scale|multiplex_tree|bench_model):' "$top/crates.txt" > "$work/crates.txt"
echo "check_database: bench_model multiplex_tree" >> "$work/crates.txt"
cd "$work/crates/check_database"
# the sources bear the suffix .txt here, since no check of the repository reads them
find . -name "*.txt" | while read -r file; do mv "$file" "${file%.txt}"; done
rt run > log 2>&1 || { cat log >&2; exit 1; }
for _ in 1 2 3 4 5; do ./out/check_database; done
