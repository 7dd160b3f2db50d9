#!/usr/bin/env bash
# How long `compile` takes for a database of 8 MiB and of 16 MiB of text on one bus: a small program that reads the text
# and compiles it is proved and built in a folder of its own, and the time of `compile` alone is the least of nine runs.
# Wanted are at most one second for 16 MiB, and at most 2.3 times the time for twice the size.
#
#   bench/compile.sh
set -euo pipefail
top="$(cd "$(dirname "${BASH_SOURCE[0]}")/.." && pwd)"
work="$(mktemp -d)"
trap 'rm -rf "$work"' EXIT
mkdir -p "$work/crates/compile_speed/src"
git -C "$work" init -q
for crate in port_io byte_forms decisions exact_scale sig_text multiplex_tree bench_model token_forms dbc_grammar image_words image_compiler; do
    cp -a "$top/crates/$crate" "$work/crates/"
    grep "^$crate:" "$top/crates.txt" >> "$work/crates.txt"
done
echo "compile_speed: image_compiler dbc_grammar bench_model multiplex_tree port_io" >> "$work/crates.txt"
cp "$top/bench/compile/main.rt.txt" "$work/crates/compile_speed/src/main.rt"
(cd "$work/crates/compile_speed" && rt run > "$work/proof.txt" 2>&1) || { tail -20 "$work/proof.txt" >&2; exit 2; }
for size in 8388608 16777216; do
    python3 "$top/bench/dbc.py" 1 "$size" > "$work/$size.dbc"
done
python3 - "$work/crates/compile_speed/out/compile_speed" "$work/8388608.dbc" "$work/16777216.dbc" <<'PYTHON'
import os, subprocess, sys

program, half, whole = sys.argv[1:]


def taken(name):
    words, micros = subprocess.run([program, name], capture_output=True, check=True, text=True).stdout.split()
    return int(micros) / 1e6, int(words)


# in turn, so that what else runs on the machine slows both
runs = [(taken(half), taken(whole)) for _ in range(9)]
least = [min(run[place] for run in runs) for place in (0, 1)]
for name, (seconds, words) in zip((half, whole), least):
    print(f"{os.path.getsize(name)} bytes of text: {words} words in {seconds:.3f} s")
ratio = least[1][0] / least[0][0]
print(f"twice the size takes {ratio:.2f} times as long")
sys.exit(least[1][0] > 1 or ratio > 2.3)
PYTHON
