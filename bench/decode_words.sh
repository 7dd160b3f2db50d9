#!/usr/bin/env bash
# How fast frames are decoded from the words of an image: 1,000,000 frames of 64 messages of four signals, once as values
# of their own (`decode`) and once by a visitor that adds up the raw values (`walk`). A small program that depends on
# image_compiler is proved and built in a folder of its own. Prints nanoseconds a frame, the least of seven runs of each.
#
#   bench/decode_words.sh
set -euo pipefail
top="$(cd "$(dirname "${BASH_SOURCE[0]}")/.." && pwd)"
work="$(mktemp -d)"
trap 'rm -rf "$work"' EXIT
mkdir -p "$work/crates"
git -C "$work" init -q
for crate in exact_scale multiplex_tree bench_model image_words image_compiler; do
    cp -a "$top/crates/$crate" "$work/crates/"
    grep "^$crate:" "$top/crates.txt" >> "$work/crates.txt"
done
echo "decode_words: image_compiler image_words bench_model multiplex_tree anyhow" >> "$work/crates.txt"
cp -a "$top/bench/decode_words" "$work/crates/"
cd "$work/crates/decode_words"
# the sources bear the suffix .txt here, since no check of the repository reads them
find . -name "*.txt" | while read -r file; do mv "$file" "${file%.txt}"; done
rt run > "$work/proof.txt" 2>&1 || { tail -20 "$work/proof.txt" >&2; exit 2; }
python3 - "$work/crates/decode_words/out/decode_words" <<'PYTHON'
import subprocess, sys

program, frames = sys.argv[1], 1_000_000


def taken(way):
    total, nanos = subprocess.run([program, way, str(frames)], capture_output=True, check=True, text=True).stdout.split()
    return int(nanos) / frames, total


# in turn, so that what else runs on the machine slows both
runs = [(taken("decode"), taken("walk")) for _ in range(7)]
if len({total for run in runs for _, total in run}) != 1:
    sys.exit("the sums differ")
for place, way in enumerate(("decode", "walk")):
    print(f"{way}: {min(run[place][0] for run in runs):.0f} ns a frame of four signals")
PYTHON
