#!/usr/bin/env bash
# How fast a store of versions is. Prints the pins a second of one lane and of four on four threads (most of five runs;
# wanted are 20,000,000 of one lane, and three times as many of four where there are four processors), the time of one
# publication of 65,536 words (wanted: 1 ms), and the memory of a store of eight regions of 1,048,576 words, at its peak
# and afterwards (wanted: 160 MB and 80 MB). Other work on the machine makes all slower.
#
#   bench/store.sh
set -euo pipefail
top="$(cd "$(dirname "$0")/.." && pwd)"
work="$(mktemp -d)"
trap 'rm -rf "$work"' EXIT

# the program is in a repository of its own, over copies of the crates below it
speed="$work/crates/store_speed"
mkdir -p "$speed/src"
git -C "$work" init -q
for crate in exact_scale multiplex_tree bench_model image_words epoch_core region_store; do
    cp -a "$top/crates/$crate" "$work/crates/"
    grep "^$crate[: ]" "$top/crates.txt" >> "$work/crates.txt"
done
echo "store_speed: region_store image_words bench_model anyhow" >> "$work/crates.txt"
cp "$top/HANDLES" "$work/"
cp "$top/bench/store/main.rt.txt" "$speed/src/main.rt"
(cd "$top/bench/store" && find . -name '*.antt.txt') | while read -r file; do
    mkdir -p "$speed/$(dirname "$file")"
    cp "$top/bench/store/$file" "$speed/${file%.txt}"
done
# the images are those of the tests
cp "$top/crates/sharing_tests/proofs/ImageLaws.antt" "$speed/proofs/"
(cd "$speed" && rt run > "$work/proof.txt" 2>&1 < /dev/null) || { tail -20 "$work/proof.txt" >&2; exit 2; }

python3 - "$speed/out/store_speed" <<'PYTHON'
import os, subprocess, sys, time

program = sys.argv[1]

def seconds(*words):
    start = time.monotonic()
    subprocess.run([program, *map(str, words)], stdout=subprocess.DEVNULL, check=True)
    return time.monotonic() - start

def pins_a_second(lanes, count=20_000_000):
    return max(lanes * count / seconds("pins", lanes, count) for _ in range(5))

def memory(process, field):
    for line in open(f"/proc/{process.pid}/status"):
        if line.startswith(field):
            return int(line.split()[1]) * 1024 / 1e6

one, four = pins_a_second(1), pins_a_second(4)
print(f"one lane: {one / 1e6:.1f} million pins a second")
print(f"four lanes: {four / 1e6:.1f} million pins a second, {four / one:.2f} times as many")

count = 2_000
spent = min(seconds("publish", 65_536, count) for _ in range(3)) - min(seconds("publish", 65_536, 0) for _ in range(3))
each = spent / count
print(f"one publication of 65,536 words: {each * 1e3:.3f} ms")

process = subprocess.Popen([program, "hold"], stdin=subprocess.PIPE, stdout=subprocess.PIPE)
process.stdout.readline()
peak, kept = memory(process, "VmHWM"), memory(process, "VmRSS")
process.communicate(b"\n")
print(f"eight regions of 1,048,576 words: {peak:.0f} MB at the peak, {kept:.0f} MB afterwards")
wide = len(os.sched_getaffinity(0)) >= 4
sys.exit(one < 20e6 or (wide and four < 3 * one) or each > 1e-3 or peak > 160 or kept > 80)
PYTHON
