#!/usr/bin/env bash
# How many lines a second the proved reader of logs gives, beside a C loop that reads the same log and finds its line
# ends by memchr, and how much memory it takes for logs of 10,000 and of 10,000,000 lines. The logs have frames of eight
# bytes. Each run is made seven times, and the least processor time (of the program and of the system for it) counts.
# Wanted are 4,000,000 lines a second, a third of the loop's speed, and memory that does not grow with the log. Fails
# where a number of lines or bytes is wrong, below either speed, and where the longer log takes more memory by over a
# quarter.
#
#   bench/log_lines.sh
set -euo pipefail
top="$(cd "$(dirname "$0")/.." && pwd)"
work="$(mktemp -d)"
trap 'rm -rf "$work"' EXIT

# the program is in a repository of its own, over copies of the crates below it
mkdir -p "$work/crates/log_lines/src"
git -C "$work" init -q
for crate in port_io byte_forms exact_scale multiplex_tree bench_model candump_log; do
    cp -a "$top/crates/$crate" "$work/crates/"
    grep "^$crate:" "$top/crates.txt" >> "$work/crates.txt"
done
echo "log_lines: candump_log port_io" >> "$work/crates.txt"
cp "$top/bench/log_lines/main.rt.txt" "$work/crates/log_lines/src/main.rt"
(cd "$work/crates/log_lines" && rt run > "$work/proof.txt" 2>&1) || { tail -20 "$work/proof.txt" >&2; exit 2; }
cc -O2 -o "$work/loop" "$top/bench/log_lines/loop.c"

python3 - "$work" <<'PYTHON'
import os, random, resource, subprocess, sys

WANTED = 4_000_000
work = sys.argv[1]
program, loop = f"{work}/crates/log_lines/out/log_lines", f"{work}/loop"
random.seed(1)

def log_of(lines):
    name = f"{work}/{lines}.log"
    with open(name, "w") as log:
        for i in range(lines):
            log.write(f"({1_700_000_000 + i // 1000:010}.{i % 1000 * 1000:06}) can0 {i % 2048:03X}#{random.getrandbits(64):016X}\n")
    return name

def processor_seconds(words):
    before = resource.getrusage(resource.RUSAGE_CHILDREN)
    text = subprocess.run(words, capture_output=True, check=True, text=True).stdout
    after = resource.getrusage(resource.RUSAGE_CHILDREN)
    return after.ru_utime + after.ru_stime - before.ru_utime - before.ru_stime, text

def kilobytes(words):
    return int(subprocess.run(["/usr/bin/time", "-f", "%M"] + words, capture_output=True, check=True, text=True).stderr)

def held(is_held):
    return "held" if is_held else "not held"

million = log_of(1_000_000)
speeds = {}
# the bytes of the frames, and those of the lines without their line feeds
answers = {"reader": "1000000 8000000\n", "loop": f"1000000 {os.path.getsize(million) - 1_000_000}\n"}
for name, words in (("reader", [program, million]), ("loop", [loop, million])):
    runs = [processor_seconds(words) for _ in range(7)]
    for _, text in runs:
        if text != answers[name]:
            sys.exit(f"{name}: wrong answer: {text}")
    speeds[name] = 1_000_000 / min(seconds for seconds, _ in runs)
fast = speeds["reader"] >= WANTED
third = speeds["loop"] / 3
print(f"reader: {speeds['reader'] / 1e6:.1f} million lines a second ({WANTED / 1e6:.1f} wanted: {held(fast)})")
print(f"loop: {speeds['loop'] / 1e6:.1f} million lines a second (a third of it, {third / 1e6:.1f}, wanted: {held(speeds['reader'] >= third)})")
print(f"the reader has {speeds['reader'] / speeds['loop']:.2f} of the loop's speed")
memory = []
for lines in (10_000, 10_000_000):
    memory.append(kilobytes([program, log_of(lines)]))
    os.remove(f"{work}/{lines}.log")
    print(f"{lines} lines: {memory[-1]} kB of memory at most")
flat = memory[1] <= memory[0] * 1.25
print(f"memory that does not grow with the log: {held(flat)}")
sys.exit(not (fast and flat and speeds["reader"] >= third))
PYTHON
