#!/usr/bin/env bash
# How fast records go from one thread to another: records of unmatched frames, put by one thread and taken by another,
# through a ring of 1,024 slots, and beside it the kit's ring, which knows no gaps, moving the same records in the same
# run. Prints the records a second (most of seven runs) and how many times the kit's time ours is. Wanted are 3,000,000
# a second and at most twice the time. Other work on the machine makes both slower, and the two threads want a
# processor each.
#
#   bench/ring.sh
set -euo pipefail
top="$(cd "$(dirname "$0")/.." && pwd)"
work="$(mktemp -d)"
trap 'rm -rf "$work"' EXIT

# the program is in a repository of its own, over copies of the crates below it
mkdir -p "$work/crates/ring_speed/src"
git -C "$work" init -q
for crate in exact_scale multiplex_tree bench_model gap_ring; do
    cp -a "$top/crates/$crate" "$work/crates/"
    grep "^$crate[: ]" "$top/crates.txt" >> "$work/crates.txt"
done
echo "ring_speed: gap_ring bench_model rtrb anyhow" >> "$work/crates.txt"
cp "$top/HANDLES" "$work/"
cp "$top/bench/ring/main.rt.txt" "$work/crates/ring_speed/src/main.rt"
(cd "$work/crates/ring_speed" && rt run > "$work/proof.txt" 2>&1) || { tail -20 "$work/proof.txt" >&2; exit 2; }

python3 - "$work/crates/ring_speed/out/ring_speed" <<'PYTHON'
import subprocess, sys, time

program, records = sys.argv[1], 3_000_000

def seconds(ring):
    start = time.monotonic()
    given = subprocess.run([program, ring, str(records)], stdout=subprocess.PIPE, check=True, text=True).stdout
    taken = time.monotonic() - start
    if int(given) != records:
        sys.exit(f"{ring}: {given.strip()} records of {records}")
    return taken

times = {"ring": [], "queue": []}
for _ in range(7):
    for ring in times:
        times[ring].append(seconds(ring))
ours, kit = min(times["ring"]), min(times["queue"])
print(f"ring of gaps: {records / ours / 1e6:.2f} million records a second")
print(f"the kit's ring: {records / kit / 1e6:.2f} million records a second")
print(f"{ours / kit:.2f} times the kit's time")
sys.exit(records / ours < 3e6 or ours > 2 * kit)
PYTHON
