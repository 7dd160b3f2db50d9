#!/usr/bin/env bash
# How fast a database of 16 MiB is read, how its time grows from 8 MiB to 16 MiB, and how much memory it takes: a small
# program that depends on the crate of the format is proved and built in a folder of its own. Each run is made nine times,
# and the least processor time counts. Wanted: at most 2.3 times the time for twice the size, 15 MB a second, and memory
# of at most 24 times the file.
#
#   bench/read_files.sh dbc|ldf
set -euo pipefail
format="$1"
top="$(cd "$(dirname "${BASH_SOURCE[0]}")/.." && pwd)"
work="$(mktemp -d)"
trap 'rm -rf "$work"' EXIT
mkdir -p "$work/crates/read_files/src"
git -C "$work" init -q
for crate in port_io byte_forms decisions exact_scale sig_text multiplex_tree bench_model token_forms "${format}_grammar"; do
    cp -a "$top/crates/$crate" "$work/crates/"
    grep "^$crate:" "$top/crates.txt" >> "$work/crates.txt"
done
echo "read_files: ${format}_grammar bench_model multiplex_tree port_io" >> "$work/crates.txt"
sed "s/FORMAT/$format/g" "$top/bench/read_files/main.rt.txt" > "$work/crates/read_files/src/main.rt"
(cd "$work/crates/read_files" && rt run > "$work/proof.txt" 2>&1) || { tail -20 "$work/proof.txt" >&2; exit 2; }
for size in 8388608 16777216; do
    python3 "$top/bench/$format.py" 1 "$size" > "$work/$size.$format"
done
python3 - "$work/crates/read_files/out/read_files" "$work/8388608.$format" "$work/16777216.$format" <<'PYTHON'
import os, resource, subprocess, sys

program, half, whole = sys.argv[1:]


def taken(name):
    before = resource.getrusage(resource.RUSAGE_CHILDREN)
    text = subprocess.run([program, name], capture_output=True, check=True, text=True).stdout.strip()
    after = resource.getrusage(resource.RUSAGE_CHILDREN)
    return after.ru_utime + after.ru_stime - before.ru_utime - before.ru_stime, text


# in turn, so that what else runs on the machine slows both
runs = [(taken(half), taken(whole)) for _ in range(9)]
least = [min(run[place] for run in runs) for place in (0, 1)]
for name, (seconds, text) in zip((half, whole), least):
    size = os.path.getsize(name)
    print(f"{size} bytes: {text}, {seconds:.2f} s, {size / 1e6 / seconds:.1f} MB a second")
print(f"twice the size takes {least[1][0] / least[0][0]:.2f} times as long")
memory = int(subprocess.run(["/usr/bin/time", "-f", "%M", program, whole], capture_output=True, check=True, text=True).stderr)
print(f"memory: {memory} kB, {memory * 1024 / os.path.getsize(whole):.1f} times the file")
PYTHON
