#!/usr/bin/env bash
# How long a command takes that loads a database of 500 KB with 900 messages: a small program that makes a store with a
# loader is proved and built in a folder of its own, and the time of each of 299 commands is taken. Prints the least and the
# middle one; wanted are at most 50 ms. Other work on the machine makes all slower, so the least is judged.
#
#   bench/load.sh
set -euo pipefail
top="$(cd "$(dirname "${BASH_SOURCE[0]}")/.." && pwd)"
work="$(mktemp -d)"
trap 'rm -rf "$work"' EXIT
speed="$work/crates/load_speed"
mkdir -p "$speed/src"
git -C "$work" init -q
for crate in port_io byte_forms decisions tool_words text_words exact_scale sig_text multiplex_tree bench_model token_forms \
    dbc_grammar ldf_grammar bench_file bench_inputs image_words image_compiler epoch_core region_store bench_loader; do
    cp -a "$top/crates/$crate" "$work/crates/"
    grep "^$crate[: ]" "$top/crates.txt" >> "$work/crates.txt"
done
echo "load_speed: bench_loader region_store image_compiler image_words bench_model multiplex_tree port_io anyhow" >> "$work/crates.txt"
cp "$top/HANDLES" "$work/"
cp "$top/bench/load/main.rt.txt" "$speed/src/main.rt"
(cd "$top/bench/load" && find . -name '*.antt.txt') | while read -r file; do
    mkdir -p "$speed/$(dirname "$file")"
    cp "$top/bench/load/$file" "$speed/${file%.txt}"
done
# the bench is that of the tests
tests="$top/crates/tool_tests"
sed 's/Rattle\.tool_tests\./Rattle.load_speed./' "$tests/proofs/BusLaws.antt" > "$speed/proofs/BusLaws.antt"
cp -r "$tests/specs" "$speed/"
(cd "$speed" && rt run > "$work/proof.txt" 2>&1 < /dev/null) || { tail -20 "$work/proof.txt" >&2; exit 2; }

python3 - "$speed/out/load_speed" "$work/new.dbc" <<'PYTHON'
import os, subprocess, sys

program, database = sys.argv[1:]
with open(database, "w") as dbc:
    dbc.write('VERSION ""\nNS_ :\nBS_:\nBU_: Bench\n')
    for message in range(900):
        dbc.write(f"BO_ {message} Message{message}: 8 Bench\n")
        for place in range(10):
            dbc.write(f' SG_ Velocity{place} : {6 * place}|6@1+ (0.25,-5) [0|0] "rpm" Bench\n')
given = subprocess.run([program, "299", database], capture_output=True, check=True, text=True).stdout.split()
if "refused" in given or len(given) != 299:
    sys.exit(f"refused: {given}")
times = sorted(int(micros) / 1e3 for micros in given)
print(f"{os.path.getsize(database)} bytes, 900 messages: least {times[0]:.1f} ms, middle {times[149]:.1f} ms")
sys.exit(times[0] > 50)
PYTHON
