#!/usr/bin/env bash
# How fast `sigserve check` reads a DBC and an LDF of 8 and of 16 MiB from a seed. Each is checked nine times, and the
# least processor time counts. Wanted are at most 2.3 times the time for twice the size, at least 15 MB a second, and
# memory of at most 24 times the file; where one of them is not held, the script ends with status 1.
#
#   bench/check_speed.sh [SEED]
. "$(dirname "$0")/program.sh"
for format in dbc ldf; do
    for mebibytes in 8 16; do
        python3 "$top/bench/$format.py" "${1:-1}" $((mebibytes * 1048576)) > "$work/$mebibytes.$format"
    done
done
cd "$work"

python3 - "$program" <<'PYTHON'
import os, subprocess, sys

program = sys.argv[1]


def check(name):
    """Processor seconds and peak memory in bytes of one run."""
    child = subprocess.Popen([program, "check", name], stdout=subprocess.DEVNULL)
    _, status, used = os.wait4(child.pid, 0)
    if status:
        sys.exit(f"check of {name} ended with status {os.waitstatus_to_exitcode(status)}")
    return used.ru_utime + used.ru_stime, used.ru_maxrss * 1024


held = True
for kind in ("dbc", "ldf"):
    # in turn, so that what else runs on the machine slows both
    runs = [(check(f"8.{kind}"), check(f"16.{kind}")) for _ in range(9)]
    half, whole = (min(run[place][0] for run in runs) for place in (0, 1))
    size = os.path.getsize(f"16.{kind}")
    speed, ratio, memory = size / 1e6 / whole, whole / half, max(run[1][1] for run in runs) / size
    held = held and ratio <= 2.3 and speed >= 15 and memory <= 24
    print(f"{kind}: 16 MiB in {whole:.2f} s, {speed:.1f} MB a second (15 wanted); {ratio:.2f} times the time of 8 MiB "
          f"(at most 2.3 wanted); memory {memory:.1f} times the file (at most 24 wanted)")
sys.exit(not held)
PYTHON
