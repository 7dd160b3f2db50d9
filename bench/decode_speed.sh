#!/usr/bin/env bash
# How fast the proved program decodes: logs of 200,000 and 400,000 lines from a seed, with a database of four
# messages. Prints frames a second, the ratio of the two times and the peak of memory, also for 2,000,000 lines; wanted
# are at least 200,000 frames a second, a ratio of at most 2.1, and 32 MB at each size. Each log is decoded seven times
# (the longest once), and the least processor time (of the program and of the system for it) counts, since elapsed time
# says little on a busy machine. With the source of a decoder in C, which is run as `decoder BUS LOG DATABASE`, that runs
# beside the program on the same logs; at most 8 times its time is wanted, and the same text.
#
#   bench/decode_speed.sh [SEED [DECODER.c]]
. "$(dirname "$0")/program.sh"
if [ $# -gt 1 ]; then cc -O2 -o "$work/decoder" "$2"; fi
cd "$work"

python3 - "$program" "${1:-1}" <<'PYTHON'
import filecmp, os, random, subprocess, sys

program, seed = sys.argv[1], int(sys.argv[2])
random.seed(seed)

with open("bus.dbc", "w") as dbc:
    dbc.write('VERSION ""\n')
    for i in range(4):
        dbc.write(f"BO_ {256 + i} Message{i}: 8 ECU\n")
        for start, size in ((0, 16), (16, 8), (24, 12), (36, 28))[: i + 1]:
            dbc.write(f' SG_ Signal{start} : {start}|{size}@1+ ({i + 2},{-40 * i}) [0|0] "rpm" ECU\n')

def log_of(lines):
    name = f"{lines}.log"
    with open(name, "w") as log:
        for i in range(lines):
            # every tenth frame is one that no message matches
            key = random.choice((256, 257, 258, 259)) if i % 10 else 1024
            log.write(f"({1_700_000_000 + i // 1000}.{i % 1000 * 1000:06}) can0 {key:03X}#{random.getrandbits(64):016X}\n")
    with open(f"{lines}.bench", "w") as bench:
        bench.write(f"bus A can {name} bus.dbc\n")
    return f"{lines}.bench"

def run(words, name):
    """Processor seconds and peak memory in MB of one run, whose text goes to the file of this name."""
    with open(name, "w") as text:
        # `time` is small, and a child of this script would count the script's own memory until it is another program
        child = subprocess.Popen(["/usr/bin/time", "-o", "kilobytes", "-f", "%M"] + words, stdout=text)
        _, status, used = os.wait4(child.pid, 0)
    if status:
        sys.exit(f"{words[0]} ended with status {status}")
    with open("kilobytes") as kilobytes:
        return used.ru_utime + used.ru_stime, int(kilobytes.read()) / 1024

def seconds_for(lines, times=7):
    bench = log_of(lines)
    runs = [run([program, "decode", bench], "text") for _ in range(times)]
    busy, peak = min(seconds for seconds, _ in runs), max(peak for _, peak in runs)
    with open("text") as text:
        for last in text:
            pass
    if last != f"end A {lines}\n":
        sys.exit("the text is not whole")
    print(f"{lines} frames in {busy:.3f} s of processor time: {lines / busy:,.0f} frames a second; peak {peak:.1f} MB")
    return busy, peak

def beside(lines, busy):
    """How many times the time of the decoder in C ours is, whose text is the same."""
    by_hand = min(run(["./decoder", "A", f"{lines}.log", "bus.dbc"], "hand")[0] for _ in range(7))
    same = filecmp.cmp("text", "hand", shallow=False)
    near = busy <= 8 * by_hand and same
    print(f"{busy / by_hand:.2f} times the time of the decoder in C (8 wanted: {'held' if near else 'not held'}), "
          f"text {'the same' if same else 'ANOTHER'}")
    return near

short, small = seconds_for(200_000)
near = not os.path.exists("decoder") or beside(200_000, short)
long, large = seconds_for(400_000)
_, huge = seconds_for(2_000_000, 1)
ratio = long / short
fast, linear, flat = 400_000 / long >= 200_000, ratio <= 2.1, max(small, large, huge) <= 32
print(f"ratio of the times {ratio:.2f} (at most 2.1 wanted: {'held' if linear else 'not held'}), "
      f"speed (200,000 wanted: {'held' if fast else 'not held'}), memory (32 MB wanted: {'held' if flat else 'not held'})")
sys.exit(not (fast and linear and flat and near))
PYTHON
