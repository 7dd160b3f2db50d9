#!/usr/bin/env bash
# How fast the proved program decodes its own workload, `mill 1000000`. It is run twice, and both texts have to be the
# same. With the source of a decoder in C, which is run as `decoder --sum LOG DATABASE`, that runs beside it on the same
# database and log, which are made here as docs/FORMATS.md says; at most 4 times its time is wanted, and the same text.
# The least processor time of three runs counts.
#
#   bench/mill.sh [DECODER.c]
. "$(dirname "$0")/program.sh"
if [ $# -gt 0 ]; then cc -O2 -o "$work/decoder" "$1"; fi
cd "$work"

python3 - "$program" <<'PYTHON'
import os, subprocess, sys

program, frames = sys.argv[1], 1_000_000

def run(*words):
    """Processor seconds of one run, and its text."""
    child = subprocess.Popen(words, stdout=subprocess.PIPE)
    text = child.stdout.read()
    _, status, used = os.wait4(child.pid, 0)
    if status:
        sys.exit(f"{words[0]} ended with status {status}")
    return used.ru_utime + used.ru_stime, text

def least(*words):
    runs = [run(*words) for _ in range(3)]
    if len({text for _, text in runs}) != 1:
        sys.exit("the texts of two runs are not the same")
    return min(seconds for seconds, _ in runs), runs[0][1]

def make_files():
    with open("mill.dbc", "w") as dbc:
        dbc.write('VERSION ""\nNS_ :\nBS_:\nBU_: Mill\n')
        for j in range(64):
            dbc.write(f"BO_ {256 + j} M{j}: 8 Mill\n")
            for signal in ("S0 : 0|16@1+ (0.5,0)", "S1 : 16|16@1- (1,-40)", "S2 : 39|16@0+ (0.25,0)", "S3 : 55|16@0- (1,0)"):
                dbc.write(f' SG_ {signal} [0|0] "" Mill\n')
    x = frames
    with open("mill.log", "w") as log:
        for i in range(frames):
            x = (x * 6364136223846793005 + 1442695040888963407) % 2**64
            data = x.to_bytes(8, "little").hex().upper()
            log.write(f"({i // 10_000:010}.{i % 10_000 * 100:06}) can0 {256 + (x >> 58):03X}#{data}\n")

seconds, text = least(program, "mill", str(frames))
if text.split(b"\n")[:2] != [b"frames 1000000", b"signals 4000000"]:
    sys.exit(f"not the counts of all frames: {text}")
print(f"{frames} frames in {seconds:.3f} s of processor time: {frames / seconds:,.0f} frames a second")
if not os.path.exists("decoder"):
    sys.exit(0)
make_files()
by_hand, same = least("./decoder", "--sum", "mill.log", "mill.dbc")
held = seconds <= 4 * by_hand and text == same
print(f"{seconds / by_hand:.2f} times the time of the decoder in C (4 wanted: {'held' if held else 'not held'}), "
      f"text {'the same' if text == same else 'ANOTHER'}")
sys.exit(not held)
PYTHON
