#!/usr/bin/env bash
# How fast the listener puts messages together: 1,000,000 frames of 16 interleaved broadcasts of 1,785 bytes, each a
# BAM and 255 packets. Proves and builds a program that counts the messages, and runs it seven times; the least
# processor time, less that of a run over no frames, counts. At least 3,000,000 frames a second are wanted.
#
#   bench/transport.sh
set -euo pipefail
crates="$(cd "$(dirname "$0")/../crates" && pwd)"
work="$(mktemp -d)"
trap 'rm -rf "$work"' EXIT

# a crate and those of the repository that it depends on
copy_crate() {
  [ ! -d "$work/crates/$1" ] || return 0
  cp -r "$crates/$1" "$work/crates/$1"
  rm -rf "$work/crates/$1/out"
  local line below
  line="$(grep "^$1:" "$crates/../crates.txt")"
  echo "$line" >>"$work/crates.txt"
  for below in ${line#*:}; do
    [ ! -d "$crates/$below" ] || copy_crate "$below"
  done
}

mkdir -p "$work/crates/hear_frames/src"
copy_crate j1939_tp
echo 'hear_frames: j1939_tp bench_model' >>"$work/crates.txt"
cat >"$work/crates/hear_frames/src/main.rt" <<'RATTLE'
#![tactic(auto)]

use j1939_tp::{Listener, TpOut};
use std::alloc::AllocError;
use std::env;
use std::io;

const BAM: [u8; 8] = [0x20, 0xF9, 0x06, 0xFF, 0xFF, 0xCA, 0xFE, 0];

/// Hears the frame of this number: 16 sources send their messages side by side, 256 frames each.
fn hear(listener: &mut Listener, number: u32) -> Result<TpOut, AllocError> {
    let source = number % 16;
    let place = number / 16 % 256;
    let micros = u64::from(number);
    if place == 0 {
        listener.step(micros, 0x18EC_FF00 + source, &BAM)
    } else {
        let byte = (place % 256) as u8;
        listener.step(micros, 0x18EB_FF00 + source, &[byte; 8])
    }
}

fn main(rt: HostRuntime) -> io::Result<()> {
    // one word gives the frames, and none gives none
    let frames = if env::args(&rt)?.count() > 1 { 1_000_000 } else { 0 };
    let mut listener = Listener::new(rt.alloc());
    let mut messages = 0u64;
    let mut bytes = 0u64;
    for number in 0..frames {
        if let TpOut::Whole { bytes: message, .. } = hear(&mut listener, number)? {
            messages = messages.saturating_add(1);
            bytes = bytes.saturating_add(message.bytes().len() as u64);
        }
    }
    println!(rt; "{messages} messages, {bytes} bytes")
}
RATTLE

cd "$work/crates/hear_frames"
rt run </dev/null >"$work/build.log" 2>&1 || { cat "$work/build.log"; exit 1; }

python3 - <<'PYTHON'
import resource, subprocess, sys

def processor_seconds():
    used = resource.getrusage(resource.RUSAGE_CHILDREN)
    return used.ru_utime + used.ru_stime

def least_seconds(words, answer):
    least = float("inf")
    for _ in range(7):
        used = processor_seconds()
        text = subprocess.run(["./out/hear_frames", *words], capture_output=True, text=True, check=True).stdout
        least = min(least, processor_seconds() - used)
        if text != answer:
            sys.exit(f"wrong answer: {text}")
    return least

seconds = least_seconds(["frames"], "3904 messages, 6968640 bytes\n") - least_seconds([], "0 messages, 0 bytes\n")
speed = 1_000_000 / seconds
fast = speed >= 3_000_000
print(f"1,000,000 frames in {seconds:.3f} s of processor time: {speed:,.0f} frames a second (3,000,000 wanted: {'held' if fast else 'not held'})")
sys.exit(not fast)
PYTHON
