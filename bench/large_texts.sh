#!/usr/bin/env bash
# Times `tokens` in a built program on two texts of 16 MiB: one-byte tokens alone, and one string.
# Each must take less than two seconds, with the start of the program and the reading of the text.
set -euo pipefail
crate="$(cd "$(dirname "$0")/../crates/sig_text" && pwd)"
work="$(mktemp -d)"
trap 'rm -rf "$work"' EXIT
size=$((16 * 1024 * 1024))

mkdir -p "$work/crates/count_tokens/src"
cp -r "$crate" "$work/crates/sig_text"
rm -rf "$work/crates/sig_text/out"
printf 'sig_text: thiserror\ncount_tokens: sig_text\n' >"$work/crates.txt"
cat >"$work/crates/count_tokens/src/main.rt" <<'RATTLE'
#![tactic(auto)]

use sig_text::tokens;
use std::io;
use std::io::Read;

fn main(rt: HostRuntime) -> io::Result<()> {
    let mut text = Vec::new(rt.alloc());
    rt.stdin().read_to_end(&mut text)?;
    match tokens(rt.alloc(), &text, true) {
        Ok(list) => {
            let count = list.len();
            println!(rt; "tokens {count}")
        }
        Err(fault) => println!(rt; "{fault}"),
    }
}
RATTLE

cd "$work/crates/count_tokens"
rt run </dev/null >"$work/build.log" 2>&1 || { cat "$work/build.log"; exit 1; }

head -c "$size" /dev/zero | tr '\0' ';' >"$work/signs"
{ printf '"'; head -c $((size - 2)) /dev/zero | tr '\0' 'a'; printf '"'; } >"$work/string"
status=0
for text in signs string; do
  begin=$(date +%s%N)
  answer="$(./out/count_tokens <"$work/$text")"
  milliseconds=$((($(date +%s%N) - begin) / 1000000))
  echo "$text: $answer in $milliseconds ms"
  [ "$milliseconds" -lt 2000 ] || status=1
done
exit "$status"
