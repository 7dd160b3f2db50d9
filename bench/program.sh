# Read by the scripts beside it: finds the proved program, and makes a folder for their work.
set -euo pipefail
top="$(cd "$(dirname "${BASH_SOURCE[0]}")/.." && pwd)"
program="$top/crates/sigserve/out/sigserve"
[ -x "$program" ] || { echo "no built program: run ./demo first" >&2; exit 2; }
work="$(mktemp -d)"
trap 'rm -rf "$work"' EXIT
