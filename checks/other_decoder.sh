#!/usr/bin/env bash
# Decodes the example of examples/first/ a second time, with Python that shares nothing with the program (whole payloads
# as integers, shifts and masks, exact decimals), and compares the two texts.
. "$(dirname "$0")/../bench/program.sh"
cd "$top/examples/first"

python3 "$top/checks/other_decoder.py" >"$work/expected"
"$program" decode bench.txt >"$work/decoded"
diff "$work/expected" "$work/decoded"
echo "the same text: $(wc -l <"$work/decoded") lines"
