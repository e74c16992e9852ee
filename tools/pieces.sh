#!/usr/bin/env bash
# Runs in pieces: each line of tools/pieces/pieces.txt, an expression run in pieces of so many steps, comes to what is worked out there.
# The program is made without a proof. It shows how a host in Rattle runs a machine that pauses. The status is 1 if a line comes to
# something else.
#
#   tools/pieces.sh
set -eu -o pipefail
. "$(dirname "$0")/program.sh"
make_program pieces expr expr_acts expr_frames expr_limits expr_machine expr_meaning expr_pattern
rows=$(grep -v '^#' "$(dirname "$0")/pieces/pieces.txt")
sed -E 's/ with ([0-9]+) => .*/\t\1/' <<<"$rows" | "$copy/expr_pieces" >"$copy/answers"
sed 's/.* => //' <<<"$rows" | diff - "$copy/answers"
echo "pieces: $(wc -l <<<"$rows") runs, 0 differ"
