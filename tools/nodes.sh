#!/usr/bin/env bash
# Random nodes as a host may make them, each written as text: the text compiles to that very node, or the node is refused for a reason.
# The program is made without a proof.
#
#   tools/nodes.sh [SEED [COUNT]]    1 and 100000 where nothing is said
set -eu -o pipefail
. "$(dirname "$0")/program.sh"
make_program nodes expr expr_value
"$copy/expr_nodes" "${1:-1}" "${2:-100000}" | sort | uniq -c | sort -rn
