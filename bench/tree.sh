#!/bin/bash
# Counts the instructions that the tree of 4,096 nodes takes: for each node that is made, attached and dropped, for each move of a
# subtree of some 64 nodes, and for each node of a walk in pre-order.
# It builds crates/tree_bench with `rt run`, and needs valgrind.
set -euo pipefail
source "$(dirname "$0")/program.sh" tree_bench 1 0 0

# words: nodes below the topmost, moves and walks
one=$(instructions 0 0 0)
built=$(instructions 4095 0 0)
moved=$(instructions 4095 10000 0)
walked=$(instructions 4095 0 10)
awk -v one="$one" -v built="$built" -v moved="$moved" -v walked="$walked" 'BEGIN {
    printf "made and dropped %.1f instructions a node\n", (built - one) / 4095
    printf "moved            %.1f instructions a subtree\n", (moved - built) / 10000
    printf "walked           %.1f instructions a node\n", (walked - built) / 10 / 4096
}'
