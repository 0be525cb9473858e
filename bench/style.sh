#!/bin/bash
# Counts the instructions that looks take: for each of 1,000 nodes that are styled over ten matching rules of three
# declarations each, where none is like the sibling before it and where all are, and for each of 4,000 nodes of which none
# is styled. Twelve rules are candidates; paints are looked up by two names. What a search of the matching rules takes is
# counted by itself, and taken off where each node has one. At last for each of 3,600 labels in boxes of ten, over one
# matching rule of two and one code value, which changes with each update.
# It builds crates/style_bench with `rt run`, and needs valgrind.
set -euo pipefail
source "$(dirname "$0")/program.sh" style_bench keep 1 1

# the task, the nodes, and what ten rounds more take for each node
node() {
    local once often
    once=$(instructions "$1" "$2" 2)
    often=$(instructions "$1" "$2" 12)
    per "$((10 * $2))" "$often" "$once"
}

# what the twenty updates of ten rounds more take for each label
label() {
    local once often
    once=$(instructions labels 3961 2)
    often=$(instructions labels 3961 12)
    per 72000 "$often" "$once"
}

search=$(node search 1000)
style=$(node mixed 1000)
echo "searched:          $search instructions a node"
awk -v style="$style" -v search="$search" 'BEGIN { printf "styled beside it:  %.1f instructions a node\n", style - search }'
echo "styled, all alike: $(node style 1000) instructions a node"
echo "kept among 4,000:  $(node keep 4000) instructions a node"
echo "styled labels:     $(label) instructions a label"
