#!/bin/bash
# Counts the instructions a node that it takes to lay out a tree of all panes: anew, and after one leaf has changed; and
# rows of ten labels one below the other, after each label has changed.
# It builds crates/tree_layout_bench with `rt run`, and needs valgrind.
set -euo pipefail
source "$(dirname "$0")/program.sh" tree_layout_bench leaf 40 1

# what is laid out, and how many nodes there are
node() {
    local once often
    once=$(instructions "$1" "$2" 1)
    often=$(instructions "$1" "$2" 11)
    per "$((10 * $2))" "$often" "$once"
}

for count in 2000 4000; do
    echo "$count nodes anew:              $(node all "$count") instructions a node"
    echo "$count nodes, one leaf changed: $(node leaf "$count") instructions a node"
done
for count in 1981 3961; do
    echo "$count nodes in rows, anew:      $(node rows "$count") instructions a node"
done
