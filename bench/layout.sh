#!/bin/bash
# Counts the instructions a child that it takes to measure a pane and to place its children: an HBox with more room than
# its children prefer, or with less, and a GridPane of as many columns as rows, in which one child in four covers two: one
# in eight two columns, and one in eight two rows, where the side is a multiple of eight.
# It builds crates/layout_bench with `rt run`, and needs valgrind.
set -euo pipefail
source "$(dirname "$0")/program.sh" layout_bench row 1 0 1

# the pane, its columns and rows or its children, its width, and how many children that makes
child() {
    local once often
    once=$(instructions "$1" "$2" "$3" 1)
    often=$(instructions "$1" "$2" "$3" 11)
    per "$((10 * $4))" "$often" "$once"
}

for count in 500 1000; do
    echo "HBox of $count with room:     $(child row "$count" $((30 * count)) "$count") instructions a child"
    echo "HBox of $count without room:  $(child row "$count" $((15 * count)) "$count") instructions a child"
done
for side in 8 32 48 64; do
    echo "GridPane of $side by $side:  $(child grid "$side" $((30 * side)) $((side * side))) instructions a child"
done
