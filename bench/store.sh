#!/bin/bash
# Counts the instructions that the store of properties takes: for one change below a chain of 333 diamonds, 1,000 names, with one change
# listener at its end, by the name and by the notice; what it takes more where 1,000 and 9,000 change listeners are on another property;
# and for an owner that is made, listens and is released, after 1,000 and after 10,000 of them, so that one sees that nothing of them
# stays; for a change of a property that 1,000 and 10,000 others are joined with; and for each of 20 properties of 400 and of 4,000
# nodes that are forgotten in one change. Then it goes to the limits of pairs and of listeners, 10,000 each, and one past each, and
# tells how that ended.
# It builds crates/store_bench with `rt run`, and needs valgrind.
set -euo pipefail
source "$(dirname "$0")/program.sh" store_bench 1 0 0 0 0 0 0

# words: diamonds, sets, owners, listeners, pairs, nodes and those of them that are dropped
built=$(instructions 333 0 0 0 0 0 0)
told=$(instructions 333 100 0 0 0 0 0)
echo "a change and its notice: $(per 100 "$told" "$built") instructions, $(per 100000 "$told" "$built") a name"
for listeners in 1000 9000; do
    heard=$(instructions 333 0 0 "$listeners" 0 0 0)
    more=$(($(instructions 333 100 0 "$listeners" 0 0 0) - heard))
    echo "a listener elsewhere: $(per $((100 * listeners)) "$more" $((told - built))) instructions a change, among $listeners"
done
for owners in 1000 10000; do
    echo "an owner that listens: $(per "$owners" "$(instructions 333 0 "$owners" 0 0 0 0)" "$built") instructions, among $owners"
done
for pairs in 1000 10000; do
    joined=$(instructions 0 0 0 0 "$pairs" 0 0)
    more=$(per 1 "$(instructions 0 1 0 0 "$pairs" 0 0)" "$joined")
    echo "a change of $pairs joined properties: $more instructions"
done
for nodes in 400 4000; do
    kept=$(instructions 0 0 0 0 0 "$nodes" 0)
    gone=$(instructions 0 0 0 0 0 "$nodes" "$nodes")
    echo "a property that is forgotten: $(per $((20 * nodes)) "$gone" "$kept") instructions, with $nodes nodes"
done
# one listener stands at the end of the diamonds
echo "10,000 listeners: $(ending 0 0 0 9999 0 0 0)"
echo "one more:         $(ending 0 0 0 10000 0 0 0)"
echo "10,000 pairs:     $(ending 0 0 0 0 10000 0 0)"
echo "one more:         $(ending 0 0 0 0 10001 0 0)"
