#!/bin/bash
# Counts the instructions a pixel that it takes to paint a window of 1,000 by 1,000 pixels anew: in white, and over the
# white a fill, a blend, and letters of which each bit is four pixels wide, two, and one. Beside them stand those of the
# row kernels themselves. Then the instructions an entry of the damage where one of 4,000 entries changed, between whole
# pictures and by edits alone, and where all of 1,000, 2,000 and 4,000 entries changed whose birth numbers fall from place
# to place. It builds crates/canvas_bench and crates/lanes_bench with `rt run`, and needs valgrind.
set -euo pipefail
bench="$(dirname "$0")"
"$bench/lanes.sh"
source "$bench/program.sh" canvas_bench white 1

# the instructions of ten rounds
rounds() {
    echo $(($(instructions "$1" 11 "${@:2}") - $(instructions "$1" 1 "${@:2}")))
}

white=$(rounds white)
echo "white         $(awk -v n="$white" 'BEGIN { printf "%.3f", n / 10 / 1000000 }') instructions a pixel"
for task in fill blend letters small-letters tiny-letters; do
    awk -v task="$task" -v all="$(rounds "$task")" -v white="$white" \
        'BEGIN { printf "%-13s %.3f instructions a pixel over the white\n", task, (all - white) / 10 / 1000000 }'
done
for task in damage edits; do
    awk -v task="$task" -v all="$(rounds "$task")" \
        'BEGIN { printf "%-8s %.1f instructions an entry of 4000, of which one changed\n", task, all / 10 / 4000 }'
done
for task in falling falling-edits; do
    for count in 1000 2000 4000; do
        awk -v task="$task" -v count="$count" -v all="$(rounds "$task" "$count")" \
            'BEGIN { printf "%-13s %.1f instructions an entry of %d, which all changed\n", task, all / 10 / count, count }'
    done
done
