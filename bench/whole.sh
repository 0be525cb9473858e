#!/bin/bash
# Counts the instructions of whole runs: the demos of 1, 100, 1,000 and 3,600 labels, or of as many as the words say,
# each with its frames as text, and with the one line of its totals, so that nearly no time goes into printing; and tells
# how much memory each took from the heap at most. What a start takes is counted by a run that asks for nothing. It lists
# the functions that take most of the last run with totals.
set -euo pipefail
source "$(dirname "$0")/counting.sh"

# the most memory from the heap that the program held at once with these words, in millions of bytes
peak() {
    valgrind --tool=massif --peak-inaccuracy=0.0 --massif-out-file="$folder/heap" "$program" "$@" >/dev/null 2>"$folder/log" || true
    awk -F= '$1 == "mem_heap_B" && $2 > most { most = $2 } END { printf "%.1f", most / 1e6 }' "$folder/heap"
}

numbers=("$@")
[ "${#numbers[@]}" -gt 0 ] || numbers=(1 100 1000 3600)
awk -v all="$(counted_for)" -v peak="$(peak)" 'BEGIN {
    printf "a start                  %8.3f million instructions, %s million bytes\n", all / 1e6, peak
}'
for number in "${numbers[@]}"; do
    for frames in "--frames text" --summary; do
        read -ra words <<<"$frames"
        all=$(counted_for "demo:$number" "${words[@]}")
        awk -v number="$number" -v all="$all" -v frames="$frames" -v peak="$(peak "demo:$number" "${words[@]}")" 'BEGIN {
            printf "demo:%-5d %-13s %8.1f million instructions, %d a label, %s million bytes\n", number, frames,
                all / 1e6, all / number, peak
        }'
    done
done
echo
echo "instructions of a function with what the compiler put into it:"
list_functions
