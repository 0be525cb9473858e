#!/bin/bash
# Counts the instructions a pixel of each row kernel beside its plain loop, over rows of 1,000 pixels.
# It builds crates/lanes_bench with `rt run`, and needs valgrind.
set -euo pipefail
source "$(dirname "$0")/program.sh" lanes_bench fill 1

# words: the kernel, and how many times it runs
for kernel in fill plain-fill blend plain-blend equal plain-equal; do
    few=$(instructions "$kernel" 100)
    many=$(instructions "$kernel" 1100)
    awk -v kernel="$kernel" -v few="$few" -v many="$many" \
        'BEGIN { printf "%-12s %.3f instructions a pixel\n", kernel, (many - few) / 1000 / 1000 }'
done
