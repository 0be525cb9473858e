#!/bin/bash
# Counts the instructions that demos take: for each byte of the three files of the demo of so many labels, which are made
# and dropped.
# It builds crates/gen_bench with `rt run`, and needs valgrind.
set -euo pipefail
source "$(dirname "$0")/program.sh" gen_bench 1 1

# words: labels, how many times
for labels in 100 3600; do
    once=$(instructions "$labels" 1)
    twice=$(instructions "$labels" 2)
    bytes=$(sed 's/ .*//' "$counts/told")
    printf "made %4d labels: %s instructions a byte (%d bytes)\n" "$labels" "$(per "$bytes" "$twice" "$once")" "$bytes"
done
