#!/bin/bash
# Counts the instructions that scripts take: for each byte of a script of 100,000 lines that is read and dropped. Its
# lines are bindings, actions, styles and words as scripts have them.
# It builds crates/script_bench with `rt run`, and needs valgrind.
set -euo pipefail
source "$(dirname "$0")/program.sh" script_bench 20 1

# words: lines, readings
written=$(instructions 100000 0)
read=$(instructions 100000 1)
bytes=$(sed 's/ .*//' "$counts/told")
printf "read and dropped %s instructions a byte (%d bytes)\n" "$(per "$bytes" "$read" "$written")" "$bytes"
