#!/bin/bash
# Counts the instructions that style sheets take: for each byte of a sheet of 4,096 rules that is read and dropped, without comments
# and with one before each rule, and for each search of the rules that match a node of three classes. Each class is named by so many rules, which are the candidates; three
# of four match. A search grows with the candidates, and not with the rules of the sheet, nor with the inline styles of other nodes.
# It builds crates/sheets_bench with `rt run`, and needs valgrind.
set -euo pipefail
source "$(dirname "$0")/program.sh" sheets_bench 8 4 1 2

# words: rules, rules that share a class, readings, searches, and whether there are comments
for comments in "" commented; do
    written=$(instructions 4096 4 0 0 $comments)
    read=$(instructions 4096 4 1 0 $comments)
    bytes=$(sed 's/ .*//' "$counts/told")
    printf "read and dropped %s instructions a byte (%d bytes%s)\n" "$(per "$bytes" "$read" "$written")" "$bytes" "${comments:+, $comments}"
done

for sizes in "1024 4" "4096 4" "1024 64" "4096 64" "4096 1024"; do
    set -- $sizes
    few=$(instructions "$1" "$2" 0 10)
    many=$(instructions "$1" "$2" 0 60)
    awk -v rules="$1" -v sharing="$2" -v few="$few" -v many="$many" 'BEGIN {
        each = (many - few) / 50
        printf "searched %4d candidates of %d rules: %.0f instructions, %.0f a candidate\n", 3 * sharing, rules, each, each / 3 / sharing
    }'
done

# the button has an inline style, and so have others: a search looks at its own alone
for styles in 0 1 2000; do
    few=$(instructions 4096 4 0 10 plain "$styles")
    many=$(instructions 4096 4 0 60 plain "$styles")
    awk -v styles="$styles" -v few="$few" -v many="$many" 'BEGIN {
        printf "searched among %4d inline styles: %.0f instructions\n", styles, (many - few) / 50
    }'
done
