#!/bin/bash
# Counts the instructions that the property graph takes: for each name of a chain of 10,000 bound ones that is marked by a change and
# evaluated by the read after it, for a read of a name that isn't unread, for each of 10,000 users that a change marks,
# for a change that marks none of them, and for each name that a refused binding looks at; for a name that is declared; and for a
# binding that is taken, among 1,000 and among 40,000 names that aren't bound. Then it goes to the limits of names and of
# operands, 4,000,000 and 1,000,000, and one past each, and tells how that ended.
# It builds crates/graph_bench with `rt run`, and needs valgrind.
set -euo pipefail
source "$(dirname "$0")/program.sh" graph_bench chain 1 0 0 0

# words: the shape, names, sets, reads and bindings
chain=$(instructions chain 10000 0 0 0)
evaluated=$(instructions chain 10000 10 0 0)
read=$(instructions chain 10000 0 10000 0)
refused=$(instructions chain 10000 0 0 10)
star=$(instructions star 10000 0 0 0)
marked=$(instructions star 10000 1 0 0)
again=$(instructions star 10000 1001 0 0)
few=$(instructions star 10 1001 0 0)
few_once=$(instructions star 10 1 0 0)
awk -v chain="$chain" -v evaluated="$evaluated" -v read="$read" -v refused="$refused" -v star="$star" -v marked="$marked" \
    -v again="$again" -v few="$few" -v few_once="$few_once" 'BEGIN {
    printf "marked and evaluated %.1f instructions a name of a chain\n", (evaluated - chain) / 10 / 10000
    printf "read again           %.1f instructions a read\n", (read - chain) / 10000
    printf "refused              %.1f instructions a name of the cycle\n", (refused - chain) / 10 / 10000
    printf "marked               %.1f instructions a user\n", (marked - star) / 10000
    printf "set and read one     %.1f instructions under 10,000 users that are unread, %.1f under 10\n", (again - marked) / 1000, (few - few_once) / 1000
}'
declared=$(instructions apart 1000 0 0 0)
echo "declared             $(per 39000 "$(instructions apart 40000 0 0 0)" "$declared") instructions a name"
for names in 1000 40000; do
    apart=$(instructions apart "$names" 0 0 0)
    echo "bound                $(per 1000 "$(instructions apart "$names" 0 0 1000)" "$apart") instructions a binding, among $names"
done
# one name stands in front of those that are counted
echo "4,000,000 names:     $(ending apart 3999999 0 0 0)"
echo "one more:            $(ending apart 4000000 0 0 0)"
echo "1,000,000 operands:  $(ending star 1000000 0 0 0)"
echo "one more:            $(ending star 1000001 0 0 0)"
