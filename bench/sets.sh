#!/bin/bash
# Counts the instructions that a `set` of one property takes in whole runs without images: of a property of one node
# in scenes of 10, 1,000 and 4,000 nodes, alone, and with the frame that shows it.
set -euo pipefail
source "$(dirname "$0")/counting.sh"

# a frame, and then so many times a `set`, and what else is asked for each time
sets() {
    { echo "<?import javafx.scene.layout.*?>"; pane "$1"; } >"$folder/s.fxml"
    awk -v sets="$2" -v behind="$3" 'BEGIN {
        print "pulse"
        for (i = 1; i <= sets; i++) {
            printf "set r1.layoutX %d\n", 100 + i % 7
            if (behind != "")
                print behind
        }
    }' >"$folder/s.txt"
    counted_for "$folder/s.fxml" "$folder/s.txt" --frames none
}

# what each of so many times takes, from a run with ten and one with so many more
each() {
    echo $((($(sets "$1" $((10 + $2)) "$3") - $(sets "$1" 10 "$3")) / $2))
}

for nodes in 10 1000 4000; do
    echo "a set among $nodes nodes: $(each "$nodes" 1000 "") instructions, and $(each "$nodes" 20 pulse) with its frame"
done
echo
echo "instructions of a function with what the compiler put into it, in the last run:"
list_functions
