#!/bin/bash
# Counts the instructions that events take in whole runs without images: of a `move` over 1,000 and over 4,000 nodes,
# from one of them to another; of a click, its three lines, on the innermost of 15, 30 and 60 panes with four handlers
# each, and of 60 panes with 16; and of each run of a listener's action, of 250, 500 and 1,000 that stand in one
# queue, of 1,000 where 9,000 listeners are on a property before it, and of 1,000 of which each asks for the next.
set -euo pipefail
source "$(dirname "$0")/counting.sh"
imports="<?import javafx.scene.layout.*?>"

# the instructions of the whole program for s.fxml and s.txt of the folder, without images
plainly() {
    counted_for "$folder/s.fxml" "$folder/s.txt" --frames none
}

# the instructions of so many lines, from those of one run and of another that has them more
each() {
    awk -v lines="$1" -v more="$2" -v less="$3" 'BEGIN { printf "%d", (more - less) / lines }'
}

# a frame, and then so many moves, each to another node, over so many nodes
moves() {
    { echo "$imports"; pane "$1"; } >"$folder/s.fxml"
    awk -v nodes="$1" -v moves="$2" 'BEGIN {
        print "pulse"
        for (i = 1; i <= moves; i++) {
            node = i * 37 % nodes
            printf "move %d %d\n", node % 10 * 100 + 50, int(node / 10) * 10 + 5
        }
    }' >"$folder/s.txt"
    plainly
}

# so many panes, one in the other
nested() {
    echo "$imports"
    awk -v depth="$1" 'BEGIN {
        for (i = 1; i <= depth; i++)
            printf "<StackPane fx:id=\"p%d\" prefWidth=\"9\" prefHeight=\"9\">\n", i
        for (i = 1; i <= depth; i++)
            print "</StackPane>"
    }'
}

# so many panes with so many handlers each, and so many clicks
clicks() {
    nested "$1" >"$folder/s.fxml"
    awk -v depth="$1" -v handlers="$2" -v clicks="$3" 'BEGIN {
        print "action seen\nend\npulse"
        for (i = 1; i <= depth; i++)
            for (j = 1; j <= handlers; j++)
                printf "handle p%d MOUSE_CLICKED seen\n", i
        for (i = 1; i <= clicks; i++)
            print "move 5 5\npress\nrelease-button"
    }' >"$folder/s.txt"
    plainly
}

# so many listeners with an action, so many changes that each of them hears, and so many listeners on another property
queues() {
    nested 1 >"$folder/s.fxml"
    awk -v listeners="$1" -v changes="$2" -v others="$3" 'BEGIN {
        print "prop quiet int 0\nprop heard int 0\naction seen\nend"
        for (i = 1; i <= others; i++)
            print "watch invalid quiet seen"
        for (i = 1; i <= listeners; i++)
            print "watch invalid heard seen"
        for (i = 1; i <= changes; i++)
            printf "set heard %d\nget heard\n", i
    }' >"$folder/s.txt"
    plainly
}

# an action that turns over what it listens to, 1,000 times behind each of so many lines
circles() {
    nested 1 >"$folder/s.fxml"
    awk -v lines="$1" 'BEGIN {
        print "prop here bool false\nprop there bool false"
        print "action turn\nbind there ${!here}\nunbind there\nbind here ${there}\nunbind here\nend"
        print "watch change here turn"
        for (i = 1; i <= lines; i++)
            print "set here " (i % 2 ? "true" : "false")
    }' >"$folder/s.txt"
    plainly
}

for nodes in 1000 4000; do
    echo "a move over $nodes nodes: $(each 100 "$(moves "$nodes" 110)" "$(moves "$nodes" 10)") instructions"
done
for route in "15 4" "30 4" "60 4" "60 16"; do
    read -r panes handlers <<<"$route"
    more=$(each 20 "$(clicks "$panes" "$handlers" 25)" "$(clicks "$panes" "$handlers" 5)")
    echo "a click through $panes panes with $handlers handlers each: $more instructions"
done
for sizes in "250 0" "500 0" "1000 0" "1000 9000"; do
    read -r listeners others <<<"$sizes"
    more=$(each 4 "$(queues "$listeners" 5 "$others")" "$(queues "$listeners" 1 "$others")")
    echo "a queue of $listeners runs among $others other listeners: $more instructions, $((more / listeners)) a run"
done
more=$(each 4 "$(circles 5)" "$(circles 1)")
echo "1,000 runs, each asking for the next: $more instructions, $((more / 1000)) a run"
echo
echo "instructions of a function with what the compiler put into it, in the last run:"
list_functions
