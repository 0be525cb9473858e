#!/bin/bash
# Counts the instructions that loading a scene takes for each byte of its files: a scene of 1,000 and of 3,600 labels, in
# boxes of ten, each with an id, a text and a width that is bound to that of the label before it, as demos have them, and
# a style sheet of two rules. All is counted, from the words to the end of the process, but what the program takes for a
# scene without labels. At last it tells by how much a byte of the larger scene takes more than one of the smaller.
set -euo pipefail
source "$(dirname "$0")/counting.sh"

# a scene of so many labels in boxes of ten
labels() {
    awk -v labels="$1" 'BEGIN {
        print "<?import javafx.scene.layout.*?><?import javafx.scene.control.*?>"
        print "<VBox fx:id=\"root\" prefWidth=\"320\" prefHeight=\"240\">"
        for (i = 0; i < labels; i++) {
            if (i % 10 == 0)
                printf "%s<HBox fx:id=\"h%d\">\n", (i > 0) ? "</HBox>\n" : "", i / 10
            width = (i > 0) ? sprintf("${n%d.prefWidth %% 7 + %d}", i - 1, i * 5 % 9 + 1) : "6"
            printf "<Label fx:id=\"n%d\" text=\"%d\" prefWidth=\"%s\"/>\n", i, i, width
        }
        if (labels > 0)
            print "</HBox>"
        print "</VBox>"
    }'
}

# the instructions of the whole program for so many labels and no line of a script
instructions() {
    labels "$1" >"$folder/s.fxml"
    printf '.label{-fx-background-color:skyblue}\n.hot{-fx-background-color:orange}\n' >"$folder/s.css"
    : >"$folder/s.txt"
    counted_for "$folder/s.fxml" "$folder/s.txt" "$folder/s.css" --summary
}

bare=$(instructions 0)
for count in 1000 3600; do
    all=$(instructions "$count")
    bytes=$(cat "$folder/s.fxml" "$folder/s.css" | wc -c)
    each=$(awk -v all="$all" -v bare="$bare" -v bytes="$bytes" 'BEGIN { printf "%.1f", (all - bare) / bytes }')
    printf 'a scene of %4d labels: %s instructions a byte (%d bytes)\n' "$count" "$each" "$bytes"
    first=${first:-$each}
done
awk -v first="$first" -v last="$each" 'BEGIN { printf "growth: %.1f in 100\n", (last / first - 1) * 100 }'
echo
echo "instructions of a function with what the compiler put into it, in the last run:"
list_functions
