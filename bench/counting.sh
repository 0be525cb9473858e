# What the benches of the program share: scenes of many regions, and counts of instructions by valgrind.
# It is sourced; it builds the program by ./fxplay, and makes a folder that goes when the bench ends.
top="$(cd "$(dirname "${BASH_SOURCE[0]}")/.." && pwd)"
program="$top/crates/fxplay/out/fxplay"
"$top/fxplay" >/dev/null || [ $? -eq 2 ] # builds it, where that is due, and asks for no run
folder="$(mktemp -d)"
trap 'rm -r "$folder"' EXIT

# a pane with so many regions of 100 by 10 pixels, in rows of 10; without its import no scene is made of it
pane() {
    awk -v regions="$1" 'BEGIN {
        print "<Pane prefWidth=\"1000\" prefHeight=\"1000\">"
        for (i = 0; i < regions; i++)
            printf "<Region fx:id=\"r%d\" layoutX=\"%d\" layoutY=\"%d\" prefWidth=\"100\" prefHeight=\"10\" style=\"-fx-background-color:#%06x\"/>\n",
                i, i % 10 * 100, int(i / 10) * 10, i * 4193
        print "</Pane>"
    }'
}

# the instructions of the whole program for these words
counted_for() {
    valgrind --tool=callgrind --callgrind-out-file="$folder/counts" "$program" "$@" >/dev/null 2>"$folder/log" || true
    sed -n 's/^summary: //p' "$folder/counts"
}

# the instructions of the whole program for s.fxml and s.txt of the folder
counted() {
    counted_for "$folder/s.fxml" "$folder/s.txt"
}

# the functions that took most in the last count
list_functions() {
    callgrind_annotate --threshold=99.9 "$folder/counts" | grep -E '^ *[0-9,]+ \(' | sed 's/ \[.*//' | head -8
}
