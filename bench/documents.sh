#!/bin/bash
# Counts the instructions that reading takes for each byte of a document of 4,000 elements, of two kinds: with six plain attributes
# each, and with comments, texts, references, single quotes and white round `=`, over several lines.
# The documents import nothing, so that no scene is made of them: the program reads each, refuses it and ends. What the
# program takes for a document without elements in its root is subtracted.
set -euo pipefail
source "$(dirname "$0")/counting.sh"

# a pane with so many labels, each behind a comment, with text in it
mixed() {
    awk -v labels="$1" 'BEGIN {
        q = "\047"
        print "<Pane prefWidth=\"1000\" prefHeight=\"1000\">"
        for (i = 0; i < labels; i++) {
            printf "  <!-- label %d, one of many: it isn" q "t deep -->\n", i
            printf "  <Label fx:id=" q "l%d" q " layoutX = \"%d\"\n", i, i
            printf "      style=" q "-fx-font-family: \"Sans\"" q " text = " q "this &amp; that" q ">\n"
            printf "    some text of %d &lt; words, and more of it\n  </Label>\n", i
        }
        print "</Pane>"
    }'
}

# the instructions of the whole program for a document of this kind with so many elements in its root
instructions() {
    "$1" "$2" >"$folder/s.fxml"
    : >"$folder/s.txt"
    counted
}

for kind in pane mixed; do
    bare=$(instructions "$kind" 0)
    all=$(instructions "$kind" 4000)
    bytes=$(wc -c <"$folder/s.fxml")
    awk -v kind="$kind" -v bare="$bare" -v all="$all" -v bytes="$bytes" 'BEGIN {
        named = kind == "pane" ? "plain attributes" : "texts and comments"
        printf "reading %-20s %.1f instructions a byte (%d bytes)\n", named, (all - bare) / bytes, bytes
    }'
    echo "instructions of a function with what the compiler put into it:"
    list_functions
    echo
done
