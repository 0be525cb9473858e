#!/bin/bash
# Counts the instructions that the program takes for each pixel that it writes: a scene of 1,000 regions in a window
# of 1,000 by 1,000, and a script of 20 frames with one `set` between two. It lists the functions that take most.
set -euo pipefail
source "$(dirname "$0")/counting.sh"
frames=20

# a scene of so many regions
scene() {
    echo "<?import javafx.scene.layout.*?>"
    pane "$1"
}

# a script of this many frames, in which a region moves from one to the next; without regions that is refused
script() {
    awk -v frames="$1" 'BEGIN {
        for (i = 1; i <= frames; i++) {
            if (i > 1)
                printf "set r%d.layoutX %d\n", i * 37, i * 40
            print "pulse"
        }
    }'
}

# the instructions of the whole program for so many regions and frames
instructions() {
    scene "$1" >"$folder/s.fxml"
    script "$2" >"$folder/s.txt"
    counted
}

bare=$(instructions 0 "$frames")
reading=$(instructions 1000 0)
all=$(instructions 1000 "$frames")
awk -v bare="$bare" -v reading="$reading" -v all="$all" -v frames="$frames" 'BEGIN {
    pixels = frames * 1000 * 1000
    printf "all           %.2f instructions a pixel\n", all / pixels
    printf "  reading     %.2f (%d instructions, once)\n", reading / pixels, reading
    printf "  painting    %.2f (what the regions add to the frames)\n", (all - reading - bare) / pixels
    printf "  printing    %.2f (the frames without regions)\n", bare / pixels
}'
echo
echo "instructions of a function with what the compiler put into it, in all $frames frames:"
list_functions
