#!/bin/bash
# Makes the same twenty frames by JavaFX and by fxplay, and tells what each takes on the clock, the best of so many runs
# (three, or as the first word says): a scene of 100, 1,000 and 3,600 labels in boxes of ten, whose widths are bound to
# that of the first one, which is set before each frame, so that all of them are laid out and painted anew. JavaFX runs as
# test farms run it, on a display without a screen and by its own painter in software. It needs a JDK, and of Debian's
# packages openjfx and xvfb; the frames themselves aren't compared, since fxplay draws glyphs of its own.
set -euo pipefail
source "$(dirname "$0")/counting.sh"

runs=${1:-3}
modules=(--module-path "${JAVAFX:-/usr/share/openjfx/lib}" --add-modules javafx.controls,javafx.fxml)
javac "${modules[@]}" -d "$folder" "$top/bench/peer/Peer.java"

# a scene of so many labels in boxes of ten
labels() {
    awk -v labels="$1" 'BEGIN {
        print "<?import javafx.scene.layout.*?><?import javafx.scene.control.*?>"
        print "<VBox xmlns:fx=\"http://javafx.com/fxml\" fx:id=\"root\" prefWidth=\"640\" prefHeight=\"480\">"
        for (i = 0; i < labels; i++) {
            if (i % 10 == 0)
                printf "%s<HBox fx:id=\"h%d\">\n", (i > 0) ? "</HBox>\n" : "", i / 10
            width = (i > 0) ? sprintf("${n0.prefWidth %% 7 + %d}", i * 5 % 9 + 30) : "36"
            printf "<Label fx:id=\"n%d\" text=\"%d\" prefWidth=\"%s\"/>\n", i, i, width
        }
        print "</HBox>"
        print "</VBox>"
    }'
}

# the least number of the lines of its input
least() {
    sort -n | head -1
}

# the milliseconds on the clock of a command
clocked() {
    local began ended
    began=$(date +%s%N)
    "$@" >"$folder/out" 2>"$folder/log"
    ended=$(date +%s%N)
    awk -v span=$((ended - began)) 'BEGIN { printf "%.1f\n", span / 1e6 }'
}

exec 3>"$folder/display"
Xvfb -displayfd 3 -screen 0 1280x1024x24 2>/dev/null &
trap 'kill %1; rm -r "$folder"' EXIT
until [ -s "$folder/display" ]; do sleep 0.1; done
DISPLAY=":$(cat "$folder/display")"
export DISPLAY

printf '.label{-fx-background-color:skyblue}\n' >"$folder/s.css"
for ((i = 0; i < 20; i++)); do
    printf 'set n0.prefWidth %d\npulse\n' $((36 + i % 7))
done >"$folder/s.txt"
for count in 100 1000 3600; do
    labels "$count" >"$folder/s.fxml"
    peer=$(for ((i = 0; i < runs; i++)); do
        clocked java -Dprism.order=sw "${modules[@]}" -cp "$folder" Peer "$folder/s.fxml" "$folder/s.css" 20 640 480
    done | least)
    parts=$(cut -d' ' -f1-4 "$folder/out")
    own=$(for ((i = 0; i < runs; i++)); do
        clocked "$program" "$folder/s.fxml" "$folder/s.txt" "$folder/s.css" --size 640x480 --summary
    done | least)
    awk -v count="$count" -v peer="$peer" -v own="$own" -v parts="$parts" 'BEGIN {
        split(parts, p, " ")
        printf "%4d labels: JavaFX %7.0f ms (toolkit %d, scene %d, first frame %d, nineteen more %d in its last run), ",
            count, peer, p[1], p[2], p[3], p[4]
        printf "fxplay %6.1f ms, %.0f times as fast\n", own, peer / own
    }'
done
