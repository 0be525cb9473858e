#!/bin/bash
# Counts the instructions a pixel of a view that compares all rows of 20 frames of 1,000 by 1,000 pixels, in each of which
# one entry of 100 by 10 changed; and those of a viewer of such frames for each pixel that it writes as text, beside the
# same frames without row items, which is what their text costs. It builds crates/stream_bench with `rt run`, and needs
# valgrind.
set -euo pipefail
source "$(dirname "$0")/program.sh" stream_bench view 10 1

# what is done with the frames
pixel() {
    local once often
    once=$(instructions "$1" 1000 1)
    often=$(instructions "$1" 1000 21)
    awk -v more="$often" -v less="$once" 'BEGIN { printf "%.3f", (more - less) / 20 / 1000000 }'
}

echo "a view:                       $(pixel view) instructions a pixel compared"
echo "a viewer:                     $(pixel show) instructions a pixel written"
echo "a viewer without row items:   $(pixel plain) instructions a pixel written"
