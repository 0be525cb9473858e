# What the benches of one small program share: `rt run` builds it, and valgrind counts its instructions.
# It is sourced with the crate's name and the words of a first run, and makes a folder that goes when the bench ends.
crate="$(cd "$(dirname "${BASH_SOURCE[0]}")/../crates/$1" && pwd)"
program="$crate/out/$1"
(cd "$crate" && rt run -- "${@:2}" >/dev/null 2>&1)
counts="$(mktemp -d)"
trap 'rm -r "$counts"' EXIT

# the instructions of the whole program with these words; what it printed stands in told
instructions() {
    valgrind --tool=callgrind --callgrind-out-file="$counts/out" "$program" "$@" 2>"$counts/log" >"$counts/told"
    sed -n 's/^summary: //p' "$counts/out"
}

# how the program ends with these words, and after how long
ending() {
    local began=$EPOCHREALTIME status=0
    "$program" "$@" 2>"$counts/log" >"$counts/told" || status=$?
    awk -v began="$began" -v ended="$EPOCHREALTIME" -v status="$status" 'BEGIN {
        printf "status %d in %.1f s", status, ended - began
    }'
    sed 's/^/, /' "$counts/log" | head -1
}

# the difference of two counts, for each of so many things
per() {
    awk -v things="$1" -v more="$2" -v less="$3" 'BEGIN { printf "%.1f", (more - less) / things }'
}
