#!/bin/bash
# Refuses each allocation of whole runs in turn, one number a run, until none is left to refuse: a run then has to end
# for want of memory, with status 6 and a beginning of what it writes, or to end as it does with all of its memory. It
# tells for each of the cases that are named, or of three small ones, how many runs ended so and so; its status is 1
# if a run did anything else. It takes a process for each allocation, and a C compiler for the library that refuses
# them.
set -euo pipefail
top="$(cd "$(dirname "$0")/.." && pwd)"
program="$top/crates/fxplay/out/fxplay"
"$top/fxplay" >/dev/null || [ $? -eq 2 ] # builds it, where that is due, and asks for no run
folder="$(mktemp -d)"
trap 'rm -r "$folder"' EXIT
failed=0
readonly no_memory=6

# allocations are counted from 1, and that of the number in REFUSED is refused, with a sign on standard error
cat >"$folder/refuse.c" <<'END'
#include <stddef.h>
#include <stdlib.h>
#include <unistd.h>

extern void *__libc_malloc(size_t size);
extern void *__libc_realloc(void *kept, size_t size);

static long left;

__attribute__((constructor)) static void begin(void)
{
    const char *number = getenv("REFUSED");
    left = number ? atol(number) : 0;
}

static int is_refused(void)
{
    if (left == 0 || --left != 0)
        return 0;
    return write(2, "!", 1) == 1;
}

void *malloc(size_t size)
{
    return is_refused() ? NULL : __libc_malloc(size);
}

void *realloc(void *kept, size_t size)
{
    return is_refused() ? NULL : __libc_realloc(kept, size);
}
END
cc -O1 -shared -fPIC -fno-builtin -o "$folder/refuse.so" "$folder/refuse.c"

# plays the words with the allocation of this number refused; what it writes stands in out, and is_refused tells
# whether it came
play_refusing() {
    status=0
    REFUSED="$1" LD_PRELOAD="$folder/refuse.so" "$program" "${words[@]}" \
        >"$folder/out" 2>"$folder/signs" </dev/null || status=$?
    is_refused=false
    [ ! -s "$folder/signs" ] || is_refused=true
}

# whether the output is a beginning of the whole one
is_beginning() {
    cmp -s -n "$(stat -c %s "$folder/out")" "$folder/out" "$wanted/out"
}

try_case() {
    local number=1 ended=0 whole=0
    wanted="$top/cases/$1"
    mapfile -t words <"$wanted/words"
    cp -r "$wanted/." "$folder/files"
    cd "$folder/files"
    while play_refusing "$number" && "$is_refused"; do
        if [ "$status" -eq "$no_memory" ] && is_beginning; then
            ended=$((ended + 1))
        elif [ "$status" -eq "$(cat "$wanted/status")" ] && cmp -s "$folder/out" "$wanted/out"; then
            whole=$((whole + 1))
        else
            failed=1
            echo "$1: with allocation $number refused it ends with $status, after $(stat -c %s "$folder/out") bytes"
        fi
        number=$((number + 1))
    done
    cd "$top"
    rm -r "$folder/files"
    echo "$1: $((number - 1)) allocations, $ended ended for want of memory, $whole as with all of it"
}

cases=("$@")
[ "${#cases[@]}" -gt 0 ] || cases=(change-told-once events-hover-styles-and-a-detached-node document-of-an-editor)
for name in "${cases[@]}"; do
    try_case "$name"
done
exit "$failed"
