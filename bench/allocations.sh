#!/bin/sh
# What comes where memory is wanting: runs a program again and again, and its first call for memory is refused, then its second, and so
# on, to its last. Each time the program ends by itself, with the status for want of memory, and what it has written is a beginning of
# what the whole run writes; or it does without that memory, and writes the whole.
#   bench/allocations.sh parts    each part of the desk, built with few and with many of what it keeps, and a round of its calls
#   bench/allocations.sh FILE..   emrun, with the words and the script of these examples (examples/NAME)
# It needs a C compiler, for the few lines that refuse a call.
cd "$(dirname "$0")/.." || exit 1
room=$(mktemp -d) || exit 1
trap 'rm -rf "$room"' EXIT
trap 'exit 1' INT TERM
cat >"$room/refuse.c" <<'C'
#include <errno.h>
#include <stddef.h>
#include <stdio.h>
#include <stdlib.h>
void *__libc_malloc(size_t), *__libc_realloc(void *, size_t);
static long refused, made;
__attribute__((constructor)) static void begin(void) { refused = atol(getenv("REFUSED")); }
__attribute__((destructor)) static void end(void) {
    long all = made;
    FILE *file = refused ? NULL : fopen(getenv("COUNT"), "w");
    if (file) {
        fprintf(file, "%ld\n", all);
        fclose(file);
    }
}
static int is_refused(void) { return ++made == refused; }
void *malloc(size_t size) { return is_refused() ? (errno = ENOMEM, NULL) : __libc_malloc(size); }
void *realloc(void *old, size_t size) { return is_refused() ? (errno = ENOMEM, NULL) : __libc_realloc(old, size); }
C
cc -shared -fPIC -O1 -o "$room/refuse.so" "$room/refuse.c" || exit 1

# What is compared of a text: all of it, or the first word of each line, since the others are times.
all() { cat; }
first() { cut -d' ' -f1; }

# `each NAME WANT FILTER PROGRAM WORDS..`: all runs of the program, which reads $room/input and ends with status WANT where memory is wanting.
each() {
    name=$1 want=$2 filter=$3
    shift 3
    REFUSED=0 COUNT=$room/count LD_PRELOAD=$room/refuse.so "$@" <"$room/input" >"$room/text" 2>/dev/null
    whole=$?
    "$filter" <"$room/text" >"$room/whole"
    calls=$(cat "$room/count")
    harmless=0
    for number in $(seq "$calls"); do
        REFUSED=$number LD_PRELOAD=$room/refuse.so "$@" <"$room/input" >"$room/text" 2>/dev/null
        status=$?
        "$filter" <"$room/text" >"$room/part"
        if [ "$status" = "$whole" ] && cmp -s "$room/part" "$room/whole"; then
            harmless=$((harmless + 1))
            continue
        fi
        size=$(wc -c <"$room/part")
        if [ "$status" != "$want" ] || ! head -c "$size" "$room/whole" | cmp -s - "$room/part"; then
            echo "$name: without its allocation $number the status is $status, $size bytes written"
            failed=1
        fi
    done
    echo "$name: $calls allocations, each refused in turn; $harmless changed nothing"
}

failed=0
if [ "$1" = parts ]; then
    : >"$room/input"
    (cd crates/parts_bench && rt run >"$room/log" 2>&1) || {
        cat "$room/log"
        exit 1
    }
    program=crates/parts_bench/out/parts_bench
    for part in 'parallel 256' 'local 256' 'ordered 256' 'atomic 256' 'groups 32' 'objects 64' 'event_groups 64' 'operations 64'; do
        # shellcheck disable=SC2086
        set -- $part
        for count in 1 "$2"; do
            each "$1, $count" 1 first "$program" "$1" "$count" 16
        done
    done
    exit $failed
fi
for file in "$@"; do
    file=${file#examples/}
    file=${file%.em}
    cp "examples/$file.em" "$room/input" || exit 1
    # shellcheck disable=SC2046
    each "$file" 7 all crates/emrun/out/emrun $(cat "examples/$file.words")
done
exit $failed
