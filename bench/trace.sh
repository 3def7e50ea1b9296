#!/bin/sh
# Entries per second, written into memory and read back, for 100,000 entries as traces of 1,000, 10,000 and 100,000: the best of
# some runs. At first all are parts of one history of 100,000 entries, so that the sizes differ in the length of a trace alone,
# and then each is a whole history of its size, over and over. With the word 'instructions' it prints what valgrind counts.
# docs/DECISIONS.md says what such numbers show and what they do not.
cd "$(dirname "$0")/../crates/trace_bench" || exit 1
log=$(mktemp)
rt run > "$log" 2>&1 || { cat "$log"; exit 1; }
rm "$log"

# The program writes and reads the 100,000 entries seven times.
if [ "$1" = instructions ]; then
    for count in 1000 10000 100000; do
        for call in write_history read_history; do
            valgrind --tool=callgrind --callgrind-out-file=/dev/null --toggle-collect="*$call*" out/trace_bench "$count" 2>&1 |
                awk -v what="$count entries: $call" '/Collected/ { printf "%s takes %d instructions an entry\n", what, $4 / 700000 }'
        done
    done
    exit
fi

# Takes lines of a size and the nanoseconds that its 100,000 entries took to write and to read.
best() {
    awk '
    !($1 in write) || $2 < write[$1] { write[$1] = $2 }
    !($1 in read) || $3 < read[$1] { read[$1] = $3 }
    END {
        for (count = 1000; count <= 100000; count *= 10)
            printf "%d entries: %d written and %d read a second\n", count, 1e14 / write[count], 1e14 / read[count]
        printf "an entry of 100000 takes %.2f times as long to write as one of 1000, and %.2f times to read\n",
            write[100000] / write[1000], read[100000] / read[1000]
    }'
}

echo "parts of one history:"
for turn in 1 2 3 4 5; do
    for count in 1000 10000 100000; do
        out/trace_bench "$count"
    done
done | best
echo "each a history of its own:"
for turn in 1 2 3 4 5; do
    for count in 1000 10000 100000; do
        out/trace_bench "$count" "$count"
    done
done | best
