#!/bin/sh
# What a receive costs that is a take and three asks (a say, a send and the end), in runs of 10,000 receives: instructions of a pass on
# one thread beside the desk alone, and nanoseconds of the best of 40 runs at 1, 2, 4 and 8 threads beside the same desk under std's
# Mutex, which is locked for each call.
# Wished: at most 1.3 times the desk alone, and at most 1.5 times the Mutex.
cd "$(dirname "$0")/../crates/board_bench" || exit 1
log=$(mktemp)
rt run > "$log" 2>&1 || { cat "$log"; exit 1; }
rm "$log"

# Two runs less one run, so that what begins and ends the program is left out.
for form in alone board locked; do
    for runs in 1 3; do
        valgrind --tool=callgrind --callgrind-out-file=/dev/null out/board_bench $form $runs 2>&1 |
            awk -v form=$form '/Collected/ { print form, $4 }'
    done
done | awk '
    { if ($1 in first) took[$1] = ($2 - first[$1]) / 2 / 10000; else first[$1] = $2 }
    END {
        printf "instructions a receive: the desk alone %.0f, its board %.0f, under a Mutex %.0f\n", took["alone"], took["board"], took["locked"]
        printf "the board beside the desk alone: %.2f\n", took["board"] / took["alone"]
    }'
out/board_bench threads
