#!/bin/sh
# Nanoseconds per move of a body, for 1, 16, 64 and 255 times 256 rounds of one statement that asks nothing, and for as many
# rounds of no statement; then for 1, 25, 50 and 100 faults, each of which an error body of one statement handles: the best of
# some runs. 255 times 256 rounds of one statement are the most that a script's body may
# have: 65,536 steps. The beginning and the end of a context count into its moves.
# Wished: time linear in the steps, so the nanoseconds of a move do not grow with the rounds or with the faults, and empty
# rounds take none.
cd "$(dirname "$0")/../crates/body_bench" || exit 1
log=$(mktemp)
rt run > "$log" 2>&1 || { cat "$log"; exit 1; }
rm "$log"
for turn in 1 2 3 4 5; do
    for times in 1 16 25 50 64 100 255; do
        out/body_bench "$times"
    done
done | awk '
    { key = $1 " " $2; moves[key] = $3; took = $4 / $5 }
    !(key in best) || took < best[key] { best[key] = took }
    END {
        split("1 16 64 255", times, " ")
        split("counting empty", names, " ")
        for (n = 1; n <= 2; n++)
            for (t = 1; t <= 4; t++) {
                key = names[n] " " times[t]
                printf "%d times 256 %s rounds: %d moves, %.1f ns a move\n", times[t], names[n], moves[key], best[key]
            }
        split("1 25 50 100", faults, " ")
        for (t = 1; t <= 4; t++) {
            key = "faulting " faults[t]
            printf "%d faults that are handled: %d moves, %.1f ns a move\n", faults[t], moves[key], best[key]
        }
    }'
