#!/bin/sh
# Nanoseconds per byte of reading a script, for scripts of 1,024 to 65,536 bytes that are made alike: bodies with statements,
# expressions and comments. The best of some runs, and how many times as long a byte of the longest takes as one of the shortest.
# Wished: at most 1.5 times.
cd "$(dirname "$0")/../crates/script_bench" || exit 1
log=$(mktemp)
rt run > "$log" 2>&1 || { cat "$log"; exit 1; }
rm "$log"
for turn in 1 2 3; do
    for size in 1024 4096 16384 65536; do
        out/script_bench "$size"
    done
done | awk '
    { took = $2 / $3 }
    !($1 in best) || took < best[$1] { best[$1] = took }
    END {
        for (size = 1024; size <= 65536; size *= 4)
            printf "%d bytes: %.1f ns a byte\n", size, best[size]
        printf "ratio of the longest to the shortest: %.2f\n", best[65536] / best[1024]
    }'
