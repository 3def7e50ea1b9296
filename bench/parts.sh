#!/bin/sh
# What a call of the parts takes. Of the queues, at 1, 16 and 256 of them with 16 and 4,096 events in them: nanoseconds, the best of
# some runs less the calls that only tell whether it may come. With the word 'instructions', the instructions that valgrind counts,
# and those of the other parts too, with the least and the greatest number of queues, contexts, groups, objects and pending
# operations.
# Wished: no call grows by more than a tenth from the least to the greatest, and arrive, best, take and next_taken of one event
# take at most 150 instructions together. docs/DECISIONS.md says what was seen.
cd "$(dirname "$0")/../crates/parts_bench" || exit 1
log=$(mktemp)
rt run > "$log" 2>&1 || { cat "$log"; exit 1; }
rm "$log"

# The instructions of each call of a part: `calls PART MODULE COUNT EVENTS`. The bench tells how often it makes each call, in a
# function of that name.
calls() {
    out/parts_bench "$1" "$3" "$4" | while read -r call times; do
        [ "$call" = done ] && continue
        valgrind --tool=callgrind --callgrind-out-file=/dev/null --toggle-collect="parts_bench::$2::$call" \
            out/parts_bench "$1" "$3" "$4" 2>&1 |
            awk -v call="$call" -v times="$times" '/Collected/ { printf " %s %.0f", call, $4 / times }'
    done | sed "s/^/$1, $3, with $4 events:/"
    echo
}

# Each call is made by a function of the bench of its name; `best` and `take` are made in two of the loops, others in three.
if [ "$1" = instructions ]; then
    for kind in parallel local; do
        for queues in 1 16 256; do
            for events in 16 4096; do
                for call in arrive:1 best:2 take:2 next_taken:1 untake:1 taken_at:3 waiting:3 is_listed:2; do
                    valgrind --tool=callgrind --callgrind-out-file=/dev/null \
                        --toggle-collect="parts_bench::queues::${call%:*}" out/parts_bench "$kind" "$queues" "$events" 2>&1 |
                        awk -v call="${call%:*}" -v times="${call#*:}" '/Collected/ { printf "%s %.0f\n", call, $4 / times / 65536 }'
                done | awk -v what="$queues $kind queues, $events events:" '
                    { all = all " " $1 " " $2 }
                    $1 == "arrive" || $1 == "best" || $1 == "take" || $1 == "next_taken" { event += $2 }
                    END { printf "%s%s; one event %d\n", what, all, event }'
            done
        done
    done
    for count in 1 256; do
        for events in 16 4096; do
            calls ordered orders "$count" "$events"
        done
    done
    for part in 'atomic atomics 256' 'groups groups 32' 'objects objects 64' 'event_groups egroups 64' 'operations acks 64'; do
        # shellcheck disable=SC2086
        set -- $part
        for count in 1 "$3"; do
            calls "$1" "$2" "$count" 1
        done
    done
    exit
fi

for turn in 1 2 3 4 5; do
    for kind in parallel local unscheduled; do
        for queues in 1 16 256; do
            for events in 16 4096; do
                out/parts_bench "$kind" "$queues" "$events" | sed "s/^/$queues $kind queues, $events events:|/"
            done
        done
    done
done | awk -F'|' '
    {
        split($2, of, " ")
        took = of[2] / of[3]
        if (!($1 in seen)) { seen[$1] = 1; order[++count] = $1 }
        if (!(($1, of[1]) in best) || took < best[$1, of[1]]) best[$1, of[1]] = took
    }
    END {
        for (n = 1; n <= count; n++) {
            what = order[n]
            told = best[what, "waiting"] + best[what, "taken_at"]
            if (what ~ /unscheduled/)
                printf "%s dequeue %.1f\n", what, best[what, "dequeue"]
            else
                printf "%s arrive %.1f best %.1f waiting %.1f taken_at %.1f is_listed %.1f, take and untake %.1f, take and next_taken %.1f\n",
                    what, best[what, "arrive"] - best[what, "is_listed"], best[what, "best"], best[what, "waiting"],
                    best[what, "taken_at"], best[what, "is_listed"], best[what, "untake"] - told,
                    best[what, "serve"] - told - best[what, "best"]
        }
    }'
