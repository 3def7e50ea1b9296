#!/bin/sh
# How many times the receives a second of `solo` a run makes that has a thread for each of its four cores, in one call of a program,
# where a receive does about 0, 2 and 15 microseconds of silent work. Wished on four processors: at least 0.4, 1.3 and 3.0 times,
# and on two at least 1.7 for the last. docs/DECISIONS.md says what was seen.
cd "$(dirname "$0")/../crates/threads_bench" || exit 1
log=$(mktemp)
trap 'rm -f "$log"' EXIT
rt run > "$log" 2>&1 || { cat "$log"; exit 1; }
nproc
out/threads_bench measure
