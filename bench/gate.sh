#!/bin/sh
# What the gate costs: proves each crate from nothing with its tests and its must-fail edits, one after the other, and prints a
# table: lines, processor seconds of the proof, of the tests and of the edits, and the most memory that a process took.
#   bench/gate.sh [-k] [-s] [NAME..]
# With names it proves these crates and those below them. With -k it takes what an earlier run kept, and measures the rest. What
# passes is kept as by rt ci, so that a measured run costs the gate nothing twice. With -s crates are proved side by side, on all
# processors: the seconds grow a little, and the whole takes less time. The status is that of rt ci.
cd "$(dirname "$0")/.." || exit 1
again=--anew
jobs=1
while getopts ks flag; do
    case $flag in
    k) again= ;;
    s) jobs= ;;
    *) exit 2 ;;
    esac
done
shift $((OPTIND - 1))
log=$(mktemp) || exit 1
trap 'rm -f "$log"' EXIT
# shellcheck disable=SC2086
AGAIN=$again JOBS=$jobs LOG=$log python3 - "$@" <<'PYTHON'
import collections
import os
import re
import subprocess
import sys
import time

TICKS = os.sysconf("SC_CLK_TCK")
BETWEEN_LOOKS = 0.25
PARTS = ("proof", "tests", "edits")


def text_of(file):
    try:
        with open(file, "rb") as it:
            return it.read().decode(errors="replace")
    except OSError:
        return ""


def processes():
    """The processes that there are, each with its parent and the seconds that it and its ended children took."""
    found = {}
    for name in filter(str.isdigit, os.listdir("/proc")):
        fields = text_of(f"/proc/{name}/stat").rpartition(")")[2].split()
        if fields:
            found[int(name)] = int(fields[1]), sum(map(int, fields[11:15])) / TICKS
    return found


def work_of(pid):
    """The crate and the part of the gate that a process works for, if its words tell."""
    words = text_of(f"/proc/{pid}/cmdline").split("\0")
    if words[0].endswith("/rattle") and "--crate-name" in words:
        try:
            in_edit = os.path.basename(os.readlink(f"/proc/{pid}/cwd")).startswith("rt-edit-")
        except OSError:
            return None
        part = "edits" if in_edit else "tests" if "--test" in words else "proof"
        return words[words.index("--crate-name") + 1], part
    # a program or tests that run, outside the repository
    ran = next((re.search(r"/rt-run-[^/]*/bin/(\w+?)(_tests)?$", it) for it in words if "/rt-run-" in it), None)
    return (ran[1], "tests") if ran else None


def watch(run):
    """Waits for the end of a run, and returns the seconds of each crate's parts and the most memory that a process of the crate took."""
    seconds, memory, known = collections.Counter(), collections.Counter(), {}
    while run.poll() is None:
        every = processes()
        below = collections.defaultdict(list)
        for pid, (parent, _) in every.items():
            below[parent].append(pid)
        for first in below[run.pid]:
            tree = [first]
            for pid in tree:
                tree += below[pid]
            work = next(filter(None, map(work_of, tree)), None) or known.get(first, (None,))[0]
            if work:
                known[first] = work, max(sum(every[it][1] for it in tree), known.get(first, (None, 0))[1])
                peaks = [re.search(r"VmHWM:\s+(\d+)", text_of(f"/proc/{it}/status")) for it in tree]
                memory[work[0]] = max([memory[work[0]], *(int(it[1]) for it in peaks if it)])
        for pid in [it for it in known if it not in every]:
            work, took = known.pop(pid)
            seconds[work] += took
        time.sleep(BETWEEN_LOOKS)
    for work, took in known.values():
        seconds[work] += took
    return seconds, memory


def listed():
    lines = text_of("crates.txt").splitlines()
    return [it.split(":")[0].split()[0] for it in (it.partition("#")[0] for it in lines) if ":" in it]


def lines_of(crate):
    found = 0
    for part in ("src", "specs", "proofs"):
        for at, _, names in os.walk(f"crates/{crate}/{part}"):
            found += sum(text_of(f"{at}/{it}").count("\n") for it in names)
    return found


def table(seconds, memory, said):
    kept = set(re.findall(r"(\w+) is kept: ", said))
    print("| crate | lines | proof | tests | edits | GB |\n|---|---|---|---|---|---|")
    sums, lines = collections.Counter(), 0
    for crate in listed():
        took = [seconds[crate, it] for it in PARTS]
        if sum(took) or crate in kept:
            lines += lines_of(crate)
            sums.update(dict(zip(PARTS, took)))
            cells = [f"{it:.0f}" for it in took]
            cells[0] = "kept" if crate in kept else cells[0]
            print(f"| `{crate}` | {lines_of(crate)} | {' | '.join(cells)} | {memory[crate] / 1e6:.1f} |")
    print(f"| all | {lines} | {' | '.join(f'{sums[it]:.0f}' for it in PARTS)} | |")
    print(f"\nprocessor minutes: {sum(sums.values()) / 60:.0f}")


environment = {**os.environ, "RT_JOBS": os.environ["JOBS"]}
way = "one after the other" if os.environ["JOBS"] else "side by side"
words = ["rt", "ci", *os.environ["AGAIN"].split(), *sys.argv[1:]]
began = time.monotonic()
with open(os.environ["LOG"], "wb") as log:
    run = subprocess.Popen(words, stdin=subprocess.DEVNULL, stdout=log, stderr=log, env=environment)
    seconds, memory = watch(run)
said = text_of(os.environ["LOG"])
table(seconds, memory, said)
print(f"minutes on {os.cpu_count()} processors, {way}: {(time.monotonic() - began) / 60:.0f}")
if run.returncode:
    print(said, file=sys.stderr)
print(said.splitlines()[-1] if said else "")
sys.exit(run.returncode)
PYTHON
