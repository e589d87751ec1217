#!/bin/sh
# How fast `denokv pipe` answers frames: megabytes a second for writes of small and of large values, how the time grows with
# the number of frames, frames a second for reads and writes over 1,000 and over 100,000 keys, also where a tenth of the keys
# ends at each step, a million SETs in three orders with the memory that they take, the moment at which 100,000 keys end,
# rounds a second of an enqueue, a take and an acknowledgement while 10 and while 100,000 messages wait, and of the workload that
# `generate` writes frames a second, with `--summary` too and beside SQLite in memory, and instructions a frame where valgrind is there.
# Skipped where python3 is missing.
set -u
cd "$(dirname "$0")/.." || exit 2
if ! command -v python3 >/dev/null 2>&1; then
    echo "bench/pipe.sh: skipped, since there is no python3" >&2
    exit 0
fi
folder=$(mktemp -d) || exit 2
trap 'rm -rf "$folder"' EXIT
./denokv pipe </dev/null || exit 1

# seconds FILE [OPTION]: the least of three runs over the frames of the file
seconds() {
    python3 - "$@" <<'PYTHON'
import subprocess, sys, time
best = None
for _ in range(3):
    with open(sys.argv[1], "rb") as source:
        start = time.perf_counter()
        subprocess.run(["crates/denokv/out/denokv", "pipe", *sys.argv[2:]], stdin=source, stdout=subprocess.DEVNULL, check=True)
        took = time.perf_counter() - start
    best = took if best is None else min(best, took)
print(f"{best:.4f}")
PYTHON
}

# memory FILE: the most bytes that a run over the frames of the file had in memory, or 0 where GNU time is missing
memory() {
    [ -x /usr/bin/time ] || { echo 0; return; }
    echo $(($(/usr/bin/time -f %M crates/denokv/out/denokv pipe <"$1" 2>&1 >/dev/null) * 1024))
}

# writes SETS VALUE FRAMES
writes() {
    python3 bench/frames.py writes 1000 "$3" "$1" "$2" >"$folder/frames" || exit 1
    size=$(wc -c <"$folder/frames")
    awk -v n="$3" -v sets="$1" -v value="$2" -v size="$size" -v s="$(seconds "$folder/frames")" \
        'BEGIN { printf "%6d writes of %2d SETs of %5d bytes: %.3f s, %.1f MB/s\n", n, sets, value, s, size / 1e6 / s }'
}

# over LOAD KIND KEYS FRAMES: the frames alone, without the load before them
over() {
    python3 bench/frames.py "$1" "$3" 0 >"$folder/load" || exit 1
    python3 bench/frames.py "$2" "$3" "$4" >"$folder/frames" || exit 1
    awk -v kind="$2" -v keys="$3" -v n="$4" -v all="$(seconds "$folder/frames")" -v load="$(seconds "$folder/load")" \
        'BEGIN {
            s = all - load; if (s <= 0) s = 0.0001
            if (kind == "round") printf "takes and acknowledgements over %6d messages: %8.0f of each a second\n", keys, n / s
            else printf "%-6s over %6d keys: %8.0f frames/s\n", kind, keys, n / s
        }'
}

# filled KIND: a million SETs in an order, and the memory of each entry beside its key of 9 bytes and its value of 8
filled() {
    python3 bench/frames.py "$1" 1000000 0 >"$folder/frames" || exit 1
    awk -v kind="$1" -v s="$(seconds "$folder/frames")" -v most="$(memory "$folder/frames")" -v none="$(memory /dev/null)" \
        'BEGIN { printf "a million SETs, %-7s keys: %.2f s, %.0f bytes an entry\n", kind, s, (most - none) / 1000000 - 17 }'
}

# dying KEYS: the time of the one SET at which all keys end
dying() {
    python3 bench/frames.py dying "$1" 0 >"$folder/load" || exit 1
    python3 bench/frames.py dying "$1" 1 >"$folder/frames" || exit 1
    awk -v keys="$1" -v all="$(seconds "$folder/frames")" -v load="$(seconds "$folder/load")" -v most="$(memory "$folder/load")" -v none="$(memory /dev/null)" \
        'BEGIN { printf "%d keys that end at one moment: %.3f s, %.0f bytes an entry before\n", keys, all - load, (most - none) / keys - 17 }'
}

# instructions OPTION..: how many valgrind counts in a run over the frames of a workload, or 0 where it is missing
instructions() {
    command -v valgrind >/dev/null 2>&1 || { echo 0; return; }
    valgrind --tool=callgrind --callgrind-out-file="$folder/counted" crates/denokv/out/denokv pipe "$@" <"$folder/frames" 2>&1 >/dev/null |
        sed -n 's/^.*I *refs: *//p' | tr -d ,
}

# workload NUMBER: the frames that `generate` makes of the number
workload() {
    crates/denokv/out/denokv generate "$1" >"$folder/frames" || exit 1
    crates/denokv/out/denokv pipe --summary <"$folder/frames" || exit 1
    awk -v number="$1" -v s="$(seconds "$folder/frames")" -v brief="$(seconds "$folder/frames" --summary)" -v sqlite="$(python3 bench/sqlite.py "$1")" \
        'BEGIN {
            printf "the workload of %d: %.3f s, %.0f frames/s; with --summary %.3f s, %.0f frames/s\n", number, s, 24000 / s, brief, 24000 / brief
            printf "the same operations in SQLite in memory, from Python: %.3f s, %.0f a second\n", sqlite, 24000 / sqlite
        }'
    awk -v all="$(instructions)" -v brief="$(instructions --summary)" \
        'BEGIN { if (all > 0) printf "instructions a frame: %.0f, with --summary %.0f\n", all / 24000, brief / 24000 }'
}

for frames in 1000 10000 100000; do
    writes 10 8 "$frames"
done
for frames in 1000 5000; do
    writes 1 65536 "$frames"
done
for keys in 1000 100000; do
    over load read "$keys" 500000
    over load range "$keys" 20000
    over load set "$keys" 500000
    over load sum "$keys" 500000
    over endings expiry "$keys" 50000
done
for order in load falling random; do
    filled "$order"
done
dying 100000
for waiting in 10 100000; do
    over waiting round "$waiting" 200000
done
workload 7
