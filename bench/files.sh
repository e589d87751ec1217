#!/bin/sh
# What a database in a folder takes: commits a second of one client, whose frames are answered one after the other, beside two
# writes that are each handed to the disk (the limit of one record behind a gate) and beside SQLite with a write-ahead log and
# synchronous=FULL, all on the file system of the folder, the best of three rounds; and the seconds in which a folder of 10,000
# and of 100,000 records is opened. Skipped where python3 is missing. FOLDER=... names another place than the system's for
# temporary files, which may be memory.
set -u
cd "$(dirname "$0")/.." || exit 2
if ! command -v python3 >/dev/null 2>&1; then
    echo "bench/files.sh: skipped, since there is no python3" >&2
    exit 0
fi
folder=$(mktemp -d "${FOLDER:-/tmp}/files.XXXXXX") || exit 2
trap 'rm -rf "$folder"' EXIT
commits=${COMMITS:-2000}
./denokv pipe </dev/null || exit 1
program=crates/denokv/out/denokv
python3 bench/frames.py writes 1000 "$commits" 1 8 >"$folder/frames" || exit 1

# seconds FILE WORDS..: of the program, with these words, over the file
seconds() {
    python3 - "$program" "$@" <<'PYTHON'
import subprocess, sys, time
with open(sys.argv[2], "rb") as source:
    start = time.perf_counter()
    subprocess.run([sys.argv[1], *sys.argv[3:]], stdin=source, stdout=subprocess.DEVNULL, check=True)
    print(f"{time.perf_counter() - start:.6f}")
PYTHON
}

for round in 1 2 3; do
    "$program" create "$folder/$round" >/dev/null || exit 1
    s=$(seconds "$folder/frames" pipe --folder "$folder/$round") || exit 1
    echo "$s $(python3 bench/records.py sync "$folder/$round.records" "$commits") $(python3 bench/records.py sqlite "$folder/$round.sqlite" "$commits")"
done >"$folder/rounds" || exit 1
awk -v n="$commits" '
    { if (n / $1 > own) own = n / $1; if ($2 > two) two = $2; if ($3 > sqlite) sqlite = $3 }
    END {
        printf "commits of one client: %.0f a second; two writes, each handed to the disk: %.0f (%.2f of it); SQLite: %.0f (%.2f of it)\n",
            own, two, own / two, sqlite, own / sqlite
    }' "$folder/rounds"

for records in 10000 100000; do
    "$program" create "$folder/of$records" >/dev/null || exit 1
    python3 bench/records.py fill "$folder/of$records/a.dkv" "$records" || exit 1
    size=$(wc -c <"$folder/of$records/a.dkv")
    s=$(seconds /dev/null check "$folder/of$records") || exit 1
    awk -v n="$records" -v s="$s" -v size="$size" 'BEGIN { printf "opening %6d records: %.3f s, %.1f MB/s\n", n, s, size / 1e6 / s }'
done
