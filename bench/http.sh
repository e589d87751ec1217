#!/usr/bin/env bash
# What the layers of HTTP take, without a network and without a database: requests a second, fed whole and byte by byte, and
# megabytes a second of a body of 2,000,000 bytes, by its length and in chunks, fed in pieces of 65,536 bytes and byte by byte.
# Run it once the crate bench_http is proved: rt run in crates/bench_http builds the program that is timed here.
set -eu
cd "$(dirname "$0")/../crates/bench_http"
program=${PROGRAM:-out/bench_http}
[ -x "$program" ] || { echo "no program at crates/bench_http/$program: run rt run there first" >&2; exit 2; }
TIMEFORMAT='%R'

row() {
  local load=$1 requests=$2 piece=$3 seconds
  seconds=$({ time "$program" "$load" "$requests" "$piece" > /dev/null; } 2>&1)
  awk -v load="$load" -v requests="$requests" -v piece="$piece" -v seconds="$seconds" 'BEGIN {
    printf "%-8s %10d %8d %10.3f %14.0f", load, requests, piece, seconds, requests / seconds
    if (load == "body" || load == "chunks") printf " %10.1f", requests * 2 / seconds
    print ""
  }'
}

printf '%-8s %10s %8s %10s %14s %10s\n' load requests piece seconds 'requests/s' 'MB/s'
for load in read write; do
  row "$load" "${REQUESTS:-100000}" 0
  row "$load" "${REQUESTS:-100000}" 1
done
for load in body chunks; do
  row "$load" "${BODIES:-200}" 65536
  row "$load" "${BODIES:-200}" 1
done
