#!/usr/bin/env bash
# Passes through the lock a second, beside the system's mutex, and how many processors they keep busy: 1, 2, 8 and 32
# threads, which add ROUNDS items in all; then 32 threads that sleep 200 microseconds under the lock for each of HELD items.
# Run it once the crate bench_turn is proved: rt run in crates/bench_turn builds the program that is timed here.
set -eu
cd "$(dirname "$0")/../crates/bench_turn"
program=${PROGRAM:-out/bench_turn}
[ -x "$program" ] || { echo "no program at crates/bench_turn/$program: run rt run there first" >&2; exit 2; }
TIMEFORMAT='%R %U %S'

row() {
  local lock=$1 threads=$2 hold=$3 each=$(($4 / $2)) times
  times=$({ time "$program" "$lock" "$threads" "$each" "$hold" > /dev/null; } 2>&1)
  awk -v lock="$lock" -v threads="$threads" -v hold="$hold" -v passes=$((each * threads)) '{
    printf "%-6s %8d %10d %10d %12.0f %10.3f\n", lock, threads, hold, passes, passes / $1, ($2 + $3) / $1
  }' <<< "$times"
}

printf '%-6s %8s %10s %10s %12s %10s\n' lock threads 'held (us)' passes 'passes/s' processors
for lock in turn mutex; do
  for threads in 1 2 8 32; do
    row "$lock" "$threads" 0 "${ROUNDS:-1000000}"
  done
  row "$lock" 32 200 "${HELD:-6400}"
done
