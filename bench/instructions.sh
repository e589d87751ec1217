#!/bin/sh
# How many instructions `denokv pipe` takes for the workload of a number, as valgrind counts them: bench/instructions.sh [NUMBER].
# Skipped where valgrind is missing.
set -u
cd "$(dirname "$0")/.." || exit 2
if ! command -v valgrind >/dev/null 2>&1; then
    echo "bench/instructions.sh: skipped, since there is no valgrind" >&2
    exit 0
fi
folder=$(mktemp -d) || exit 2
trap 'rm -rf "$folder"' EXIT
./denokv pipe </dev/null || exit 1
crates/denokv/out/denokv generate "${1:-7}" >"$folder/frames" || exit 1
valgrind --tool=callgrind --callgrind-out-file="$folder/out" crates/denokv/out/denokv pipe <"$folder/frames" 2>&1 >/dev/null |
    sed -n 's/^.*I *refs: */instructions: /p'
