#!/bin/sh
# The program writes the workloads that bench/workload.py writes, and answers each frame of one. The program is asked where one is
# built of these sources, and python3 is there.
set -u
cd "$(dirname "$0")/../.." || exit 2
status=0
program=crates/denokv/out/denokv

fail() {
    echo "workload.sh: $*" >&2
    status=1
}

if command -v shellcheck >/dev/null 2>&1; then
    shellcheck .ci/checks/workload.sh || fail "shellcheck found something"
fi
command -v python3 >/dev/null 2>&1 || exit $status
[ -x "$program" ] || exit $status
[ -z "$(find crates.txt crates -path 'crates/*/out' -prune -o -type f -newer "$program" -print)" ] || exit $status

folder=$(mktemp -d) || exit 2
trap 'rm -rf "$folder"' EXIT
for number in 0 7 8 18446744073709551615; do
    "$program" generate "$number" >"$folder/program" || fail "'generate $number' failed"
    python3 bench/workload.py "$number" >"$folder/python" || fail "bench/workload.py failed"
    cmp -s "$folder/program" "$folder/python" || fail "'generate $number' writes other frames than bench/workload.py"
done
"$program" pipe <"$folder/program" >/dev/null || fail "'pipe' ended with status $? over a workload"
for words in "generate" "generate seven" "generate 18446744073709551616" "generate 7 8"; do
    # shellcheck disable=SC2086
    "$program" $words >/dev/null 2>&1
    [ $? -eq 2 ] || fail "'$words' are no bad words"
done
if [ -c /dev/full ]; then
    said=$("$program" generate 7 2>&1 >/dev/full)
    got=$?
    [ "$got $said" = "4 write fault" ] || fail "a full disk ended 'generate' with status $got and '$said'"
fi
exit $status
