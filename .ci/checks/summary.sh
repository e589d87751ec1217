#!/bin/sh
# `pipe --summary` counts what a workload does, writes nothing of an input that isn't whole frames, and takes its word in any place
# but twice; and the workloads of two numbers differ in the values and the messages alone. The program is asked where one is built of
# these sources.
set -u
cd "$(dirname "$0")/../.." || exit 2
status=0
program=crates/denokv/out/denokv

fail() {
    echo "summary.sh: $*" >&2
    status=1
}

if command -v shellcheck >/dev/null 2>&1; then
    shellcheck .ci/checks/summary.sh || fail "shellcheck found something"
fi
[ -x "$program" ] || exit $status
[ -z "$(find crates.txt crates -path 'crates/*/out' -prune -o -type f -newer "$program" -print)" ] || exit $status

folder=$(mktemp -d) || exit 2
trap 'rm -rf "$folder"' EXIT

# The summary of the frames of a file, by the words that follow: it has to be these counts, and all that is written.
sums() {
    frames=$1
    printf 'frames %s\ncommits %s\nentries %s messages %s\n' "$2" "$3" "$4" "$5" >"$folder/wanted"
    shift 5
    "$program" "$@" <"$frames" >"$folder/got" 2>"$folder/error" || fail "'$*' over $frames ended with status $?"
    cmp -s "$folder/wanted" "$folder/got" || fail "'$*' over $frames prints something else"
    [ ! -s "$folder/error" ] || fail "'$*' over $frames has an error line"
}

# The words that follow an exit status and an error line end so over the frames of a file, and print nothing.
ends() {
    frames=$1
    wanted=$2
    line=$3
    shift 3
    said=$("$program" "$@" 2>&1 >"$folder/got" <"$frames")
    got=$?
    [ "$got $said" = "$wanted $line" ] || fail "'$*' over $frames ended with status $got and '$said'"
    [ ! -s "$folder/got" ] || fail "'$*' over $frames prints something"
}

for number in 7 8; do
    "$program" generate "$number" >"$folder/$number" || fail "'generate $number' failed"
    sums "$folder/$number" 24000 16000 1010 0 pipe --summary
done
"$program" create "$folder/database" >/dev/null || fail "'create' failed"
sums "$folder/7" 24000 16000 1010 0 pipe --summary --folder "$folder/database" --trail 268435456
"$program" check "$folder/database" | tail -n 2 >"$folder/checked"
tail -n 2 "$folder/wanted" | cmp -s - "$folder/checked" || fail "'check' counts something else"

# the same heads, lengths and bodies, but for a value of 64 bytes and a message of 8 in each group of six frames
if command -v python3 >/dev/null 2>&1; then
    python3 - "$folder/7" "$folder/8" <<'PYTHON' || fail "workloads of two numbers differ in more than values and messages"
import sys

def frames(path):
    data, at = open(path, "rb").read(), 0
    while at < len(data):
        end = at + 4 + int.from_bytes(data[at : at + 4], "little")
        yield data[at:end]
        at = end

for place, (one, other) in enumerate(zip(frames(sys.argv[1]), frames(sys.argv[2]), strict=True)):
    many = {0: 64, 3: 8}.get(place % 6, 0)
    differ = [i for i, (a, b) in enumerate(zip(one, other, strict=True)) if a != b]
    if differ and differ[-1] - differ[0] >= many:
        sys.exit(1)
    if many and not differ:
        sys.exit(1)
PYTHON
fi

sums /dev/null 0 0 0 0 pipe --summary
head -c 100000 "$folder/7" >"$folder/cut"
at=$(($("$program" pipe --summary <"$folder/cut" 2>&1 | sed 's/^bad frame at //')))
ends "$folder/cut" 8 "bad frame at $at" pipe --summary
if [ "$at" -le 99000 ] || [ "$at" -ge 100000 ]; then
    fail "an input that is cut is a bad frame at $at"
fi
printf '\014\000\000\000' >"$folder/bad"
ends "$folder/bad" 8 'bad frame at 0' pipe --summary
cat "$folder/7" "$folder/bad" >"$folder/late"
ends "$folder/late" 8 'bad frame at 1068516' pipe --summary
for words in "--summary --summary" "--summary yes" "--summary=yes" "--Summary" "--trail --summary" "--folder $folder/database --summary --summary" \
    "--summary --trail 1000 --summary" "--summary --folder" "--summary -- "; do
    # shellcheck disable=SC2086
    ends "$folder/7" 2 'bad words' pipe $words
done
for words in "generate 7 --summary" "check --summary $folder/database" "--summary pipe" "create --summary $folder/other"; do
    # shellcheck disable=SC2086
    ends /dev/null 2 'bad words' $words
done
ends /dev/null 6 'no database' pipe --folder --summary
if [ -c /dev/full ]; then
    said=$("$program" pipe --summary 2>&1 >/dev/full <"$folder/7")
    got=$?
    [ "$got $said" = "4 write fault" ] || fail "a full disk ended 'pipe --summary' with status $got and '$said'"
fi
exit $status
