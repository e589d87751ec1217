#!/bin/sh
# Each example is the one that its text spells, the program answers it so, and the README shows what the program prints. The
# program is asked where one is built of these sources.
set -u
cd "$(dirname "$0")/../.." || exit 2
status=0

fail() {
    echo "examples.sh: $*" >&2
    status=1
}

sh -n denokv || fail "denokv is no shell script"
if command -v shellcheck >/dev/null 2>&1; then
    shellcheck denokv .ci/spelled .ci/checks/examples.sh || fail "shellcheck found something"
fi
cmp -s examples/first.frames crates/denokv/stdin || fail "examples/first.frames is not the program's stored input"
[ "$(cat crates/denokv/args)" = pipe ] || fail "the program's stored words are not 'pipe'"
head -c 53 examples/first.frames | cmp -s - crates/denokv_cut/stdin || fail "the stored input that ends within a frame is another"
./denokv --help | grep -q '^usage:' || fail "'./denokv --help' prints no usage"
command -v xxd >/dev/null 2>&1 || exit $status

program=crates/denokv/out/denokv
is_built() {
    [ -x "$program" ] && [ -z "$(find crates.txt crates -path 'crates/*/out' -prune -o -type f -newer "$program" -print)" ]
}

# The bytes that a text spells before its replies, and those that it spells as replies.
asked() { sed '/^The replies/,$d' "$1" | .ci/spelled; }
answered() { sed '1,/^The replies/d' "$1" | .ci/spelled; }

for text in examples/*.txt; do
    frames=${text%.txt}.frames
    [ "$(asked "$text")" = "$(xxd -p "$frames" | tr -d '\n')" ] || fail "$text spells another input than $frames"
    if is_built; then
        [ "$(answered "$text")" = "$("$program" pipe <"$frames" | xxd -p | tr -d '\n')" ] || fail "$text spells other replies"
    fi
done
[ "$(answered examples/first.txt)" = "$(xxd -p crates/denokv/stdout | tr -d '\n')" ] || fail "examples/first.txt spells another output"

# The block of the README that begins with the command, up to its end.
# shellcheck disable=SC2016
shown=$(sed -n '/^\$ \.\/denokv pipe < examples\/first.frames | xxd$/,/^```$/p' README.md | sed '1d;$d')
[ "$shown" = "$(xxd crates/denokv/stdout)" ] || fail "the README shows another output"
exit $status
