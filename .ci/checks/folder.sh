#!/bin/sh
# A database in files of the system: it is made once, written and read by one run after another, kept from a second process while
# one holds it, and refused where it is damaged. The program is asked where one is built of these sources.
set -u
cd "$(dirname "$0")/../.." || exit 2
status=0
program=crates/denokv/out/denokv

fail() {
    echo "folder.sh: $*" >&2
    status=1
}

if command -v shellcheck >/dev/null 2>&1; then
    shellcheck .ci/checks/folder.sh || fail "shellcheck found something"
fi
[ -x "$program" ] || exit $status
[ -z "$(find crates.txt crates -path 'crates/*/out' -prune -o -type f -newer "$program" -print)" ] || exit $status

folder=$(mktemp -d) || exit 2
trap 'rm -rf "$folder"' EXIT
database=$folder/database

# Runs the words that follow an exit status and an error line, which it has to end with.
ends() {
    wanted=$1
    line=$2
    shift 2
    said=$("$program" "$@" 2>&1 >/dev/null </dev/null)
    got=$?
    [ "$got $said" = "$wanted $line" ] || fail "'$*' ended with status $got and '$said'"
}

# How many bytes file a has.
has() {
    size=$(wc -c <"$database/a.dkv")
    [ "$((size))" = "$1" ] || fail "file a has $((size)) bytes in place of $1"
}

# What `check` prints: the commits, the entries and the messages.
counts() {
    shown=$(printf 'database %s\ncommits %s\nentries %s messages %s' "$id" "$1" "$2" "$3")
    [ "$("$program" check "$database")" = "$shown" ] || fail "'check' prints something else"
    ends 0 '' check "$database"
}

# Some bytes of the example's frames, from a place on, are answered by some bytes of its replies.
answers() {
    tail -c +"$1" examples/first.frames | head -c "$2" | "$program" pipe --folder "$database" >"$folder/replies" || fail "'pipe' failed"
    tail -c +"$3" crates/denokv/stdout | head -c "$4" | cmp -s - "$folder/replies" || fail "'pipe' answers something else"
}

# The database with file a cut to a length, which is refused so.
damaged() {
    mkdir "$folder/cut"
    head -c "$1" "$database/a.dkv" >"$folder/cut/a.dkv"
    ends "$2" "$3" check "$folder/cut"
    rm -r "$folder/cut"
}

ends 6 'no database' check "$database"
told=$("$program" create "$database") || fail "'create' failed"
id=${told#created }
echo "$told" | grep -Eq '^created [0-9a-f]{8}-[0-9a-f]{4}-4[0-9a-f]{3}-[89ab][0-9a-f]{3}-[0-9a-f]{12}$' || fail "'create' prints '$told'"
has 113
ends 9 'database exists' create "$database"
counts 0 0 0
# a write by one run, and a read by the next
answers 1 33 1 19
has 147
counts 1 1 0
answers 34 32 20 35
has 147
damaged 147 0 ''
damaged 146 7 'damaged: file 0 at 146'
damaged 130 7 'damaged: file 0 at 112'
damaged 100 7 'damaged: file 0 at 72'
damaged 1 6 'no database'
damaged 0 6 'no database'

# where calls can be traced: the record is on the disk before its gate is opened, and the open gate before the reply is written
if command -v strace >/dev/null 2>&1 && strace -o /dev/null true 2>/dev/null; then
    "$program" create "$folder/traced" >/dev/null || fail "'create' failed"
    head -c 33 examples/first.frames | strace -o "$folder/calls" -e trace=pwrite64,fdatasync,write "$program" pipe --folder "$folder/traced" >/dev/null || fail "a traced 'pipe' failed"
    order=$(sed -n 's/^\([a-z0-9]*\)(.*/\1/p' "$folder/calls" | tail -n 5 | tr '\n' ' ')
    [ "$order" = 'pwrite64 fdatasync pwrite64 fdatasync write ' ] || fail "a commit's calls are $order"
fi

# one process holds the files from its first reply on
mkfifo "$folder/frames"
"$program" pipe --folder "$database" <"$folder/frames" >"$folder/held" &
holder=$!
exec 3>"$folder/frames"
tail -c +34 examples/first.frames >&3
tries=0
while [ ! -s "$folder/held" ] && [ $tries -lt 100 ]; do
    sleep 0.1
    tries=$((tries + 1))
done
ends 5 'disk fault' pipe --folder "$database"
ends 5 'disk fault' check "$database"
ends 5 'disk fault' create "$database"
exec 3>&-
wait $holder || fail "the process that held the files failed"
counts 1 1 0
exit $status
