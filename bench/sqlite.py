"""Does the operations of a workload in SQLite, in memory: python3 sqlite.py NUMBER. Prints the seconds, the least of three runs.

The same 24,000 steps as the frames of workload.py, each a transaction of its own: entries and messages are tables, every write and
settlement raises the commit's number, and a message is out while it is leased.
"""
import sqlite3
import struct
import sys
import time

from workload import GROUPS, draws, key

TABLES = """
create table entries (key blob primary key, value blob, encoding integer, expire integer, number integer) without rowid;
create table messages (number integer, place integer, due integer, payload blob, leased integer default 0, primary key (number, place)) without rowid;
create index due_first on messages (due, number, place) where leased = 0;
"""
SET = "insert into entries values (?, ?, 3, 0, ?) on conflict (key) do update set value = excluded.value, number = excluded.number"
STORED = "select value from entries where key = ?"
READ = "select key, value, encoding, number from entries where key >= ? and key < ? and (expire = 0 or expire > ?) order by key limit 1"
NEXT = "select number, place, payload from messages where leased = 0 and due <= ? order by due, number, place limit 1"


def steps(number):
    """The arguments of each group, made before the clock starts."""
    source = draws(number)
    for group in range(GROUPS):
        value = b"".join(next(source) for _ in range(8))
        yield 1000 + group, key(b"item", group % 1000), value, key(b"sum", group % 10), next(source)


def run(groups):
    database = sqlite3.connect(":memory:", isolation_level=None)
    database.executescript(TABLES)
    commit = 0
    start = time.perf_counter()
    for moment, item, value, total, payload in groups:
        commit += 1
        database.execute(SET, (item, value, commit))
        commit += 1
        database.execute("begin")
        row = database.execute(STORED, (total,)).fetchone()
        old = struct.unpack("<Q", row[0])[0] if row else 0
        database.execute(SET, (total, struct.pack("<Q", (old + 1) % 2**64), commit))
        database.execute("commit")
        database.execute(READ, (item, item + b"\x00", moment)).fetchall()
        commit += 1
        database.execute("insert into messages (number, place, due, payload) values (?, 0, ?, ?)", (commit, moment, payload))
        database.execute("begin")
        found, place, _ = database.execute(NEXT, (moment,)).fetchone()
        database.execute("update messages set leased = 1 where number = ? and place = ?", (found, place))
        database.execute("commit")
        commit += 1
        database.execute("delete from messages where number = ? and place = ? and leased = 1", (found, place))
    took = time.perf_counter() - start
    counts = [database.execute(f"select count(*) from {table}").fetchone()[0] for table in ("entries", "messages")]
    if [commit, *counts] != [16000, 1010, 0]:
        sys.exit(f"sqlite.py: {commit} commits, {counts[0]} entries and {counts[1]} messages")
    return took


if __name__ == "__main__":
    work = list(steps(int(sys.argv[1])))
    print(f"{min(run(work) for _ in range(3)):.4f}")
