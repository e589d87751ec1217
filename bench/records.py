"""What bench/files.sh compares the program with: python3 records.py WORD ..

fill FILE N          puts N records of one SET each behind the 113 bytes of a new database's file 0
sync FILE N          two writes a round, each followed by fdatasync, of the bytes of such a record: rounds a second
sqlite FILE N        N transactions of one row each in SQLite, journal_mode WAL and synchronous FULL: transactions a second
"""
import os
import sqlite3
import struct
import sys
import time

sys.path.insert(0, os.path.dirname(__file__))
from frames import BYTES, SET, mutation

OPEN, CLOSED = b"\xa5", b"\0"


def record(i):
    """Behind the gate: the length, the body of caller 1's write at moment 5, and the next gate."""
    body = struct.pack("<BIQ", 1, 1, 5) + mutation(SET, i % 1000, b"12345678", BYTES)
    return struct.pack("<I", len(body)) + body + CLOSED


def fill(path, n):
    with open(path, "r+b") as file:
        assert file.seek(0, 2) == 113
        file.seek(112)
        for i in range(n):
            file.write(OPEN + record(i)[:-1])
        file.write(CLOSED)


def sync(path, n):
    """As the records are appended: the record and the next gate; then the gate before it."""
    file = os.open(path, os.O_RDWR | os.O_CREAT, 0o644)
    gate = 0
    start = time.perf_counter()
    for i in range(n):
        data = record(i)
        os.pwrite(file, data, gate + 1)
        os.fdatasync(file)
        os.pwrite(file, OPEN, gate)
        os.fdatasync(file)
        gate += len(data)
    return n / (time.perf_counter() - start)


def sqlite(path, n):
    database = sqlite3.connect(path, isolation_level=None)
    database.execute("pragma journal_mode=wal")
    database.execute("pragma synchronous=full")
    database.execute("create table kv (key blob primary key, value blob) without rowid")
    start = time.perf_counter()
    for i in range(n):
        database.execute("insert or replace into kv values (?, ?)", (b"\x02k%06d\0" % (i % 1000), b"12345678"))
    return n / (time.perf_counter() - start)


word, path, n = sys.argv[1], sys.argv[2], int(sys.argv[3])
if word == "fill":
    fill(path, n)
else:
    print(f"{(sync if word == 'sync' else sqlite)(path, n):.0f}")
