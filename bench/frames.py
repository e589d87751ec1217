"""Writes frames of a pipe to standard output: python3 frames.py KIND KEYS FRAMES [SETS VALUE].

load     SETs of KEYS keys to LE64 numbers, 1,000 in a frame
falling  the same SETs from the last key to the first       random   the same SETs in an order drawn from a fixed seed
dying    the same SETs, where all keys end at one moment, and at that moment as many frames of one SET each
endings  the same SETs, where a tenth of the keys ends at each of ten moments
waiting  KEYS messages, 1,000 in a frame
writes   frames of SETS SETs each, to values of VALUE bytes
read     reads of one key each            range    reads of 100 entries each
set      one SET each                     sum      one SUM each
expiry   one SET each, at moments at each of which a tenth of the keys ends and is then set again
round    three frames each: an enqueue, a take and the acknowledgement of what it takes
read, range, set and sum begin with a load, expiry with endings and round with waiting. They go over the keys in an order
that jumps, and messages are due in an order that jumps.
"""
import heapq
import random
import struct
import sys

SET, SUM = 1, 3
WRITE, TAKE, ACKNOWLEDGE = 2, 5, 6
LE64, BYTES = 2, 3


def varint(n):
    out = b""
    while n > 127:
        out += bytes([n & 127 | 128])
        n >>= 7
    return out + bytes([n])


def part(number, data):
    return varint(number * 8 + 2) + varint(len(data)) + data


def number(field, n):
    return varint(field * 8) + varint(n)


def key(i):
    return b"\x02k%06d\0" % i


def mutation(kind, i, data, encoding, expire=0):
    end = number(4, expire) if expire else b""
    return part(2, part(1, key(i)) + part(2, part(1, data) + number(2, encoding)) + number(3, kind) + end)


def enqueue(due):
    return part(3, part(1, b"m" * 8) + number(2, due))


def reads(start, end, limit):
    return part(1, part(1, start) + part(2, end) + number(3, limit))


def frame(kind, body, at=5, caller=1):
    return struct.pack("<IIQB", len(body) + 13, caller, at, kind) + body


def load(keys, part_of):
    for first in range(0, keys, 1000):
        yield frame(WRITE, b"".join(part_of(i) for i in range(first, min(first + 1000, keys))))


def due(i, keys):
    return 1 + i + i * 7919 % keys


def rounds(keys, frames):
    """Each acknowledges the message that is due first, and leaves as many as before."""
    waiting = [(due(i, keys), 1 + i // 1000, i % 1000) for i in range(keys)]
    heapq.heapify(waiting)
    commit = -(-keys // 1000)
    for i in range(keys, keys + frames):
        heapq.heappush(waiting, (due(i, keys), commit + 1, 0))
        _, made, index = heapq.heappop(waiting)
        commit += 2
        yield frame(WRITE, enqueue(due(i, keys)), 10**9)
        yield frame(TAKE, b"", 10**9)
        yield frame(ACKNOWLEDGE, struct.pack("<QI", made, index), 10**9)


def expiries(keys, frames):
    """At moment 10 + s the keys of which the number ends with the digit of s end; they are set until 10 moments later."""
    tenth = keys // 10
    for i in range(frames):
        step, at = i // tenth, i * 7919 % tenth
        yield frame(WRITE, mutation(SET, at * 10 + step % 10, b"v" * 8, BYTES, step + 20), step + 10)


def main():
    kind, keys, frames = sys.argv[1], int(sys.argv[2]), int(sys.argv[3])
    out = sys.stdout.buffer
    one = struct.pack("<Q", 1)
    if kind == "writes":
        sets, value = int(sys.argv[4]), b"v" * int(sys.argv[5])
        for i in range(frames):
            out.write(frame(WRITE, b"".join(mutation(SET, (i * sets + j) % keys, value, BYTES) for j in range(sets))))
        return
    if kind in ("waiting", "round"):
        out.writelines(load(keys, lambda i: enqueue(due(i, keys))))
        if kind == "round":
            out.writelines(rounds(keys, frames))
        return
    if kind in ("endings", "expiry"):
        out.writelines(load(keys, lambda i: mutation(SET, i, one, LE64, 10 + i % 10)))
        if kind == "expiry":
            out.writelines(expiries(keys, frames))
        return
    if kind in ("falling", "random"):
        order = list(reversed(range(keys)))
        if kind == "random":
            random.Random(1).shuffle(order)
        out.writelines(load(keys, lambda i: mutation(SET, order[i], one, LE64)))
        return
    if kind == "dying":
        out.writelines(load(keys, lambda i: mutation(SET, i, one, LE64, 10)))
        out.writelines(frame(WRITE, mutation(SET, 0, one, LE64), 10) for _ in range(frames))
        return
    out.writelines(load(keys, lambda i: mutation(SET, i, one, LE64)))
    for i in range(frames):
        at = i * 7919 % keys
        if kind == "read":
            out.write(frame(1, reads(key(at), key(at) + b"\0", 1)))
        elif kind == "range":
            out.write(frame(1, reads(key(at), b"\x03", 100)))
        elif kind == "set":
            out.write(frame(WRITE, mutation(SET, at, b"v" * 8, BYTES)))
        elif kind == "sum":
            out.write(frame(WRITE, mutation(SUM, at, one, LE64)))


if __name__ == "__main__":
    main()
