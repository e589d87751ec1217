"""Writes the workload of a number to standard output: python3 workload.py NUMBER.

4,000 groups of six frames each: a SET, a SUM, a read of the entry that was set, an enqueue, a take and the acknowledgement of
what it takes. The values and the payloads come from the number, by a linear congruence modulo 2^64, eight bytes at a time.
"""
import struct
import sys

from frames import ACKNOWLEDGE, BYTES, LE64, SET, SUM, TAKE, WRITE, frame, number, part, reads

GROUPS = 4000
READ = 1


def draws(n):
    """The numbers that follow, each in eight bytes, least first."""
    while True:
        n = (n * 6364136223846793005 + 1442695040888963407) % 2**64
        yield struct.pack("<Q", n)


def key(text, n):
    """The key of a text and an integer from 0 to 65,535."""
    digits = n.to_bytes((n.bit_length() + 7) // 8, "big")
    return b"\x02" + text + b"\x00" + bytes([0x14 + len(digits)]) + digits


def write(at, data, encoding, kind):
    return part(2, part(1, at) + part(2, part(1, data) + number(2, encoding)) + number(3, kind))


def main():
    source = draws(int(sys.argv[1]))
    out = sys.stdout.buffer
    for group in range(GROUPS):
        caller, moment = 1 + group % 7, 1000 + group
        item = key(b"item", group % 1000)
        value = b"".join(next(source) for _ in range(8))
        payload = next(source)
        for kind, body in (
            (WRITE, write(item, value, BYTES, SET)),
            (WRITE, write(key(b"sum", group % 10), struct.pack("<Q", 1), LE64, SUM)),
            (READ, reads(item, item + b"\x00", 1)),
            (WRITE, part(3, part(1, payload) + number(2, moment))),
            (TAKE, b""),
            (ACKNOWLEDGE, struct.pack("<QI", 4 * group + 3, 0)),
        ):
            out.write(frame(kind, body, moment, caller))


if __name__ == "__main__":
    main()
