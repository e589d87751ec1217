"""How much memory `denokv pipe` takes at its peak: python3 bench/memory.py

For bodies of 2,000,000 bytes that pass a limit, as a multiple of their length; and for a read of 1,000 values of 65,536
bytes, beside the database that it reads. It wants the program that ./denokv builds, and GNU time.
"""
import os
import subprocess
import sys

from frames import BYTES, SET, WRITE, frame, mutation, part, reads

PROGRAM = os.path.join(os.path.dirname(__file__), "..", "crates", "denokv", "out", "denokv")
LENGTH = 2_000_000


def peak(frames):
    """The most bytes that a run over the frames had in memory, as GNU time tells it."""
    command = ["/usr/bin/time", "-f", "%M", PROGRAM, "pipe"]
    run = subprocess.run(command, input=frames, stdout=subprocess.DEVNULL, stderr=subprocess.PIPE, check=True)
    return int(run.stderr.split()[-1]) * 1024


BODIES = (
    ("enqueues past their count", WRITE, b"\x1a\x00" * (LENGTH // 2)),
    ("mutations past their count", WRITE, b"\x12\x00" * (LENGTH // 2)),
    ("checks past their count", WRITE, b"\x0a\x00" * (LENGTH // 2)),
    ("ranges past their count", 1, b"\x0a\x00" * (LENGTH // 2)),
    ("keys if undelivered past their count", WRITE, part(3, b"\x1a\x00" * (LENGTH // 2))),
    ("keys of one byte if undelivered", WRITE, part(3, b"\x1a\x01k" * (LENGTH // 3))),
    ("packed intervals past their count", WRITE, part(3, part(4, b"\x00" * LENGTH))),
    ("single intervals past their count", WRITE, part(3, b"\x20\x00" * (LENGTH // 2))),
)


def main():
    if not os.path.exists(PROGRAM):
        sys.exit("bench/memory.py: there is no program yet: run ./denokv first")
    none = peak(frame(WRITE, b""))
    for name, kind, body in BODIES:
        print(f"{name:38} {(peak(frame(kind, body)) - none) / len(body):5.1f} times the body")
    load = b"".join(frame(WRITE, b"".join(mutation(SET, i * 10 + j, b"v" * 65536, BYTES) for j in range(10))) for i in range(100))
    read = frame(1, reads(b"\x02", b"\x03", 1000))
    taken = peak(load + read) - peak(load)
    print(f"a read of 1,000 values of 65,536 bytes: {taken / 1e6:.0f} MB beside the database")


main()
