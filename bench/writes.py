#!/usr/bin/env python3
"""A file of 16 MiB that is written in pieces of 4 KiB over a session on a device in memory.

Builds and runs the program lfs_bench, and copies the same bytes piece by piece and computes zlib's checksum of them.
Prints the two times and their ratio. Fails where writing takes more than twice as long, where the number of erases isn't
that of the file's blocks or that of programs isn't one more (the commit), or where they don't come in order.
"""
import os
import subprocess
import sys
import time
import zlib

PIECE = 4096
PIECES = 4096
RUNS = 5
MOST = 2
top = os.path.dirname(os.path.dirname(os.path.abspath(__file__)))


def ours():
    """The least time of several runs in milliseconds, and what one prints."""
    crate = os.path.join(top, "crates", "lfs_bench")
    subprocess.run(["rt", "run"], cwd=crate, stdout=subprocess.DEVNULL, stderr=subprocess.DEVNULL, check=True)
    times = []
    for _ in range(RUNS):
        run = subprocess.run(["out/lfs_bench", "writes", str(PIECES)], cwd=crate, stdout=subprocess.PIPE, stderr=subprocess.PIPE, check=True, text=True)
        times.append(int(run.stderr) / 1e6)
    return min(times), run.stdout.splitlines()


def theirs():
    """The least time in milliseconds of copying each piece and its checksum, behind that of the ones before."""
    source, target = memoryview(os.urandom(PIECE * PIECES)), bytearray(PIECE * PIECES)
    times = []
    for _ in range(RUNS):
        start, value = time.perf_counter(), 0
        for at in range(0, len(source), PIECE):
            target[at : at + PIECE] = source[at : at + PIECE]
            value = zlib.crc32(source[at : at + PIECE], value)
        times.append((time.perf_counter() - start) * 1000)
    return min(times)


def main():
    our_time, lines = ours()
    their_time = theirs()
    print("\n".join(lines))
    blocks, erases, programs, in_turn = (int(word) for word in lines[0].split() if word.isdigit())
    print(f"written: {our_time:.1f} ms, copied with zlib {zlib.ZLIB_RUNTIME_VERSION}'s checksum: {their_time:.1f} ms, ratio {our_time / their_time:.2f}")
    in_order = erases == blocks == in_turn and programs == blocks + 1
    return our_time > MOST * their_time or not in_order or lines[1] != "read as written: true"


if __name__ == "__main__":
    sys.exit(main())
