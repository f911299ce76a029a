#!/usr/bin/env python3
"""The checksum of a block of 64 KiB beside zlib's crc32, on the same bytes.

Builds and runs the program lfs_bench. Prints the two rates and how many times as long as zlib's ours takes; fails above 3.
"""
import os
import subprocess
import sys
import time
import zlib

ROUNDS = 4000
BLOCK = 65536
top = os.path.dirname(os.path.dirname(os.path.abspath(__file__)))


def block():
    state, out = 1, bytearray()
    for _ in range(BLOCK):
        state = (state * 1103515245 + 12345) & 0xFFFFFFFF
        out.append(state >> 16 & 0xFF)
    return bytes(out)


def ours():
    crate = os.path.join(top, "crates", "lfs_bench")
    run = subprocess.run(["rt", "run", "--", "checksum", str(ROUNDS)], cwd=crate, stdout=subprocess.PIPE, stderr=subprocess.PIPE, check=True, text=True)
    return int(run.stdout.split()[-1]), int(run.stderr.split()[-1])


def theirs(data):
    value = 0
    start = time.perf_counter_ns()
    for _ in range(ROUNDS):
        value = zlib.crc32(data, value)
    return value, time.perf_counter_ns() - start


our_sum, our_time = ours()
their_sum, their_time = theirs(block())
# zlib inverts the checksum's bits at the start and at the end
if our_sum != their_sum ^ 0xFFFFFFFF:
    sys.exit(f"the checksums differ: {our_sum:#x}, {their_sum ^ 0xFFFFFFFF:#x}")
size = ROUNDS * BLOCK
print(f"ours: {size / our_time:.2f} GB/s, zlib {zlib.ZLIB_RUNTIME_VERSION}: {size / their_time:.2f} GB/s, {our_time / their_time:.2f} times as long")
sys.exit(our_time > 3 * their_time)
