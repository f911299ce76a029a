#!/usr/bin/env python3
"""How many device reads a byte of a list of 1,000 blocks takes, beside a walk back one block at a time.

Builds and runs the program lfs_bench, and works out the same numbers by the rule that a block's pointer k leads 2**k blocks
back. Fails where they differ, or where a read in the middle takes more than 21: twice the logarithm of the list's length, and
the byte.
"""
import os
import subprocess
import sys

BLOCKS = 1000
SHOWN = [0, 1, 500, 512, 998, 999]
MOST = 21
top = os.path.dirname(os.path.dirname(os.path.abspath(__file__)))


def reads_for(block):
    """Back from the last block by the highest pointer that doesn't overshoot, and the byte."""
    at, count = BLOCKS - 1, 1
    while at > block:
        power = 1
        while at % (power * 2) == 0 and at - power * 2 >= block:
            power *= 2
        at -= power
        count += 1
    return count


def wanted():
    each = [reads_for(block) for block in range(BLOCKS)]
    plain = [BLOCKS - block for block in range(BLOCKS)]
    lines = [f"block {block}: {each[block]} reads, plainly {plain[block]}" for block in SHOWN]
    return lines + [f"most {max(each)}, sum {sum(each)}, plainly {sum(plain)}"]


crate = os.path.join(top, "crates", "lfs_bench")
run = subprocess.run(["rt", "run", "--", "list_reads"], cwd=crate, stdout=subprocess.PIPE, stderr=subprocess.DEVNULL, check=True, text=True)
lines = [line for line in run.stdout.splitlines() if line.startswith(("block ", "most "))]
print("\n".join(lines))
if lines != wanted():
    sys.exit("the rule gives other numbers:\n" + "\n".join(wanted()))
sys.exit(reads_for(500) > MOST)
