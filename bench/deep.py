#!/usr/bin/env python3
"""How many device reads a look-up in 1,000 directories takes, each in the one before, and one in as many beside each other.

usage: deep.py PROGRAM [DEPTH]

PROGRAM is a built lfs_script. A look-up reads each pair of the directories that it searches once at most: 1,000 for what stands
in the last of them (the root and 999 others), and as many when it is asked again, since eight blocks are kept. Of directories
beside each other a look-up searches the root alone, so its pairs are the bound. Eight deep it reads nothing when it is asked
again. Prints the reads; fails where they are more, or where a mount takes more than five reads a pair and two: four to accept the
image, and one to see whether it is one of those that are written.
"""

import os
import subprocess
import sys

DEPTH = 1000


def calls(program, lines):
    """The answers of a script to all but `mkdir`, and the reads that are told."""
    run = subprocess.run([program], input=("\n".join(lines) + "\n").encode(), stdout=subprocess.PIPE, check=True)
    answers = run.stdout.decode().split("\n")
    told = [answer for line, answer in zip(lines, answers) if not line.startswith("mkdir")]
    if any(answer != "done" for line, answer in zip(lines, answers) if line.startswith("mkdir")):
        sys.exit("a directory isn't made")
    return told, [int(answer.split(" ")[1]) for answer in told if answer.startswith("calls")]


def deep(program, most):
    path = lambda depth: f"*{depth}:/a"
    lines = ["fresh 1024 128 2048"] + [f"mkdir {path(depth)}" for depth in range(1, most + 1)]
    lines += ["used-count", "mount", "calls", f"stat {path(most)}", "calls", f"stat {path(most)}", "calls", f"stat {path(most + 1)}", "calls"]
    told, reads = calls(program, lines)
    if told[1] != f"count {2 + 2 * most}" or told[4] != "stat d 0" or told[6] != "stat d 0" or told[8] != "refused NoEnt 2":
        sys.exit(f"other answers: {told}")
    first, again, beyond = (after - before for before, after in zip(reads, reads[1:]))
    print(f"{most} deep: {reads[0]} reads to mount, {first} to look up, {again} again, {beyond} for what isn't there, one deeper")
    return reads[0] <= 5 * (most + 1) + 2 and max(first, again) <= most and beyond <= most + 1


def kept(program):
    """Eight directories of a pair each are kept: a look-up through all of them reads nothing when it is asked again."""
    path = lambda depth: f"*{depth}:/a"
    lines = ["fresh 1024 128 64"] + [f"mkdir {path(depth)}" for depth in range(1, 9)]
    lines += ["mount", "calls", f"stat {path(8)}", "calls", f"stat {path(8)}", "calls", f"list {path(8)}", "calls"]
    told, reads = calls(program, lines)
    first, again, listed = (after - before for before, after in zip(reads, reads[1:]))
    print(f"8 deep: {first} to look up, {again} again, {listed} to list")
    return first <= 8 and again == 0 and listed <= 9


def wide(program, most):
    name = lambda number: f"/folder{number:04}"
    lines = ["fresh 1024 128 4096"] + [f"mkdir {name(number)}" for number in range(most)]
    lines += ["used-count", "mount", "calls", f"stat {name(most - 1)}", "calls", f"stat {name(most // 2)}", "calls"]
    told, reads = calls(program, lines)
    pairs = (int(told[1].split(" ")[1]) - 2 * most) // 2
    if told[4] != "stat d 0" or told[6] != "stat d 0":
        sys.exit(f"other answers: {told}")
    first, again = (after - before for before, after in zip(reads, reads[1:]))
    print(f"{most} beside each other in {pairs} pairs: {reads[0]} reads to mount, {first} to look up the last, {again} then one in the middle")
    return reads[0] <= 5 * (most + pairs) + 2 and max(first, again) <= pairs


if __name__ == "__main__":
    if len(sys.argv) not in (2, 3):
        sys.exit(__doc__)
    program, depth = os.path.abspath(sys.argv[1]), int((sys.argv + [DEPTH])[2])
    sys.exit(not all([kept(program), deep(program, depth), wide(program, depth)]))
