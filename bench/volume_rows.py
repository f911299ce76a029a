#!/usr/bin/env python3
"""The calls of volumes beside those of littlefs's own code: programs and erases, and time.

usage: volume_rows.py LITTLEFS PROGRAM [--repeat N]

LITTLEFS has littlefs's code of version 2.7 or later, PROGRAM is a built lfs_volume_script. Both work on a device in memory with 4,096
blocks of 4,096 bytes in pages of 256. Rows are: 1,000 times a file is opened, 100 bytes written, and the file closed; 2,000 reads and
writes of 100 bytes in turn at places at random in 16 open files of 100,000 bytes, with a sync at each hundredth; 2,000 times 100 bytes
appended and synced. Ours are lines of a script: their time, which has the reading of lines and the writing of answers in it, is that of
the program less that of the program with the lines before the row alone. Times are the quickest of N runs, which take turns.
"""

import argparse
import os
import subprocess
import sys
import tempfile
import time

from against_c import build, numbers, output

BLOCKS, MANY, LONG = 4096, 16, 100_000
HUNDRED = "*100:x"


def opened(count):
    return [], [line for _ in range(count) for line in ("open /small 103", f"write 0 {HUNDRED}", "close 0")]


def many(count):
    before = [line for k in range(MANY) for line in (f"open /m{k:02} 103", f"write 0 *{LONG}:x", "close 0")]
    row, state = [f"open /m{k:02} 3" for k in range(MANY)], 1
    for k in range(count):
        state = (state * 1103515245 + 12345) % 2**32
        number = (state >> 8) % MANY
        row += [f"seek {number} {(state >> 12) % (LONG - 100)}", f"read {number} 100" if k % 2 else f"write {number} {HUNDRED}"]
        if k % 100 == 99:
            row.append(f"sync {number}")
    return before, row + [f"close {k}" for k in range(MANY)]


def appended(count):
    return [], ["open /log 902"] + [f"write 0 {HUNDRED}", "sync 0"] * count + ["close 0"]


ROWS = [("writeopened", opened, 1000), ("changemany", many, 2000), ("appendsync", appended, 2000)]


def told(program, lines):
    """The last two answers, and the seconds that the program took."""
    text, start = "\n".join(lines + ["calls program", "calls erase"]) + "\n", time.perf_counter()
    run = subprocess.run([program], input=text.encode(), stdout=subprocess.PIPE, check=True)
    seconds = time.perf_counter() - start
    answers = run.stdout.decode().split("\n")[:-1]
    if any(answer.startswith(("refused", "error")) for answer in answers):
        sys.exit(f"a call is refused: {answers}")
    return [int(answer.rpartition(" ")[2]) for answer in answers[-2:]], seconds


def main():
    parser = argparse.ArgumentParser(description=__doc__.split("\n")[0])
    parser.add_argument("littlefs", metavar="LITTLEFS", type=os.path.abspath)
    parser.add_argument("program", metavar="PROGRAM", type=os.path.abspath)
    parser.add_argument("--repeat", type=int, default=5)
    options = parser.parse_args()
    with tempfile.TemporaryDirectory() as room:
        build(options.littlefs, room)
        for row, lines, count in ROWS:
            before, calls = lines(count)
            before = [f"fresh {4096} {256} {BLOCKS}"] + before
            whole, begun, theirs = [], [], {4096: [], 256: []}
            for _ in range(options.repeat):
                begun.append(told(options.program, before))
                whole.append(told(options.program, before + calls))
                for cache in theirs:
                    theirs[cache].append(numbers(row, output(f"{room}/bench", row, BLOCKS, count, cache, -1), 7))
            (programs, erases), seconds = whole[0][0], min(run[1] for run in whole) - min(run[1] for run in begun)
            programs, erases = programs - begun[0][0][0], erases - begun[0][0][1]
            print(f"{row}, {count} operations: ours {programs:,} programs, {erases:,} erases, {1000 * seconds:.1f} ms")
            for cache, runs in theirs.items():
                its = min(run[5] for run in runs) / 1e9
                print(f"  C, cache {cache}: {runs[0][2]:,} programs, {runs[0][4]:,} erases, {1000 * its:.1f} ms; ours takes {seconds / its:.2f}")


if __name__ == "__main__":
    sys.exit(main())
