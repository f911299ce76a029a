#!/usr/bin/env python3
"""The operations of the library beside those of littlefs's own code: time, calls of the device, memory, wear.

usage: against_c.py LITTLEFS PROGRAM [--rows ROW,ROW] [--repeat N]

LITTLEFS has littlefs's code of version 2.7 or later (lfs.c or lfs2.c, and what goes with it), PROGRAM is a built lfs_bench. Both
work on a device in memory with blocks of 4,096 bytes and pages of 256. Prints for each row what it takes by ours and by littlefs, built
by gcc -O2, with caches of 4,096 and of 256 bytes; then the rows about wear. The times of a row are the quickest of some runs, which take
turns.

Of wear there are the erases in all, those of the block that has most, the mean, their deviation divided by that, and the blocks that are never
erased. Ours has pairs that stay and pairs that move by each of PAIR_CYCLES, on a device that knows which bytes are blank and on one
that doesn't. Of the rows in MOST_ERASES it fails where, with the last of PAIR_CYCLES, a block has more erases than that says; where
there are over 2 in 100 more erases in all than with pairs that stay; or where, with blank checks, a block has over 1.2 times the erases
that it has with littlefs's `block_cycles` of 100.
"""

import argparse
import os
import re
import statistics
import subprocess
import sys
import tempfile

BLOCK = 4096
# a row of less nanoseconds is run so many times as often
SHORT, SHORT_REPEATS = 100_000, 20
# the row's name, the device's blocks, how many operations
ROWS = [
    ("create1", 4096, 1000),
    ("create50", 4096, 1000),
    ("stat1", 4096, 1000),
    ("stat50", 4096, 1000),
    ("list1", 4096, 1000),
    ("appendsync", 4096, 2000),
    ("appendopen", 4096, 2000),
    ("write", 4096, 256),
    ("readall", 4096, 256),
    ("readrandom", 4096, 1000),
    ("overwrite", 4096, 1),
    ("rename_same", 4096, 1000),
    ("rename_across", 4096, 1000),
    ("delete1", 4096, 1000),
    ("delete50", 4096, 1000),
    ("setattr", 4096, 1000),
    ("readsmall", 4096, 1000),
    ("nearfull", 256, 1000),
    ("notfull", 256, 1000),
    ("statdeep", 256, 1000),
    ("tinywrite", 256, 20000),
    ("appendlong", 8192, 1),
    ("appendlongs", 8192, 1000),
    ("mount", 4096, 1000),
    ("mount", 16384, 10000),
]
WEAR_ROWS = [("wear", 128, 5000), ("bootlog", 256, 2000), ("bootlog", 256, 20000), ("bootcount", 256, 2000), ("bootcount", 256, 20000)]
WEAR_CASES = [(4096, -1), (256, -1), (4096, 500), (4096, 100)]  # cache, block_cycles
PAIR_CYCLES = [101, 157]
# of one block, where the device knows blank bytes and where it doesn't, with pairs that move
MOST_ERASES = {("wear", 5000): (70, 120), ("bootlog", 20000): (250, 450), ("bootcount", 20000): (80, 350)}
MORE_IN_ALL, BESIDE_C = 1.02, 1.2
HEAD = ["time ms", "ours is times", "reads", "bytes read", "programs", "bytes programmed", "erases", "peak heap"]

here = os.path.dirname(os.path.abspath(__file__))


def build(littlefs, room):
    """against_c.c with littlefs's code, whose names may begin with lfs2, as MicroPython has them; and heap.c."""
    prefix = "lfs2" if os.path.exists(f"{littlefs}/lfs2.c") else "lfs"
    with open(f"{here}/against_c.c") as it:
        names = sorted(set(re.findall(r"\b(?:lfs|LFS)_\w+", it.read())))
    renamed = [f"-D{it}={it.replace('lfs', 'lfs2', 1).replace('LFS', 'LFS2', 1)}" for it in names] if prefix == "lfs2" else []
    switches = [f"-D{prefix.upper()}_{it}" for it in ("MULTIVERSION", "NO_DEBUG", "NO_WARN", "NO_ERROR")] + [f"-I{littlefs}"]
    counted, objects = ["-Dmalloc=counted_malloc", "-Dfree=counted_free"], []
    for name in (prefix, f"{prefix}_util"):
        objects.append(f"{room}/{name}.o")
        subprocess.run(["gcc", "-O2", "-w", *switches, *counted, "-c", f"{littlefs}/{name}.c", "-o", objects[-1]], check=True)
    bench = ["gcc", "-O2", f'-DHEADER="{prefix}.h"', *switches, *renamed, f"{here}/against_c.c", *objects, "-o", f"{room}/bench"]
    subprocess.run(bench, check=True)
    subprocess.run(["gcc", "-O2", "-w", "-shared", "-fPIC", f"{here}/heap.c", "-o", f"{room}/heap.so"], check=True)


def output(*words, **more):
    run = subprocess.run([str(word) for word in words], stdout=subprocess.PIPE, stderr=subprocess.PIPE, text=True, **more)
    if run.returncode:
        sys.exit(f"{' '.join(map(str, words))} ends with {run.returncode}: {run.stdout}{run.stderr}")
    return run


def numbers(row, run, least):
    words = run.stdout.split()
    if len(words) < 1 + least or words[0] != row:
        sys.exit(f"{row}: {run.stdout}{run.stderr}")
    return [int(word) for word in words[1 : 1 + least]]


def our_heap(program, room, row, blocks, count):
    """The peak of the heap without the device and the table of its erases, or None where the library isn't taken."""
    run = output(program, "row", row, blocks, count, env={**os.environ, "LD_PRELOAD": f"{room}/heap.so"})
    told = re.findall(r"^heap (\d+)$", run.stderr, re.MULTILINE)
    return int(told[-1]) - blocks * (BLOCK + 4) if told else None


def quickest_runs(options, commands, row):
    """The quickest run of each command. They run in turn, and a short row oftener, since a busy machine disturbs it more."""
    runs = {name: [] for name in commands}
    wanted = options.repeat
    while len(runs["ours"]) < wanted:
        for name, (words, least) in commands.items():
            runs[name].append(numbers(row, output(*words), least))
        if runs["ours"][0][5] < SHORT:
            wanted = options.repeat * SHORT_REPEATS
    return {name: min(its, key=lambda run: run[5]) for name, its in runs.items()}


def show_row(options, room, row, blocks, count):
    commands = {"ours": ([options.program, "row", row, blocks, count], 6)}
    for cache in (4096, 256):
        commands[f"C, cache {cache}"] = ([f"{room}/bench", row, blocks, count, cache, -1], 7)
    found = quickest_runs(options, commands, row)
    heap = our_heap(options.program, room, row, blocks, count)
    ours = found["ours"]
    lines = [(name, its[:6], heap if name == "ours" else its[6]) for name, its in found.items()]
    print(f"{row}, {count} operations, {blocks} blocks")
    for name, (reads, read_bytes, programs, program_bytes, erases, time), heap in lines:
        ratio = f"{ours[5] / time:.2f}" if name != "ours" else ""
        cells = [f"{time / 1e6:.4g}", ratio, *(f"{it:,}" for it in (reads, read_bytes, programs, program_bytes, erases))]
        print(f"  {name:14}" + "".join(f"{cell:>18}" for cell in cells + [f"{heap:,}" if heap is not None else "not known"]))
    sys.stdout.flush()


def show_wear(options, room, row, blocks, count):
    """Prints a row about wear. What of it isn't as it has to be."""
    print(f"{row}, {count} operations, {blocks} blocks")
    ours = [options.program, "row", row, blocks, count]
    cases = {}
    for blanks in ("ours", "ours, blank checks"):
        for cycles in [0, *PAIR_CYCLES]:
            cases[moving(blanks, cycles)] = [*ours, cycles] + ["blanks"] * (blanks != "ours")
    for cache, cycles in WEAR_CASES:
        cases[f"C, cache {cache}, block_cycles {cycles}"] = [f"{room}/bench", row, blocks, count, cache, cycles]
    found = {}
    for name, words in cases.items():
        told = output(*words).stdout
        erases = found[name] = [int(line) for line in told.splitlines() if line.isdigit()]
        if len(erases) != blocks or "Err" in told:
            sys.exit(f"{row}: {told[:200]}")
        mean, spread = statistics.mean(erases), statistics.pstdev(erases)
        cells = [f"{sum(erases):,}", max(erases), f"{mean:.1f}", f"{spread / mean:.2f}", erases.count(0)]
        print(f"  {name:32}" + "".join(f"{cell:>10}" for cell in cells))
    sys.stdout.flush()
    most = MOST_ERASES.get((row, count))
    return [f"{row}, {count} operations: {what}" for what in too_many(found, most)] if most else []


def moving(blanks, cycles):
    return f"{blanks}, cycles {cycles}" if cycles else blanks


def too_many(found, most):
    """Which erases are more than they may be, by each case's erases of each block."""
    for at, blanks in enumerate(["ours, blank checks", "ours"]):
        stay, move = found[blanks], found[moving(blanks, PAIR_CYCLES[-1])]
        if max(move) > most[at]:
            yield f"{blanks}: {max(move)} erases of a block, at most {most[at]} are wanted"
        if sum(move) > MORE_IN_ALL * sum(stay):
            yield f"{blanks}: {100 * sum(move) / sum(stay) - 100:.1f} in 100 more erases than with pairs that stay"
    ours, its = max(found[moving("ours, blank checks", PAIR_CYCLES[-1])]), max(found["C, cache 4096, block_cycles 100"])
    if ours > BESIDE_C * its:
        yield f"{ours} erases of a block, where littlefs has {its}"


def main():
    parser = argparse.ArgumentParser(description=__doc__.split("\n")[0])
    parser.add_argument("littlefs", metavar="LITTLEFS", type=os.path.abspath)
    parser.add_argument("program", metavar="PROGRAM", type=os.path.abspath)
    parser.add_argument("--rows", help="only these, separated by commas")
    parser.add_argument("--repeat", type=int, default=3, help="the quickest of so many runs is shown (3)")
    options = parser.parse_args()
    known, wrong = [row for row, _, _ in ROWS + WEAR_ROWS], []
    wanted = options.rows.split(",") if options.rows else known
    if not set(wanted) <= set(known):
        parser.error("there is no row " + ", ".join(sorted(set(wanted) - set(known))))
    with tempfile.TemporaryDirectory() as room:
        build(options.littlefs, room)
        if any(row in wanted for row, _, _ in ROWS):
            print(" " * 16 + "".join(f"{cell:>18}" for cell in HEAD))
        for row in ROWS:
            if row[0] in wanted:
                show_row(options, room, *row)
        if any(row in wanted for row, _, _ in WEAR_ROWS):
            print(" " * 34 + "".join(f"{cell:>10}" for cell in ("erases", "most", "mean", "variation", "never")))
        for row in WEAR_ROWS:
            if row[0] in wanted:
                wrong += show_wear(options, room, *row)
    print("".join(f"more erases than wanted: {what}\n" for what in wrong), end="")
    return bool(wrong)


if __name__ == "__main__":
    sys.exit(main())
