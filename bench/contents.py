#!/usr/bin/env python3
"""What a file holds that is written, cut and read over sessions, beside a plain bytearray.

usage: contents.py PROGRAM [--count N] [--seed WORD]

PROGRAM is a built lfs_script. First a file of each size around the limit of what stands in an entry, a block's size and two
blocks' is written at each of these places, then cut or lengthened to each of these sizes, then written at each of them again,
with a sync between or not: every gap, cut and turn there is. Then N lists of operations made at random (files written, cut and
read, directories and names that come, go and move, attributes, refusals, small devices that are full). Each answer is compared
with that of session_model.py, which shares nothing with the crates, and so is what a mount behind the last one finds. Prints how
many there were. Fails where anything differs.
"""

import argparse
import itertools
import os
import random
import subprocess
import sys

from session_model import Model, looks, seen

PAGE, BLOCK, LIMIT = 128, 1024, 128
SIZES = [LIMIT - 1, LIMIT, LIMIT + 1, BLOCK - 1, BLOCK, BLOCK + 1, 2 * BLOCK]
BATCH = 200


def written():
    """Each list of operations around the limits."""
    for size, place, count in itertools.product([0, 1] + SIZES, [0] + SIZES, [1, LIMIT + 1, BLOCK + 1]):
        made = ["open /a 102", f"write 0 *{size}:a" if size else "write 0 \\e", "close 0"]
        first = ["open /a 2", f"seek 0 {place}", f"write 0 *{count}:b"]
        for cut, again, synced in itertools.product([None, 0] + SIZES, [None, 0] + SIZES, [False, True]):
            cutting = [] if cut is None else [f"truncate 0 {cut}"]
            writing = [] if again is None else [f"seek 0 {again}", "write 0 cd"]
            yield 64, made + first + ["sync 0"] * synced + cutting + ["sync 0"] * (synced and bool(cutting)) + writing + ["close 0"]


def some_path(rnd, model):
    """A path that is there, one beside it, or one that isn't any."""
    if rnd.random() < 0.04:
        return rnd.choice(["/", "/" + "e" * 256, "/a/b/c/d", "a", "/a/", "//", "/.", "/a/../b"])
    folders = [path for path in sorted(model.tree) if model.tree[path].content is None]
    there = sorted(model.tree)[1:]
    if there and rnd.random() < 0.5:
        return rnd.choice(there).decode()
    under = rnd.choice(folders if rnd.random() < 0.9 else there or folders)
    return (under + b"/" + rnd.choice([b"a", b"b", b"c", b"d"])).decode()


def some_count(rnd):
    return rnd.choice([0, 1, rnd.choice(SIZES), rnd.choice(SIZES), rnd.randrange(6000)])


def some_bytes(rnd):
    count = some_count(rnd)
    return f"*{count}:{rnd.choice('vwxyz')}" if count else "\\e"


def some_number(rnd, model, writes):
    """An open file's number of this kind where there is one, and now and then any."""
    numbers = [number for number, file in sorted(model.files.items()) if file.writes == writes]
    return rnd.choice(numbers) if numbers and rnd.random() < 0.95 else rnd.randrange(3)


def some_operation(rnd, model):
    path, other = some_path(rnd, model), some_path(rnd, model)
    writer, reader = some_number(rnd, model, True), some_number(rnd, model, False)
    number = rnd.choice([writer, reader])
    few = 1 if model.files else 20
    kinds = [
        (16, lambda: f"open {path} {rnd.choice(['102', '102', '102', '2', '1', '1', '902', '502', '302', '802', '402', '3', '0', '100', '1000'])}"),
        (24 / few, lambda: f"write {writer} {some_bytes(rnd)}"),
        (6 / few, lambda: f"seek {number} {rnd.choice([some_count(rnd)] * 8 + [2147483647, 2147483648])}"),
        (8 / few, lambda: f"truncate {writer} {rnd.choice([some_count(rnd)] * 8 + [2147483647, 2147483648])}"),
        (6 / few, lambda: f"read {reader} {some_count(rnd)}"),
        (4 / few, lambda: f"sync {number}"),
        (5 / few, lambda: f"close {number}"),
        (5, lambda: f"mkdir {path}"),
        (4, lambda: f"remove {path}"),
        (8, lambda: f"rename {path} {other}"),
        (2, lambda: f"list {path}"),
        (2, lambda: f"stat {path}"),
        (3, lambda: f"set-attr {path} 41 *{rnd.choice([1, 20, 20, 20, 300, 1022, 1023])}:t"),
        (1, lambda: f"get-attr {path} 41"),
        (1, lambda: f"remove-attr {path} 41"),
        (1, lambda: rnd.choice(["gstate", "used-count", "recover", "remount"])),
    ]
    return rnd.choices([make for _, make in kinds], [weight for weight, _ in kinds])[0]()


def made(seed, number):
    """A device's blocks, and operations at random."""
    rnd = random.Random(f"{seed}/{number}")
    model = Model(BLOCK, PAGE, rnd.choice([6, 10, 14, 20, 200]))
    ops = []
    for _ in range(60):
        ops.append(some_operation(rnd, model))
        model.answer(ops[-1])
    return model.block_count, ops


def script(blocks, ops):
    """The script, and what it has to print."""
    model = Model(BLOCK, PAGE, blocks)
    answers = [model.answer(op) for op in ops]
    behind = looks([model.tree])
    found = ["done"] + seen(model.tree, behind) + [f"count {model.used()}", "gstate 0 none"]
    return [f"fresh {BLOCK} {PAGE} {blocks}"] + ops + ["mount"] + behind + ["used-count", "gstate"], ["done"] + answers + found


def compare(program, cases):
    """How many scripts there were, and how many with another answer."""
    count, wrong = 0, 0
    while some := list(itertools.islice(cases, BATCH)):
        made = [script(*case) for case in some]
        text = "\n".join(line for lines, _ in made for line in lines) + "\n"
        run = subprocess.run([program], input=text.encode(), stdout=subprocess.PIPE, timeout=600, check=True)
        answers, at = run.stdout.decode().split("\n"), 0
        for lines, wanted in made:
            told = answers[at : at + len(lines)]
            at, count = at + len(lines), count + 1
            if told != wanted:
                wrong += 1
                first = next(index for index, pair in enumerate(zip(told, wanted)) if pair[0] != pair[1])
                print("DIFFERENCE: " + "; ".join(lines[: first + 1]) + f": {told[first][:100]}, and not {wanted[first][:100]}", flush=True)
    return count, wrong


def main():
    parser = argparse.ArgumentParser(description=__doc__.split("\n")[0])
    parser.add_argument("program", type=os.path.abspath)
    parser.add_argument("--count", type=int, default=5000)
    parser.add_argument("--seed", default="contents")
    options = parser.parse_args()
    differ = 0
    for what, cases in ("around the limits", written()), ("at random", (made(options.seed, number) for number in range(options.count))):
        count, wrong = compare(options.program, cases)
        print(f"{what}: {count} lists of operations, {wrong} differ", flush=True)
        differ += wrong
    return differ > 0


if __name__ == "__main__":
    sys.exit(main())
