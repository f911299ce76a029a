#!/usr/bin/env python3
"""How long `mklittlefs -l` takes for an image of 65,536 blocks that are all in use, beside one of half as many.

usage: blocks.py PROGRAM

The blocks have 1,024 bytes. Of the images of one kind nearly all blocks are pairs of directories, each a pair or a few; of the
other kind nearly all are those of files. Prints the least of several times for both sizes and their ratio: 2 where the time is
linear in the blocks, 4 where it grows with their square. Fails where it is above 3, or an image isn't listed as it was made.
"""

import os
import subprocess
import sys
import tempfile

import image_maker
from image_maker import Commit, Entry, Log, Plan, folder, inline, list_of, listed, superblock, tail
from listing import least_times

BLOCK, PAGE, COUNT = 1024, 128, 65536
MOST = 3
EACH = 8  # entries of a directory


def commit(plan, address, slots, following, hard):
    entries = [entry for ident, slot in enumerate(slots) for entry in slot.entries(ident)]
    plan.blocks[address[0]] = Log(1, [Commit(entries + ([tail(following, hard)] if following else []))])


def of_directories(count):
    """Directories in the root's pairs, each with a file, and the lines: all blocks are used."""
    plan, lines = Plan(BLOCK, PAGE, count), []
    pairs = [(block, block + 1) for block in range(0, count, 2)]
    roots = pairs[: -(-len(pairs) // (EACH + 1))]
    below = pairs[len(roots) :]
    for at, address in enumerate(roots):
        own = below[EACH * at : EACH * (at + 1)]
        slots = [folder(b"d%05d" % (EACH * at + index), *pair) for index, pair in enumerate(own)]
        lines += [b"d 0 /%s\nf 2 /%s/f\n" % (slot.name, slot.name) for slot in slots]
        following = roots[at + 1] if at + 1 < len(roots) else below[0]
        commit(plan, address, [superblock(BLOCK, count)] * (at == 0) + slots, following, at + 1 < len(roots))
    for at, address in enumerate(below):
        commit(plan, address, [inline(b"f", b"hi")], below[at + 1] if at + 1 < len(below) else None, False)
    return plan.image(), b"".join(lines)


def of_files(count):
    """Files of 1,000 blocks in the root, and the lines."""
    plan, slots, lines = Plan(BLOCK, PAGE, count), [superblock(BLOCK, count)], []
    free = list(range(16, count))
    pairs = [(block, block + 1) for block in range(0, 16, 2)]
    groups, number = [slots] + [[] for _ in pairs[1:]], 0
    while len(free) >= 1000:
        blocks, free = free[:1000], free[1000:]
        size = list_size(1000)
        name = b"f%02d" % number
        groups[number // 10].append(listed(name, list_of(plan, bytes(size), blocks), size))
        lines.append(b"f %d /%s\n" % (size, name))
        number += 1
    for at, (address, slots) in enumerate(zip(pairs, groups)):
        commit(plan, address, slots, pairs[at + 1] if at + 1 < len(pairs) else None, True)
    return plan.image(), b"".join(lines)


def list_size(blocks):
    """How many bytes so many blocks of a list hold."""
    return BLOCK * blocks - 4 * sum((index & -index).bit_length() for index in range(1, blocks))


def listing(program, name):
    return lambda: subprocess.run([program, "-l", "-b", str(BLOCK), "-p", str(PAGE), name], check=True, stdout=subprocess.DEVNULL)


def ratio(program, what, make):
    for name, count in ("half", COUNT // 2), ("whole", COUNT):
        image, lines = make(count)
        with open(name, "wb") as file:
            file.write(image)
        run = subprocess.run([program, "-l", "-b", str(BLOCK), "-p", str(PAGE), name], stdout=subprocess.PIPE)
        if run.stdout != lines:
            sys.exit(f"{what}: the image of {count} blocks isn't listed as it was made: {run.stdout[:200]}")
    half, whole = least_times(listing(program, "half"), listing(program, "whole"))
    print(f"{what}: {half:.0f} ms for {COUNT // 2} blocks, {whole:.0f} ms for {COUNT}, ratio {whole / half:.2f}")
    return whole / half


def main(program):
    with tempfile.TemporaryDirectory() as room:
        os.chdir(room)
        ratios = [ratio(program, what, make) for what, make in (("directories", of_directories), ("files", of_files))]
    return max(ratios) > MOST


if __name__ == "__main__":
    if len(sys.argv) != 2:
        sys.exit(__doc__)
    sys.exit(main(os.path.abspath(sys.argv[1])))
