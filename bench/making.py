#!/usr/bin/env python3
"""How long `mklittlefs` takes to make an image of 2,000 files in 50 folders, 8 MiB, and to unpack it.

usage: making.py PROGRAM

Needs Debian's mtd-utils and genext2fs. Makes the folder, checks that what PROGRAM makes of it and unpacks again is the same,
and prints the least of several times of `mklittlefs -c`, of `mkfs.jffs2` without compression and of `genext2fs`, and of
`mklittlefs -u` and `cp -r`, with the ratios. The images are of 14 MiB, into which the files just fit, and of 24 MiB:
`mklittlefs` writes all of an image, `genext2fs` what isn't zero, and `mkfs.jffs2` only what is in it. Fails where making an
image takes more than twice as long as the faster of the other two, or unpacking more than twice as long as `cp -r`.
"""

import filecmp
import os
import random
import shutil
import subprocess
import sys
import tempfile
import time

FOLDERS, FILES = 50, 40
BYTES = 8 * 1024 * 1024
TIGHT, LARGE = 14 * 1024 * 1024, 24 * 1024 * 1024
RUNS = 7
MOST = 2


def make_folder():
    rnd = random.Random("making")
    sizes = [rnd.randrange(BYTES // (FOLDERS * FILES) * 2) for _ in range(FOLDERS * FILES)]
    sizes[0] += max(0, BYTES - sum(sizes))
    for at, size in enumerate(sizes):
        folder = os.path.join("files", "folder%02d" % (at // FILES))
        os.makedirs(folder, exist_ok=True)
        with open(os.path.join(folder, "file%02d" % (at % FILES)), "wb") as file:
            file.write(rnd.randbytes(size))


def is_same(one, other):
    """Whether two folders have the same files, with the same bytes."""
    found = filecmp.dircmp(one, other)
    _, differ, failed = filecmp.cmpfiles(one, other, found.common_files, shallow=False)
    if found.left_only or found.right_only or differ or failed:
        return False
    return all(is_same(os.path.join(one, name), os.path.join(other, name)) for name in found.common_dirs)


def remove(path):
    if os.path.isdir(path):
        shutil.rmtree(path)
    elif os.path.exists(path):
        os.remove(path)


def least_times(*calls):
    """Of each command, made in turn, with what it makes removed before. In milliseconds."""
    least = [float("inf")] * len(calls)
    for _ in range(RUNS):
        for at, (made, command) in enumerate(calls):
            remove(made)
            start = time.perf_counter()
            subprocess.run(command.split(), check=True, stdout=subprocess.DEVNULL, stderr=subprocess.DEVNULL)
            least[at] = min(least[at], (time.perf_counter() - start) * 1000)
    return least


def making_times(program, size):
    """Of each of the three, for an image of so many bytes. `mkfs.jffs2` makes one as long as what is in it."""
    return least_times(
        ("image", f"{program} -c files -s {size} image"),
        ("jffs2", "mkfs.jffs2 -m none -r files -o jffs2"),
        ("ext2", f"genext2fs -d files -b {size // 1024} ext2"),
    )


def show_making(size, making, jffs2, ext2):
    times = f"mklittlefs -c: {making:.0f} ms, mkfs.jffs2: {jffs2:.0f} ms, genext2fs: {ext2:.0f} ms"
    print(f"{size >> 20} MiB: {times}, ratios {making / jffs2:.2f}, {making / ext2:.2f}")


def main(program):
    program = os.path.abspath(program)
    with tempfile.TemporaryDirectory() as room:
        os.chdir(room)
        make_folder()
        making, jffs2, ext2 = making_times(program, TIGHT)
        large = making_times(program, LARGE)
        unpack = f"{program} -u back image"
        unpacking, copying = least_times(("back", unpack), ("copy", "cp -r files copy"))
        if not is_same("files", "back"):
            sys.exit("what is unpacked isn't what the image was made of")
    show_making(TIGHT, making, jffs2, ext2)
    show_making(LARGE, *large)
    print(f"mklittlefs -u: {unpacking:.0f} ms, cp -r: {copying:.0f} ms, ratio {unpacking / copying:.2f}")
    return making > MOST * min(jffs2, ext2) or unpacking > MOST * copying


if __name__ == "__main__":
    if len(sys.argv) != 2:
        sys.exit(__doc__)
    sys.exit(main(sys.argv[1]))
