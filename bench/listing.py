#!/usr/bin/env python3
"""How long `mklittlefs -l` takes for a large image, beside a checksum of the same bytes.

usage: listing.py PROGRAM

Makes an image of 64 MiB (blocks of 4,096 bytes, pages of 256) with 10,000 files in 100 folders, half of them inline and half
skip lists of one to three blocks, by the maker of image_maker.py, and checks that PROGRAM lists it as it was made. Then prints
the least of several times of `mklittlefs -l image`, of `cat image | cksum`, and of reading the file and zlib's checksum of it,
with the ratios. Fails where the listing takes more than twice as long as cksum.
"""

import os
import random
import subprocess
import sys
import tempfile
import time
import zlib

import image_maker

GEOMETRY = (4096, 256, 16384)
FOLDERS, FILES = 100, 100
RUNS = 20
MOST = 2


def tree(rnd):
    sizes = lambda at: rnd.randrange(40) if at % 2 else rnd.randrange(600, 12000)
    return {b"folder%02d" % folder: {b"file%03d" % at: rnd.randbytes(sizes(at)) for at in range(FILES)} for folder in range(FOLDERS)}


def least_times(*calls):
    """Of each call, made in turn so that what else the machine does meets them alike. In milliseconds."""
    least = [float("inf")] * len(calls)
    for _ in range(RUNS):
        for at, call in enumerate(calls):
            start = time.perf_counter()
            call()
            least[at] = min(least[at], (time.perf_counter() - start) * 1000)
    return least


def shell(command):
    return lambda: subprocess.run(command, shell=True, check=True, stdout=subprocess.DEVNULL)


def zlib_checksum():
    with open("image", "rb") as file:
        zlib.crc32(file.read())


def main(program):
    rnd = random.Random("listing")
    plan, lines = image_maker.random_plan(rnd, GEOMETRY, tree(rnd))
    with tempfile.TemporaryDirectory() as room:
        os.symlink(os.path.abspath(program), os.path.join(room, "mklittlefs"))
        os.chdir(room)
        with open("image", "wb") as file:
            file.write(plan.image())
        if subprocess.run(["./mklittlefs", "-l", "image"], stdout=subprocess.PIPE).stdout != lines:
            sys.exit("the image isn't listed as it was made")
        listing, checksum, library = least_times(shell("./mklittlefs -l image"), shell("cat image | cksum"), zlib_checksum)
    print(f"mklittlefs -l: {listing:.0f} ms")
    print(f"cat image | cksum: {checksum:.0f} ms, ratio {listing / checksum:.2f}")
    print(f"read and zlib's crc32: {library:.0f} ms, ratio {listing / library:.2f}")
    return listing / checksum > MOST


if __name__ == "__main__":
    if len(sys.argv) != 2:
        sys.exit(__doc__)
    sys.exit(main(sys.argv[1]))
