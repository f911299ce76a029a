#!/usr/bin/env python3
"""How many blocks the image of a folder takes here, and with littlefs's own code.

usage: room.py LITTLEFS PROGRAM

LITTLEFS is a folder with littlefs's own code, PROGRAM a built mklittlefs. Each row is a folder with some files. Prints the
smallest number of blocks of 4,096 bytes into which either puts it: by `mklittlefs -c`, and by littlefs's own code, which makes
the folders and files in the same order. Fails where PROGRAM refuses an image of so many blocks, or makes one with a block less.
"""

import argparse
import os
import subprocess
import tempfile

import littlefs_code

BLOCK, PAGE = 4096, 256
LEAST, MOST = 2, 4096

# What is in a folder: its folders, files in each (and in the folder itself, where there is none), and bytes in each file.
ROWS = {
    "nothing": (0, 0, 0),
    "a file of 100 bytes": (0, 1, 100),
    "a file of 10,000 bytes": (0, 1, 10000),
    "a file of 1,000,000 bytes": (0, 1, 1000000),
    "100 files of 100 bytes": (0, 100, 100),
    "100 files of 2,000 bytes": (0, 100, 2000),
    "1,000 files of 100 bytes": (0, 1000, 100),
    "10 folders of 10 files of 100 bytes": (10, 10, 100),
    "10 folders of 10 files of 2,000 bytes": (10, 10, 2000),
    "100 empty folders": (100, 0, 0),
}


def entries(folders, files, size):
    """The folders and files of a row in the order in which they are made: a path, and a size or None."""
    names = [f"d{number:03}" for number in range(folders)] or [""]
    for folder in names:
        if folder:
            yield folder, None
        for number in range(files):
            yield os.path.join(folder, f"f{number:04}"), size


def least(holds):
    """The least number of blocks that is enough, where each larger one is, too."""
    few, enough = LEAST - 1, MOST
    while enough - few > 1:
        half = (few + enough) // 2
        few, enough = (few, half) if holds(half) else (half, enough)
    return enough


def held_by_program(program, folder, image, count):
    words = [program, "-c", folder, "-b", str(BLOCK), "-p", str(PAGE), "-s", str(BLOCK * count), image]
    return subprocess.run(words, capture_output=True).returncode == 0


def held_by_littlefs(code, image, row, count):
    driver = littlefs_code.Driver(code, image, (BLOCK, PAGE, count), fresh=True)
    try:
        for path, size in entries(*row):
            name = ("/" + path).encode().hex()
            if driver.tell(f"mkdir {name}" if size is None else f"put {name} {size} x"):
                return False
        return True
    finally:
        driver.run.kill()
        driver.run.wait()


def make_folder(folder, row):
    os.mkdir(folder)
    for path, size in entries(*row):
        if size is None:
            os.mkdir(os.path.join(folder, path))
        else:
            with open(os.path.join(folder, path), "wb") as file:
                file.write(b"x" * size)


def main():
    parser = argparse.ArgumentParser(description=__doc__, formatter_class=argparse.RawDescriptionHelpFormatter)
    parser.add_argument("littlefs")
    parser.add_argument("program")
    words = parser.parse_args()
    wrong = 0
    with tempfile.TemporaryDirectory() as place:
        code = littlefs_code.build(words.littlefs, os.path.join(place, "littlefs"))
        image, other = os.path.join(place, "image"), os.path.join(place, "other")
        print(f"{'':40}{'here':>8}{'littlefs ' + littlefs_code.release(words.littlefs):>16}")
        for number, (name, row) in enumerate(ROWS.items()):
            folder = os.path.join(place, f"folder{number}")
            make_folder(folder, row)
            here = least(lambda count: held_by_program(words.program, folder, image, count))
            there = least(lambda count: held_by_littlefs(code, other, row, count))
            wrong += not held_by_program(words.program, folder, image, here) or held_by_program(words.program, folder, image, here - 1)
            print(f"{name:40}{here:8}{there:16}", flush=True)
    raise SystemExit(wrong > 0)


if __name__ == "__main__":
    main()
