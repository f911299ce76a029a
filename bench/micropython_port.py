#!/usr/bin/env python3
"""MicroPython's unix port with bindings/lfs in place of littlefs, and its tests of littlefs.

usage: micropython_port.py SOURCE [--archives A,B] [--keep FOLDER] [--jobs N]

SOURCE is MicroPython's source, as of Debian's source package micropython 1.26.1+ds, whose lib/littlefs is release 2.11. Nothing in it is
changed. A copy is built twice: as it is, and with bindings/lfs in place of lib/littlefs, whose names begin with lfs2 there. Each runs the
tests vfs_lfs*.py and vfs_blockdev*.py. Three of them have blocks of less than 1,024 bytes, which bindings/lfs refuses. Two of these
also run with blocks of 1,024 bytes, in their half for littlefs 2. Prints a line for each test: whether it passes with littlefs, and with
bindings/lfs. Fails if a test that passes with littlefs doesn't pass with bindings/lfs, but for those three.

The archives are liblittlefs_c.a and the kit's liblibc_c.a; without `--archives` those that `make -C bindings/c archives` prints. It needs
gcc, make and python3. With `--keep` both programs are left in FOLDER.
"""

import argparse
import os
import re
import shutil
import subprocess
import sys
import tempfile

top = os.path.dirname(os.path.dirname(os.path.abspath(__file__)))
CANNOT = {"vfs_lfs_superblock", "vfs_blockdev", "vfs_blockdev_invalid"}
WITHOUT = ["MICROPY_PY_SSL=0", "MICROPY_PY_BTREE=0", "MICROPY_PY_FFI=0", "FROZEN_MANIFEST="]


def archives():
    """Returns the archives that a program with bindings/lfs is linked with."""
    words = subprocess.run(["make", "-s", "-C", f"{top}/bindings/c", "archives"], stdout=subprocess.PIPE, text=True, check=True).stdout.split()
    return [os.path.join(top, "bindings", "c", it) for it in words]


def put_in_place(folder, prefix="lfs2"):
    """Copies bindings/lfs to a folder, with the names that MicroPython uses."""
    for name in ("lfs.c", "lfs.h", "lfs_util.c", "lfs_util.h"):
        with open(f"{top}/bindings/lfs/{name}", encoding="utf-8") as it:
            text = re.sub(r"\b(?:lfs|LFS)(?=_(?!c_|C_)|\b)", lambda found: prefix if found[0] == "lfs" else prefix.upper(), it.read()).replace('"../c/littlefs_c.h"', '"littlefs_c.h"')
        with open(f"{folder}/{name.replace('lfs', prefix, 1)}", "w", encoding="utf-8") as it:
            it.write(text)
    shutil.copy(f"{top}/bindings/c/littlefs_c.h", folder)


def build(source, out, jobs, more=()):
    """Builds the unix port, and returns the program's path."""
    words = ["make", "-C", f"{source}/ports/unix", f"-j{jobs}", *WITHOUT, f"BUILD={out}", *more]
    run = subprocess.run(words, stdout=subprocess.PIPE, stderr=subprocess.STDOUT, text=True)
    if run.returncode:
        sys.exit(run.stdout[-4000:])
    return f"{out}/micropython"


def enlarge_blocks(source, program):
    """Adds tests with blocks of 1,024 bytes. Their expected output is that of the program with littlefs."""
    folder = f"{source}/tests/extmod"
    for name in ("vfs_blockdev", "vfs_blockdev_invalid"):
        with open(f"{folder}/{name}.py", encoding="utf-8") as it:
            text = re.sub(r"^test\(.*VfsFat\)\n", "", it.read(), flags=re.M).replace("ERASE_BLOCK_SIZE = 512", "ERASE_BLOCK_SIZE = 1024")
        path = f"{folder}/{name}_1024.py"
        with open(path, "w", encoding="utf-8") as it:
            it.write(text)
        with open(path + ".exp", "w", encoding="utf-8") as it:
            subprocess.run([program, path], stdout=it, check=True)


def outcomes(source, program, out):
    """Returns the outcome of each test: pass, FAIL or skip."""
    tests = [f"extmod/{name}" for name in sorted(os.listdir(f"{source}/tests/extmod")) if re.fullmatch(r"vfs_(?:lfs|blockdev).*\.py", name)]
    words = [sys.executable, "run-tests.py", "-j1", "-r", out, *tests]
    run = subprocess.run(words, cwd=f"{source}/tests", env={**os.environ, "MICROPY_MICROPYTHON": program}, stdout=subprocess.PIPE, text=True)
    return {name: what for what, name in re.findall(r"^(pass|FAIL|skip) +extmod/(\w+)\.py", run.stdout, re.M)}


def main():
    parser = argparse.ArgumentParser(usage=__doc__.partition("usage: ")[2].partition("\n")[0])
    parser.add_argument("source")
    parser.add_argument("--archives", type=lambda words: [os.path.abspath(it) for it in words.split(",")])
    parser.add_argument("--keep")
    parser.add_argument("--jobs", type=int, default=1)
    options = parser.parse_args()
    linked, found = options.archives or archives(), []
    with tempfile.TemporaryDirectory() as folder:
        source = f"{folder}/source"
        shutil.copytree(options.source, source, symlinks=True)
        for name, more in (("littlefs", ()), ("bindings_lfs", [f"LDFLAGS_EXTRA={' '.join(linked)}"])):
            if more:
                put_in_place(f"{source}/lib/littlefs")
            program = shutil.copy(build(source, f"{folder}/build", options.jobs, more), f"{folder}/micropython_{name}")
            if not more:
                enlarge_blocks(source, program)
            found.append(outcomes(source, program, f"{folder}/results_{name}"))
            if options.keep:
                os.makedirs(options.keep, exist_ok=True)
                shutil.copy(program, options.keep)
    theirs, ours = found
    print(f"{'':26}{'littlefs':10}bindings/lfs")
    for name in sorted({**theirs, **ours}):
        print(f"{name:26}{theirs.get(name, 'none'):10}{'cannot' if name in CANNOT else ours.get(name, 'none')}")
    wrong = [name for name in theirs if theirs[name] == "pass" and ours.get(name) != "pass" and name not in CANNOT]
    sys.exit(1 if wrong or not theirs else 0)


if __name__ == "__main__":
    main()
