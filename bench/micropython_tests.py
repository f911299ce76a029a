#!/usr/bin/env python3
"""MicroPython's own tests of littlefs, over images of bindings/python.

usage: micropython_tests.py FOLDER

FOLDER is tests/extmod of MicroPython's source, as of Debian's source package micropython; its tests are MIT-licensed, and stay there. Each
vfs_lfs*.py runs in micropython_vfs.py, and its output is compared with its .exp. The half for littlefs 1 is left out. Prints a line for
each test: that it passes, why it can't, or the first line that differs. Needs littlefs_c.so, as bindings.py does.
"""

import contextlib
import glob
import io
import os
import re
import subprocess
import sys
import traceback

CANNOT = {"vfs_lfs_superblock": "its blocks have 64 bytes, and here a block has at least 1,024"}
OTHER_HALF = re.compile(r"^test\(.*vfs\.VfsLfs1\)$", re.M)


def run(path):
    """Runs a test in this process, with its output."""
    import micropython_vfs

    with open(path, encoding="utf-8") as file:
        source = OTHER_HALF.sub("", file.read())
    exec(compile(source, path, "exec"), {"__builtins__": micropython_vfs.System().builtins, "__name__": "__main__"})


def outcome(path):
    name = os.path.basename(path)[: -len(".py")]
    with open(path + ".exp", encoding="utf-8") as file:
        wanted = file.read()
    wanted = wanted[max(wanted.find("test <class 'VfsLfs2'>"), 0) :].splitlines()
    ran = subprocess.run([sys.executable, os.path.abspath(__file__), "--run", path], capture_output=True, text=True)
    got = ran.stdout.splitlines()
    if got == wanted and ran.returncode == 0:
        return name, "passes", ""
    if name in CANNOT:
        return name, "can't", CANNOT[name]
    pairs = [(one, other) for one, other in zip(got + [""] * len(wanted), wanted + [""] * len(got)) if one != other]
    differs = f"line {(got + [''] * len(wanted)).index(pairs[0][0]) + 1}: {pairs[0][0]!r}, and not {pairs[0][1]!r}; {len(pairs)} lines differ" if pairs else ""
    return name, "FAILS", f"{differs} {ran.stderr.strip().splitlines()[-1] if ran.stderr.strip() else ''}".strip()


def main():
    if sys.argv[1:2] == ["--run"]:
        return run(sys.argv[2])
    found = sorted(glob.glob(os.path.join(sys.argv[1], "vfs_lfs*.py")))
    outcomes = [outcome(path) for path in found]
    for line in outcomes:
        print(f"{line[0]:24} {line[1]:7} {line[2]}".rstrip())
    sys.exit(1 if not found or any(kind == "FAILS" for _, kind, _ in outcomes) else 0)


if __name__ == "__main__":
    main()
