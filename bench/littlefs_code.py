"""littlefs's own code, built with exchange.c: what it shows of an image, and operations that it is told, for exchange.py."""

import collections
from dataclasses import dataclass
import os
import re
import subprocess
import zlib

NOT_FOUND, NO_SPACE, TOO_LONG = -2, -28, -36
EMPTY = 0xFFFFFFFF  # the checksum of no bytes
here = os.path.dirname(os.path.abspath(__file__))


def build(littlefs, out, version=None, cache=None, **limits):
    """exchange.c with littlefs's code, whose names may begin with lfs2, as MicroPython has them; in its default version, or in that one.

    Its caches have that size. A limit is one of LFS_NAME_MAX and its kin, as name_max=32.
    """
    prefix = "lfs2" if os.path.exists(f"{littlefs}/lfs2.c") else "lfs"
    with open(f"{here}/exchange.c") as it:
        names = set(re.findall(r"\b(?:lfs|LFS)_\w+", it.read()))
    renamed = [f"-D{name}={name.replace('lfs', 'lfs2', 1).replace('LFS', 'LFS2', 1)}" for name in sorted(names)] if prefix == "lfs2" else []
    switches = [f"-D{prefix.upper()}_{it}" for it in ("NO_DEBUG", "NO_WARN", "NO_ERROR")]
    switches += [f"-DVERSION={version}", f"-D{prefix.upper()}_MULTIVERSION"] if version else []
    switches += [f"-DCACHE={cache}"] if cache else []
    switches += [f"-D{prefix.upper()}_{name.upper()}={bytes_}" for name, bytes_ in limits.items()]
    sources = [f"{here}/exchange.c", f"{littlefs}/{prefix}.c", f"{littlefs}/{prefix}_util.c"]
    subprocess.run(["gcc", "-O1", f'-DHEADER="{prefix}.h"', *switches, f"-I{littlefs}", *renamed, "-o", out, *sources], check=True)
    return out


def release(littlefs):
    """Which release a folder of littlefs's code has."""
    header = f"{littlefs}/lfs2.h" if os.path.exists(f"{littlefs}/lfs2.h") else f"{littlefs}/lfs.h"
    with open(header) as it:
        number = int(re.search(r"define LFS2?_VERSION (0x\w+)", it.read())[1], 16)
    return f"{number >> 16}.{number & 0xffff}"


@dataclass
class Shown:
    """What littlefs finds: of each path a file's size and checksum, or None, and the attributes; and what goes wrong with names."""

    tree: dict
    missing: set  # listed, and not found by the name
    twice: set  # listed more than once


def shown(code, image, geometry, ended=False):
    """What littlefs shows of an image, or None where it can't be mounted or read; once it has ended what a loss of power left, or as it is."""
    run = subprocess.run([code, "list", image, *map(str, geometry[:2]), *["ended"] * ended], stdout=subprocess.PIPE, text=True)
    if run.returncode:
        return None
    tree, missing, times = {b"": (None, {})}, set(), collections.Counter()
    for line in run.stdout.splitlines():
        words = line.split()
        content = (int(words[1]), int(words[2], 16)) if words[0] == "f" else None
        path, *attributes = words[3:] if words[0] == "f" else words[1:]
        path = bytes.fromhex(path)
        times[path] += 1
        if words[0] == "missing":
            missing.add(path)
        else:
            tree[path] = content, {int(kind): bytes.fromhex(value) for kind, _, value in (it.partition(":") for it in attributes)}
    return Shown(tree, missing, {path for path, count in times.items() if count > 1})


def summed(tree, attributes={}):
    """A plain tree as littlefs would show it."""
    sum_of = lambda bytes_: None if bytes_ is None else (len(bytes_), zlib.crc32(bytes_) ^ 0xFFFFFFFF)
    return {path: (sum_of(bytes_), attributes.get(path, {})) for path, bytes_ in tree.items()}


class Driver:
    """littlefs with an image in hand, told an operation at a time. Without a count of blocks the image is there already."""

    def __init__(self, code, image, geometry, fresh=False, cycles=-1):
        words = [code, "run", image, *map(str, geometry[:2]), str(geometry[2] if fresh else 0), str(cycles)]
        self.run = subprocess.Popen(words, stdin=subprocess.PIPE, stdout=subprocess.PIPE, text=True, bufsize=1)

    def tell(self, line):
        """Carries out an operation; 0, or the number of an error. A driver that has ended, as one that can't mount, answers 1."""
        try:
            self.run.stdin.write(line + "\n")
            self.run.stdin.flush()
        except BrokenPipeError:
            return 1
        return int(self.run.stdout.readline() or 1)

    def tell_all(self, lines):
        """Carries out operations, all of which are told at once; their answers."""
        try:
            self.run.stdin.write("".join(line + "\n" for line in lines))
            self.run.stdin.flush()
        except BrokenPipeError:
            pass
        return [int(self.run.stdout.readline() or 1) for _ in lines]

    def end(self, image=None):
        """Unmounts, and writes the image to a file."""
        answer = self.tell(f"save {image}") if image else 0
        try:
            self.run.stdin.close()
        except BrokenPipeError:
            pass
        self.run.wait()
        self.run.stdout.close()
        return answer
