#!/usr/bin/env python3
"""The same programs built with bindings/lfs and with littlefs's own code.

usage: drop_in.py LITTLEFS [--count N] [--calls N] [--seed WORD] [--archives A,B] [--jobs N]

LITTLEFS is the folder of littlefs's own code with version 2.11, as `lib/littlefs` of Debian's source package micropython 1.26.1+ds.

- exchange.c performs N lists of operations with each: random files, directories and renames, also wrong ones, with paths of any form.
  Both must return the same. Each must show the same tree in both images, the one that the operations make. In each fifth list
  bindings/lfs loses power: littlefs must then find the tree from before that operation, or from after it.
- lfs_calls.c makes 2,000 random calls of all functions of lfs.h with each, N times: several open files, positions, attributes of open
  files, directories, mounts. Both must print the same, and leave the same tree.
- lfs_faults.c repeats a fixed list of steps with a device that fails, at each of its calls in turn, and with memory that isn't granted.

The archives are liblittlefs_c.a and the kit's liblibc_c.a; without `--archives` those that `make -C bindings/c archives` prints. Prints
how much was compared. Fails at the first difference.
"""

import argparse
from concurrent.futures import ThreadPoolExecutor
import os
import random
import re
import subprocess
import sys
import tempfile

from exchange_kinds import CYCLES, ROOMY
from exchange_operations import carry_out, some_changes, some_tree, told
from littlefs_code import Driver, build, shown, summed
from micropython_port import archives

VERSION = "0x00020000"
here = os.path.dirname(os.path.abspath(__file__))
bindings = os.path.join(os.path.dirname(here), "bindings")


class Different(Exception):
    """The two programs differ."""


def built(out, source, linked, *switches):
    """Builds a program with bindings/lfs, and returns its path."""
    sources = [f"{here}/{source}", f"{bindings}/lfs/lfs.c", f"{bindings}/lfs/lfs_util.c", *linked]
    words = ["gcc", "-O1", "-Wall", "-Wextra", '-DHEADER="lfs.h"', *switches, f"-I{bindings}/lfs", "-o", out, *sources]
    subprocess.run(words, check=True)
    return out


def built_with_littlefs(littlefs, out, source):
    """Builds a program with littlefs's own code, which may be MicroPython's, and returns its path."""
    prefix = "lfs2" if os.path.exists(f"{littlefs}/lfs2.c") else "lfs"
    with open(f"{here}/{source}", encoding="utf-8") as it:
        names = sorted(set(re.findall(r"\b(?:lfs|LFS)_\w+", it.read()))) if prefix == "lfs2" else []
    renamed = [f"-D{name}={name.replace('lfs', 'lfs2', 1).replace('LFS', 'LFS2', 1)}" for name in names]
    switches = [f"-D{prefix.upper()}_{it}" for it in ("NO_DEBUG", "NO_WARN", "NO_ERROR", "MULTIVERSION")] + [f"-DVERSION={VERSION}"]
    sources = [f"{here}/{source}", f"{littlefs}/{prefix}.c", f"{littlefs}/{prefix}_util.c"]
    subprocess.run(["gcc", "-O1", f'-DHEADER="{prefix}.h"', *switches, f"-I{littlefs}", *renamed, "-o", out, *sources], check=True)
    return out


# Lists of operations


def wrong_operation(rnd, tree):
    """Returns an operation that is refused, or that changes nothing."""
    new, long = b"/none", b"/none-" + b"x" * 300
    operations = [("mkdir", b"/none/x"), ("remove", new), ("remove", b"/"), ("read", new), ("read", b"/.."), ("read", b"/none/../.."), ("rename", new, b"/y"), ("append", new, 1, "z"),
                  ("truncate", new, 1), ("mkdir", long), ("put", long, 1, "z"), ("read", long)]
    for path, node in rnd.sample(sorted(tree.items()), min(2, len(tree))):
        is_full = any(it.startswith(path + b"/") for it in tree)
        operations += [("mkdir", path or b"/"), ("rename", path or b"/", b"/none/x"), ("rename", path or b"/", path or b"/")]
        if node is not None:
            operations += [(what, path + b"/x", *more) for what, *more in (["mkdir"], ["read"], ["put", 1, "z"], ["remove"], ["rename", b"/y"])]
            operations += [("rename", path, it) for it in (b"/", long, path + b"/x")] + [("rename", path, it) for it, other in tree.items() if other is None and it]
        elif path:
            operations += [("read", path), ("put", path, 1, "z"), ("append", path, 1, "z")] + [("rename", path, it) for it, other in tree.items() if other is not None and not it.startswith(path + b"/")]
        if is_full and path:
            operations.append(("remove", path))
    return rnd.choice(operations)


def in_another_form(rnd, operation):
    """Returns the same operation, with `.`, `..` and further `/` in its paths."""
    def form(path):
        kind = rnd.randrange(8)
        return [path[1:], path.replace(b"/", b"//"), b"/." + path, b"/none/.." + path, b"none/./x/../.." + path][kind] if kind < 5 and path[1:] else path

    return tuple(form(it) if isinstance(it, bytes) else it for it in operation)


def some_list(rnd, geometry, tree):
    """Yields operations, with wrong ones between them, and changes the plain tree by them."""
    for operation in some_tree(rnd, geometry[0]):
        yield operation
        carry_out(tree, operation)
    for _ in range(rnd.randrange(1, 4)):
        for operation in some_changes(rnd, tree, geometry[0]):
            yield operation
            if rnd.random() < 0.3:
                after = dict(tree)
                carry_out(after, operation)
                yield wrong_operation(rnd, after)


def same(what, one, other):
    if one != other:
        raise Different(f"{what}: {one!r:.300} with bindings/lfs, and {other!r:.300} with littlefs")


def try_list(options, number):
    """Performs a list of operations with both. Returns how many there were."""
    rnd = random.Random(f"{options.seed}/{number}")
    geometry, cycles, tree = rnd.choice(ROOMY), rnd.choice([-1, *CYCLES]), {b"": None}
    lines = [told(in_another_form(rnd, it)) for it in some_list(rnd, geometry, tree)]
    images, answers = [f"{options.room}/{number}_{name}.img" for name in ("ours", "theirs")], []
    for code, image in zip((options.ours, options.theirs), images):
        driver = Driver(code, image, geometry, fresh=True, cycles=cycles)
        answers.append(driver.tell_all(lines))
        if driver.end(image):
            raise Different(f"list {number}: {code} ends with an error")
    for line, one, other in zip(lines, *answers):
        same(f"list {number}, {line}", one, other)
    for code in (options.ours, options.theirs):
        for image in images:
            found = shown(code, image, geometry)
            if found is None or found.tree != summed(tree):
                raise Different(f"list {number}: {code} shows another tree in {image}")
    if number % 5 == 0:
        lose_power(options, rnd, images[0], geometry, tree, cycles)
    for image in images:
        os.unlink(image)
    return len(lines)


def lose_power(options, rnd, image, geometry, tree, cycles):
    """Loses power in an operation with bindings/lfs. littlefs must find the tree from before it, from after it, or a new empty file."""
    driver = Driver(options.ours, image, geometry, cycles=cycles)
    driver.tell(f"cut {rnd.randrange(12)}")
    before = dict(tree)
    for operation in some_changes(rnd, tree, geometry[0]):
        answer, before = driver.tell(told(operation)), dict(tree)
        if answer == -5:
            break
    driver.end(image)
    after, begun = dict(before), dict(before)
    carry_out(after, operation)
    begun[operation[1]] = before.get(operation[1], b"")
    found = shown(options.theirs, image, geometry, ended=True)
    if found is None or found.tree not in [summed(it) for it in (before, after, begun)]:
        raise Different(f"{operation[:2]} in {image}, cut short, left another tree")


# Calls


def try_calls(options, number):
    geometry, printed, images = (1024, 16, 2048), [], []
    for code in (options.our_calls, options.their_calls):
        images.append(f"{options.room}/calls_{number}_{os.path.basename(code)}.img")
        printed.append(subprocess.run([code, str(number), "2000", images[-1]], stdout=subprocess.PIPE, text=True, check=True).stdout.splitlines())
    for place, (one, other) in enumerate(zip(*printed)):
        same(f"calls {number}, line {place + 1}", one, other)
    same(f"calls {number}", len(printed[0]), len(printed[1]))
    trees = [shown(code, image, geometry) for code in (options.ours, options.theirs) for image in images]
    if None in trees or any(it.tree != trees[0].tree for it in trees):
        raise Different(f"calls {number} leave other trees")
    for image in images:
        os.unlink(image)
    return len(printed[0])


def main():
    parser = argparse.ArgumentParser(usage=__doc__.partition("usage: ")[2].partition("\n")[0])
    parser.add_argument("littlefs", type=os.path.abspath)
    parser.add_argument("--count", type=int, default=10000)
    parser.add_argument("--calls", type=int, default=1000)
    parser.add_argument("--seed", default="1")
    parser.add_argument("--archives", type=lambda words: [os.path.abspath(it) for it in words.split(",")])
    parser.add_argument("--jobs", type=int, default=1)
    options = parser.parse_args()
    linked = options.archives or archives()
    with tempfile.TemporaryDirectory() as options.room, ThreadPoolExecutor(options.jobs) as pool:
        options.ours, options.theirs = built(f"{options.room}/ours", "exchange.c", linked), build(options.littlefs, f"{options.room}/theirs", VERSION)
        options.our_calls = built(f"{options.room}/our_calls", "lfs_calls.c", linked)
        options.their_calls = built_with_littlefs(options.littlefs, f"{options.room}/their_calls", "lfs_calls.c")
        faults = built(f"{options.room}/faults", "lfs_faults.c", linked, "-DLFS_THREADSAFE", "-Wl,--wrap=malloc,--wrap=calloc,--wrap=realloc")
        try:
            counts = list(pool.map(lambda number: try_list(options, number), range(options.count)))
            print(f"{len(counts)} lists of operations, {sum(counts)} operations: no difference", flush=True)
            counts = list(pool.map(lambda number: try_calls(options, number), range(1, options.calls + 1)))
            print(f"{len(counts)} runs of calls, {sum(counts)} lines: no difference", flush=True)
        except Different as different:
            sys.exit(str(different))
        subprocess.run([faults], check=True)


if __name__ == "__main__":
    main()
