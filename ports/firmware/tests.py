#!/usr/bin/env python3
"""Tests the library on the boards, in the emulator.

usage: ports/firmware/tests.py [TEST..] [--boards BOARD..] [--count N] [--every N] [--littlefs FOLDER] [--out FOLDER]

build.py comes first: the tests link the libraries that it leaves in ports/firmware/out, or in FOLDER. TEST is one of these, or all are run:
- example: the example application, three times on one flash chip;
- work: the work of test/work.c, with a table of instructions, stack, heap and calls of the flash, also with blocks of 1,024 bytes; for
  all boards the tables are in work.md, beside the libraries;
- replay: COUNT operations (10,000), in blocks of 1,024 and 4,096 bytes: each answer, each buffer and the flash as by the x86-64 library;
- faults: the steps of test/faults.c, with a flash that fails at each of its calls, and a heap that refuses each allocation, or at each Nth
  by --every;
- power: power is lost at each program and erase of the work, or at each Nth by --every: the emulator is stopped, and started again with
  the flash as it was left.

LITTLEFS is a folder with littlefs's own code, as lib/littlefs of Debian's source package micropython. With it the same work by that code is
measured, and on the host that code reads what each test leaves.
"""

import argparse
from dataclasses import asdict, dataclass
import json
from pathlib import Path
import re
import sys
import zlib

HERE = Path(__file__).resolve().parent
sys.path[:0] = [str(HERE.parent), str(HERE.parent.parent / "bench")]
from boards import BOARDS, c_object, link, run, run_program, sizes  # noqa: E402
import littlefs_code  # noqa: E402
import rattle_words  # noqa: E402

COMMON = "flash.c", "driver.c", "counted_heap.c"
WORK = "by_library.c", "work.c"
ATTRIBUTE = 3  # as in test/tree.h


@dataclass
class Given:
    out: Path
    count: int
    every: int
    littlefs: Path
    code: str  # littlefs's own code as a program of the host, or None


def expect(is_so, what):
    if not is_so:
        sys.exit(f"not so: {what}")


def program(board, made, name, sources, *words):
    """Links a test with the library."""
    words = [f"-I{HERE}", f"-I{HERE / 'test'}", *words]
    objects = [c_object(board, HERE / "test" / it, made / f"{Path(it).stem}.o", *words) for it in (*sources, *COMMON)]
    return link(board, made, name, [*objects, made / "liblittlefs_flash.a"])


def folder(made, name):
    """Returns an empty folder for a program's files."""
    it = made / name
    it.mkdir(exist_ok=True)
    for file in it.iterdir():
        file.unlink()
    return it


def tree_of(code, image, block):
    """Returns the tree that littlefs's own code finds in an image: of each path a file's size and checksum, or None."""
    shown = littlefs_code.shown(code, str(image), (block, 64, 0))
    expect(shown and not shown.missing and not shown.twice, f"littlefs's own code reads {image}")
    return {path.decode(): content for path, (content, _) in shown.tree.items() if path}


def tree_sum(tree):
    """Returns the checksum of test/tree.h for a tree as littlefs's own code shows it."""
    total = 0xFFFFFFFF  # zlib inverts before and after
    for path in sorted(filter(None, tree), key=lambda it: it.split(b"/")):
        content, attributes = tree[path]
        total = zlib.crc32(path, total)
        if content:
            total = zlib.crc32(b"".join(it.to_bytes(4, "little") for it in content), total)
        total = zlib.crc32(attributes.get(ATTRIBUTE, b""), total)
    return total ^ 0xFFFFFFFF


def expect_tree(code, image, block, sum_):
    """Ends the tests if littlefs's own code finds another tree in an image than the one with a checksum of test/tree.h."""
    shown = littlefs_code.shown(code, str(image), (block, 64, 0))
    expect(shown and not shown.missing and not shown.twice, f"littlefs's own code reads {image}")
    expect(tree_sum(shown.tree) == int(sum_, 16), f"littlefs's own code finds the same tree in {image}")


# ---- the example

def test_example(board, made, given):
    page = (HERE.parent.parent / "docs/FIRMWARE.md").read_text()
    expect((HERE / "example/nor_flash.c").read_text() in page, "docs/FIRMWARE.md shows the example's driver")
    at = folder(made, "example-files")
    for boot in (1, 2, 3):
        lines = run_program(board, made / "example.elf", at)
        expect(lines == f"boot {boot}, a measurement each 60 seconds\n", f"{board.name}: boot {boot}, and not {lines}")
    if given.code:
        tree = tree_of(given.code, at / "nor.img", 4096)
        expect(sorted(tree) == ["/boots", "/log", "/settings"] and tree["/log"][0] == 3 * len(lines), f"the example's files: {tree}")
    print(f"{board.name}: example: boots 1, 2 and 3 on one chip", flush=True)


# ---- the work, measured

def littlefs_program(board, made, littlefs, cache, words):
    """Links the work with littlefs's own code, whose names may begin with lfs2."""
    prefix = "lfs2" if (littlefs / "lfs2.c").exists() else "lfs"
    names = set(re.findall(r"\b(?:lfs|LFS)_\w+", (HERE / "test/by_littlefs.c").read_text())) - {"LFS_H", "LFS_MULTIVERSION"}
    renamed = [f"-D{it}={it.replace('lfs', 'lfs2', 1).replace('LFS', 'LFS2', 1)}" for it in sorted(names)] if prefix == "lfs2" else []
    switches = [f"-D{prefix.upper()}_{it}" for it in ("NO_DEBUG", "NO_WARN", "NO_ERROR", "NO_ASSERT", "MULTIVERSION")]
    switches += [f"-I{littlefs}", f"-I{HERE}", f"-I{HERE / 'test'}", "-DLFS_MULTIVERSION", *words]
    objects = [c_object(board, littlefs / f"{it}.c", made / f"{it}.o", *switches, "-Wno-unused-parameter", "-Wno-unused-function", "-Wno-error")
               for it in (prefix, f"{prefix}_util")]
    objects.append(c_object(board, HERE / "test/by_littlefs.c", made / "by_littlefs.o", *switches, *renamed, f'-DLFS_H="{prefix}.h"', f"-DCACHE={cache}"))
    objects += [c_object(board, HERE / "test" / it, made / f"{Path(it).stem}.o", *switches) for it in ("measured.c", "work.c", "flash.c", "counted_heap.c")]
    return link(board, made, f"littlefs-{cache}", objects)


@dataclass
class Measured:
    """The work by one library on one board: the bytes of its code with libgcc's, and of each part in order what test/measured.c counts."""

    board: str
    block: int
    whose: str
    code: int
    parts: list  # a name, and the numbers of its line
    top: int  # the heap's bytes up to the last one ever in use, by first fit

    def sum(self, index):
        return sum(numbers[index] for _, numbers in self.parts)

    def most(self, index):
        return max(numbers[index] for _, numbers in self.parts)


INSTRUCTIONS, STACK, HEAP, READS, READ_BYTES, PROGRAMS, ERASES = 0, 1, 2, 4, 5, 6, 8  # the numbers of a line of test/measured.c
OURS = "this library"


def measured(board, elf, at, block, whose, libraries):
    """Runs the work, and returns what was measured."""
    lines = run_program(board, elf, at, counts=True)
    parts = [(found[1].strip(), [int(it) for it in found[2].split()]) for found in re.finditer(r"^(.{16})((?: +\d+){9})$", lines, re.M)]
    expect(len(parts) == 11, f"{board.name}: the work has 11 parts:\n{lines}")
    known = sizes(elf.with_suffix(".map"))
    code = sum(known[it]["code"] for it in (*libraries, "libgcc") if it in known)
    print(f"== {board.name}: {whose}, blocks of {block}, {code} bytes of code with libgcc's\n{lines}", end="", flush=True)
    return Measured(board.name, block, whose, code, parts, int(re.search(r"top: (\d+)$", lines)[1]))


def test_work(board, made, given):
    rows = []
    for block, page in ((4096, 256), (1024, 64)):
        at = folder(made, "work-files")
        words = [f"-DBLOCK_BYTES={block}", f"-DPAGE_BYTES={page}"]
        elf = program(board, made, f"work-{block}", ("measured.c", *WORK), *words)
        rows.append(measured(board, elf, at, block, OURS, ["liblittlefs_flash"]))
        if not given.code:
            continue
        tree = tree_of(given.code, at / "flash.img", block)
        for cache in (page, block):
            elf = littlefs_program(board, made, given.littlefs, cache, words)
            whose = f"littlefs {littlefs_code.release(given.littlefs)}, caches of {cache}"
            rows.append(measured(board, elf, at, block, whose, ["lfs.o", "lfs2.o", "lfs_util.o", "lfs2_util.o"]))
            expect(tree_of(given.code, at / "flash.img", block) == tree, f"{board.name}: littlefs's own code leaves the same tree")
    (made / "work.json").write_text(json.dumps([asdict(it) for it in rows]))
    write_tables(given.out)


# ---- the tables of docs/FIRMWARE.md

def table(head, rows):
    lines = [head, ["---"] + ["--:"] * (len(head) - 1), *rows]
    return "".join(f"| {' | '.join(line)} |\n" for line in lines)


def number(value):
    return f"{value:,}"


def millions(value):
    return f"{value / 1e6:.1f}"


def board_tables(rows, block):
    """What each board needs, by each library."""
    wholes = [it for it in rows if it.block == block]
    whose, boards = list(dict.fromkeys(it.whose for it in wholes)), list(dict.fromkeys(it.board for it in wholes))
    of = {(it.board, it.whose): it for it in wholes}
    whose = [name for name in whose if all((board, name) in of for board in boards)]
    kinds = (("code, bytes", lambda it: number(it.code)), ("heap, bytes", lambda it: number(it.most(HEAP))),
             ("stack, bytes", lambda it: number(it.most(STACK))), ("instructions, millions", lambda it: millions(it.sum(INSTRUCTIONS))))
    lines = [[f"{kind}: {name}", *(text(of[board, name]) for board in boards)] for kind, text in kinds for name in whose]
    lines = [it for at, it in enumerate(lines) if it[1:] != lines[at - 1][1:]]  # caches don't change the code
    flash_of = lambda it: [*(number(it.sum(at)) for at in (READS, READ_BYTES, PROGRAMS, ERASES)), number(it.top)]
    flash = [[name, *flash_of(of[boards[0], name])] for name in whose]
    for it in wholes:
        expect(flash_of(it) == flash_of(of[boards[0], it.whose]), f"{it.board}: {it.whose} uses the flash and the heap as on {boards[0]}")
    head = [f"Blocks of {number(block)}, each board", "reads, and questions if blank", "bytes of these", "programs", "erases", "heap, first fit"]
    return [table([f"Blocks of {number(block)}", *boards], lines), table(head, flash)]


def part_table(rows, board, block):
    """The instructions of each part on a board, by each library."""
    wholes = [it for it in rows if it.board == board and it.block == block]
    names = [name for name, _ in wholes[0].parts]
    lines = [[name, *(number(it.parts[at][1][INSTRUCTIONS]) for it in wholes)] for at, name in enumerate(names)]
    return table([f"Instructions, {board}, blocks of {number(block)}", *(it.whose for it in wholes)], lines)


def write_tables(out):
    """Writes what the work took on the boards where it was measured, as the tables of docs/FIRMWARE.md."""
    files = [out / name / "work.json" for name in BOARDS]
    rows = [Measured(**it) for file in files if file.is_file() for it in json.loads(file.read_text())]
    blocks, boards = dict.fromkeys(it.block for it in rows), dict.fromkeys(it.board for it in rows)
    board = "m4" if "m4" in boards else next(iter(boards))
    tables = [it for block in blocks for it in (*board_tables(rows, block), part_table(rows, board, block))]
    (out / "work.md").write_text("\n".join(tables))


# ---- the same as the x86-64 library

def test_replay(board, made, given):
    for block in (1024, 4096):
        words = [f"-DCOUNT={given.count}", f"-DBLOCK_BYTES={block}", "-DPAGE_BYTES=64", "-DFLASH_BYTES=524288"]
        at, host = folder(made, "replay-files"), folder(given.out, "replay-files")
        sources = [HERE / "test" / it for it in ("replay.c", "tree.c", "flash.c", "driver.c")] + [HERE / "board/native.c"]
        run("gcc", "-O2", "-std=gnu11", *words, f"-I{HERE}", *sources, given.out / "kept/x86_64.a", rattle_words.kit() / "c/liblibc_c.a",
            "-o", given.out / "replay")
        run(given.out / "replay", cwd=host, stdout=(host / "lines").open("w"))
        elf = program(board, made, f"replay-{block}", ("replay.c", "tree.c"), *words)
        lines = run_program(board, elf, at)
        expect(lines == (host / "lines").read_text(), f"{board.name}: the answers with blocks of {block}:\n{lines}")
        expect((at / "flash.img").read_bytes() == (host / "flash.img").read_bytes(), f"{board.name}: the flash with blocks of {block}")
        print(f"{board.name}: replay: {given.count} operations, blocks of {block}: {lines.splitlines()[-1]}, all as on x86-64", flush=True)
        if given.code:
            expect_tree(given.code, at / "flash.img", block, re.search(r"^tree (\w{8})$", lines, re.M)[1])
            print("   littlefs's own code finds the same tree", flush=True)


# ---- failures

def test_faults(board, made, given):
    at = folder(made, "faults-files")
    words = [f"-DEVERY={given.every}", "-DFLASH_BYTES=131072", "-DBLOCK_BYTES=4096", "-DPAGE_BYTES=256"]
    elf = program(board, made, "faults", ("faults.c", "tree.c"), *words)
    lines = run_program(board, elf, at)
    left = re.findall(r"^left (\d+) ([0-9a-f]{8})$", lines, re.M)
    print(f"{board.name}: faults: {lines.splitlines()[-1]}", flush=True)
    for number, sum_ in left if given.code else []:
        expect_tree(given.code, at / f"left{int(number):04}.img", 4096, sum_)
    if given.code:
        print(f"   littlefs's own code finds the same tree in each of the {len(left)} flashes that were left", flush=True)
    folder(made, "faults-files")


@dataclass
class Start:
    """What a start after a loss of power finds, and what it leaves: trees with their checksums."""

    has_image: bool
    found: str
    left: str
    tree: dict
    then: dict


def start_of(lines):
    """Reads what a start prints."""
    parts = re.split(r"^tree ([0-9a-f]{8})\n", lines.removeprefix("no file system\n"), flags=re.M)
    expect(len(parts) == 5 and not parts[4], f"a start prints two trees:\n{lines}")
    trees = []
    for part in (parts[0], parts[2]):
        rows = [it.split(" ") for it in part.splitlines()]
        trees.append({row[-1]: (int(row[1]), int(row[2], 16)) if row[0] == "f" else None for row in rows})
    return Start(not lines.startswith("no file system"), parts[1], parts[3], *trees)


def lose_power(board, elf, at, number, sums):
    """Stops the work at its program or erase of that number, starts again, and returns what the start finds."""
    (at / "orders.txt").write_text(f"stop {number}")
    changes = int(re.fullmatch(r"stopped after (\d+)\n", run_program(board, elf, at))[1])
    stopped = (at / "flash.img").read_bytes()
    (at / "orders.txt").write_text("start")
    start = start_of(run_program(board, elf, at))
    expect(not changes or start.has_image, f"{board.name}: power lost at {number}: the flash is accepted")
    allowed = sums[max(changes - 1, 0) : changes + 1]
    expect(start.found in allowed, f"{board.name}: power lost at {number}: the tree from before or after change {changes + 1}")
    expect({**start.tree, "/after": (13, start.then["/after"][1])} == start.then, f"{board.name}: power lost at {number}: the work goes on")
    return stopped, start


def test_power(board, made, given):
    at = folder(made, "power-files")
    elf = program(board, made, "power", ("power.c", "tree.c", *WORK), "-DBLOCK_BYTES=4096", "-DPAGE_BYTES=256", "-DFLASH_BYTES=262144")
    (at / "orders.txt").write_text("all")
    lines = run_program(board, elf, at)
    sums, writes = re.findall(r"^tree (\w+)$", lines, re.M), int(re.search(r"^writes (\d+)$", lines, re.M)[1])
    tried, read = 0, 0
    for number in range(1, writes + 1, given.every):
        stopped, start = lose_power(board, elf, at, number, sums)
        tried += 1
        if not given.code:
            continue
        expect(tree_of(given.code, at / "flash.img", 4096) == start.then, f"{board.name}: power lost at {number}: littlefs's own code finds the tree")
        (at / "stopped.img").write_bytes(stopped)
        if start.has_image:
            tree = tree_of(given.code, at / "stopped.img", 4096)
            expect(tree == start.tree, f"{board.name}: power lost at {number}: littlefs's own code finds the tree without a start")
            read += 1
    print(f"{board.name}: power: lost at {tried} of {writes} programs and erases, {len(sums)} changes: the tree from before or after", flush=True)
    if given.code:
        print(f"   littlefs's own code finds the same tree in {read} of the flashes as they were left, the others being formatted,"
              " and in each after a start", flush=True)


TESTS = {"example": test_example, "work": test_work, "replay": test_replay, "faults": test_faults, "power": test_power}


def main():
    parser = argparse.ArgumentParser(usage=__doc__.split("usage: ")[1].split("\n\n")[0])
    parser.add_argument("tests", nargs="*", choices=[[], *TESTS])
    parser.add_argument("--boards", nargs="+", choices=list(BOARDS), default=list(BOARDS))
    parser.add_argument("--count", type=int, default=10000)
    parser.add_argument("--every", type=int, default=1)
    parser.add_argument("--littlefs", type=Path)
    parser.add_argument("--out", type=Path, default=HERE / "out")
    given = parser.parse_args()
    out = given.out.resolve()
    code = given.littlefs and littlefs_code.build(str(given.littlefs), str(out / "littlefs"))
    all_ = Given(out, given.count, given.every, given.littlefs, code)
    for name in given.boards:
        board, made = BOARDS[name], out / name
        if not (made / "example.elf").is_file():
            sys.exit(f"there is no {made / 'example.elf'}: run build.py {name}")
        for test in given.tests or TESTS:
            TESTS[test](board, made, all_)


if __name__ == "__main__":
    main()
