#!/usr/bin/env python3
"""Builds the library for microcontrollers, with an example application.

usage: ports/firmware/build.py [BOARD..] [--level z|s|2|3] [--calls NAME..] [--again] [--out FOLDER]

BOARD is m0, m3, m4, m7, m33, rv32 or rv64; without one all are built. For each FOLDER/BOARD, or ports/firmware/out/BOARD, gets
liblittlefs_flash.a, littlefs_flash.h, example.elf with the linker's example.map, and sizes.txt. Of the header's calls the library has all,
or these alone (mount, file_open ..). --level is clang's, for the library.

The crates are proved first, and built for x86-64 Linux: what clang is given for that is kept in FOLDER/kept. A later run takes it from
there; with --again, as after a change of the crates, it is made again.
"""

import argparse
from pathlib import Path
import re
import shutil
import sys

HERE = Path(__file__).resolve().parent
sys.path.insert(0, str(HERE.parent))
from boards import BOARDS, c_object, link, run  # noqa: E402
import module  # noqa: E402
import narrow  # noqa: E402
import rattle_words  # noqa: E402
import sizes  # noqa: E402

LIBRARY = "littlefs_flash_c"
DRIVER = tuple(f"lfs_flash_{it}" for it in ("read", "prog", "erase", "is_blank"))
ALIGNMENT = 8  # of each block that C's malloc returns, in bytes; newlib's and picolibc's have no more on 32 bits
# for size: equal functions are there once, and only small ones are put in the place of a call
SMALLER = ["-Xclang", "-fmerge-functions", "-mllvm", "-inline-threshold=25"]


# ---- the module that clang is given for x86-64

def lift(out):
    """Proves the library, and keeps in out/kept the module that clang is given when it is built for x86-64."""
    run(HERE / "build_library.sh", out / "crates")
    rattle_words.TOP = out / "crates"  # a copy of the crates, with the one that declares functions of C
    print(rattle_words.lift(LIBRARY, out / "kept"), flush=True)


# ---- the module for a board

def exports_of(header):
    """Returns the calls that the header declares, without the driver's."""
    names = re.findall(r"^(?:int64_t|uint32_t) (lfs_flash_\w+)\(", header.read_text(), re.M)
    return [it for it in names if it not in DRIVER]


def with_exports(text, wanted):
    """Makes each function but these the module's own, so that clang leaves out what they don't call."""
    defined = set()

    def kept(found):
        defined.add(found[2])
        return found[0] if found[2] in wanted else re.sub(r"^define (dso_local )?", "define internal ", found[0], count=1)

    text = re.sub(r'^(define (?!internal |private ).*? @)("[^"]*"|[-\w.$]+)\(.*$', kept, text, flags=re.M)
    if set(wanted) - defined:
        sys.exit(f"the module has no {', '.join(sorted(set(wanted) - defined))}")
    return text


def with_attributes(text, attributes):
    """Gives each function these attributes, but LLVM's own."""
    add = lambda found: found[0] if "memory(" in found[0] or "nocallback" in found[0] else found[0].replace("= {", f"= {{ {attributes}", 1)
    return re.sub(r"^attributes #\d+ = .*$", add, text, flags=re.M)


def with_signs(text):
    """Extends the numbers of 32 bits that the driver is given, as C of 64-bit RISC-V wants each in a register of 64."""
    names = "|".join(DRIVER)
    extended = lambda found: found[1] + re.sub(r"\bi32\b", "i32 signext", found[2])
    text, count = re.subn(rf"^((?:declare| .*\bcall) (?:noundef )?i32 @(?:{names}))(\(.*)$", extended, text, flags=re.M)
    uses = len(re.findall(rf"@(?:{names})\b", text))
    if count != uses:
        sys.exit(f"{uses} lines name a function of the driver, and {count} are in a form that is known")
    return text


def with_alignments(text):
    """Refuses blocks with a larger alignment than each malloc has: asks for one that none grants. So the library returns NO_MEMORY."""
    asked = "  %asked = select i1 %none, i64 %align, i64 %size\n"
    checked = f"""  %one = select i1 %none, i64 %align, i64 %size
  %"is aligned" = icmp ule i64 %align, {ALIGNMENT}
  %asked = select i1 %"is aligned", i64 %one, i64 {(1 << 63) - 1}
"""
    if text.count(asked) != 2:
        sys.exit("ports/module.py asks for memory in another way")
    return text.replace(asked, checked)


def board_module(board, kept, wanted, level):
    text = (kept / "module.ll").read_text()
    text = with_exports(with_alignments(module.retargeted(text, board.triple)), wanted)
    if board.bits == 32:
        text = narrow.narrowed(text, DRIVER)
    else:
        text = with_signs(text)
    attributes = {"z": "optsize minsize ", "s": "optsize "}.get(level)
    return with_attributes(text, attributes) if attributes else text


def library(board, out, level="s", calls=None):
    """Builds the library for a board, and returns its folder."""
    made, kept = out / board.name, out / "kept"
    made.mkdir(parents=True, exist_ok=True)
    (made / "work.json").unlink(missing_ok=True)  # what tests.py measured of another library
    shutil.copyfile(HERE / "littlefs_flash.h", made / "littlefs_flash.h")
    wanted = exports_of(HERE / "littlefs_flash.h")
    if calls:
        wanted = [f"lfs_flash_{it}" for it in calls]
    (made / "module.ll").write_text(board_module(board, kept, wanted, level))
    run(rattle_words.kit() / "toolchain/bin/clang", f"--target={board.triple}", *board.cpu, *module.clang_words(kept), *SMALLER * (level in "zs"), f"-O{level}", "-c", "-x", "ir",
        made / "module.ll", "-o", made / "littlefs_flash.o")
    (made / "liblittlefs_flash.a").unlink(missing_ok=True)
    run(f"{board.gcc}-ar", "rcsD", made / "liblittlefs_flash.a", made / "littlefs_flash.o")
    return made


# ---- the example

EXAMPLE = "main.c", "nor_flash.c"


def example(board, made):
    """Links the example application, and writes what is how large in it."""
    objects = [c_object(board, HERE / "example" / it, made / f"{Path(it).stem}.o", f"-I{HERE}") for it in EXAMPLE]
    objects += [c_object(board, HERE / "board" / it, made / f"{Path(it).stem}.o", f"-I{HERE}") for it in ("nor_chip.c", "heap.c")]
    elf = link(board, made, "example", [*objects, made / "liblittlefs_flash.a"])
    (made / "sizes.txt").write_text(sizes.table(board, elf))
    return elf


def main():
    parser = argparse.ArgumentParser(usage=__doc__.split("usage: ")[1].split("\n\n")[0])
    parser.add_argument("boards", nargs="*", choices=[[], *BOARDS])
    parser.add_argument("--level", default="s", choices=list("zs23"))
    parser.add_argument("--calls", nargs="+")
    parser.add_argument("--again", action="store_true")
    parser.add_argument("--out", type=Path, default=HERE / "out")
    given = parser.parse_args()
    out = given.out.resolve()
    if given.again or not (out / "kept/module.ll").is_file():
        lift(out)
    for name in given.boards or BOARDS:
        board = BOARDS[name]
        made = library(board, out, given.level, given.calls)
        print(f"{name}: {made}", flush=True)
        if not given.calls:
            example(board, made)
            print("".join(f"   {line}\n" for line in (made / "sizes.txt").read_text().split("\n\n")[0].splitlines()), end="", flush=True)


if __name__ == "__main__":
    main()
