#!/usr/bin/env python3
"""What programs and tests answer where one allocation fails, for each allocation in turn.

usage: fail_alloc.py CRATE.. [--to N] [-- WORD..]

A program is the one that `rt run` built (out/CRATE), with the words given, else those of its file `args`; it runs in a folder
with its data, each time with another refused call of malloc or realloc, up to the last one that it makes or the N-th. Tests are
those of a module `memory` in what `rt test` built (out/CRATE_tests), each run by itself in the same way. It shows that no refused allocation changes an answer: a program
either does what it does with memory enough, or prints nothing but that there is none, with status 1, and leaves each file as
it was. After the line of another error with `--explain` it may say so in place of the cause, or of the number of blocks. And each test of a module `memory` passes, which holds whichever allocation fails (other tests want memory for their
own data). Prints a line for each answer and how often it came. Fails where one is another.
"""
import argparse
import collections
import os
import shutil
import subprocess
import sys
import tempfile

NO_MEMORY = (1, b"", b"error: NoMemory (12)\n")
NOT_EXPLAINED = b"not explained: error: NoMemory (12)\n"
UNKNOWN_BLOCKS = b" blocks were too few, how many it takes isn't known: error: NoMemory (12)\n"
SHIM = r"""
#define _GNU_SOURCE
#include <dlfcn.h>
#include <errno.h>
#include <fcntl.h>
#include <stdlib.h>
#include <unistd.h>
static long count;
static int due(void) {
    char *at = getenv("FAIL_AT"), *mark = getenv("FAIL_MARK");
    if (!at || ++count != atol(at)) return 0;
    if (mark) close(open(mark, O_CREAT | O_WRONLY, 0600));
    return 1;
}
void *malloc(size_t n) { void *(*f)(size_t) = dlsym(RTLD_NEXT, "malloc"); if (due()) { errno = ENOMEM; return 0; } return f(n); }
void *realloc(void *p, size_t n) { void *(*f)(void *, size_t) = dlsym(RTLD_NEXT, "realloc"); if (due()) { errno = ENOMEM; return 0; } return f(p, n); }
"""
top = os.path.dirname(os.path.dirname(os.path.abspath(__file__)))


def files_of(room):
    return {name: open(os.path.join(room, name), "rb").read() for name in sorted(os.listdir(room)) if os.path.isfile(os.path.join(room, name))}


class Refusing:
    """Runs programs one of whose allocations is refused."""

    def __init__(self, room):
        self.shim, self.mark = os.path.join(room, "shim.so"), os.path.join(room, "refused")
        subprocess.run(["cc", "-shared", "-fPIC", "-o", self.shim, "-x", "c", "-", "-ldl"], input=SHIM.encode(), check=True)

    def run(self, words, at, **how):
        """What a program does whose allocation of that number is refused, and whether it came so far."""
        told = dict(os.environ, LD_PRELOAD=self.shim, FAIL_AT=str(at), FAIL_MARK=self.mark)
        run = subprocess.run(words, env=told, capture_output=True, timeout=60, **how)
        is_refused = os.path.exists(self.mark)
        if is_refused:
            os.remove(self.mark)
        return run, is_refused


def answer(refusing, program, words, data, at):
    """Status, output, and whether the files are as they were; and whether an allocation was refused."""
    with tempfile.TemporaryDirectory() as room:
        shutil.copytree(data, room, dirs_exist_ok=True) if os.path.isdir(data) else None
        before = files_of(room)
        run, is_refused = refusing.run([program] + words, at, cwd=room)
        return ((run.returncode, run.stdout, run.stderr), files_of(room) == before), is_refused


def program(refusing, folder, name, words, last):
    args = os.path.join(folder, "args")
    words = words or (open(args).read().split("\n")[:-1] if os.path.exists(args) else [])
    call = [refusing, os.path.join(folder, "out", name), words, os.path.join(folder, "data")]
    plain, _ = answer(*call, 0)
    (status, out, err), kept = plain
    line, _, cause = err.partition(b"\n")
    causes = [NOT_EXPLAINED] + ([cause.split()[0] + UNKNOWN_BLOCKS] if b" blocks are too few" in cause else [])
    unexplained = [((status, out, line + b"\n" + other), kept) for other in causes]
    right = [plain, (NO_MEMORY, True)] + (unexplained if "--explain" in words else [])
    for at in range(1, last + 1):
        told, is_refused = answer(*call, at)
        if not is_refused:
            return
        yield told, told in right


def tests(refusing, folder, name, last):
    built = os.path.join(folder, "out", f"{name}_tests")
    listed = subprocess.run([built, "--list"], stdout=subprocess.PIPE, text=True, check=True).stdout.split("\n")
    for test in (line.split(":  ")[0].split(": test")[0] for line in listed if line.startswith("memory::")):
        for at in range(1, last + 1):
            run, is_refused = refusing.run([built, test], at, cwd=folder)
            if not is_refused:
                break
            yield f"{test} passes" if run.returncode == 0 else f"{test}: {run.stderr[-200:]}", run.returncode == 0


def main():
    parser = argparse.ArgumentParser()
    parser.add_argument("crates", nargs="+")
    parser.add_argument("--to", type=int, default=100000)
    own, words = (sys.argv[1:], []) if "--" not in sys.argv else (sys.argv[1:sys.argv.index("--")], sys.argv[sys.argv.index("--") + 1:])
    given = parser.parse_args(own)
    wrong = 0
    with tempfile.TemporaryDirectory() as room:
        refusing = Refusing(room)
        for crate in given.crates:
            folder = os.path.join(top, "crates", crate)
            is_program = os.path.exists(os.path.join(folder, "src", "main.rt"))
            turns = program(refusing, folder, crate, words, given.to) if is_program else tests(refusing, folder, crate, given.to)
            for (told, is_right), count in collections.Counter(turns).items():
                print(f"{crate}: {count} times {told}{'' if is_right else ' (wrong)'}", flush=True)
                wrong += 0 if is_right else count
    print(f"{wrong} wrong")
    return 1 if wrong else 0


if __name__ == "__main__":
    sys.exit(main())
