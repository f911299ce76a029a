"""Runs of mklittlefs over files, folders and standard streams, as data for program_lines.py: `rows(tool, folder)`.

Each row is run in a folder with these alone: `files` with `a` (hello) and `b` (empty), an old image, and what the row puts beside them.
"""
import fcntl
import os
import resource
import shutil
import signal
import subprocess
import threading

from image_maker import folder, inline, simple_plan, superblock, tail

OLD = b"an older image"
# /a (hello), /d, and /d/x (empty); the same in version 2.1; and an image with a file whose name isn't UTF-8
TREE = [((0, 1), [superblock(4096, 16), inline(b"a", b"hello"), folder(b"d", 2, 3)], tail((2, 3))), ((2, 3), [inline(b"x", b"")])]
IMAGE = simple_plan(TREE).image()
LATER = simple_plan([((0, 1), [superblock(4096, 16, version=0x00020001), inline(b"a", b"hello")])]).image()
NO_TEXT = simple_plan([((0, 1), [superblock(4096, 16), inline(b"\xff", b"hello")])]).image()
UNPACKED = {"a": b"hello", "d": {"x": b""}}
FOLDER, NOTHING = object(), object()
SHORT = "-b 1024 -p 128 -s 4096"
# the eight letters of a superblock and other numbers behind them, without its tags
UNTAGGED = bytes(8) + b"littlefs" + bytes(range(1, 29)) + bytes(65492)
CHECKED = "used 2 of 16 blocks\nfree 14\norder either\nrecover no\nwritable yes\n"
CORRUPT = "error: Corrupt (84)\ncorrupt\npair 0 1: no commit with a right checksum\n"
MISSING = ": No such file or directory (os error 2)\n"
KEPT = {"image": OLD}


def link(to):
    return ("link", to)


def long(size):
    return ("long", size)


# what is put there, the words of runs behind one another, how the last one ends, and what is there then (bytes, how many these are,
# a folder, or NOTHING); those before it end well and write nothing
RUNS = [
    # images that are made
    ({}, ["-c files image"], (0, "", ""), {"image": 65536}),
    ({}, [f"-c files {SHORT} image", "-l -b 1024 -p 128 image"], (0, "f 5 /a\nf 0 /b\n", ""), {"image": 4096}),
    ({}, ["-c . image", "-l image"], (0, "d 0 /files\nf 5 /files/a\nf 0 /files/b\nf 14 /image\n", ""), {"image": 65536}),
    ({"l": link("image"), "e": FOLDER}, ["-c files l", "-c e l", "-l image"], (0, "", ""), {"image": 65536}),
    ({"e": FOLDER}, ["-c files e/image", "-c e -s 131072 image", "-l image"], (0, "f 65536 /image\n", ""), {"image": 131072}),
    # what a run has left beside it goes, unless it has no bytes
    ({".mklittlefs-0": b"other", ".mklittlefs-2": b"", ".mklittlefs-7": b"other"}, ["-c files image"], (0, "", ""),
     {"image": 65536, ".mklittlefs-0": NOTHING, ".mklittlefs-1": NOTHING, ".mklittlefs-2": b"", ".mklittlefs-7": NOTHING}),
    ({".mklittlefs-0": b"other"}, ["-c none image"], (3, "", "error: input\n"), {"image": OLD, ".mklittlefs-0": b"other"}),
    # what refuses leaves the old one
    ({}, ["-c files -b 128 -p 1024 -s 4096 image"], (1, "", "error: Invalid (22)\n"), KEPT),
    ({}, ["-c none -s 65537 image"], (1, "", "error: Invalid (22)\n"), KEPT),
    ({}, ["-c files -s 4294967295 image"], (1, "", "error: Invalid (22)\n"), KEPT),
    ({}, ["-c files -s 8192 image"], (1, "", "error: NoSpace (28)\n"), KEPT),
    ({}, ["-c none image"], (3, "", "error: input\n"), KEPT),
    ({}, ["-c image image"], (3, "", "error: input\n"), KEPT),
    ({}, ["-c files none/image"], (3, "", "error: output\n"), KEPT),
    ({}, ["-c files files"], (3, "", "error: output\n"), KEPT),
    ({"files/c": link("a")}, ["-c files image"], (3, "", "error: input\n"), KEPT),
    ({"files/c": link("..")}, ["-c files image"], (3, "", "error: input\n"), KEPT),
    ({"files/c": link("none")}, ["-c files image"], (3, "", "error: input\n"), KEPT),
    ({"files/c": long(65536)}, [f"-c files {SHORT} image"], (1, "", "error: NoSpace (28)\n"), KEPT),
    ({"files/c": long(1 << 30)}, ["-c files image"], (1, "", "error: NoSpace (28)\n"), KEPT),
    ({"files/c": long(65536), "files/d": link("a")}, [f"-c files {SHORT} image"], (3, "", "error: input\n"), KEPT),
    ({}, ["image"], (2, "", "error: give exactly one of -c, -u, -l\n"), KEPT),
    # limits and boards
    ({}, ["-c files --board esp32 image", "--check --board esp32 image"],
     (0, "ok\nfiles 2\ndirectories 0\n" + CHECKED.replace("either\n", "either\nname_max 64\n"), ""), {}),
    ({}, ["-c files --board esp8266 image", "-l -b 8192 image"], (0, "f 5 /a\nf 0 /b\n", ""), {}),
    ({"files/name": b"hi"}, ["-c files --board esp32 --name-max 3 image"], (1, "", "error: NameTooLong (36)\n"), KEPT),
    ({"files/name": b"hi"}, ["-c files --name-max 4 image", "-l image"], (0, "f 5 /a\nf 0 /b\nf 2 /name\n", ""), {}),
    ({"files/c": long(65536)}, ["-c files -s8192 -b1024 -p128 --file-max=65535 image"], (1, "", "error: TooBig (27)\n"), KEPT),
    ({"files/c": long(65536)}, ["-c files -s8192 -b1024 -p128 --file-max=65536 image"], (1, "", "error: NoSpace (28)\n"), KEPT),
    ({"image": LATER}, ["--check image"], (1, "corrupt\nsuperblock: version 2.1\n", ""), {"image": LATER}),
    ({"image": LATER}, ["-u o --explain image"],
     (1, "", "error: Corrupt (84)\ncorrupt\nsuperblock: version 2.1\nversion 2.1: --also-2.1\n"), {"o": NOTHING}),
    ({"image": LATER}, ["--check --board micropython image"],
     (0, "ok\nfiles 1\ndirectories 0\n" + CHECKED.replace("either\n", "either\nversion 2.1\n"), ""), {}),
    ({"image": LATER}, ["-u o --board rp2040 image"], (0, "", ""), {"o": {"a": b"hello"}}),
    # images that are read
    ({"image": IMAGE}, ["-l image"], (0, "f 5 /a\nd 0 /d\nf 0 /d/x\n", ""), {"image": IMAGE}),
    ({}, ["-c files image", "--check image"], (0, "ok\nfiles 2\ndirectories 0\n" + CHECKED, ""), {}),
    ({}, ["-c files image", "--check image -b 8192"], (1, "corrupt\nsuperblock: block size 4096, given 8192\n", ""), {}),
    ({}, ["--check image"], (1, "corrupt\nno image of blocks of 4096 bytes and pages of 256 has a length of 14\n", ""), KEPT),
    ({"z": UNTAGGED}, ["--check z"], (1, "corrupt\npair 0 1: no commit with a right checksum\n", ""), {}),
    # a part of a file
    ({"image": IMAGE + bytes(5000)}, ["-l -b auto image"], (0, "f 5 /a\nd 0 /d\nf 0 /d/x\n", ""), {}),
    ({"image": IMAGE + bytes(5000)}, ["-l image"], (1, "", "error: Invalid (22)\n"), {}),
    ({"image": bytes(777) + IMAGE + bytes(10)}, ["-u o -b auto --offset 777 image"], (0, "", ""), {"o": UNPACKED}),
    ({"image": bytes(777) + IMAGE}, ["-l --offset 777 image"], (0, "f 5 /a\nd 0 /d\nf 0 /d/x\n", ""), {}),
    ({"image": bytes(777)}, ["-l --offset 778 --explain image"],
     (1, "", "error: Invalid (22)\nsize 0, block 4096: an image has from 2 to 65536 blocks\n"), {}),
    *(({}, [f"-c files {words} image", "--check -b auto image"],
       (0, f"ok\nfiles 2\ndirectories 0\nused 2 of {count} blocks\nfree {count - 2}\norder either\nrecover no\nwritable yes\nbehind 0 bytes\n",
        ""), {}) for words, count in [(SHORT, 4), ("-b 8k", 8)]),
    ({"image": IMAGE + bytes(5000)}, ["--check --block auto image"], (0, "ok\nfiles 2\ndirectories 1\nused 4 of 16 blocks\nfree 12\n"
     "order either\nrecover no\nwritable yes\nbehind 5000 bytes\n", ""), {}),
    ({"z": bytes(8192)}, ["--check -b auto z"], (1, "corrupt\npair 0 1: no commit with a right checksum\nbehind 0 bytes\n", ""), {}),
    ({"image": IMAGE[:8192]}, ["--check -b auto image"], (1, "corrupt\nsuperblock: block count 16, given 2\nbehind 0 bytes\n", ""), {}),
    *(({}, [f"-c files {words} image"], (2, "", "error: -b auto and --offset are for -l, -u, --check and --cat\n"), KEPT)
      for words in ["-b auto", "--offset 1"]),
    ({}, ["-l -b 0 image"], (1, "", "error: Invalid (22)\n"), KEPT),
    ({}, ["-l -p 0 image"], (1, "", "error: Invalid (22)\n"), KEPT),
    ({}, ["-u files image"], (1, "", "error: Invalid (22)\n"), KEPT),
    ({}, ["-l none/image"], (3, "", "error: input\n"), {}),
    ({}, ["--check none"], (3, "", "error: input\n"), {}),
    ({}, ["--check files"], (3, "", "error: input\n"), {}),
    ({}, ["-l -b 3 files"], (3, "", "error: input\n"), {}),
    ({}, ["-u o -b 3 files"], (3, "", "error: input\n"), {"o": NOTHING}),
    # images that are unpacked
    ({"image": IMAGE}, ["-u x/y image"], (0, "", ""), {"x/y": UNPACKED}),
    ({"image": IMAGE, "o/a": b"an older file", "o/d/y": b"older"}, ["-u o image"], (0, "", ""),
     {"o": {"a": b"hello", "d": {"x": b"", "y": b"older"}}}),
    ({"e": FOLDER}, ["-c e image", "-u x/y image"], (0, "", ""), {"x/y": {}}),
    ({"e": FOLDER, "o": link("files")}, ["-c e image", "-u o image"], (0, "", ""), {}),
    ({"image": IMAGE, "t": FOLDER, "o": link("t")}, ["-u o image"], (0, "", ""), {"t": UNPACKED}),
    ({"image": IMAGE, "o": link("none")}, ["-u o image"], (3, "", "error: output\n"), {"none": NOTHING}),
    ({"image": IMAGE, "o": link("files/a")}, ["-u o image"], (3, "", "error: output\n"), {"files/a": b"hello"}),
    ({"image": IMAGE, "o/a": FOLDER}, ["-u o image"], (3, "", "error: output\n"), {"o": {"a": {}}}),
    ({"image": IMAGE, "o/d": b"older"}, ["-u o image"], (3, "", "error: output\n"), {"o": {"a": b"hello", "d": b"older"}}),
    ({"image": NO_TEXT, "o": FOLDER}, ["-u o image"], (3, "", "error: output\n"), {"o": {}}),
    ({"image": IMAGE, "o/a": link("../image")}, ["-u o image"], (3, "", "error: output\n"), {"image": IMAGE}),
    ({"image": IMAGE, "o/a": link("none")}, ["-u o image"], (3, "", "error: output\n"), {"o/none": NOTHING}),
    ({"image": IMAGE, "o/d": link("..")}, ["-u o image"], (3, "", "error: output\n"), {"x": NOTHING}),
    # what is left out, and links
    ({"files/d/a.bak": b"", "files/d/c": b""}, ["-c files --exclude *.bak --exclude b image", "-l image"],
     (0, "f 5 /a\nd 0 /d\nf 0 /d/c\n", ""), {}),
    ({"files/d/a": b"x", "files/d/c": b""}, ["-c files --exclude d/a --exclude /b image", "-l image"],
     (0, "f 5 /a\nd 0 /d\nf 0 /d/c\n", ""), {}),
    ({"files/d/a": b"x"}, ["-c files --exclude d image", "-l image"], (0, "f 5 /a\nf 0 /b\n", ""), {}),
    ({"files/d/a": b"x"}, ["-c files --exclude * image", "-l image"], (0, "", ""), {}),
    ({"files/aab": b"x", "files/ab": b""}, ["-c files --exclude a?b --exclude ? image", "-l image"], (0, "f 0 /ab\n", ""), {}),
    ({"files/c": link("a"), "files/e": link("d"), "files/d/a": b"x"}, ["-c files --follow-links image", "-l image"],
     (0, "f 5 /a\nf 0 /b\nf 5 /c\nd 0 /d\nf 1 /d/a\nd 0 /e\nf 1 /e/a\n", ""), {}),
    ({"files/c": link("none"), "files/e": link("..")}, ["-c files --skip-links image", "-l image"], (0, "f 5 /a\nf 0 /b\n", ""), {}),
    ({"files/c": link("none")}, ["-c files --follow-links --explain image"], (3, "", "error: input\nfiles/c" + MISSING), KEPT),
    ({"files/c": link("none")}, ["-c files --follow-links --exclude c image"], (0, "", ""), {"image": 65536}),
    ({}, ["-c files --follow-links --skip-links image"], (2, "", "error: give one of --follow-links and --skip-links\n"), KEPT),
    ({}, ["-u o --exclude a image"], (2, "", "error: --exclude, --follow-links and --skip-links are for -c\n"), KEPT),
    # JSON
    ({"image": IMAGE}, ["-l --json image"], (0, '{"type": "file", "size": 5, "path": "/a"}\n{"type": "directory", "path": "/d"}\n'
                                             '{"type": "file", "size": 0, "path": "/d/x"}\n', ""), {}),
    ({"image": NO_TEXT}, ["-l --json image"], (0, '{"type": "file", "size": 5, "path": "/\\udcff"}\n', ""), {}),
    ({"files/\u00fc\"\\\n": b""}, ["-c files --exclude ? image", "-l --json image"],
     (0, '{"type": "file", "size": 0, "path": "/\u00fc\\"\\\\\\u000a"}\n', ""), {}),
    ({"image": IMAGE}, ["--check --json image"],
     (0, '{"ok": true, "files": 2, "directories": 1, "used": 4, "blocks": 16, "free": 12, "order": "either", "recover": false, "writable": true}\n', ""), {}),
    ({"image": LATER}, ["--check --json image"], (1, '{"ok": false, "reason": "superblock: version 2.1"}\n', ""), {}),
    ({}, ["-l --json image"], (1, "", "error: Invalid (22)\n"), KEPT),
    ({}, ["-c files --json image"], (2, "", "error: --json is for -l and --check\n"), KEPT),
    # a path in an image
    ({"image": IMAGE}, ["--cat /a image"], (0, "hello", ""), {"image": IMAGE}),
    ({"image": IMAGE}, ["--cat /d/x image"], (0, "", ""), {"image": IMAGE}),
    ({"image": IMAGE}, ["--cat /d image"], (1, "", "error: IsDir (21)\n"), {"image": IMAGE}),
    ({"image": IMAGE}, ["--cat /a/x image"], (1, "", "error: NotDir (20)\n"), {"image": IMAGE}),
    ({"image": IMAGE}, ["--explain --cat a image"],
     (1, "", "error: Invalid (22)\na: a path in the image begins with /, as /log/today\n"), {"image": IMAGE}),
    ({}, ["--cat /a image"], (1, "", "error: Invalid (22)\n"), KEPT),
    ({}, ["--cat /a none"], (3, "", "error: input\n"), {}),
    ({}, ["-c files image", "--put files/a /c image", "--cat /c image"], (0, "hello", ""), {"image": 65536}),
    ({}, ["-c files image", "--put files/a /b image", "--put files/b /a image", "-l image"], (0, "f 0 /a\nf 5 /b\n", ""), {"image": 65536}),
    ({}, ["-c files image", "--mkdir /d image", "--put files/a /d/c image", "--remove /b image", "-l image"],
     (0, "f 5 /a\nd 0 /d\nf 5 /d/c\n", ""), {"image": 65536}),
    ({"image": IMAGE}, ["--put files/a /none/c image"], (1, "", "error: NoEnt (2)\n"), {"image": IMAGE}),
    ({"image": IMAGE}, ["--put none /c image"], (3, "", "error: input\n"), {"image": IMAGE}),
    ({"image": IMAGE}, ["--explain --put none /c image"], (3, "", "error: input\nnone" + MISSING), {"image": IMAGE}),
    ({"image": IMAGE, "big": bytes(65536)}, ["--explain --put big /c image"],
     (1, "", "error: NoSpace (28)\n/c: too few blocks are free\n"), {"image": IMAGE}),
    ({"image": IMAGE}, ["--remove /d image"], (1, "", "error: NotEmpty (39)\n"), {"image": IMAGE}),
    ({"image": IMAGE}, ["--explain --mkdir /a image"], (1, "", "error: Exist (17)\n/a: something is there already\n"), {"image": IMAGE}),
    ({"image": LATER}, ["--remove /a image"], (1, "", "error: Corrupt (84)\n"), {"image": LATER}),
    ({"image": LATER}, ["--also-2.1 --remove /a image", "-l --also-2.1 image"], (0, "", ""), {"image": 65536}),
    ({}, ["--cat /a --remove /a image"], (2, "", "error: give exactly one of -c, -u, -l\n"), KEPT),
    # why
    ({}, ["-l none"], (3, "", "error: input\n"), {}),
    ({}, ["--explain -l none"], (3, "", "error: input\nnone" + MISSING), {}),
    ({}, ["--explain --check files"], (3, "", "error: input\nfiles: Is a directory (os error 21)\n"), {}),
    ({}, ["--explain -c none image"], (3, "", "error: input\nnone" + MISSING), KEPT),
    ({}, ["--explain -c files none/image"], (3, "", "error: output\nnone/image" + MISSING), {}),
    ({"image": IMAGE, "o/a": FOLDER}, ["--explain -u o image"],
     (3, "", "error: output\no/a: something else than a file stands there\n"), {}),
    ({"z": bytes(8192)}, ["--explain -l z"], (1, "", CORRUPT), {}),
    ({"z": bytes(8192)}, ["--explain -u o z"], (1, "", CORRUPT), {"o": NOTHING}),
    ({}, ["--explain -c files -s 8192 i"], (1, "", "error: NoSpace (28)\n2 blocks are too few, it takes 4\n"), {"i": NOTHING}),
    ({"c/c": bytes(65536)}, [f"--explain -c c {SHORT} i"], (1, "", "error: NoSpace (28)\n4 blocks are too few, it takes 69\n"), {}),
    ({"c/c": long(70_000_000)}, [f"--explain -c c {SHORT} i"],
     (1, "", "error: NoSpace (28)\n4 blocks are too few, and no image has enough\n"), {}),
    ({}, ["--explain -l image"], (1, "", "error: Invalid (22)\nsize 14, block 4096: an image is a whole number of blocks\n"), KEPT),
    *(({}, [f"--explain -c files {words} i"], (1, "", f"error: Invalid (22)\n{rule}\n"), {"i": NOTHING}) for words, rule in [
        ("-p 100", "page 100: a page has 8, 16, 32, 64, 128, 256 or 512 bytes"),
        ("-b 512 -p 8", "block 512: a block has from 1024 to 65536 bytes"),
        ("-b 1024", "block 1024, page 256: a page is at most an eighth of a block"),
        ("-b 2100", "block 2100, page 256: a block is a whole number of pages"),
        ("-s 268439552", "an image has at most 268435456 bytes"),
        ("-s 4096", "size 4096, block 4096: an image has from 2 to 65536 blocks")]),
]

# the words, standard input, how the run ends, and what is there then
STREAMS = [
    ("-l -", IMAGE, (0, b"f 5 /a\nd 0 /d\nf 0 /d/x\n", b""), {}),
    ("--check -", IMAGE, (0, b"ok\nfiles 2\ndirectories 1\nused 4 of 16 blocks\nfree 12\norder either\nrecover no\nwritable yes\n", b""), {}),
    ("-u o -", IMAGE, (0, b"", b""), {"o": UNPACKED}),
    ("--cat /a -", IMAGE, (0, b"hello", b""), {}),
    ("-l -", bytes(8192), (1, b"", b"error: Corrupt (84)\n"), {}),
    ("-l -", b"", (1, b"", b"error: Invalid (22)\n"), {}),
    ("-u o -", IMAGE[:65530], (1, b"", b"error: Invalid (22)\n"), {"o": NOTHING}),
    ("--check -", bytes(8192), (1, b"corrupt\npair 0 1: no commit with a right checksum\n", b""), {}),
    ("--explain -u o -", IMAGE[:65530], (1, b"", b"error: Invalid (22)\nnot explained: error: input\n"), {"o": NOTHING}),
    ("--explain -l ./-", IMAGE, (3, b"", b"error: input\n./-" + MISSING.encode()), {}),
    ("-l -b auto --offset 3 -", bytes(3) + IMAGE + bytes(100), (0, b"f 5 /a\nd 0 /d\nf 0 /d/x\n", b""), {}),
    ("-c none -", b"", (3, b"", b"error: input\n"), {}),
    ("-c files -s 8192 -", b"", (1, b"", b"error: NoSpace (28)\n"), {}),
]


def put(top, path, what):
    at = os.path.join(top, path)
    os.makedirs(os.path.dirname(at), exist_ok=True)
    if what is FOLDER:
        os.makedirs(at)
    elif isinstance(what, bytes):
        open(at, "wb").write(what)
    elif what[0] == "link":
        os.symlink(what[1], at)
    else:
        open(at, "wb").truncate(what[1])


def seen(at, wanted):
    """What stands at a path, told as what is wanted there is."""
    if not os.path.lexists(at):
        return NOTHING
    if os.path.isdir(at):
        return {name: seen(os.path.join(at, name), None) for name in os.listdir(at)}
    data = open(at, "rb").read()
    return len(data) if isinstance(wanted, int) else data


def fresh(top, before):
    shutil.rmtree(top, ignore_errors=True)
    for path, what in {"files/a": b"hello", "files/b": b"", "image": OLD, **before}.items():
        put(top, path, what)


def left(top, behind):
    """What is there of what is wanted, and whether no file of an image that wasn't put in its place is left."""
    names = [name for name in os.listdir(top) if name.startswith(".mklittlefs-") and name not in behind]
    return {path: seen(os.path.join(top, path), wanted) for path, wanted in behind.items()}, names


def run(tool, words, top, given=b"", **more):
    done = subprocess.run([tool, *words.split()], input=given, cwd=top, stderr=subprocess.PIPE, timeout=60, **({"stdout": subprocess.PIPE} | more))
    return done.returncode, done.stdout, done.stderr


def small_files():
    """Files may have 8192 bytes, and a write past that fails."""
    signal.signal(signal.SIGXFSZ, signal.SIG_IGN)
    resource.setrlimit(resource.RLIMIT_FSIZE, (8192, 8192))


def little_memory():
    """256 MiB of memory."""
    resource.setrlimit(resource.RLIMIT_AS, (1 << 28, 1 << 28))


class Changing:
    """A file that becomes shorter and longer all the time."""

    def __init__(self, path):
        self.path, self.ended = path, threading.Event()
        self.thread = threading.Thread(target=self.change)

    def change(self):
        size = os.path.getsize(self.path)
        while not self.ended.wait(0.001):
            os.truncate(self.path, size - 1)
            os.truncate(self.path, size)

    def __enter__(self):
        self.thread.start()

    def __exit__(self, *error):
        self.ended.set()
        self.thread.join()


def rows(tool, folder):
    """What was run, what came, and what has to come."""
    top = os.path.join(folder, "runs")
    for before, runs, (status, out, err), behind in RUNS:
        fresh(top, before)
        *first, came = [run(tool, words, top) for words in runs]
        wanted = [(0, b"", b"")] * len(first), (status, out.encode(), err.encode()), (behind, [])
        yield " | ".join(runs), (first, came, left(top, behind)), wanted
    for words, given, ends, behind in STREAMS:
        fresh(top, {})
        yield words, (run(tool, words, top, given), left(top, behind)), (ends, (behind, []))
    fresh(top, {})
    run(tool, f"-c files {SHORT} image", top)
    made = open(os.path.join(top, "image"), "rb").read()
    yield "an image to standard output", run(tool, f"-c files {SHORT} -", top), (0, made, b"")
    os.mkfifo(os.path.join(top, "pipe"))
    for words, lines in ("-l", b"f 5 /a\nf 0 /b\n"), ("-u other", b""):
        with subprocess.Popen(["sh", "-c", "cat image > pipe"], cwd=top):
            yield f"{words} of a pipe whose writer is gone", run(tool, f"{words} -b auto -p 128 pipe", top), (0, lines, b"")
    os.remove(os.path.join(top, "pipe"))
    with open("/dev/full", "wb") as full:
        came = run(tool, "-c files --explain -", top, stdout=full)
    yield "a standard output that is full", came, (3, None, b"error: output\n-: No space left on device (os error 28)\n")
    with open("/dev/full", "wb") as full:
        for words in "--help", "-h", "--version":
            yield f"{words} to a full output", run(tool, words, top, stdout=full), (3, None, b"error: output\n")
        yield "lines to a full output", run(tool, f"-l {SHORT} image", top, stdout=full), (3, None, b"error: output\n")
    for words in f"-l {SHORT} image", "--help":
        unread, closed = os.pipe()
        os.close(unread)
        yield f"{words} to a pipe that nobody reads", run(tool, words, top, stdout=closed), (3, None, b"")
        os.close(closed)
    put(top, "long/c", long(3 << 30))
    yield "a file that is too big, in little memory", run(tool, "-c long i", top, preexec_fn=little_memory), (1, b"", b"error: TooBig (27)\n")
    put(top, "changing", long(200 << 20))
    with Changing(os.path.join(top, "changing")):
        came = run(tool, "-l --explain changing", top)
    yield "a file that changes as it is read", came, (3, b"", b"error: input\nchanging: the file has changed as it was read\n")
    put(top, ".mklittlefs-0", b"another run's")
    with open(os.path.join(top, ".mklittlefs-0"), "rb") as another:
        fcntl.flock(another, fcntl.LOCK_EX)
        came = run(tool, f"-c files {SHORT} image", top)
    yield "an image that another run makes", (came, left(top, {".mklittlefs-0": b"another run's"})), (
        (0, b"", b""), ({".mklittlefs-0": b"another run's"}, []))
    os.remove(os.path.join(top, ".mklittlefs-0"))
    yield "a device that is full", run(tool, "-c files --explain /dev/full", top), (
        3, b"", b"error: output\n/dev/full: No space left on device (os error 28)\n")
    came = run(tool, "-c files --explain image", top, preexec_fn=small_files)
    yield "a disk without room", (came, left(top, {"image": made})), (
        (3, b"", b"error: output\nimage: File too large (os error 27)\n"), ({"image": made}, []))
    os.chmod(os.path.join(top, "image"), 0o640)
    run(tool, "-c files image", top)
    yield "permissions that stay", os.stat(os.path.join(top, "image")).st_mode & 0o777, 0o640
    words = [tool, "-l", b"\xff"]
    yield "a word that isn't text", subprocess.run(words, capture_output=True).stderr, b"error: the command line is not UTF-8\n"
