#!/usr/bin/env python3
"""What the programs print for words, lines and files that no test of the gate has.

usage: program_lines.py [SCRIPT] [TOOL]

SCRIPT is a built lfs_script, TOOL a built mklittlefs; without them those that `rt run` left in the crates' `out` are taken. Each row
is run in a folder of its own: the words, standard input, and the status, output and errors that have to come; tool_runs.py has more
rows of mklittlefs, with the files that have to be there then. Run as root, a row
with a file that can't be read is run as another user. Prints each row that differs, and how many didn't. Fails where one does.
"""
import os
import pty
import re
import shutil
import subprocess
import sys
import tempfile

import tool_runs

HERE = os.path.dirname(os.path.abspath(__file__))
FRESH = "fresh 4096 256 16\n"

# what is wrong with a line, behind `error: line N: `
OBJECTIONS = [
    ("list  /", "two spaces stand side by side"),
    ("List /", "no command has this name (--help lists them)"),
    ("list", "too few words: list PATH"),
    ("set-attr /a 41", "too few words: set-attr PATH TYPE BYTES"),
    ("calls 1", "too many words: calls"),
    ("read 0 1a", "word 3 is no decimal number up to 4294967295"),
    ("open /a 0x102", "word 3 is no hexadecimal number up to ffffffff"),
    ("get-attr /a 100", "word 3 is no hexadecimal number up to ff"),
    ("stat /\\x0", "word 2 is not spelled as bytes are (--help says how)"),
    ("fresh 4096 256 16 sideways", "from word 5 on there are no options of the command"),
    ("profile also-2.0", "from word 2 on there are no options of the command"),
    ("profile also-2.1 name-max", "from word 3 on there are no options of the command"),
    ("profile name-max 0x20", "word 3 is no decimal number up to 4294967295"),
    ("profile attr-max 5 also-2.1 inline-max -1", "word 6 is no decimal number up to 4294967295"),
    ("profile name-max 5 5", "from word 4 on there are no options of the command"),
    ("profile pair-cycles", "from word 2 on there are no options of the command"),
    ("profile pair-cycles -1", "word 3 is no decimal number up to 4294967295"),
    ("profile name-max 1 file-max 2 attr-max 3 inline-max 4 also-2.1 pair-cycles 5 name-max 6",
     "too many words: profile [also-2.1] [name-max N] [file-max N] [attr-max N] [inline-max N] [pair-cycles N]"),
]
COMMANDS = """fresh image profile unmount mount format put bytes save calls compare compare-with open read write seek truncate sync close mkdir remove rename list
stat get-attr set-attr remove-attr gstate is-used used-count recover remount""".split()


def run(program, words, given="", folder=None, user=None):
    """Status, output and errors."""
    done = subprocess.run([program, *words], input=given.encode(), capture_output=True, cwd=folder, user=user, timeout=60)
    return done.returncode, done.stdout.decode("latin-1"), done.stderr.decode("latin-1")


def script_rows(script):
    """What was run, what came, and what has to come."""
    begun = run(script, [], FRESH)
    yield "an empty script", run(script, []), (0, "", "")
    for line, text in OBJECTIONS:
        yield repr(line), run(script, [], line + "\n"), (2, "", f"error: line 1: {text}\n")
        yield repr(line) + " behind a line", run(script, [], FRESH + line), (2, begun[1], f"error: line 2: {text}\n")
    both = run(script, [], FRESH + "list /\n")
    yield "spaces and CRs at the ends", run(script, [], "  " + FRESH.strip() + "  \r\n\tlist /\n".replace("\t", " ")), both
    yield "other words", run(script, ["-x"]), (2, "", "error: a script is read from standard input (--help says more)\n")
    shown = run(script, ["--help"])
    yield "-h", run(script, ["-h"]), shown
    names = [line.split()[0] for line in shown[1].splitlines() if line.startswith("  ") and line[2:3].isalpha()]
    yield "the commands in --help", [name for name in names if name in COMMANDS], COMMANDS
    yield "--help", (shown[0], shown[2], shown[1].startswith("Performs the operations of standard input")), (0, "", True)


def write(folder, path, data=b"", size=None):
    path = os.path.join(folder, path)
    os.makedirs(os.path.dirname(path), exist_ok=True)
    with open(path, "wb") as file:
        file.write(data)
        if size is not None:
            file.truncate(size)
    return path


def tool_rows(tool, folder):
    """The same of mklittlefs, mostly with --explain."""
    sizes = ["-s", "65536"]
    write(folder, "some/a", b"hi")
    closed = write(folder, "closed/b", b"hi")
    os.chmod(closed, 0)
    os.chmod(folder, 0o777)
    user = 65534 if os.getuid() == 0 else None
    yield "a file that can't be read", run(tool, ["-c", "closed", "--explain", *sizes, "x.img"], "", folder, user), (
        3, "", "error: input\nclosed/b: Permission denied (os error 13)\n")
    os.makedirs(folder + "/links")
    os.symlink("nowhere", folder + "/links/l")
    yield "a symbolic link", run(tool, ["-c", "links", "--explain", *sizes, "x.img"], "", folder), (
        3, "", "error: input\nlinks/l: a symbolic link; --follow-links reads its target, --skip-links leaves it out\n")
    os.makedirs(folder + "/pipes")
    os.mkfifo(folder + "/pipes/p")
    yield "a pipe", run(tool, ["-c", "pipes", "--explain", *sizes, "x.img"], "", folder), (
        3, "", "error: input\npipes/p: neither a file nor a folder\n")
    yield "no image", run(tool, ["-l", "--explain", "none.img"], "", folder), (
        3, "", "error: input\nnone.img: No such file or directory (os error 2)\n")
    yield "no folder above", run(tool, ["-c", "some", "--explain", *sizes, "no/x.img"], "", folder), (
        3, "", "error: output\nno/x.img: No such file or directory (os error 2)\n")
    write(folder, "big/a", size=1 << 31)
    yield "a file that is too big", run(tool, ["-c", "big", "--explain", *sizes, "x.img"], "", folder), (
        1, "", "error: TooBig (27)\nbig/a: a file of 2147483648 bytes, and 2147483647 are the most\n")
    write(folder, "named/d/four", b"hi")
    yield "a name that is too long, and why", run(tool, ["-c", "named", "--explain", "--name-max", "3", "n.img"], "", folder), (
        1, "", "error: NameTooLong (36)\nnamed/d/four: a name of 4 bytes, and 3 are the most\n")
    shutil.rmtree(folder + "/named")
    os.makedirs(folder + "/bytes")
    open(os.path.join(folder.encode(), b"bytes/\xff"), "wb").close()
    for value, why in ("1", "bytes/\\xff: the name is not UTF-8\n"), ("0", ""), ("", ""):
        came = subprocess.run([tool, "-c", "bytes", "n.img"], cwd=folder, capture_output=True, env={"MKLITTLEFS_EXPLAIN": value})
        yield f"MKLITTLEFS_EXPLAIN={value}", (came.returncode, came.stderr.decode()), (3, "error: input\n" + why)
    write(folder, "both/a", size=1 << 20)
    write(folder, "both/b", size=3 << 30)
    yield "too few blocks, and a file that is too big", run(tool, ["-c", "both", "--explain", *sizes, "x.img"], "", folder), (
        1, "", "error: NoSpace (28)\n16 blocks were too few, how many it takes isn't known: error: TooBig (27)\n")
    yield "standard input that is no image", run(tool, ["-l", "--explain", "-"], "?" * 65536, folder), (
        1, "", "error: Corrupt (84)\nnot explained: error: input\n")
    yield "a check of standard input", run(tool, ["--check", "-"], "?" * 65536, folder), (
        1, "corrupt\npair 0 1: no commit with a right checksum\n", "")
    made = run(tool, ["-c", "some", *sizes, "x.img"], "", folder)
    yield "a folder", made, (0, "", "")
    before = os.stat(folder + "/x.img").st_ino
    yield "the old image stays", (run(tool, ["-c", "both", *sizes, "x.img"], "", folder)[0], os.stat(folder + "/x.img").st_ino), (1, before)
    yield "a check", run(tool, ["--check", "x.img"], "", folder)[1].splitlines()[:3], ["ok", "files 1", "directories 0"]
    yield from limit_rows(tool, folder)
    yield from auto_rows(tool, folder)
    yield from terminal_rows(tool, folder)
    yield from tool_runs.rows(tool, folder)


def limit_rows(tool, folder):
    """The same of limits, boards and versions."""
    rules = [(["--name-max", "0"], "--name-max is from 1 to 255"), (["--file-max", "2147483648"], "--file-max is from 1 to 2147483647"),
             (["--attr-max", "1023"], "--attr-max is from 1 to 1022"), (["--board", "esp"], "--board is esp8266, esp32, rp2040 or micropython"),
             (["-b", "1024", "-p", "128", "--inline-max", "129"], "--inline-max is from 1 to 1022, and at most an eighth of -b"),
             (["--pair-cycles", "3"], "--pair-cycles is for --put, --remove and --mkdir")]
    for words, rule in rules:
        yield " ".join(words), run(tool, ["-c", "some", *words, "x.img"], "", folder), (2, "", f"error: {rule}\n")
    write(folder, "named/four", b"hi")
    yield "a name that is too long", run(tool, ["-c", "named", "--name-max", "3", "n.img"], "", folder), (1, "", "error: NameTooLong (36)\n")
    yield "a file that is too long", run(tool, ["-c", "named", "--file-max", "1", "n.img"], "", folder), (1, "", "error: TooBig (27)\n")
    made = run(tool, ["-c", "named", "--board", "esp8266", "--attr-max", "64", "n.img"], "", folder)
    yield "limits in the image", (made, limits_in(folder + "/n.img")), ((0, "", ""), (32, 2147483647, 64))
    other = "writable no: pair 0 1, slot 0: a superblock with other limits than the options give, name_max 32"
    limits = ["name_max 32", "attr_max 64"]
    of_options = ([], [], other), (["--name-max", "32", "--attr-max", "64"], limits, "writable yes"), (["--also-2.1"], limits, other)
    for words, told, line in of_options:
        shown = run(tool, ["--check", "-b", "8192", *words, "n.img"], "", folder)
        yield " ".join(["a check", *words]), (shown[0], shown[1].splitlines()[6:]), (0, [*told, "recover no", line])


LISTED = (0, "f 2 /a\n", "")
CORRUPT = "error: Corrupt (84)\n"
SIZE_DIFFERS = CORRUPT + "corrupt\nsuperblock: block size 8192, given 4096\nblocks of 8192 bytes: -b 8192\n"
MODES = ("the modes are -c DIR, -u DIR, -l, --check, --cat PATH, --put FILE PATH, --remove PATH and --mkdir PATH\n")
DECIDED = "error: --auto replaces -b, --board, --also-2.1, --name-max, --file-max and --attr-max\n"


def auto_rows(tool, folder):
    """The same of --auto, and of options that are missing."""
    def tried(*words):
        return run(tool, list(words), "", folder)
    yield "an image for a board", tried("-c", "some", "--board", "esp8266", "-s", "128k", "e.img"), (0, "", "")
    with open(folder + "/e.img", "rb") as file:
        image = file.read()
    yield "its block size", tried("-l", "--explain", "e.img"), (1, "", SIZE_DIFFERS)
    yield "its limits", tried("--put", "some/a", "/c", "-b", "8192", "--explain", "e.img"), (
        1, "", "error: ReadOnly (30)\n/c: the image has limits of its own: --name-max 32 or --auto opens it\n")
    yield "--auto -l", tried("--auto", "-l", "e.img"), LISTED
    yield "--auto --cat", tried("--auto", "--cat", "/a", "e.img"), (0, "hi", "")
    yield "--auto -u", (tried("--auto", "-u", "e.out", "e.img"), os.listdir(folder + "/e.out")), ((0, "", ""), ["a"])
    shown = tried("--auto", "--check", "e.img")
    yield "--auto --check", (shown[0], shown[1].splitlines()[6:]), (0, ["name_max 32", "recover no", "writable yes", "behind 0 bytes"])
    write(folder, "part.img", bytes(3000) + image + b"\x11" * 5000)
    yield "--auto --offset", tried("--auto", "-l", "--offset", "3000", "part.img"), LISTED
    write(folder, "flash.img", image + b"\x11" * 5000)
    for words in ["--put", "some/a", "/c"], ["--mkdir", "/d"], ["--remove", "/c"]:
        done = tried("--auto", *words, "flash.img")
        with open(folder + "/flash.img", "rb") as file:
            after = file.read()
        yield f"--auto {words[0]} keeps what is behind", (done, len(after), after[len(image) :]), ((0, "", ""), len(image) + 5000, b"\x11" * 5000)
    yield "what was changed", tried("--auto", "-l", "flash.img"), (0, "f 2 /a\nd 0 /d\n", "")
    piped = subprocess.run([tool, "--auto", "-l", "-"], input=image, capture_output=True)
    yield "--auto of standard input", (piped.returncode, piped.stdout, piped.stderr), (0, b"f 2 /a\n", b"")
    write(folder, "zeros.img", bytes(8192))
    yield "no superblock", tried("--auto", "-l", "zeros.img"), (1, "", CORRUPT)
    yield "no superblock, and why", tried("--auto", "--explain", "--mkdir", "/d", "zeros.img"), (
        1, "", CORRUPT + "no superblock: neither block 0 nor block 1 begins with one\n")
    for field, number, rule in [(24, 512, "block 512: a block has from 1024 to 65536 bytes"),
                                (28, 1, "size 8192, block 8192: an image has from 2 to 65536 blocks"),
                                (28, 65536, "an image has at most 268435456 bytes")]:
        write(folder, "sizes.img", image[:field] + number.to_bytes(4, "little") + image[field + 4 :])
        yield f"{number} at {field}", tried("--auto", "-l", "sizes.img"), (1, "", "error: Invalid (22)\n")
        yield f"{number} at {field}, and why", tried("--auto", "-l", "--explain", "sizes.img"), (1, "", f"error: Invalid (22)\n{rule}\n")
    yield "--auto -c", tried("--auto", "-c", "some", "x.img"), (2, "", "error: --auto is for all modes but -c\n")
    for words in ["-b", "8192"], ["--board", "esp32"], ["--also-2.1"], ["--name-max", "32"], ["--file-max", "9"], ["--attr-max", "9"]:
        yield "--auto " + words[0], tried("--auto", "-l", *words, "e.img"), (2, "", DECIDED)
    yield "--auto --inline-max", tried("--auto", "--mkdir", "/d", "--inline-max", "64", "e.img"), (0, "", "")
    write(folder, "blocks.img", image + bytes(8192))
    yield "more behind the image", tried("-l", "-b", "8192", "--explain", "blocks.img"), (
        1, "", CORRUPT + "corrupt\nsuperblock: block count 16, given 17\n16 blocks, and more behind them: -b auto\n")


def run_on_terminal(tool, words, folder, **env):
    """Status, and what standard error, a terminal, shows."""
    ours, theirs = pty.openpty()
    done = subprocess.run([tool, *words], stdin=subprocess.DEVNULL, stdout=subprocess.DEVNULL, stderr=theirs, cwd=folder, env=env, timeout=60)
    os.close(theirs)
    shown = b""
    while True:
        try:
            more = os.read(ours, 4096)
        except OSError:
            break
        if not more:
            break
        shown += more
    os.close(ours)
    return done.returncode, shown.decode("latin-1").replace("\r\n", "\n")


def terminal_rows(tool, folder):
    """The same where standard error is a terminal, and in a pipe."""
    cases = [(["-l", "none.img"], 3, "error: input\n", "none.img: No such file or directory (os error 2)\n"),
             (["-l", "e.img"], 1, CORRUPT, SIZE_DIFFERS[len(CORRUPT) :]),
             (["e.img"], 2, "error: give exactly one of -c, -u, -l\n", MODES),
             (["-l", "--check", "e.img"], 2, "error: give exactly one of -c, -u, -l\n", MODES),
             (["-l", "--auto", "-b", "4k", "e.img"], 2, DECIDED, "")]
    for words, status, line, why in cases:
        name = " ".join(words)
        yield f"{name} on a terminal", run_on_terminal(tool, words, folder), (status, line + why)
        yield f"{name} on a terminal, 0", run_on_terminal(tool, words, folder, MKLITTLEFS_EXPLAIN="0"), (status, line)
        yield f"{name} on a terminal, 0 and the option", run_on_terminal(tool, ["--explain", *words], folder, MKLITTLEFS_EXPLAIN="0"), (status, line + why)
        yield f"{name} in a pipe", run(tool, words, "", folder), (status, "", line)
        yield f"{name} in a pipe, and why", run(tool, ["--explain", *words], "", folder), (status, "", line + why)
    short, long = run(tool, ["-h"]), run(tool, ["--help"])
    yield "-h is a screen", (short[0], short[2], short[1].count("\n") <= 34, max(map(len, short[1].splitlines())) <= 130), (0, "", True, True)
    named = set(re.findall(r"(?<![\w-])--[a-z][-a-z0-9.]*", long[1]))
    yield "-h has options of --help", set(re.findall(r"(?<![\w-])--[a-z][-a-z0-9.]*", short[1])) <= named, True
    yield "--version", run(tool, ["--version"]), (0, "mklittlefs 1.0.0 (littlefs on-disk version 2.0)\n", "")


def limits_in(image):
    """The three limits of a fresh image's superblock."""
    with open(image, "rb") as file:
        data = file.read(44)
    return tuple(int.from_bytes(data[at : at + 4], "little") for at in (32, 36, 40))


def main():
    programs = sys.argv[1:] + [os.path.join(HERE, "..", "crates", name, "out", name) for name in ("lfs_script", "mklittlefs")][len(sys.argv) - 1 :]
    script, tool = map(os.path.abspath, programs)
    folder = tempfile.mkdtemp()
    try:
        rows = [*script_rows(script), *tool_rows(tool, folder)]
    finally:
        shutil.rmtree(folder)
    wrong = [row for row in rows if row[1] != row[2]]
    for what, came, wanted in wrong:
        print(f"{what}: {came!r}, and it is {wanted!r}")
    print(f"{len(rows)} rows, {len(wrong)} differ")
    sys.exit(bool(wrong))


if __name__ == "__main__":
    main()
