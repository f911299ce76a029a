#!/usr/bin/env python3
"""Images exchanged with littlefs's own code: what it writes is read here, and what is written here is read by it.

usage: exchange.py LITTLEFS [SCRIPT TOOL] [--count N] [--operations N] [--seed WORD] [--only GROUP[,GROUP..]] [--keep FOLDER] [--jobs N]

LITTLEFS is the folder of littlefs's own code with version 2.7 or later, which can write images of version 2.0: a checkout of it, or
`lib/littlefs` of Debian's source package micropython. SCRIPT is a built lfs_script, TOOL a built mklittlefs. There are N images of
each kind, but for long use, whose images are those of N operations each. --jobs says how many programs run side by side:

- by littlefs, by sessions, by sessions whose device stopped: files, directories and attributes that come, change, move and go at
  random; some of littlefs's end in a loss of power;
- names by littlefs, by the tool (`-c`), by sessions: directories whose names are beginnings of one another, over several pairs;
- each of these that littlefs changed after it (which first ends what a stop left half done), or that a session changed;
- limits: the same for builds of littlefs whose names have at most 32 bytes, and 64 with smaller files and attributes too: images by
  littlefs, by `-c` with `--name-max` and its kin, and by sessions of that profile;
- caches: the same for builds of littlefs with caches of 64, 128 and 256 bytes: images by `-c` with `--inline-max` and by sessions of that
  profile. littlefs writes each file in place, adds to it, shortens it and reads it;
- full: small devices that sessions fill, and builds of littlefs with a small cache behind them. What has no room is answered with
  NoSpace, and changes nothing: only a new file may be there, empty. littlefs says of a new name without room that it is too long;
- long use: a logger in the root, and mixed operations, with a `block_cycles` of 3, 20, 100 and 500; an image at each unmount, some
  that a loss of power cut after it, and these when littlefs had gone on with them;
- sessions: long use by sessions with a `pair_cycles` of 3, 7 and 101: a logger in the root, and mixed operations with attributes, on devices of
  three geometries, with remounts between. There are 6 images of each, copies whose device stopped in a session behind them, copies that
  littlefs changed, by which it moved pairs, too, and these after a session went on with them;
- version: images written here that littlefs in its default version then wrote to;
- later: images by littlefs in its default version, and in version 2.0 and then in that, after any operations, some of which a loss of
  power ended and it went on with;
- turns: images that littlefs in its default version and sessions that accept version 2.1 change in turns. The device of some sessions
  stops in an operation.

Each is shown by littlefs, and compared with the plain tree that the operations make, where that is known. A session, the tool and the
plain reader (image_reader.py) have to show the same. Of the last three kinds they have to where version 2.1 is accepted, as with
`--also-2.1`. Where it isn't, an image of version 2.1 has to be refused, and one that wasn't written yet is listed as it was. Without
SCRIPT and TOOL the reader alone is tried, on images by littlefs. GROUP is random, names, limits, caches, full, long, sessions, version, later or turns.

Prints a table: how many images and entries there were; images refused here, with the cause; names that littlefs lists and doesn't find,
or that it doesn't list; names that it lists twice; older trees that were listed here; and other differences. Cut images of a
`block_cycles` up to 25 in which a directory is half moved may be refused, and are counted apart. Where a loss of power left a move
half done, littlefs ends it before it lists: since release 2.9 it doesn't list the entry behind the moved one until then. Fails where
anything else is above 0; the image is then left in FOLDER.
"""

import argparse
import collections
from concurrent.futures import ThreadPoolExecutor
import functools
import os
import re
import shutil
import subprocess
import sys
import tempfile
import zlib

import exchange_kinds
import image_reader
import littlefs_code
import profiles
from exchange_operations import answers_of
from session_model import word

VERSION = "0x00020000"
BATCH = 20
COLUMNS = ["images", "entries", "refused", "half moved", "not found", "twice", "older trees", "differences"]
CORRUPT = "Corrupt"


# What is asked of a session over an image, and what it answers


def questions(tree):
    for path, (content, attributes) in tree.items():
        if content is None:
            yield f"list {word(path) if path else '/'}", ("list", path)
        else:
            yield from [(f"open {word(path)} 1", ("open",)), (f"read 0 {content[0] + 1}", ("read", content)), ("close 0", ("close",))]
        for kind, value in attributes.items():
            yield f"get-attr {word(path)} {kind:x}", ("attribute", value)


def decoded(text):
    return b"" if text == "\\e" else re.sub(rb"\\x(..)", lambda found: bytes.fromhex(found[1].decode()), text.encode())


def is_told(tree, asked, answer):
    """Whether a session answers what the tree has."""
    what = asked[0]
    if what == "list":
        beneath = sorted((path[len(asked[1]) + 1 :], node[0]) for path, node in tree.items() if path and path.rpartition(b"/")[0] == asked[1])
        items = [f" f:{content[0]}:{word(name)}" if content else f" d:0:{word(name)}" for name, content in beneath]
        return answer == f"items {len(items)}" + "".join(items)
    if what == "read":
        bytes_read = decoded(answer.partition(" ")[2])
        return (len(bytes_read), zlib.crc32(bytes_read) ^ 0xFFFFFFFF) == asked[1]
    if what == "attribute":
        return answer == f"bytes {word(asked[1])}"
    return answer == ("fd 0" if what == "open" else "done")


def lines(tree):
    """What a listing of the tree has to print: depth first, the names of a directory by their bytes."""
    shown = image_reader.escaped
    paths = sorted((path for path in tree if path), key=lambda path: path.split(b"/"))
    return b"".join(b"f %d %s\n" % (tree[path][0][0], shown(path)) if tree[path][0] else b"d 0 %s\n" % shown(path) for path in paths)


# The three that read an image here: each gives its listing, or the error's name


def by_reader(image, geometry, profile):
    with open(image, "rb") as it:
        try:
            return image_reader.listing(it.read(), *geometry[:2], profile)
        except image_reader.Refused as refused:
            return str(refused)


def by_tool(options, image, geometry, profile):
    words = ["-l", "-b", str(geometry[0]), "-p", str(geometry[1]), *profile.options()]
    run = subprocess.run([options.tool, *words, image], capture_output=True)
    return run.stdout if run.returncode == 0 else run.stderr.decode().partition("error: ")[2].partition(" (")[0]


def by_session(tree, asked, answers):
    """The tree's lines where all that was asked is told, the error's name where the image isn't mounted, or the wrong answer."""
    if answers[0] != "done":
        return answers[0].split(" ")[1]
    wrong = [line for (line, question), answer in zip(asked, answers[1:]) if not is_told(tree, question, answer)]
    return f"another answer to {wrong[0][:100]}" if wrong else lines(tree)


def read_here(options, case, tree, asked, told, profile):
    answers = {"the plain reader": by_reader(case.image, case.geometry, profile)}
    if options.script:
        answers |= {"the tool": by_tool(options, case.image, case.geometry, profile), "a session": by_session(tree, asked, told)}
    return answers


def cause(image, geometry, tree):
    """Why an image may be refused here, as far as it can be told from its bytes."""
    with open(image, "rb") as it:
        data = it.read()
    try:
        pairs = image_reader.read_thread([data[at : at + geometry[0]] for at in range(0, len(data), geometry[0])])
    except image_reader.Refused:
        return "no thread"
    if is_half_moved(pairs):
        return "half moved"
    if not pairs[0].slots:
        return "no slot in the first pair"
    return "names" if has_beginnings(tree) else "other"


def is_half_moved(pairs):
    """Whether a directory's pointer has one block of a pair of the thread, and not the other."""
    pointers = [set(image_reader.words(slot.struct[1])) for pair in pairs for slot in pair.slots if slot.struct[0] == image_reader.PAIR_STRUCT]
    return any(len(pointer & set(pair.address)) == 1 for pointer in pointers for pair in pairs)


def has_move(image, geometry):
    """Whether a slot is moved away that still stands there. Since release 2.9 littlefs doesn't list the entry behind it until the move is ended."""
    with open(image, "rb") as it:
        data = it.read()
    try:
        pairs = image_reader.read_thread([data[at : at + geometry[0]] for at in range(0, len(data), geometry[0])])
    except image_reader.Refused:
        return False
    return image_reader.word(bytes(functools.reduce(lambda a, b: [x ^ y for x, y in zip(a, b)], (pair.move for pair in pairs)))) >> 20 & 0x7FF != 0


def has_beginnings(tree):
    """Whether in some directory one name is the beginning of another."""
    names = collections.defaultdict(list)
    for path in filter(None, tree):
        names[path.rpartition(b"/")[0]].append(path.rpartition(b"/")[2])
    return any(b.startswith(a) for below in names.values() for a, b in zip(sorted(below), sorted(below)[1:]))


# Comparing


class Table:
    """What came of the images of each kind."""

    def __init__(self, options):
        self.options, self.rows, self.causes, self.told = options, {}, {}, collections.Counter()

    def count(self, kind, column, number=1):
        self.rows.setdefault(kind, collections.Counter())[column] += number

    def fault(self, case, column, what):
        """Something that may not be: the first few of a kind are told, and the images left."""
        self.count(case.kind, column)
        self.told[case.kind, column] += 1
        if self.told[case.kind, column] <= 2:
            print(f"{case.kind}: {column}: {what} ({os.path.basename(case.image)})", file=sys.stderr)
            shutil.copy(case.image, self.options.keep)

    def refused(self, case, tree, who, count):
        why = cause(case.image, case.geometry, tree)
        if why == "half moved" and case.cut and 0 < case.cycles <= 25 and len(who) == count:
            self.count(case.kind, "half moved")
        else:
            self.fault(case, "refused", f"{why}, by {' and '.join(who)}")
            self.causes.setdefault(case.kind, collections.Counter())[why] += 1

    def show(self):
        width = max(map(len, self.rows))
        print(" " * width + "".join(f"{column:>13}" for column in COLUMNS))
        for kind, row in self.rows.items():
            causes = ", ".join(f"{why}: {count}" for why, count in self.causes.get(kind, {}).items())
            print(f"{kind:{width}}" + "".join(f"{row[column]:13}" for column in COLUMNS) + (f"  refused: {causes}" if causes else ""))

    def failed(self):
        return any(row[column] for row in self.rows.values() for column in COLUMNS[2:] if column != "half moved")


def profiles_of(case):
    """By which an image is read: where version 2.1 may be in it, also by one that accepts it."""
    return [profiles.ALSO_2_1, profiles.DEFAULT] if case.newer else [profiles.DEFAULT]


def lines_of(case, profile, asked):
    """A script that asks a session of an image. A script has the default profile at first, and behind each image."""
    opening = [profile.line()] if case.newer else []
    return opening + [f"image {case.geometry[0]} {case.geometry[1]} {case.image}"] + [line for line, _ in asked]


def compare(options, table, cases):
    """Counts what littlefs and the readers here make of each image."""
    batches = [cases[at : at + BATCH] for at in range(0, len(cases), BATCH)]
    for read in options.each(lambda batch: read_batch(options, batch), batches):
        for story in read:
            judge(table, *story)


def read_batch(options, cases):
    """Of each image: the case, what littlefs shows, the tree, and what the readers here say by each profile. One session is asked of all."""
    script, stories = [], []
    for case in cases:
        ended = case.cut and has_move(case.image, case.geometry)
        shown = littlefs_code.shown(case.code or options.code, case.image, case.geometry, ended)
        tree = case.tree or (shown.tree if shown else None)
        asked = list(questions(tree)) if tree else []
        stories.append((case, shown, tree, asked))
        script += [line for profile in profiles_of(case) for line in lines_of(case, profile, asked)]
    answers, read = answers_of(options.script, script) if options.script else [], []
    for case, shown, tree, asked in stories:
        said = []
        for profile in profiles_of(case):
            count = len(lines_of(case, profile, asked))
            told, answers = answers[:count], answers[count:]
            said += [read_here(options, case, tree, asked, told[-1 - len(asked) :], profile)] if tree else []
        read.append((case, shown, tree, said))
    return read


def judge(table, case, shown, tree, read):
    table.count(case.kind, "images")
    if tree is None:
        table.fault(case, "differences", "littlefs does not show it")
        return
    table.count(case.kind, "entries", len(tree) - 1)
    judge_littlefs(table, case, shown, tree)
    judge_readers(table, case, tree, read[0])
    if case.newer:
        judge_default(table, case, tree, read[1])


def judge_littlefs(table, case, shown, tree):
    """Whether littlefs shows the tree that it has to."""
    if shown is None:
        table.fault(case, "differences", "littlefs does not show it")
        return
    unlisted = set(tree) - set(shown.tree) - shown.missing
    for path in sorted(shown.missing | unlisted | case.missing):
        table.fault(case, "not found", path)
    for path in sorted(shown.twice):
        table.fault(case, "twice", path)
    wrong = [path for path in shown.tree if path not in tree or shown.tree[path] != tree[path]]
    for path in sorted(wrong) + case.wrong:
        table.fault(case, "differences", f"littlefs shows another {path}")


def refused_and_others(tree, answers):
    """Who refuses an image, and who shows another tree."""
    refused = [who for who, answer in answers.items() if answer == CORRUPT]
    return refused, [who for who, answer in answers.items() if answer not in (CORRUPT, lines(tree))]


def judge_readers(table, case, tree, answers):
    """Whether what was read here is the tree."""
    refused, others = refused_and_others(tree, answers)
    if refused:
        table.refused(case, tree, refused, len(answers))
    if others:
        table.fault(case, "differences", f"{' and '.join(others)}: {answers[others[0]][:200]}")


def judge_default(table, case, tree, answers):
    """The same of an image that littlefs had in its default version, where version 2.0 alone is accepted."""
    refused, others = refused_and_others(tree, answers)
    later = has_later_version(case.image, case.geometry)
    if others:
        table.fault(case, "older trees", f"by {' and '.join(others)}")
    elif case.written and later is False:
        table.fault(case, "differences", "littlefs has written to it, and it isn't of version 2.1")
    elif (case.written or later) and len(refused) < len(answers):
        table.fault(case, "differences", "version 2.1 is accepted")
    elif later is False and refused:
        table.fault(case, "differences", f"refused as it was by {' and '.join(refused)}")


def has_later_version(image, geometry):
    """Whether a superblock of the image is of version 2.1. None where its pairs aren't known."""
    with open(image, "rb") as it:
        data = it.read()
    try:
        pairs = image_reader.read_thread(image_reader.blocks_of(data, geometry[0]))
    except image_reader.Refused:
        return None
    superblocks = [slot for pair in pairs for slot in pair.slots if slot.kind == image_reader.SUPERBLOCK]
    return any(image_reader.word(slot.struct[1]) == profiles.TWO_ONE for slot in superblocks)


def main():
    parser = argparse.ArgumentParser(description=__doc__.split("\n")[0])
    parser.add_argument("littlefs", type=os.path.abspath)
    parser.add_argument("script", nargs="?", type=os.path.abspath)
    parser.add_argument("tool", nargs="?", type=os.path.abspath)
    parser.add_argument("--count", type=int, default=200)
    parser.add_argument("--operations", type=int, default=10000)
    parser.add_argument("--seed", default="exchange")
    parser.add_argument("--only", type=lambda words: words.split(","), default=list(exchange_kinds.GROUPS))
    parser.add_argument("--keep", type=os.path.abspath, default=".")
    parser.add_argument("--jobs", type=int, default=1)
    options = parser.parse_args()
    if not set(options.only) <= set(exchange_kinds.GROUPS):
        parser.error(f"the groups are {', '.join(exchange_kinds.GROUPS)}")
    table = Table(options)
    with tempfile.TemporaryDirectory() as options.room, ThreadPoolExecutor(options.jobs) as pool:
        options.each = lambda do, them: list(pool.map(do, them))
        options.build = lambda name, **words: littlefs_code.build(options.littlefs, f"{options.room}/{name}", VERSION, **words)
        options.code = options.build("exchange")
        options.newest = littlefs_code.build(options.littlefs, f"{options.room}/exchange_newest")
        for cases in exchange_kinds.all_cases(options):
            compare(options, table, cases)
            for case in cases:
                os.unlink(case.image)
    print(f"littlefs {littlefs_code.release(options.littlefs)}, {options.count} images of each kind, {options.operations} operations of long use")
    table.show()
    return table.failed()


if __name__ == "__main__":
    sys.exit(main())
