#!/usr/bin/env python3
"""What sessions answer and leave where a call of the device fails, where the device stops, and where memory is refused.

usage: stops.py PROGRAM [--only WORD] [--stops WORD] [--count N] [--seed WORD] [--keep FOLDER]

PROGRAM is a built lfs_script. Each story is a device or an image and some operations; what they answer and which tree stands
before and behind each is worked out by session_model.py, which shares nothing with the crates. In turn, from the first call of
the mount on:

- each call of the device fails once: that operation answers Io, all later ones Failed, without a call of the device; a remount
  finds the tree from before the operation or from behind it;
- the device stops at each call, before it, with one byte, 20 or 100 bytes of a program stored, and behind it; and at each erase
  with 1, 4 or 100 bytes of the old block left, or all but one: a mount finds one of these trees, a recovery keeps it, and nothing
  is left to recover; the blocks used are those of that tree;
- and the recovery of what that left is itself stopped at each of its calls, in the same way;
- each allocation is refused: all answers are right, or one is NoMemory and the later ones Failed, and a remount finds one of
  these trees.

In some stories metadata pairs move, as the profile's `pair_cycles` has it: the root's, first ones of directories, and those behind
these. Which moved is read from the images behind each operation (image_reader.py). Whether the used blocks are right a session says
that is compared with a mount.

Last come N stories made at random (contents.py), each stopped at one call, and its recovery at one.

With `--stops` only the stops that have the word are tried, and no failed calls and refused allocations: `--stops kept` tries erases that
leave a part of the old block.

Prints for each story how many there were of each. Fails where anything else came; the script of it is left in FOLDER.
"""

import argparse
import collections
import itertools
import os
import random
import subprocess
import sys
import tempfile

from contents import made
import image_reader
from fail_alloc import Refusing
from session_model import Model, Node, looks, seen

EXTENTS = ["", " torn 1", " torn 20", " torn 100", " whole"]
KEPT = [1, 4, 100]  # and all bytes of a block but one
MOST_CALLS = 2000
TOLD = ("failed calls", "stops", "stops in a recovery", "erases", "erases in a recovery", "refused allocations", "wrong")
IO, FAILED, NO_SESSION, NO_MEMORY = "error Io 5", "refused Failed 200", "error none", "error NoMemory 12"
top = os.path.dirname(os.path.dirname(os.path.abspath(__file__)))


def names(*letters):
    return [f"/{letter * 200}" for letter in letters]


FILE_MADE_AND_MOVED = ["mkdir /d", "open /d/f 102", "write 0 *5000:a", "seek 0 10", "write 0 b", "close 0", "set-attr /d/f 41 x",
                       "rename /d/f /g", "remove /d", "list /", "open /g 1", "read 0 5000", "close 0", "used-count"]
ENTRIES = ["mkdir /a", "mkdir /a/b", "open /a/f 102", "write 0 hello", "close 0", "set-attr /a/f 41 x", "set-attr /a 42 yy", "rename /a/f /a/b/g",
           "rename /a/b/g /h", "rename /h /i", "open /k 102", "close 0", "rename /k /i", "mkdir /e", "rename /a/b /e", "rename /e /a/c", "mkdir /l",
           "rename /l /a/c", "remove-attr /a 42", "remove /a/c", "remove /a", "remove /i"]
WRITES = ["open /a 102", "write 0 *200:a", "sync 0", "write 0 *2000:b", "truncate 0 1500", "sync 0", "seek 0 3000", "write 0 c", "seek 0 5", "write 0 *1500:d",
          "close 0", "open /a 802", "write 0 *1000:e", "close 0", "open /a 402", "close 0", "open /a 2", "write 0 *128:f", "close 0", "remove /a"]
SPLIT = [line for path in names("b", "c", "d", "e") for line in (f"open {path} 102", "close 0")] + [f"remove {path}" for path in names("b", "c", "d", "e")]
BESIDE = ["open /a 102", "write 0 *3000:a", "mkdir /d", "open /d/f 1", "set-attr /a 41 x", "rename /d /e", "remove /e", "close 0"]
D, HELLO, HI = Node(), Node(b"hello"), Node(b"hi")
FILES = {b"": Node(), b"/a": HELLO, b"/d": D, b"/d/f": HI}
MOVING = {b"": Node(), b"/d": D, b"/g": HI}
OTHER_ENTRIES = ["mkdir /x", "open /y 102", "write 0 *2000:y", "close 0"]


class Story:
    """What a device or an image begins as, operations with their answers, and the tree before each of them and behind the last.

    With a number of cycles pairs move, and `moves` says which have to: "root", "first" of a directory, "later" ones behind these. With
    `blanks` the device says which bytes are blank."""

    def __init__(self, name, begin, ops, tree=None, extra=0, counted=True, cycles=0, moves=(), blanks=False):
        self.name, self.begin, self.ops, self.extra, self.counted = name, begin, ops, extra, counted and not cycles
        self.opening = [f"profile pair-cycles {cycles}"] * (cycles > 0) + ["blank-checks"] * blanks
        self.cycles, self.moves, self.blanks = cycles, moves, blanks
        words = begin.split(" ")
        self.sizes = (int(words[1]), int(words[2]), int(words[3]) if words[0] == "fresh" else 16)
        model = Model(*self.sizes, tree, extra)
        self.trees, self.answers = [model.tree], []
        for op in ops:
            before = {path: Node(node.content, dict(node.attributes)) for path, node in model.tree.items()}
            self.trees[-1] = before
            self.answers.append(model.answer(op))
            self.trees.append(model.tree)
        self.stops = [("any", extent) for extent in EXTENTS] + [("erase", f" kept {kept}") for kept in KEPT + [self.sizes[0] - 1]]
        self.looks = looks(self.trees)
        self.behind = self.looks + ["recover"] + self.looks + ["gstate", "compare" if cycles else "used-count"]

    def trees_at(self, op):
        """Where an operation didn't end: its number, -1 for a mount, None where all ended."""
        return [self.trees[-1]] if op is None else [self.trees[0]] if op < 0 else self.trees[op : op + 2]

    def is_shown(self, answers, trees):
        """Whether one of the trees is seen, also behind a recovery, which leaves nothing."""
        return any(answers == self.answers_of(tree, answers) for tree in trees)

    def answers_of(self, tree, answers):
        shown = seen(tree, self.looks)
        used = f"count {Model(*self.sizes, tree, self.extra).used()}" if self.counted else "same" if self.cycles else (answers or [""])[-1]
        return shown + ["done"] + shown + ["gstate 0 none", used]


def written_anew(path, times):
    return [line for time in range(times) for line in (f"open {path} 502", f"write 0 *{40 + time}:{'abcdefgh'[time % 8]}", "close 0")]


# each of these entries is changed so often that the pair of its directory wears
IN_ROOT = written_anew("/a", 16) + ["set-attr /a 41 x", "mkdir /d", "rename /a /b", "remove /d"] + written_anew("/b", 8)
IN_DIRECTORY = ["mkdir /d"] + written_anew("/d/a", 16) + ["set-attr /d/a 41 x", "rename /d/a /d/b"] + written_anew("/d/b", 8)
IN_DIRECTORY += ["rename /d/b /c", "remove /d"]
IN_BOTH = ["mkdir /d", "mkdir /d/e"] + [line for time in range(6) for path in ("/a", "/d/a", "/d/e/a") for line in written_anew(path, 1 + time % 2)]
IN_BOTH += ["rename /d/a /d/e/b", "rename /d/e /e", "remove /a", "remove /d", "set-attr /e 42 yy", "list /e"]
AGAIN_AND_AGAIN = ["mkdir /d"] + [line for time in range(7) for line in written_anew("/d/a", 2) + ["remove /d/a"]] + ["remove /d"]
SPLIT_AND_MOVED = SPLIT[: len(SPLIT) // 3 * 2] + written_anew("/a", 6) + SPLIT[len(SPLIT) // 3 * 2 :] + written_anew("/a", 6)


def moving_stories():
    for erased in "", " keep", " fill 00":
        yield Story("pairs of the root that move", "fresh 1024 128 64" + erased, IN_ROOT, cycles=2, moves=("root", "later"))
    yield Story("pairs of a directory that move", "fresh 1024 128 64", IN_DIRECTORY, cycles=2, moves=("first", "later"))
    yield Story("pairs of all that move", "fresh 1024 128 64", IN_BOTH, cycles=2, moves=("root", "first", "later"))
    yield Story("pairs that move after each operation", "fresh 1024 128 64", ENTRIES, cycles=1, moves=("root", "later"))
    yield Story("a directory's pair that moves and empties", "fresh 1024 128 64", AGAIN_AND_AGAIN, cycles=2, moves=("first",))
    yield Story("pairs that move, are split and dropped", "fresh 1024 128 64", SPLIT_AND_MOVED, cycles=2, moves=("root", "later"))
    yield Story("pairs that move beside an open file", "fresh 1024 128 64", BESIDE, cycles=1, moves=("root", "later"))
    yield Story("pairs that move where a move was cut short", "image 4096 256 moving.img", ["mkdir /e"] + OTHER_ENTRIES, MOVING, cycles=1,
                moves=("root", "later"))
    yield Story("pairs that move where few blocks are free", "fresh 1024 128 6", written_anew("/a", 20), cycles=2, moves=("root", "later"))
    yield Story("pairs that stay where too few blocks are free", "fresh 1024 128 4", written_anew("/a", 20), cycles=2)
    yield Story("pairs of all that move, on a device that knows blank bytes", "fresh 1024 128 64", IN_BOTH, cycles=2,
                moves=("root", "first", "later"), blanks=True)


def stories():
    yield Story("a file made and moved", "fresh 1024 128 64", FILE_MADE_AND_MOVED)
    yield Story("the same, where erases keep the bytes", "fresh 1024 128 64 keep", FILE_MADE_AND_MOVED)
    yield Story("the same, where erases leave zeros", "fresh 1024 128 64 fill 00", FILE_MADE_AND_MOVED)
    yield Story("entries that come, go and move", "fresh 1024 128 64", ENTRIES)
    yield Story("the same, where erases keep the bytes", "fresh 1024 128 64 keep", ENTRIES)
    yield Story("a file written anew", "fresh 1024 128 64", WRITES)
    yield Story("a pair split and dropped", "fresh 1024 128 64", SPLIT, counted=False)
    yield Story("a file made and moved, on a device that knows blank bytes", "fresh 1024 128 64", FILE_MADE_AND_MOVED, blanks=True)
    yield Story("the same, where erases keep the bytes", "fresh 1024 128 64 keep", FILE_MADE_AND_MOVED, blanks=True)
    yield Story("entries that come, go and move, on a device that knows blank bytes", "fresh 1024 128 64", ENTRIES, blanks=True)
    yield Story("a move between directories, on a device that knows blank bytes", "image 4096 256 files.img", ["rename /d/f /g"], FILES, blanks=True)
    yield Story("a directory made where a move was cut short, on such a device", "image 4096 256 moving.img", ["mkdir /e"], MOVING, blanks=True)
    yield Story("entries beside an open file", "fresh 1024 128 64", BESIDE)
    yield Story("a move between directories", "image 4096 256 files.img", ["rename /d/f /g"], FILES)
    yield Story("a move onto a file", "image 4096 256 files.img", ["rename /d/f /a"], FILES)
    yield Story("a directory moved onto another", "image 4096 256 files.img", ["mkdir /e", "rename /d /e"], FILES)
    yield Story("entries of an image", "image 4096 256 files.img", OTHER_ENTRIES + ["set-attr /d 41 x", "remove /a", "remove /d/f", "remove /d"], FILES)
    yield Story("a directory made where a move was cut short", "image 4096 256 moving.img", ["mkdir /e"], MOVING)
    yield Story("the same, ended", "image 4096 256 moving.img", ["recover"], MOVING)
    yield Story("a directory made where no path leads to one", "image 4096 256 unreached.img", ["mkdir /e"], {b"": Node()})
    yield Story("a directory made where files are lost", "image 4096 256 lost_files.img", ["mkdir /e"], {b"": Node(), b"/f": HI})
    yield Story("entries behind two superblocks", "image 4096 256 chain.img", ["mkdir /d"] + OTHER_ENTRIES, {b"": Node(), b"/a": HI}, extra=1)


def moves_between(before, after):
    """Which pairs an operation moved, by the pairs of the image before it and behind it: the root's where a fresh pair comes behind one that
    keeps the superblock alone, the first one of a directory where a fresh pair comes behind one that keeps nothing, and a later one where
    a pair names a fresh one in place of one that is gone."""
    were, are = {pair.address: pair for pair in before}, {pair.address: pair for pair in after}
    found = set()
    for old, new in ((were[at], are[at]) for at in were.keys() & are.keys()):
        if not new.tail[0] or new.tail[1] in were:
            continue
        if old.tail[0] and old.tail[1] not in are:
            found.add("later")
        elif old.slots and all(slot.kind == image_reader.SUPERBLOCK for slot in new.slots):
            found.add("root" if new.slots else "first")
    return found


class Wrong(Exception):
    pass


def hold(fact, what):
    if not fact:
        raise Wrong(what)


def played(program, data, cases, opening=()):
    """The answers of each script, all played by one run with these lines before them."""
    text = "\n".join([*opening, *(line for case in cases for line in case)]) + "\n"
    run = subprocess.run([program], cwd=data, input=text.encode(), capture_output=True, timeout=600)
    answers = run.stdout.decode().split("\n")[len(opening) : -1]
    if run.returncode or len(answers) != sum(map(len, cases)):
        sys.exit(f"a script isn't carried out: status {run.returncode}, {run.stderr!r}")
    at = 0
    for case in cases:
        yield answers[at : at + len(case)]
        at += len(case)


def unfinished(story, answers, error):
    """Which operation answers the error, -1 for the mount; None where all are right. `answers` are those of the mount and of the operations."""
    wanted = ["done"] + story.answers
    first = next((at for at, (answer, right) in enumerate(zip(answers, wanted)) if answer != right), None)
    if first is None:
        return None
    hold(answers[first] == error, f"{(['mount'] + story.ops)[first]}: {answers[first]}")
    later = FAILED if first else NO_SESSION
    hold(all(answer == later for answer in answers[first + 1 :]), "an answer behind the error")
    return first - 1


def failing_once(story, nth):
    return [story.begin, f"mount any {nth}"] + story.ops + ["calls", "stat /", "mkdir /never", "calls", "remount"] + story.behind


def judge_once(story, answers):
    count = 2 + len(story.ops)
    op = unfinished(story, answers[1:count], IO)
    calls, root, made, again, remounted = answers[count : count + 5]
    if op is not None:
        later = FAILED if op >= 0 else NO_SESSION
        hold((root, made, again) == (later, later, calls), "a call of the device, or an answer, of a session that has failed")
        hold(op < 0 or remounted == "done", "no remount")
        hold(op < 0 or story.is_shown(answers[count + 5 :], story.trees_at(op)), "another tree")
    return op is not None


def stopping(story, nth, stop):
    kind, extent = stop
    return [story.begin, f"mount {kind} {nth} stop{extent}"] + story.ops + ["unmount", "mount"] + story.behind


def judge_stop(story, answers):
    count = 2 + len(story.ops)
    op = unfinished(story, answers[1:count], IO)
    hold(answers[count + 1] == "done", "no mount")
    hold(story.is_shown(answers[count + 2 :], story.trees_at(op)), "another tree")
    return op is not None


def stopping_twice(story, nth, stop, second):
    kind, extent = stop
    again = ["unmount", f"mount {kind} {second} stop{extent}", "recover", "unmount", "mount"]
    return [story.begin, f"mount {kind} {nth} stop{extent}"] + story.ops + again + story.behind


def judge_twice(story, answers):
    count = 2 + len(story.ops)
    op = unfinished(story, answers[1:count], IO)
    _, mounted, recovered, _, last = answers[count : count + 5]
    hold((mounted, recovered) in ((IO, NO_SESSION), ("done", IO), ("done", "done")) and last == "done", "a recovery, or a mount behind it")
    hold(story.is_shown(answers[count + 5 :], story.trees_at(op)), "another tree")
    return recovered != "done"


def kept(options, case, what):
    print(f"  WRONG: {what}", flush=True)
    if options.keep:
        path = os.path.join(options.keep, f"{abs(hash(tuple(case)))}.script")
        with open(path, "w") as file:
            file.write("\n".join(case) + "\n")
        print(f"  {path}")


def sweep(options, story, cases, judge, batch=40):
    """How many scripts in turn an error ended, up to the first one that it didn't, and how many were wrong."""
    count, wrong = 0, 0
    while True:
        some = list(itertools.islice(cases, batch))
        if not some:
            return count, wrong
        for case, answers in zip(some, played(options.program, options.data, some, story.opening)):
            try:
                if not judge(story, answers):
                    return count, wrong
            except Wrong as told:
                kept(options, story.opening + case, told)
                wrong += 1
            count += 1


def chosen_stops(options, story):
    return [stop for stop in story.stops if options.stops in " ".join(stop)]


def sweeps(options, story):
    turns = range(1, MOST_CALLS)
    counts, wrong = collections.Counter(), 0
    if not options.stops:
        counts["failed calls"], wrong = sweep(options, story, (failing_once(story, nth) for nth in turns), judge_once)
    for stop in chosen_stops(options, story):
        kind = "erases" if stop[0] == "erase" else "stops"
        stops, more = sweep(options, story, (stopping(story, nth, stop) for nth in turns), judge_stop)
        counts[kind], wrong = counts[kind] + stops, wrong + more
        for nth in range(1, stops + 2):
            twice, more = sweep(options, story, (stopping_twice(story, nth, stop, second) for second in turns), judge_twice, 12)
            counts[f"{kind} in a recovery"], wrong = counts[f"{kind} in a recovery"] + twice, wrong + more
    counts["wrong"] = wrong
    return counts


def has_moved(options, story, room):
    """Whether the pairs move that have to, where nothing fails."""
    paths = [os.path.join(room, f"{at}.img") for at in range(1 + len(story.ops))]
    case = [story.begin, f"save {paths[0]}"] + [line for op, path in zip(story.ops, paths[1:]) for line in (op, f"save {path}")]
    answers, threads, found = next(played(options.program, options.data, [case], story.opening)), [], set()
    for path in paths:
        with open(path, "rb") as it:
            threads.append(image_reader.read_thread(image_reader.blocks_of(it.read(), story.sizes[0])))
        os.unlink(path)
    for before, after in zip(threads, threads[1:]):
        found |= moves_between(before, after)
    is_right = found >= set(story.moves) and answers[2::2] == story.answers
    if not is_right:
        kept(options, story.opening + case, f"these pairs moved: {', '.join(sorted(found)) or 'none'}; or another answer")
    return is_right


# Stories at random


def at_random(options):
    """How many stories were stopped, in an operation and in a recovery, and how many were wrong."""
    counts = collections.Counter()
    for first in range(0, options.count, 40):
        turns = [random_turn(options, number) for number in range(first, min(first + 40, options.count))]
        for (story, case), answers in zip(turns, played(options.program, options.data, [case for _, case in turns])):
            try:
                counts["stops in a recovery"] += judge_twice(story, answers)
                counts["stops"] += answers[1 + len(story.ops)] != story.answers[-1]
            except Wrong as told:
                kept(options, case, told)
                counts["wrong"] += 1
    return counts


def random_turn(options, number):
    rnd = random.Random(f"{options.seed}/{number}")
    blocks, ops = made(options.seed, number)
    begin = f"fresh 1024 128 {blocks}" + rnd.choice(["", " keep", " fill 00"])
    story = Story("at random", begin, [op for op in ops if op != "remount"])
    stop = rnd.choice(chosen_stops(options, story))
    return story, stopping_twice(story, rnd.randrange(1, 150 if stop[0] == "any" else 40), stop, rnd.randrange(1, 12))


# Refused allocations


def without_memory(story):
    return [story.begin, "mount"] + story.ops + ["remount"] + story.behind


def judge_memory(story, run):
    """Whether the answers are right up to one that there is no memory, if there is one, and nothing is lost."""
    case, answers = without_memory(story), run.stdout.decode().split("\n")[len(story.opening) : -1]
    count = 2 + len(story.ops)
    wanted = ["done", "done"] + story.answers + ["done"] + story.answers_of(story.trees[-1], answers)
    if run.returncode:
        hold((run.returncode, run.stderr) == (1, b"error: NoMemory (12)\n") and answers == wanted[: len(answers)], "an end without memory")
        return
    first = next((at for at, (answer, right) in enumerate(zip(answers, wanted)) if answer != right), None)
    if first is None:
        hold(len(answers) == len(case), "answers are missing")
        return
    if first == 0:  # a device that isn't made, or whose file isn't read; what is left of a format isn't spoken of
        hold(answers[0] in (NO_MEMORY, "error input"), f"{case[0]}: {answers[0]}")
        return
    hold(answers[first] == NO_MEMORY, f"{case[first]}: {answers[first]}")
    later = FAILED if first > 1 else NO_SESSION
    if first < count:
        hold(all(answer == later for answer in answers[first + 1 : count]), "an answer behind the error")
        op = first - 2
        hold(op < 0 or answers[count] == "done" and story.is_shown(answers[count + 1 :], story.trees_at(op)), "another tree, or no remount")
    else:
        hold(all(answer == FAILED for answer in answers[first + 1 :]), "an answer behind the error")


def refusals(options, story, refusing):
    """How many allocations were refused in turn, and how many of these runs were wrong."""
    case, wrong = without_memory(story), 0
    text = ("\n".join(story.opening + case) + "\n").encode()
    for nth in range(1, 1000000):
        run, is_refused = refusing.run([options.program], nth, cwd=options.data, input=text)
        if not is_refused:
            return nth - 1, wrong
        try:
            judge_memory(story, run)
        except Wrong as what:
            kept(options, [f"# its allocation {nth} refused"] + story.opening + case, what)
            wrong += 1


def main():
    parser = argparse.ArgumentParser(description=__doc__.split("\n")[0])
    parser.add_argument("program", type=os.path.abspath)
    parser.add_argument("--only", default="")
    parser.add_argument("--stops", default="")
    parser.add_argument("--count", type=int, default=5000)
    parser.add_argument("--seed", default="stops")
    parser.add_argument("--keep")
    options = parser.parse_args()
    options.data = os.path.join(top, "crates", "lfs_script", "data")
    wrong = 0
    with tempfile.TemporaryDirectory() as room:
        refusing = Refusing(room)
        for story in itertools.chain(stories(), moving_stories()):
            if options.only not in story.name:
                continue
            counts = sweeps(options, story)
            counts["wrong"] += not has_moved(options, story, room)
            if not options.stops:
                counts["refused allocations"], more = refusals(options, story, refusing)
                counts["wrong"] += more
            wrong += counts["wrong"]
            told = ", ".join(f"{counts[what]} {what}" for what in TOLD)
            print(f"{story.name} ({story.begin}): {told}", flush=True)
    counts = at_random(options) if options.only in "at random" else collections.Counter()
    print(f"at random: {counts['stops']} stops, {counts['stops in a recovery']} stops in a recovery, {counts['wrong']} wrong")
    return wrong + counts["wrong"] > 0


if __name__ == "__main__":
    sys.exit(main())
