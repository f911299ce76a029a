#!/usr/bin/env python3
"""What `mklittlefs --check` says of images of any kind, beside a plain reader that shares nothing with it.

usage: check.py [PROGRAM] [--count N] [--seed WORD] [--keep FOLDER] [--also-2.1] [--name-max N] [--file-max N] [--attr-max N] [--inline-max N]

PROGRAM is a built mklittlefs. The images are those of images.py, N of them at random, and N more that aim at a rule: whole
ones whose newest log has one more commit, or that are checked with other sizes. Status, output and errors are compared:

- Of an image that the reader (image_reader.py) accepts, all lines, as check_lines.py works them out from what the reader reads.
  Where it isn't writable, the cause is the first of those that are true: other limits, long inline, an empty pair, too large.
- Of any other one, `corrupt` and a line that has to be true. check_lines.py makes each line that is true of the image, from the
  addresses, logs and slots that the reader finds in it. That of PROGRAM has to be one of these, and of the first part that
  has any: the superblock in block 0 or 1 by its place, the sizes, the thread, and then everything else: the superblock's chain
  and its first entry, the other slots, the move, the lists of files, the order of names in each directory, where entries lead,
  and the directories that no path reaches.
  One of them is for the rule at which the reader stops. So there always is one.

Prints for each kind of image how many were accepted, how often each line on order, recovery and writing came of these, and for
each kind of line of the others how often it came, how often the reader stopped at the same rule, and at which others. An image
on which they differ is left in FOLDER. Without PROGRAM the reader and the lines made here are tried alone, as if PROGRAM printed
the first of these lines. With a version or a limit PROGRAM is given it, the images that are made have it, and an image is writable
by it. Fails where anything differs.
"""

import argparse
import collections
import os
import random
import re
import subprocess
import sys
import tempfile

import image_maker
import image_reader
import images
import profiles
from check_lines import INCOMPLETE, LINES_OF, known_of
from image_maker import NULL, REMOVED, Commit, Entry, Log, numbers
from image_reader import CREATE, DELETE, FILE, FOLDER, INLINE, LIST, NONE, PAIR_STRUCT, SUPERBLOCK


# Images that aim at a rule: entries for one more commit of the log that holds in a pair, and blocks beside it


def fields_of(rnd, plan):
    """A superblock's 24 bytes, mostly with one number changed."""
    data = image_maker.superblock(plan.block_size, plan.count).data
    value = rnd.choice([0, 1, 32, 0x20001, 0x10007, plan.count + 1, plan.block_size * 2, NULL, rnd.getrandbits(32)])
    return images.put_word(rnd, data, value, 0, 4, 8, 12, 16, 20) if rnd.random() < 0.8 else data


def some_struct(rnd, plan, ident, *kinds):
    kind = rnd.choice(kinds)
    data = rnd.randbytes(rnd.choice([0, 5, 24])) if kind == INLINE else numbers(rnd.randrange(plan.count), rnd.randrange(plan.count))
    return Entry(kind, ident, data)


def tails(rnd, plan, pairs, pair):
    """A tail to a pair of any blocks."""
    at = rnd.choice(rnd.choice(pairs).address)
    free = [block for block in range(plan.count) if block not in plan.blocks] or [0]
    outside = [plan.count + rnd.randrange(3), rnd.getrandbits(32)]
    some = [images.some_block(rnd, plan), at, rnd.choice(free), rnd.choice(free)] + outside
    one, other = rnd.choice([(at, at), (at, rnd.choice(some)), (rnd.choice(some), at), *[rnd.sample(some, 2)] * 2])
    return [image_maker.tail((one, other), rnd.random() < 0.5)]


def malformed(rnd, plan, pairs, pair):
    """An entry of any kind, length and id, and perhaps another that makes good what it did."""
    kind, ident = rnd.choice(images.KINDS), rnd.choice([0, 1, len(pair.slots), len(pair.slots) + 1, NONE])
    data = rnd.randbytes(rnd.choice([0, 1, 8, 12, image_reader.FIXED.get(kind, 3)]))
    return [Entry(kind, ident, data, rnd.choice([None, None, None, REMOVED]))] + [Entry(DELETE, ident)] * rnd.randrange(2)


def incomplete(rnd, plan, pairs, pair):
    """A slot without a name or a struct."""
    count, name = len(pair.slots), image_maker.random_name(rnd)
    slots = [Entry(CREATE, rnd.randint(0, count))], [Entry(FILE, count, name)], [Entry(FOLDER, count, name)]
    behind = [Entry(FILE, count + rnd.randint(1, 3), name)]
    return rnd.choice([*slots, behind, [Entry(SUPERBLOCK, count, b"littlefs")]])


def heads(rnd, plan, pairs, pair):
    """Slot 0: a superblock's struct, another one, a file's name, or no such slot."""
    struct = Entry(INLINE, 0, fields_of(rnd, plan))
    shorter = Entry(INLINE, 0, rnd.randbytes(rnd.choice([0, 23, 25])))
    other = [some_struct(rnd, plan, 0, INLINE, LIST, PAIR_STRUCT)]
    name = [Entry(FILE, 0, b"f"), some_struct(rnd, plan, 0, INLINE)]
    renamed = [Entry(SUPERBLOCK, 0, b"LITTLEFS")]
    return rnd.choice([[struct], [struct], [struct], [shorter], other, name, [Entry(DELETE, 0)], renamed])


def second_superblocks(rnd, plan, pairs, pair):
    ident = rnd.randint(0, len(pair.slots))
    made = [Entry(CREATE, ident)] * rnd.randrange(2)
    return made + [Entry(SUPERBLOCK, ident, b"littlefs"), Entry(INLINE, ident, fields_of(rnd, plan))]


def slots(rnd, plan, pairs, pair):
    """A slot's name, kind or struct, or one more slot."""
    ident = rnd.randint(0, len(pair.slots))
    bad = [b"", b".", b"..", b"a/b", b"a\0", b"n" * 256, b'"', b"\\\x80 ", b"/"]
    name = Entry(rnd.choice([FILE, FOLDER]), ident, rnd.choice(bad + [image_maker.random_name(rnd)]))
    struct = some_struct(rnd, plan, ident, INLINE, LIST, PAIR_STRUCT)
    return rnd.choice([[name], [name, struct], [name, struct], [struct]])


def attributes(rnd, plan, pairs, pair):
    """Many bytes of attributes, or of contents: an image that is accepted may be beyond what is written."""
    ident, most = rnd.randrange(len(pair.slots) or 1), plan.block_size // 3
    kind, removed = 0x300 + rnd.randrange(3), Entry(0x300, ident, b"", REMOVED)
    given = [Entry(kind, ident, rnd.randbytes(min(rnd.randrange(most), 1022))) for _ in range(rnd.randrange(3))]
    return rnd.choice([given, given + [removed], [Entry(INLINE, ident, rnd.randbytes(min(rnd.randrange(most), 1022)))]])


def moves(rnd, plan, pairs, pair):
    """A move state on top of those that are there."""
    address = rnd.sample(rnd.choice(pairs).address, 2)
    set_move = 0x4ff << 20 | rnd.randrange(6) << 10
    word = rnd.choice([0, 1 << 31, set_move, set_move, 1 << 20, 1 << 10])
    return [image_maker.move(word, rnd.choice([(0, 0), address]))]


def large(rnd, plan, pairs, pair):
    """Attributes with which an entry or its pair may be larger than it is written."""
    ident, most = rnd.choice(entry_ids(pair) or [0]), min(plan.block_size // 4, 1022)
    return [Entry(0x300 + kind, ident, rnd.randbytes(most)) for kind in range(rnd.randint(1, 3))]


def entry_ids(pair):
    return [ident for ident, slot in enumerate(pair.slots) if slot.kind != SUPERBLOCK]


def folder_ids(pair):
    return [ident for ident, slot in enumerate(pair.slots) if slot.kind == FOLDER]


def free_blocks(rnd, plan, pairs):
    """Two blocks that nothing has, or blocks 0 and 1 where there aren't two."""
    used = {block for pair in pairs for block in pair.address} | set(plan.blocks)
    free = [block for block in range(plan.count) if block not in used]
    return tuple(rnd.sample(free, 2)) if len(free) > 1 else (0, 1)


def some_entry(rnd, pair):
    """The id and the name of an entry, or of one more."""
    ident = rnd.choice(entry_ids(pair) or [len(pair.slots)])
    return ident, pair.slots[ident].name if ident < len(pair.slots) else b"d"


def lists(rnd, plan, pairs, pair):
    """A file on blocks that may have an owner, or on one block twice."""
    ident, name = some_entry(rnd, pair)
    head, first = (rnd.choice([*free_blocks(rnd, plan, pairs), *plan.blocks]) for _ in range(2))
    if not isinstance(plan.blocks.get(head), Log):
        plan.blocks[head] = numbers(rnd.choice([head, first]))
    size = rnd.choice([1, plan.block_size, plan.block_size + 1])
    return [Entry(FILE, ident, name), Entry(LIST, ident, numbers(head, size))]


def branches(rnd, plan, pairs, pair):
    """An entry that names a directory, any pair, the first one, or two blocks that are none, whatever it was before."""
    (ident, name), addresses = some_entry(rnd, pair), [other.address for other in pairs]
    named = [image_reader.words(other.slots[at].struct[1]) for other in pairs for at in folder_ids(other)] or addresses
    address = rnd.choice([rnd.choice(named), rnd.choice(named), rnd.choice(addresses), (0, 1), free_blocks(rnd, plan, pairs)])
    return [Entry(FOLDER, ident, name), Entry(PAIR_STRUCT, ident, numbers(*rnd.sample(address, 2)))]


def orders(rnd, plan, pairs, pair):
    """Two names more that begin with a slot's name, each right behind that slot or right in front of it."""
    made, ids = [], entry_ids(pair)
    for ident in sorted(rnd.choices(ids, k=2) if ids else [], reverse=True):
        at, more = ident + rnd.randrange(2), bytes([rnd.choice(image_maker.LETTERS)])
        made += [Entry(CREATE, at), Entry(FILE, at, (pair.slots[ident].name + more)[:255]), Entry(INLINE, at)]
    return made


def other_sync(pair):
    """A pair's move state with which the sync bit is turned."""
    return Entry(0x7ff, NONE, bytes(a ^ b for a, b in zip(pair.move, numbers(1 << 31, 0, 0))))


def unreached(rnd, plan, pairs, pair):
    """The entry of a directory is gone, or the sync bit is turned, or both."""
    gone = [Entry(DELETE, ident) for ident in folder_ids(pair)]
    return rnd.choice([gone[:1], gone[:1], gone[-1:] + [other_sync(pair)], [other_sync(pair)]])


def empty_pairs(rnd, plan, pairs, pair):
    """A pair's slots are gone, and the sync bit is turned if they named directories; or the last pair goes on with an empty one."""
    if pair is not pairs[-1]:
        return [Entry(DELETE, 0) for _ in pair.slots] + ([other_sync(pair)] if folder_ids(pair) else [])
    address = free_blocks(rnd, plan, pairs)
    plan.blocks.setdefault(address[0], Log(1, [Commit([])]))
    return [image_maker.tail(address, hard=True)]


def first_entries(rnd, plan, pairs, pair):
    """What comes in front of the superblock's name, and means nothing then."""
    named = [Entry(FILE, 0, b"f")], [Entry(CREATE, 0)], [Entry(SUPERBLOCK, 0, b"LITTLEFS")]
    others = [], [image_maker.forward_checksum(rnd)], [image_maker.move(0)], [image_maker.tail((NULL, NULL))]
    return rnd.choice([*named, *others])


AIMED = [tails, malformed, incomplete, heads, heads, second_superblocks, slots, slots, attributes, large, moves, lists,
         branches, branches, orders, unreached, empty_pairs, first_entries]
OF_FOLDERS = [branches, unreached]
SIZES = [1024, 1536, 2048, 4096, 8192, 65536, 0, 1, 512, 1000, 65537, 131072, NULL]
PAGES = [8, 16, 64, 128, 256, 512, 0, 1, 4, 24, 1024, NULL]


def holding(plan, blocks, address):
    """The log in the plan that holds at an address."""
    held = image_reader.held_log(blocks, address)
    logs = [block for block in address if isinstance(plan.blocks.get(block), Log)]
    return next(plan.blocks[block] for block in logs if image_reader.read_log(blocks[block]) == held)


def pairs_for(aim, pairs):
    """The pairs into whose log a commit goes."""
    root = image_reader.last_superblock(pairs)
    going_on = [pair for before, pair in zip(pairs[root:], pairs[root + 1 :]) if before.tail[0]]
    filled, with_entries = [pair for pair in pairs if pair.slots], [pair for pair in pairs if entry_ids(pair)]
    of_aim = {heads: pairs[: root + 1], first_entries: filled[:1], lists: with_entries, branches: with_entries, orders: with_entries,
              unreached: [pair for pair in pairs if folder_ids(pair)], empty_pairs: going_on + pairs[-1:]}
    return of_aim.get(aim) or pairs


def with_a_commit(rnd, plan, aim):
    blocks = image_reader.blocks_of(plan.image(), plan.block_size)
    pairs = image_reader.read_thread(blocks)
    pair = rnd.choice(pairs_for(aim, pairs))
    commits, more = holding(plan, blocks, pair.address).commits, Commit(aim(rnd, plan, pairs, pair))
    commits.insert(0 if aim == first_entries else len(commits), more)
    first = holding(plan, blocks, (0, 1))
    if rnd.random() < 0.8:  # nothing is said of an older superblock
        plan.blocks = {block: what for block, what in plan.blocks.items() if block > 1 or what is first}


def random_plan(rnd, with_folders, profile):
    """A random plan, with directories where that matters."""
    plan, lines = image_maker.random_plan(rnd, profile=profile)
    while with_folders and b"d 0 " not in lines:
        plan, lines = image_maker.random_plan(rnd, profile=profile)
    return plan


def aimed_image(seed, number, profile):
    """Kind, image and geometry."""
    rnd, aim = random.Random(f"{seed}/aimed/{number}"), [*AIMED, None][number % (len(AIMED) + 1)]
    plan = random_plan(rnd, aim in OF_FOLDERS, profile)
    if aim is None:
        return "other sizes", plan.image(), rnd.choice([(rnd.choice(SIZES), plan.page), (plan.block_size, rnd.choice(PAGES))])
    with_a_commit(rnd, plan, aim)
    return "aimed " + aim.__name__.replace("_", " "), plan.image(), (plan.block_size, plan.page)


def all_images(count, seed, profile):
    """(kind, what, image, geometry)"""
    for kind, what, image, geometry, _ in images.all_images(count, seed, profile):
        yield kind, what, image, geometry
    for number in range(count):
        kind, image, geometry = aimed_image(seed, number, profile)
        yield kind, f"{seed}/aimed/{number}", image, geometry


def told(program, path, image, geometry, profile):
    """Status, output and errors of the program."""
    with open(path, "wb") as file:
        file.write(image)
    words = [program, "--check", "-b", str(geometry[0]), "-p", str(geometry[1]), *profile.options(), path]
    run = subprocess.run(words, capture_output=True, timeout=120)
    return run.returncode, run.stdout.decode("latin-1"), run.stderr.decode("latin-1")


def first_line(known):
    """What a program would answer that finds the first of the true lines."""
    if known.rule is None:
        return 0, known.summary, ""
    return 1, "corrupt\n%s\n" % next(iter(known.first())), ""


def faults_here(known):
    """Where the reader and the lines made here don't agree."""
    kinds = {kind for part in known.parts for kind, _ in part}
    if known.rule is None and kinds - {"by place"}:
        yield f"the reader accepts it, and there is {kinds}"
    if known.rule is not None and not (LINES_OF[known.rule] | INCOMPLETE) & kinds:
        yield f"the reader stops at {known.rule!r}, and there is {kinds}"


def faults_of(known, run):
    """What is wrong with an answer of the program."""
    status, out, errors = run
    if known.rule is None:
        if run != (0, known.summary, ""):
            yield f"the program answers {run!r}, and it is {known.summary!r}"
        return
    text = line_of(out)
    if status != 1 or errors or text is None:
        yield f"the program answers {run!r}, and the reader stops at {known.rule!r}"
    elif text not in known.first():
        later = any(text == other for part in known.parts for _, other in part)
        yield f"{text!r} is {'true of a later part' if later else 'not true'}, the first true lines are {list(known.first())}"


def is_same(kind, rule):
    """Whether a kind of line is for the rule at which the reader stops."""
    return kind in LINES_OF[rule] or rule == "struct" and kind in INCOMPLETE


def line_of(out):
    """The line that says why, or None where that isn't all."""
    is_whole = out.startswith("corrupt\n") and out.endswith("\n") and out.count("\n") == 2
    return out[len("corrupt\n") : -1] if is_whole else None


def without_place(line):
    """A line without where it is, and without the number of a limit."""
    return re.sub(r"_max \d+", "_max", re.sub(r"pair \d+ \d+(, slot \d+)?: ", "", line))


class Counts:
    """How many images of each kind there were, and lines of each kind."""

    def __init__(self):
        self.images = collections.defaultdict(collections.Counter)
        self.lines = collections.defaultdict(collections.Counter)
        self.accepted = collections.Counter()

    def add(self, kind, known, run):
        self.images[kind]["corrupt" if known.rule else "ok"] += 1
        if known.rule is None:
            self.accepted.update(map(without_place, run[1].splitlines()[5:]))
        else:
            self.lines[known.first().get(line_of(run[1]), "no true line")][known.rule] += 1

    def show(self):
        for kind, seen in self.images.items():
            answers = ", ".join(f"{count} {answer}" for answer, count in seen.most_common())
            print(f"{kind:26}{sum(seen.values()):7} images: {answers}")
        print("Lines of the accepted ones: " + ", ".join(f"{count} {line}" for line, count in sorted(self.accepted.items())))
        for kind, rules in sorted(self.lines.items()):
            others = ", ".join(f"{count} {rule}" for rule, count in rules.most_common() if not is_same(kind, rule))
            same = sum(count for rule, count in rules.items() if is_same(kind, rule))
            print(f"{kind:26}{sum(rules.values()):7} lines, {same} for the rule at which the reader stops; else it stops at: {others or '-'}")


def compare(options, path):
    counts, differences, profile = Counts(), 0, profiles.chosen(options)
    for kind, what, image, geometry in all_images(options.count, options.seed, profile):
        known = known_of(image, geometry, profile)
        run = told(options.program, path, image, geometry, profile) if options.program else first_line(known)
        counts.add(kind, known, run)
        wrong = [*faults_here(known), *faults_of(known, run)]
        for fault in wrong:
            print(f"DIFFERENCE {kind}, {what}, block {geometry[0]}, page {geometry[1]}: {fault}")
        differences += len(wrong)
        if wrong and options.keep:
            kept = os.path.join(options.keep, f"{kind}-{what}.img".replace("/", "-").replace(" ", "-"))
            with open(kept, "wb") as file:
                file.write(image)
    return counts, differences


def main():
    parser = argparse.ArgumentParser(description=__doc__.split("\n")[0])
    parser.add_argument("program", nargs="?", type=os.path.abspath)
    parser.add_argument("--count", type=int, default=20000)
    parser.add_argument("--seed", default="check")
    parser.add_argument("--keep")
    profiles.add_options(parser)
    options = parser.parse_args()
    with tempfile.TemporaryDirectory() as room:
        counts, differences = compare(options, os.path.join(room, "image"))
    counts.show()
    print(f"{sum(sum(seen.values()) for seen in counts.images.values())} images, {differences} differences")
    return differences > 0


if __name__ == "__main__":
    sys.exit(main())
