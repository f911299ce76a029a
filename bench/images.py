#!/usr/bin/env python3
"""What `mklittlefs -l` answers for images of any kind, beside a plain reader that shares nothing with it.

usage: images.py [PROGRAM] [--count N] [--seed WORD] [--keep FOLDER] [--also-2.1] [--name-max N] [--file-max N] [--attr-max N] [--inline-max N]

PROGRAM is a built mklittlefs. The images: fixed ones whose answers are written down; one with each byte of two blocks inverted
in turn; and N that are made at random, whole ones and ones that were changed, in their bytes or in one field with the
checksums right again. Output, errors and status are compared with what the reader (image_reader.py) answers. Prints for each
kind how many images there were and what the reader said of them, and each difference; an image on which they differ is left
in FOLDER. Without PROGRAM the reader alone is tried: the fixed answers, and that made images list as the trees they were
made of. With --also-2.1 images of that version are made too; PROGRAM and the reader accept them. With a limit the superblocks
of the images that are made have it. Fails where anything differs.
"""

import argparse
import collections
import os
import random
import subprocess
import sys
import tempfile

import image_cases
import image_maker
import image_reader
import profiles
from image_maker import NULL, REMOVED, Commit, Entry, Log, numbers

KINDS = [0x001, 0x002, 0x0ff, 0x200, 0x201, 0x202, 0x300, 0x3ff, 0x401, 0x4ff, 0x500, 0x501, 0x502, 0x5ff, 0x600, 0x601, 0x7ff, 0x003, 0x203, 0x400, 0x602, 0x700]
NUMBERS = [("Corrupt", 84), ("Invalid", 22)]


# What may be changed of a plan; where it has nothing of the kind the plan stays as it was


def logs(plan):
    return [what for what in plan.blocks.values() if isinstance(what, Log)]


def some_log(rnd, plan):
    return rnd.choice(logs(plan) or [Log(1, [Commit([])])])


def some_entry(rnd, plan, *kinds):
    """An entry of one of the kinds (of any, without them); one of no log, where there is none."""
    found = [entry for log in logs(plan) for commit in log.commits for entry in commit.entries if not kinds or entry.kind in kinds]
    return rnd.choice(found) if found else Entry(0x201, 0, bytes(12))


def some_block(rnd, plan):
    return rnd.choice([0, 1, plan.count - 1, plan.count, NULL, rnd.randrange(plan.count), rnd.choice(list(plan.blocks)), rnd.getrandbits(32)])


def put_word(rnd, data, value, *places):
    at = rnd.choice(places)
    return data[:at] + numbers(value) + data[at + 4 :]


def tag(rnd, plan):
    entry = some_entry(rnd, plan)
    field = rnd.randrange(4)
    if field == 0:
        alike = {0x001: 0x002, 0x002: 0x001, 0x200: 0x202, 0x202: 0x200, 0x401: 0x4ff, 0x4ff: 0x401}.get(entry.kind, 0x341)
        entry.kind = rnd.choice([alike, rnd.choice(KINDS), entry.kind ^ 1 << rnd.randrange(12)])
    elif field == 1:
        entry.ident = rnd.choice([0, 1, entry.ident ^ 1, min(entry.ident + 1, 0x3ff), 0x3fe, 0x3ff])
    elif field == 2:
        entry.length = rnd.choice([0, 1, len(entry.data) ^ 1, len(entry.data) + 1, 1022, REMOVED, REMOVED])
        if entry.length == REMOVED and rnd.random() < 0.8:
            entry.data = b""
    else:
        length = rnd.choice([0, 1, 3, 4, 7, 8, 9, 11, 12, 13, 24])
        entry.data = (entry.data + rnd.randbytes(24))[:length]


def address(rnd, plan):
    entry = some_entry(rnd, plan, 0x200, 0x600, 0x601)
    other = some_entry(rnd, plan, 0x200, 0x600, 0x601)
    how = rnd.randrange(4)
    if how == 0:
        entry.data = entry.data[4:8] + entry.data[:4] + entry.data[8:]
    elif how == 1:
        entry.data = rnd.choice([other.data[:8], numbers(0, 1), numbers(NULL, NULL)])
    else:
        entry.data = put_word(rnd, entry.data, some_block(rnd, plan), 0, 4)


def tails(rnd, plan):
    entry = some_entry(rnd, plan, 0x600, 0x601)
    if entry.kind >= 0x600:
        entry.kind ^= 1


def skip_list(rnd, plan):
    entry = some_entry(rnd, plan, 0x202)
    size = int.from_bytes(entry.data[4:8], "little")
    sizes = [0, 1, size + 1, size - 1, size ^ 1024, plan.block_size, 2147483647, 0x80000000, NULL, rnd.randrange(20000)]
    if rnd.random() < 0.5:
        entry.data = put_word(rnd, entry.data, some_block(rnd, plan), 0)
    else:
        entry.data = put_word(rnd, entry.data, rnd.choice(sizes), 4)


def pointer(rnd, plan):
    lists = [block for block, what in plan.blocks.items() if isinstance(what, bytes)]
    if lists:
        block = rnd.choice(lists)
        plan.blocks[block] = put_word(rnd, plan.blocks[block].ljust(12, b"\0"), some_block(rnd, plan), 0, 0, 4, 8)


def name(rnd, plan):
    entry, other = some_entry(rnd, plan, 1, 2), some_entry(rnd, plan, 1, 2)
    if entry.kind < 3:
        entry.data = rnd.choice([b"", b".", b"..", b"...", b"a/b", b"a\0", b"n" * 255, b"n" * 256, b"littlefs", other.data, entry.data + b"a", entry.data[:-1]])


def moves(rnd, plan):
    """A state on top of one that is there, or one more entry."""
    first = rnd.choice([1 << 31, 0x400, 1, 1 << 20, 0x4ff << 20 | rnd.randrange(6) << 10, 1 << 31 | 0x4ff << 20 | 1 << 10, rnd.getrandbits(32)])
    pair = rnd.choice([(0, 0), (0, 1), tuple(rnd.sample(sorted(plan.blocks), 2)) if len(plan.blocks) > 1 else (1, 0)])
    tail = some_entry(rnd, plan, 0x600, 0x601).data
    state = rnd.choice([numbers(first, *pair), numbers(first) + tail[:8], numbers(0, 0, 0)])
    entry = some_entry(rnd, plan, 0x7ff)
    if entry.kind == 0x7ff and rnd.random() < 0.5:
        entry.data = bytes(a ^ b for a, b in zip(entry.data, state))
    else:
        rnd.choice(some_log(rnd, plan).commits).entries.append(Entry(0x7ff, 0x3ff, state))


def checksum(rnd, plan):
    commit = rnd.choice(some_log(rnd, plan).commits)
    field = rnd.randrange(3)
    if field == 0:
        commit.length = rnd.choice([0, 3, 4, 5, 8, 1022, REMOVED, rnd.randrange(1024)])
    elif field == 1:
        commit.kind = rnd.choice([0x500, 0x501, 0x502, 0x503, 0x5ff, 0x400, 0xd00])
    else:
        commit.wrong = rnd.choice([NULL, 1, 0x80000000, rnd.getrandbits(32)])


def head(rnd, plan):
    """A field of a superblock, its name, or its length."""
    entry = rnd.choice([some_entry(rnd, plan, 0x0ff), some_entry(rnd, plan, 0x201)])
    fields = [e for log in logs(plan) for c in log.commits for e in c.entries if e.kind == 0x201 and len(e.data) == 24 and e.ident == 0]
    if fields and rnd.random() < 0.8:
        entry = rnd.choice(fields)
        entry.data = put_word(rnd, entry.data, rnd.choice([0, 1, 0x20001, 0x10007, 32, NULL, plan.count + 1, plan.block_size * 2]), 0, 4, 8, 12, 16, 20)
    else:
        entry.data = rnd.choice([entry.data[:-1], entry.data + b"s", entry.data[:-1] + b"S"])


def revision(rnd, plan):
    log = some_log(rnd, plan)
    log.revision = (log.revision + rnd.choice([1, -1, 2**31, 2**31 - 1, 2**30])) & NULL


def entries(rnd, plan):
    commit = rnd.choice(some_log(rnd, plan).commits)
    some = commit.entries
    at, how = rnd.randrange(len(some) + 1), rnd.randrange(5)
    if how == 0:
        del some[at : at + 1]
    elif how == 1:
        some.insert(at, Entry(rnd.choice(KINDS), rnd.choice([0, 1, 2, 3, 0x3ff]), rnd.randbytes(rnd.choice([0, 0, 1, 8, 12]))))
    elif how == 2:
        some.insert(at, some_entry(rnd, plan))
    elif how == 3:
        some[at : at + 2] = some[at : at + 2][::-1]
    else:
        some.insert(at, Entry(rnd.choice([0x401, 0x4ff]), rnd.randrange(4)))


def blocks(rnd, plan):
    """Two blocks of the image exchanged, or one copied."""
    one, other = rnd.choice(list(plan.blocks)), rnd.randrange(plan.count)
    before = plan.blocks.get(other, b"")
    plan.blocks[other] = plan.blocks[one]
    if rnd.random() < 0.5:
        plan.blocks[one] = before


PLANNED = [tag, address, tails, skip_list, pointer, name, moves, checksum, head, revision, entries, blocks]


# What may be changed of the bytes


def flipped(rnd, plan):
    image = bytearray(plan.image())
    for _ in range(rnd.choice([1, 1, 1, 2, 5])):
        block = rnd.choice(list(plan.blocks))
        reach = rnd.choice([64, 300, plan.block_size])
        image[block * plan.block_size + rnd.randrange(reach)] ^= rnd.choice([1 << rnd.randrange(8), rnd.randrange(1, 256)])
    return bytes(image)


def resized(rnd, plan):
    image = plan.image()
    size = rnd.choice([len(image) + plan.block_size * rnd.choice([1, -1, 2, -2]), rnd.randrange(len(image)), plan.block_size * rnd.randrange(4)])
    return image[:size].ljust(size, b"\xff")


def rubbish(rnd, plan):
    """Any bytes from some place on, a block or more."""
    image = plan.image()
    at = rnd.randrange(len(image))
    return image[:at] + rnd.randbytes(min(plan.block_size, len(image) - at)) + image[at + plan.block_size :]


WHOLE = "made"
RAW = [flipped, flipped, flipped, resized, rubbish]
MIXED = "orders"  # a tree whose directories may have different orders of names
MADE = [WHOLE, WHOLE, MIXED] + PLANNED + PLANNED + RAW


def made_image(seed, number, profile):
    """Kind, image, geometry, and what it has to list where that is known."""
    rnd, how = random.Random(f"{seed}/{number}"), MADE[number % len(MADE)]
    plan, lines = image_maker.random_plan(rnd, mixed=how == MIXED, profile=profile)
    geometry = (plan.block_size, plan.page)
    if how == MIXED:
        return how, plan.image(), geometry, None
    if how == WHOLE:
        return how, plan.image(), geometry, lines
    if how in RAW:
        return how.__name__, how(rnd, plan), geometry, None
    for change in [how] + rnd.choice([[], [], [rnd.choice(PLANNED)]]):
        change(rnd, plan)
    return how.__name__, plan.image(), geometry, None


def all_images(count, seed, profile):
    """(kind, what, image, geometry, the answer where it is known)"""
    for what, image, geometry, answer in image_cases.cases(profile):
        yield "fixed", what, image, geometry, answer
    for what, image, geometry in image_cases.every_byte():
        yield "each byte", what, image, geometry, None
    for number in range(count):
        kind, image, geometry, answer = made_image(seed, number, profile)
        yield kind, f"{seed}/{number}", image, geometry, answer


def read(image, geometry, profile):
    try:
        return image_reader.listing(image, *geometry, profile)
    except image_reader.Refused as refused:
        return str(refused)


def told(program, path, image, geometry, profile):
    """Status, output and errors of the program."""
    with open(path, "wb") as file:
        file.write(image)
    words = [program, "-l", "-b", str(geometry[0]), "-p", str(geometry[1]), *later(profile), path]
    run = subprocess.run(words, capture_output=True, timeout=120)
    return run.returncode, run.stdout, run.stderr


def later(profile):
    """What a reading takes of a profile: the limits are the image's own."""
    return profiles.Profile(profile.versions).options()


def expected(answer):
    if isinstance(answer, bytes):
        return 0, answer, b""
    return 1, b"", b"error: %s (%d)\n" % (answer.encode(), dict(NUMBERS)[answer])


def compare(options, path):
    answers, differences, profile = collections.defaultdict(collections.Counter), 0, profiles.chosen(options)
    for kind, what, image, geometry, known in all_images(options.count, options.seed, profile):
        answer = read(image, geometry, profile)
        answers[kind]["listed" if isinstance(answer, bytes) else answer] += 1
        wrong = [] if known in (None, answer) else [("written down", known)]
        if options.program:
            run = told(options.program, path, image, geometry, profile)
            wrong += [("program", run)] if run != expected(answer) else []
        for side, other in wrong:
            differences += 1
            print(f"DIFFERENCE {kind}, {what}, block {geometry[0]}, page {geometry[1]}: reader {answer!r}, {side} {other!r}")
            if options.keep:
                kept = os.path.join(options.keep, f"{kind}-{what}.img".replace("/", "-").replace(" ", "-"))
                with open(kept, "wb") as file:
                    file.write(image)
    return answers, differences


def main():
    parser = argparse.ArgumentParser(description=__doc__.split("\n")[0])
    parser.add_argument("program", nargs="?", type=os.path.abspath)
    parser.add_argument("--count", type=int, default=20000)
    parser.add_argument("--seed", default="images")
    parser.add_argument("--keep")
    profiles.add_options(parser)
    options = parser.parse_args()
    with tempfile.TemporaryDirectory() as room:
        answers, differences = compare(options, os.path.join(room, "image"))
    for kind, seen in answers.items():
        print(f"{kind:12}{sum(seen.values()):7} images: " + ", ".join(f"{count} {answer}" for answer, count in seen.most_common()))
    print(f"{sum(sum(seen.values()) for seen in answers.values())} images, {differences} differences")
    return differences > 0


if __name__ == "__main__":
    sys.exit(main())
