"""Fixed images with the answers that the rules of docs/FORMAT.md give: `cases(profile)` yields (what, image, geometry, answer).

An answer is the listing in bytes, or the error's name. Geometry is (block size, page). Without a profile version 2.0 alone is accepted.
"""

import profiles
from image_maker import Commit, Entry, Log, folder, inline, list_of, listed, move, numbers, simple_plan, superblock, tail

NULL = 0xffffffff
HEAD = superblock(4096, 16)
HI = inline(b"f", b"hi")
SET_MOVE = 0x4ff00000
# A log of a file `x` up to the middle of its checksum's entry, in 132 bytes: with 0xff behind them the checksum is right.
NEARLY = bytes.fromhex(
    "02000000F00FFFF76C6974746C6566732FE00010000002000010000010000000FF000000FFFFFF7FFE0300006000041840000001"
    "78200000468639E6A0") + bytes(67) + bytes.fromhex("701FF83B")
START = bytes.fromhex("01000000F00FFFF76C6974746C656673" "2FE000100000020000100000" "10000000FF000000FFFFFF7FFE030000" "701FFCC8")


def plan(*pairs, **more):
    return simple_plan(pairs, **more)


def root(*slots):
    return plan([(0, 1), [HEAD, *slots]])


def shifting():
    """A file `b`, then `a` before it, `a` deleted, an attribute of `b`: a commit each, padded to its page."""
    made = root()
    commits = made.blocks[0].commits
    for name in b"b", b"a":
        commits.append(Commit([Entry(0x401, 1), Entry(0x001, 1, name), Entry(0x201, 1)]))
    commits += [Commit([Entry(0x4ff, 1)]), Commit([Entry(0x341, 1, b"x")])]
    image = made.image()
    assert image.startswith(START) and image[256:270] == bytes.fromhex("101FF8D0" "40000001" "62" "20000001" "70")
    return image


def altered(image, at, by=0xff):
    return image[:at] + bytes([image[at] ^ by]) + image[at + 1 :]


def with_lists(*files, pairs=(), wrong=None):
    """Files of the root as (name, head, size); 9,000 bytes stand as a list on the blocks 4, 5, 6."""
    made = plan([(0, 1), [HEAD, *(listed(*file) for file in files)]], *pairs)
    list_of(made, b"z" * 9000, [4, 5, 6])
    if wrong:
        made.blocks[6] = made.blocks[6][:4] + numbers(wrong) + made.blocks[6][8:]
    return made


def only_checksum_of_three():
    made = root()
    made.blocks[0].commits[0].length = 3
    return made


def behind_nothing():
    """A superblock whose commit isn't the first: another one, of no entry but its checksum, stands before it."""
    made = root()
    made.blocks[0].commits.insert(0, Commit([]))
    return made


def after(*entries):
    """A root with an empty file `f`, and a second commit of these entries."""
    made = root(inline(b"f", b""))
    made.blocks[0].commits.append(Commit(list(entries)))
    return made


def logs():
    """What a log may say of slots, and what makes it malformed even where it is made good later."""
    name, contents, gone = Entry(0x001, 2, b"g"), Entry(0x201, 2, b"hi"), Entry(0x4ff, 2)
    yield "a second file", after(name, contents), b"f 0 /f\nf 2 /g\n"
    yield "a struct before its name", after(Entry(0x401, 2), contents, name), "Corrupt"
    yield "a struct of no slot", after(contents, name, contents), "Corrupt"
    yield "a slot without a struct", after(name), "Corrupt"
    yield "a slot without a struct, deleted", after(name, gone), b"f 0 /f\n"
    yield "a slot between that is empty", after(Entry(0x001, 3, b"g"), Entry(0x201, 3, b"hi")), "Corrupt"
    yield "a slot between that is deleted", after(Entry(0x001, 3, b"g"), Entry(0x201, 3, b"hi"), gone), b"f 0 /f\nf 2 /g\n"
    yield "a create behind the count", after(Entry(0x401, 3), gone), "Corrupt"
    yield "a delete of no slot", after(gone), "Corrupt"
    yield "an attribute removed that isn't there", after(Entry(0x341, 1, length=0x3ff)), b"f 0 /f\n"
    yield "an attribute of no slot", after(Entry(0x341, 2, b"x")), "Corrupt"
    yield "an attribute before its name", after(Entry(0x401, 2), Entry(0x341, 2, length=0x3ff), name, contents), "Corrupt"
    yield "contents removed", after(Entry(0x201, 1, length=0x3ff)), "Corrupt"
    yield "a name removed, and given", after(Entry(0x001, 1, length=0x3ff), Entry(0x001, 1, b"g")), "Corrupt"
    yield "a create with a byte", after(Entry(0x401, 2, b"x"), name, contents), "Corrupt"
    yield "an unknown type", after(Entry(0x003, 1, b"g")), "Corrupt"
    yield "a file with a directory's struct", after(name, Entry(0x200, 2, numbers(2, 3))), "Corrupt"
    yield "a directory with a list's struct", after(Entry(0x002, 2, b"g"), Entry(0x202, 2, numbers(2, 3))), "Corrupt"
    yield "the superblock under another name", after(Entry(0x0ff, 0, b"LITTLEFS")), "Corrupt"
    yield "the superblock renamed", after(Entry(0x001, 0, b"littlefs")), "Corrupt"
    yield "a tail and a state with ids", after(Entry(0x600, 7, numbers(NULL, NULL)), Entry(0x7ff, 8, numbers(0x3ff, 0, 0))), b"f 0 /f\n"
    yield "another kind of checksum within", after(Entry(0x502, 0x3ff, bytes(4))), b"f 0 /f\n"


def either_order():
    """Two blocks of one revision that differ; the thread's naming says which one holds."""
    made = plan([(0, 1), [HEAD, folder(b"d", 3, 2)], tail((2, 3))], [(2, 3), [inline(b"x", b"")]])
    made.blocks[3] = Log(1, [Commit(inline(b"y", b"").entries(0))])
    return made


def unreached(sync):
    return plan([(0, 1), [HEAD], tail((2, 3)), move(sync << 31)], [(2, 3), []])


def chain(*first, second=None, rest=()):
    return plan([(0, 1), [HEAD, *first], tail((2, 3), hard=True)], [(2, 3), [second] * bool(second) + list(rest)])


def plans():
    moved = listed(b"f", 16, 5)
    below = [(2, 3), [HI]]
    yield "a fresh image", root(), b""
    yield "a tail {0, 1}", plan([(0, 1), [HEAD], tail((0, 1))]), "Corrupt"
    yield "a tail {2, null}", plan([(0, 1), [HEAD], tail((2, NULL))]), "Corrupt"
    yield "a tail of two nulls", plan([(0, 1), [HEAD], tail((NULL, NULL))]), b""
    yield "a tail {2, 2}", plan([(0, 1), [HEAD, folder(b"d", 2, 2)], tail((2, 2))], below), "Corrupt"
    yield "a tail back to {2, 3}", plan([(0, 1), [HEAD, folder(b"d", 2, 3)], tail((2, 3))], below + [tail((2, 3))]), "Corrupt"
    yield "a list", with_lists((b"f", 6, 9000)), b"f 9000 /f\n"
    yield "two lists on one block", with_lists((b"f", 6, 9000), (b"g", 4, 7)), "Corrupt"
    yield "a list on block 1", with_lists((b"f", 1, 7)), "Corrupt"
    yield "a list's head 16", with_lists((b"f", 16, 7)), "Corrupt"
    yield "a list of size 0", with_lists((b"f", 6, 0)), "Corrupt"
    yield "a list of size 0x80000000", with_lists((b"f", 6, 0x80000000)), "Corrupt"
    yield "a wrong pointer 1", with_lists((b"f", 6, 9000), wrong=5), "Corrupt"
    yield "a directory {0, 1}", root(folder(b"d", 0, 1)), "Corrupt"
    yield "a directory named {3, 2}", either_order(), b"d 0 /d\nf 0 /d/x\n"
    yield "two directories {2, 3}", plan([(0, 1), [HEAD, folder(b"d", 2, 3), folder(b"e", 2, 3)], tail((2, 3))], below), "Corrupt"
    yield "the names b, a", root(inline(b"b", b""), inline(b"a", b"")), "Corrupt"
    yield "the name a twice", root(inline(b"a", b""), inline(b"a", b"")), "Corrupt"
    for name in b".", b"..", b"a/b", b"a\0b", b"", b"n" * 256:
        yield "the name " + ascii(name)[1:20], root(inline(name, b"")), "Corrupt"
    yield "a move's id without a move", plan([(0, 1), [HEAD], move(0x400)]), "Corrupt"
    yield "a move of the superblock", plan([(0, 1), [HEAD], move(SET_MOVE, (0, 1))]), "Corrupt"
    yield "a moved list that isn't one", plan([(0, 1), [HEAD, moved, HI], move(SET_MOVE | 0x400, (0, 1))]), b"f 2 /f\n"
    yield "a checksum of three bytes", only_checksum_of_three(), "Corrupt"
    yield "a superblock behind an empty commit", behind_nothing(), "Corrupt"
    yield "a moved file in a directory", plan(
        [(0, 1), [HEAD, folder(b"d", 2, 3), inline(b"g", b"hi")], tail((2, 3)), move(SET_MOVE, (2, 3))], below), b"d 0 /d\nf 2 /g\n"
    yield "an unreached pair, sync", unreached(1), b""
    yield "an unreached pair", unreached(0), "Corrupt"
    yield "600 bytes inline", root(inline(b"f", bytes(600))), b"f 600 /f\n"
    yield "a name limit of 32", plan([(0, 1), [superblock(4096, 16, names=32)]]), b""
    yield "a name to escape", root(inline(bytes.fromhex("610a5cc3a9"), b"")), b"f 0 /a\\x0a\\x5c\\xc3\\xa9\n"
    yield "a second superblock", chain(second=HEAD, rest=[inline(b"a", b"hi")]), b"f 2 /a\n"
    yield "a second superblock of 17 blocks", chain(second=superblock(4096, 17)), "Corrupt"
    yield "a file before a second superblock", chain(inline(b"z", b""), second=HEAD), "Corrupt"
    yield "a superblock alone, no second", chain(rest=[inline(b"a", b"hi")]), b"f 2 /a\n"


def named(*names):
    return [inline(name, b"") for name in names]


def two_folders(first, second):
    """Names of the root, beside a directory `d` with others."""
    return plan([(0, 1), [HEAD, folder(b"d", 2, 3), *named(*first)], tail((2, 3))], [(2, 3), named(*second)])


def orders():
    """Names of which one is the beginning of another."""
    long, short, lines = [b"log.old", b"log"], [b"log", b"log.old"], b"f 0 /log\nf 0 /log.old\n"
    below = b"d 0 /d\nf 0 /d/log\nf 0 /d/log.old\n"
    moved = move(SET_MOVE | 3 << 10, (0, 1))
    yield "the longer name first", root(*named(*long)), lines
    yield "the shorter name first", root(*named(*short)), lines
    yield "the longer name first in two folders", two_folders(long, long), below + lines
    yield "the shorter name first in two folders", two_folders(short, short), below + lines
    yield "the longer name first, and then the shorter", two_folders(long, short), "Corrupt"
    yield "the shorter name first, and then the longer", two_folders(short, long), "Corrupt"
    yield "both orders in one folder", root(*named(b"a.b", b"a", b"log", b"log.old")), "Corrupt"
    yield "the other order in no reached folder", plan(
        [(0, 1), [HEAD, *named(*short)], tail((2, 3)), move(1 << 31)], [(2, 3), named(*long)]), lines
    yield "the longer name first, over two pairs", plan(
        [(0, 1), [HEAD, *named(b"log.old")], tail((2, 3), hard=True)], [(2, 3), named(b"log")]), lines
    yield "the shorter name first, over two pairs, and a moved one", plan(
        [(0, 1), [HEAD, *named(*short, b"log")], tail((2, 3), hard=True), moved], [(2, 3), named(b"log.older")]), lines + b"f 0 /log.older\n"
    yield "the shorter name first, then the longer in the next pair", plan(
        [(0, 1), [HEAD, *named(*short)], tail((2, 3), hard=True)], [(2, 3), named(b"log.o")]), "Corrupt"
    yield "a moved name in neither order", plan([(0, 1), [HEAD, *named(*long, b"a")], moved]), lines
    yield "three names, the longest first", root(*named(b"abc", b"ab", b"a")), b"f 0 /a\nf 0 /ab\nf 0 /abc\n"
    yield "three names, the middle one first", root(*named(b"ab", b"a", b"abc")), "Corrupt"
    yield "a longer name in front of others", root(*named(b"ab", b"a", b"b")), b"f 0 /a\nf 0 /ab\nf 0 /b\n"
    yield "a beginning behind another name", root(*named(b"aa", b"ab", b"a")), b"f 0 /a\nf 0 /aa\nf 0 /ab\n"
    yield "a beginning between two", root(*named(b"aa", b"a", b"ab")), "Corrupt"


def forward(*entries, ident=0x3ff, length=8, told=None):
    """A root with a file `f`, a forward checksum behind it, and then a commit of these entries and the file `g`."""
    made = after(*entries, *inline(b"g", b"").entries(2))
    made.blocks[0].commits[0].entries.append(Entry(0x5ff, ident, bytes(length), told))
    return made


def forward_first():
    made = root()
    made.blocks[0].commits[0].entries.insert(0, Entry(0x5ff, 0x3ff, bytes(8)))
    return made


def forward_checksums(profile):
    """An entry of version 2.1 means nothing; but the version of the superblock behind it counts."""
    newer = Entry(0x201, 0, superblock(4096, 16, version=profiles.TWO_ONE).data)
    both = b"f 0 /f\nf 0 /g\n"
    for length in 0, 1, 4, 8, 12, 200, 1022:
        yield f"a forward checksum of {length} bytes", forward(length=length), both
        yield f"version 2.1 behind one of {length} bytes", forward(newer, length=length), where_later(profile, both)
    yield "a forward checksum without data in the first commit", forward(length=0, told=0x3ff), "Corrupt"
    yield "a forward checksum without data", after(Entry(0x5ff, 0x3ff, length=0x3ff), newer), b"f 0 /f\n"
    yield "a forward checksum past the block", after(Entry(0x5ff, 0x3ff, bytes(8)), *[Entry(0x5ff, 0x3ff, bytes(1022))] * 4, newer), b"f 0 /f\n"
    yield "a forward checksum of no slot's id", forward(ident=77), both
    yield "a forward checksum first", forward_first(), "Corrupt"
    yield "forward checksums alone", after(*[Entry(0x5ff, 0x3ff, bytes(8))] * 3), b"f 0 /f\n"
    yield "another type of class 5", after(Entry(0x5fe, 0x3ff, bytes(8)), newer), b"f 0 /f\n"


def where_later(profile, lines):
    """The answer for an image of version 2.1."""
    return lines if profiles.TWO_ONE in profile.versions else "Corrupt"


def versions(profile):
    """Superblocks of other versions, alone and in a chain."""
    first, second, third = (0, 1), (2, 3), (4, 5)
    on, more, shown = tail(second, hard=True), tail(third, hard=True), b"f 2 /f\n"
    later, latest = superblock(4096, 16, version=profiles.TWO_ONE), superblock(4096, 16, version=0x00020002)
    yield "version 2.1", plan([first, [later, HI]]), where_later(profile, shown)
    for version in 0, 1, 0x00010007, 0x00020002, 0x00030000, 0x00030001, 0x01020000, 0x00020001 << 8, NULL:
        yield f"version {version >> 16}.{version & 0xffff}", plan([first, [superblock(4096, 16, version=version), HI]]), "Corrupt"
    for what, one, other in ("2.0, 2.1", HEAD, later), ("2.1, 2.0", later, HEAD), ("2.1, 2.1", later, later):
        yield f"a chain {what}", plan([first, [one], on], [second, [other, HI]]), where_later(profile, shown)
        yield f"a chain {what}, and a pair without slots", plan(
            [first, [one], on], [second, [], more], [third, [other, HI]]), where_later(profile, shown)
    yield "a chain 2.0, 2.1, 2.0", plan([first, [HEAD], on], [second, [later], more], [third, [HEAD, HI]]), where_later(profile, shown)
    for what, other in ("another limit", superblock(4096, 16, 32, profiles.TWO_ONE)), ("17 blocks", superblock(4096, 17, version=profiles.TWO_ONE)):
        yield f"a chain 2.0, 2.1 with {what}", plan([first, [HEAD], on], [second, [other, HI]]), "Corrupt"
        yield f"a chain 2.1 with {what}, 2.0", plan([first, [other], on], [second, [HEAD, HI]]), "Corrupt"
    yield "a chain 2.0, 2.2", plan([first, [HEAD], on], [second, [latest, HI]]), "Corrupt"
    yield "a chain 2.2, 2.1", plan([first, [latest], on], [second, [later, HI]]), "Corrupt"


def fronts():
    """Pairs without slots in front of the superblock."""
    first, second, third = (0, 1), (2, 3), (4, 5)
    on, behind, more = tail(second, hard=True), [second, [HEAD, HI]], tail(third, hard=True)
    shown = b"f 2 /f\n"
    late = plan([first, [], on], behind)
    late.blocks[2].commits.insert(0, Commit([]))
    yield "an empty pair in front", plan([first, [], on], behind), shown
    yield "an empty pair in front, soft", plan([first, [], tail(second)], behind), "Corrupt"
    yield "an empty pair alone", plan([first, []]), "Corrupt"
    yield "an empty pair in front of files", plan([first, [], on], [second, [HI]]), "Corrupt"
    yield "an empty pair in front, then a file before the superblock", plan([first, [], on], [second, [HI], more], [third, [HEAD]]), "Corrupt"
    yield "two empty pairs in front", plan([first, [], on], [second, [], more], [third, [HEAD, HI]]), shown
    yield "an empty pair, a superblock, another with files", plan([first, [], on], [second, [HEAD], more], [third, [HEAD, HI]]), shown
    yield "a superblock, an empty pair, another with files", plan([first, [HEAD], on], [second, [], more], [third, [HEAD, HI]]), shown
    yield "a superblock, an empty pair, files", plan([first, [HEAD], on], [second, [], more], [third, [HI]]), b"f 2 /f\n"
    yield "two superblocks that differ behind an empty pair", plan(
        [first, [], on], [second, [HEAD], more], [third, [superblock(4096, 16, names=32), HI]]), "Corrupt"
    yield "a superblock behind an empty pair and an empty commit", late, "Corrupt"
    yield "an empty pair in front, named as a directory", plan([first, [], on], [second, [HEAD, folder(b"d", 0, 1)]]), "Corrupt"
    yield "an empty pair in front, a directory behind", plan(
        [first, [], on], [second, [HEAD, folder(b"d", 4, 5)], tail(third)], [third, [HI]]), b"d 0 /d\nf 2 /d/f\n"


def images():
    whole = shifting()
    fresh = plan([(0, 1), [HEAD]], revision=NULL).image()[:4096]
    yield "ids that shift", whole, b"f 0 /b\n"
    yield "a name altered in the second commit", altered(whole, 264, 0x62 ^ 0x63), b""
    yield "the fourth checksum altered", altered(whole, 776), b"f 0 /a\nf 0 /b\n"
    yield "the first checksum altered", altered(whole, 48), "Corrupt"
    yield "an older block 1", whole[:4096] + fresh + whole[8192:], b"f 0 /b\n"
    for what, behind, answer in ("0xff", b"\xff", b"f 71 /x\n"), ("zeros", b"\0", b"f 0 /b\n"):
        yield f"{what} behind the half of a checksum", whole[:4096] + NEARLY.ljust(4096, behind) + whole[8192:], answer
    yield "cut to two blocks", whole[:8192], "Corrupt"
    yield "a block more", whole + bytes(4096), "Corrupt"
    yield "cut to 4,100 bytes", whole[:4100], "Invalid"
    yield "cut to nothing", b"", "Invalid"
    yield "erased", b"\xff" * 65536, "Corrupt"
    for at in range(52, 256):
        yield f"padding altered at {at}", altered(whole, at, 1), b"f 0 /b\n"


def geometries():
    """Numbers on the command line, and what they make of an image that is whole with 4,096 and 256."""
    for page in 8, 16, 512:
        yield (4096, page), b"f 0 /b\n"
    for geometry in (2048, 256), (8192, 256), (65536 // 4, 512), (4096 - 1024, 8):
        yield geometry, "Invalid" if 65536 % geometry[0] else "Corrupt"
    for geometry in (0, 256), (512, 64), (65536, 256), (131072, 256), (4096, 0), (4096, 4), (4096, 24), (4096, 1024), (1024, 256), (4096, NULL):
        yield geometry, "Invalid"


def cases(profile=profiles.DEFAULT):
    for what, made, answer in [*plans(), *logs(), *orders(), *forward_checksums(profile), *versions(profile), *fronts()]:
        yield what, made.image(), (4096, 256), answer
    for what, image, answer in images():
        yield what, image, (4096, 256), answer
    for geometry, answer in geometries():
        yield "block %d, page %d" % geometry, shifting(), geometry, answer


def every_byte():
    """The image whose ids shift, with each byte of its first two blocks inverted in turn."""
    whole = shifting()
    for at in range(8192):
        yield f"byte {at}", altered(whole, at), (4096, 256)
