"""Makes littlefs images, written apart from the crates and from the reader: of version 2.0, or of any that a profile accepts.

A Plan says what each block holds: a Log of commits or plain bytes. `plan.image()` lays it out with right tags and checksums,
so a plan that was changed gives an image that is wrong in that one thing. `random_plan(rnd)` makes a random tree and a plan
of it: directories of several pairs, inline files and skip lists, logs with a history of deletes and renames, both blocks of
a pair written, move states, pairs that nothing names, superblocks in a chain, pairs without slots in front of them, either order
of names, forward checksums. It gives the tree's lines too.
"""

from dataclasses import dataclass, field
import zlib

import profiles

NULL = 0xffffffff
REMOVED = 0x3ff
GEOMETRIES = [(1024, 128, 64), (1024, 8, 96), (1024, 64, 200), (2048, 256, 40), (4096, 256, 16), (4096, 512, 48)]
LETTERS = b"abcxyz._- ~\x01\x0a\x5c\x7f\xc3\xff"


class NoRoom(Exception):
    pass


def by_shorter(name):
    """Sorts names by their bytes, a beginning before what begins with it."""
    return name


def by_longer(name):
    """Sorts names as littlefs does: a beginning behind what begins with it."""
    return [*name, 256]


ORDERS = [by_shorter, by_longer]


@dataclass
class Entry:
    kind: int
    ident: int
    data: bytes = b""
    length: int = None  # as told in the tag; None: that of the data


@dataclass
class Commit:
    entries: list
    kind: int = 0x500
    length: int = None  # of the checksum's entry; None: up to the next page
    wrong: int = 0  # what the checksum is off by


@dataclass
class Log:
    revision: int
    commits: list

    def stored(self, page):
        out, start, previous = bytearray(numbers(self.revision)), 0, NULL
        for commit in self.commits:
            for entry in commit.entries:
                length = len(entry.data) if entry.length is None else entry.length
                previous = put_tag(out, previous, entry.kind, entry.ident, length)
                out += entry.data
            length = 4 + -(len(out) + 8) % page if commit.length is None else commit.length
            tag = put_tag(out, previous, commit.kind, 0x3ff, length)
            checksum = zlib.crc32(out[start:]) ^ NULL ^ commit.wrong
            out += numbers(checksum) + b"\xff" * (0 if length == REMOVED else length - 4)  # whole, even where it is told shorter
            start, previous = len(out), tag ^ (commit.kind & 1) << 31
        return bytes(out)


@dataclass
class Plan:
    block_size: int
    page: int
    count: int
    blocks: dict = field(default_factory=dict)  # a Log or bytes

    def image(self):
        out = bytearray(b"\xff" * (self.block_size * self.count))
        for block, what in self.blocks.items():
            data = what.stored(self.page) if isinstance(what, Log) else what
            at = block * self.block_size
            out[at : at + self.block_size] = data[: self.block_size].ljust(self.block_size, b"\xff")
        return bytes(out)


def numbers(*values):
    return b"".join((value & NULL).to_bytes(4, "little") for value in values)


def put_tag(out, previous, kind, ident, length):
    tag = kind << 20 | ident << 10 | length
    out += (tag ^ previous).to_bytes(4, "big")
    return tag


def superblock(block_size, count, names=255, version=profiles.TWO_ZERO, files=2147483647, attributes=1022):
    fields = numbers(version, block_size, count, names, files, attributes)
    return Slot(0x0ff, b"littlefs", 0x201, fields)


@dataclass
class Slot:
    kind: int  # 1 a file, 2 a directory
    name: bytes
    struct: int
    data: bytes
    attributes: list = field(default_factory=list)  # (type, bytes)

    def entries(self, ident):
        named = [Entry(self.kind, ident, self.name), Entry(self.struct, ident, self.data)]
        return named + [Entry(0x300 + kind, ident, data) for kind, data in self.attributes]

    def size(self):
        return sum(4 + len(entry.data) for entry in self.entries(0))


def inline(name, data):
    return Slot(1, name, 0x201, data)


def listed(name, head, size):
    return Slot(1, name, 0x202, numbers(head, size))


def folder(name, a, b):
    return Slot(2, name, 0x200, numbers(a, b))


def tail(address, hard=False):
    return Entry(0x601 if hard else 0x600, 0x3ff, numbers(*address))


def move(first, address=(0, 0)):
    return Entry(0x7ff, 0x3ff, numbers(first, *address))


def simple_plan(pairs, geometry=(4096, 256, 16), revision=1):
    """Each address with its slots and further entries, in one commit of the block named first."""
    plan = Plan(*geometry)
    for address, slots, *others in pairs:
        entries = [entry for ident, slot in enumerate(slots) for entry in slot.entries(ident)]
        plan.blocks[address[0]] = Log(revision, [Commit(entries + others)])
    return plan


def list_of(plan, data, blocks):
    """Puts a file's bytes as a skip list on the blocks; gives the head. The last block has no more than it needs."""
    for index in range(len(blocks)):
        pointers = [blocks[index - 2**power] for power in range(16) if index and index % 2**power == 0]
        room = plan.block_size - 4 * len(pointers)
        plan.blocks[blocks[index]] = numbers(*pointers) + data[:room]
        data = data[room:]
    return blocks[-1]


def blocks_for(block_size, size):
    count, held = 0, 0
    while held < size:
        held += block_size - (4 * (count & -count).bit_length() if count else 0)
        count += 1
    return count


# Random trees, laid out by hand


def random_name(rnd):
    if rnd.random() < 0.03:
        return b"littlefs"
    length = rnd.choice([1, 1, 2, 3, 8, 30, rnd.randint(1, 255)])
    return bytes(rnd.choice(LETTERS) for _ in range(length)).replace(b"..", b"._").replace(b".", b"," if length == 1 else b".")


def random_tree(rnd, depth=0):
    tree = {}
    for _ in range(rnd.choice([0, 1, 2, 4, 8, 12])):
        name = random_name(rnd)
        if tree and rnd.random() < 0.2:  # one that begins with another
            name = (rnd.choice(list(tree)) + name)[:255]
        if rnd.random() < 0.3 and depth < 4:
            tree[name] = random_tree(rnd, depth + 1)
        else:
            tree[name] = rnd.randbytes(rnd.choice([0, 1, 5, 40, 300, rnd.randint(0, 6000)]))
    return tree


def lines(tree, path=b""):
    out = b""
    for name, node in sorted(tree.items()):
        below = path + b"/" + name
        shown = "".join(chr(c) if 32 <= c < 127 and c != 92 else "\\x%02x" % c for c in below).encode()
        out += b"d 0 %s\n" % shown + lines(node, below) if isinstance(node, dict) else b"f %d %s\n" % (len(node), shown)
    return out


class Directory:
    """The pairs of a directory in their order, each a list of slots."""

    def __init__(self, slots, addresses, reached=True):
        self.slots, self.addresses, self.reached = slots, addresses, reached


class Layout:
    def __init__(self, rnd, geometry, order, profile):
        self.rnd, self.plan, self.order, self.profile = rnd, Plan(*geometry), order, profile
        self.free = list(range(2, self.plan.count))
        rnd.shuffle(self.free)
        self.directories, self.unreached, self.root = [], False, 0

    def take(self, count):
        if count > len(self.free):
            raise NoRoom
        taken, self.free = self.free[:count], self.free[count:]
        return taken

    def room(self):
        return self.plan.block_size - 39 - self.plan.page

    def file(self, name, data):
        rnd = self.rnd
        if len(data) <= min(400, self.profile.inline_max) and (not data or rnd.random() < 0.8):
            slot = inline(name, data)
        else:
            blocks = self.take(blocks_for(self.plan.block_size, len(data)))
            slot = listed(name, list_of(self.plan, data, blocks), len(data))
        for kind in rnd.sample(range(256), rnd.choice([0, 0, 0, 1, 2])):
            slot.attributes.append((kind, rnd.randbytes(rnd.choice([0, 1, 9]))))
        return slot

    def add(self, tree, first=None, reached=True):
        """A directory and all below it; gives its first pair's address."""
        slots, order = [], self.order or self.rnd.choice(ORDERS)
        for name, node in sorted(tree.items(), key=lambda item: order(item[0])):
            if isinstance(node, dict):
                slots.append(folder(name, *self.rnd.sample(self.add(node, None, reached), 2)))
            else:
                slots.append(self.file(name, node))
        groups = self.cut(slots)
        addresses = [first or tuple(self.take(2))] + [tuple(self.take(2)) for _ in groups[1:]]
        self.directories.append(Directory(groups, addresses, reached))
        return addresses[0]

    def cut(self, slots):
        groups = [[]]
        for slot in slots:
            used = sum(other.size() for other in groups[-1])
            if used + slot.size() + 44 > self.room() or self.rnd.random() < 0.05:
                groups.append([])
            groups[-1].append(slot)
        return groups

    def superblock(self):
        """One of an accepted version; those of a chain may have different ones."""
        versions = self.profile.versions
        version = versions[0] if len(versions) == 1 else self.rnd.choice(versions)
        names, files, attributes = self.profile.limits()
        return superblock(self.plan.block_size, self.plan.count, names, version, files, attributes)

    def thread(self, tree):
        """All pairs in the thread's order: (address, slots, whether the tail to the next is hard)."""
        rnd, plan = self.rnd, self.plan
        chain = [(0, 1)] + [tuple(self.take(2)) for _ in range(rnd.choice([0, 0, 0, 0, 1, 3]))]
        empty = [rnd.random() < 0.5 for _ in chain[:-1]] + [False]
        self.add(tree, chain[-1])
        root = self.directories.pop()
        self.root = len(chain) - 1
        self.unreached = rnd.random() < 0.15
        if self.unreached:
            self.add(random_tree(rnd, 3), reached=False)
        rnd.shuffle(self.directories)
        pairs = [(address, [], True) for address in chain[:-1]]
        for directory in [root] + self.directories:
            hard = [True] * (len(directory.slots) - 1) + [False]
            pairs += zip(directory.addresses, directory.slots, hard)
        for (_, slots, _), without in zip(pairs, empty):
            if not without:
                slots.insert(0, self.superblock())
        return pairs


def random_state(rnd, pairs, sync):
    """What the global state is to be, and the slot that its move names put into a pair."""
    if rnd.random() < 0.8:
        return numbers(sync << 31, 0, 0)
    address, slots, _ = rnd.choice(pairs)
    entries = [slot for _, others, _ in pairs for slot in others if slot.kind != 0x0ff]
    twin = rnd.choice(entries) if entries else inline(b"gone", b"")
    if rnd.random() < 0.3:
        twin = listed(twin.name, rnd.getrandbits(32), rnd.getrandbits(32))
    ident = rnd.randint(slots[:1] != [] and slots[0].kind == 0x0ff, len(slots))
    slots.insert(ident, twin)
    return numbers(sync << 31 | 0x4ff << 20 | ident << 10, *rnd.sample(address, 2))


def spread(rnd, total, count):
    """States of all pairs, whose exclusive or is the total."""
    states = [rnd.randbytes(12) if rnd.random() < 0.1 else bytes(12) for _ in range(count)]
    for state in states:
        total = bytes(a ^ b for a, b in zip(total, state))
    at = rnd.randrange(count)
    states[at] = bytes(a ^ b for a, b in zip(states[at], total))
    return states


def history(rnd, slots, ends):
    """Entries that come to the slots and the last tail and state, by way of others."""
    kept = int(bool(slots) and slots[0].kind == 0x0ff)
    entries, present = list(slots[0].entries(0)) if kept else [], [0][:kept]
    order = list(range(kept, len(slots)))
    rnd.shuffle(order)
    for index in order:
        ident = next((at for at, other in enumerate(present) if other is not None and other > index), len(present))
        passing = rnd.random() < 0.2
        if passing:
            entries += [Entry(0x401, ident)] + inline(rnd.choice([b"old", slots[index].name]), b"?").entries(ident)
            entries += rnd.choice([[], [Entry(0x341, ident, b"??")]])
        if passing and rnd.random() < 0.5:  # renamed in its slot
            entries += [Entry(0x341, ident, b"", REMOVED)]
            present.insert(ident, index)
        else:
            present[ident:ident] = [index, None] if passing else [index]
            entries += [Entry(0x401, ident)] if ident + 1 < len(present) or rnd.random() < 0.5 else []
        entries += slots[index].entries(ident)
        if rnd.random() < 0.3:
            entries += drop_passing(present)
    entries += drop_passing(present)
    for end in ends:
        at = rnd.randint(kept * 2, len(entries))
        entries.insert(at, end)
        if rnd.random() < 0.2:  # one that no longer holds
            earlier = Entry(rnd.choice([0x600, 0x601]) if end.kind < 0x700 else 0x7ff, 0, rnd.randbytes(len(end.data)))
            entries.insert(rnd.randint(kept * 2, at), earlier)
    return entries


def drop_passing(present):
    gone = [at for at, slot in enumerate(present) if slot is None][::-1]
    for at in gone:
        del present[at]
    return [Entry(0x4ff, at) for at in gone]


def forward_checksum(rnd):
    """An entry of version 2.1, of any length; it means nothing."""
    return Entry(0x5ff, rnd.choice([0, 1, 0x3ff]), rnd.randbytes(rnd.choice([0, 4, 8, 8, 8, rnd.randrange(60)])))


def commits_of(rnd, entries):
    commits, forward = [Commit([])], rnd.random() < 0.1
    for at, entry in enumerate(entries):
        if at and forward and rnd.random() < 0.2:
            commits[-1].entries.append(forward_checksum(rnd))
        if at and rnd.random() < 0.15:
            commits[-1].kind = rnd.choice([0x500, 0x500, 0x501])
            commits[-1].length = rnd.choice([None, None, rnd.randint(4, 40)])
            commits += [Commit([]) for _ in range(rnd.choice([1, 1, 1, 2]))]
        commits[-1].entries.append(entry)
    return commits


def random_log(rnd, plan, slots, ends):
    """A log with a history where it fits, else the plain entries in one commit."""
    revision = rnd.choice([0, 1, 2, 7, NULL, 0x7fffffff, 0x80000000, rnd.getrandbits(32)])
    log = Log(revision, commits_of(rnd, history(rnd, slots, ends)))
    if rnd.random() < 0.3 or len(log.stored(plan.page)) > plan.block_size:
        entries = [entry for ident, slot in enumerate(slots) for entry in slot.entries(ident)]
        log = Log(revision, [Commit(entries + ends)])
    if len(log.stored(plan.page)) > plan.block_size:
        raise NoRoom
    return log


def put_pair(rnd, plan, address, log):
    """The log on one of the blocks; on the other nothing, rubbish, or a log that doesn't hold."""
    held, other = rnd.sample(address, 2)
    plan.blocks[held] = log
    what = rnd.randrange(6)
    behind = [rnd.randint(1, 2**31 - 1)] + ([0, 2**31] if held == address[0] else [])
    old = [Commit([Entry(0x0ff, 0, b"littlefs"), Entry(rnd.choice([0x201, 0x202, 0x777]), rnd.randrange(3), b"12345678")])]
    if what == 0:
        plan.blocks[other] = rnd.randbytes(plan.block_size)
    elif what == 1:
        old[0].wrong = rnd.randint(1, NULL)
        plan.blocks[other] = Log(log.revision + 1 & NULL, old)
    elif what < 4:
        plan.blocks[other] = Log(log.revision - rnd.choice(behind) & NULL, old + log.commits[: rnd.randint(0, 1)])


def random_plan(rnd, geometry=None, tree=None, mixed=False, profile=profiles.DEFAULT):
    """A plan of a random tree and the tree's lines. The names are in one of the two orders, or in either in each directory."""
    while True:
        try:
            order = None if mixed else rnd.choice(ORDERS)
            return plan_of(rnd, geometry or rnd.choice(GEOMETRIES), random_tree(rnd) if tree is None else tree, order, profile)
        except NoRoom:
            continue


def plan_of(rnd, geometry, tree, order, profile):
    layout = Layout(rnd, geometry, order, profile)
    pairs = layout.thread(tree)
    state = random_state(rnd, pairs[layout.root :], layout.unreached or rnd.random() < 0.1)
    states = spread(rnd, state, len(pairs))
    for index, (address, slots, hard) in enumerate(pairs):
        ends = [Entry(0x7ff, 0x3ff, states[index])] if any(states[index]) else []
        if index + 1 < len(pairs):
            ends.append(tail(pairs[index + 1][0], hard))
        elif rnd.random() < 0.3:
            ends.append(tail((NULL, NULL), rnd.random() < 0.5))
        put_pair(rnd, layout.plan, address, random_log(rnd, layout.plan, slots, ends))
    return layout.plan, lines(tree)
