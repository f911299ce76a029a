"""A plain reader of littlefs images, written apart from the crates.

`listing(image, block_size, page, profile)` gives what `mklittlefs -l` has to print, or raises
Refused: `Invalid` for a length or geometry outside the limits, `Corrupt` for bytes that
hold no accepted image. Without a profile version 2.0 alone is accepted. Each log is folded forward from its start and each list walked
block by block; nothing is kept or searched. docs/FORMAT.md tells the format and its rules.
"""

from dataclasses import dataclass
import zlib

import profiles

FILE, FOLDER, SUPERBLOCK = 0x001, 0x002, 0x0ff
PAIR_STRUCT, INLINE, LIST = 0x200, 0x201, 0x202
CREATE, DELETE, SET_MOVE = 0x401, 0x4ff, 0x4ff
FORWARD_CHECKSUM = 0x5ff  # of version 2.1: an entry without meaning
NONE = 0x3ff  # as an id: no slot; as a length: removed
NULL = 0xffffffff
SUPERBLOCK_BYTES = 24
FIXED = {SUPERBLOCK: 8, PAIR_STRUCT: 8, LIST: 8, CREATE: 0, DELETE: 0, 0x600: 8, 0x601: 8, 0x7ff: 12}
OF_ANY_LENGTH = {FILE, FOLDER, INLINE}
LARGEST_FILE = 2147483647


class Refused(Exception):
    """The image isn't listed; the text is the error's name, and `rule` is what it breaks."""

    def __init__(self, error, rule):
        super().__init__(error)
        self.rule = rule


@dataclass
class Slot:
    kind: int = None  # None until a name has come
    name: bytes = b""
    struct: tuple = (None, b"")  # its type and bytes


@dataclass
class Pair:
    address: tuple  # in the thread's order
    first: tuple  # the first entry of the block that holds, be it a checksum
    slots: list
    tail: tuple  # (hard, address), the address None where the thread ends
    move: bytes


def accept(fact, rule):
    if not fact:
        raise Refused("Corrupt", rule)


def word(data, at=0):
    return int.from_bytes(data[at : at + 4], "little")


def words(data):
    return tuple(word(data, at) for at in range(0, len(data), 4))


# Blocks and pairs


def read_log(block):
    """The revision and the entries of all valid commits, checksums among them, or None where there is no commit."""
    entries, pending, commits = [], [], 0
    start, at, previous = 0, 4, 0xffffffff
    while at + 4 <= len(block):
        tag = int.from_bytes(block[at : at + 4], "big") ^ previous
        kind, ident, length = tag >> 20 & 0x7ff, tag >> 10 & 0x3ff, tag & 0x3ff
        at += 4
        end = at + (0 if length == NONE else length)
        if tag >> 31 or end > len(block):
            break
        pending.append((kind, ident, length, block[at:end]))
        if kind >> 8 != 5 or kind == FORWARD_CHECKSUM and length != NONE:
            at, previous = end, tag
            continue
        if kind > 0x501 or not 4 <= length < NONE or word(block, at) != zlib.crc32(block[start:at]) ^ NULL:
            break
        entries, pending, commits = entries + pending, [], commits + 1
        start = at = end
        previous = tag ^ (kind & 1) << 31
    return (word(block), entries) if commits else None


def fold(entries):
    """The slots, the last tail and the last move state that the entries make."""
    slots, tail, move = [], (False, None), bytes(12)
    for kind, ident, length, data in entries:
        if kind >> 8 == 5:
            continue
        attribute = kind >> 8 == 3
        accept(attribute or kind in OF_ANY_LENGTH or kind in FIXED, "entry")
        accept(attribute or length != NONE, "entry")
        accept(length == FIXED.get(kind, length), "entry")
        if kind >> 8 == 6:
            address = words(data)
            tail = (kind == 0x601, None if address == (NULL, NULL) else address)
        elif kind >> 8 == 7:
            move = data
        else:
            change(slots, kind, ident, data)
    return slots, tail, move


def change(slots, kind, ident, data):
    """One entry of a slot. Attributes count for the rules alone; they are never listed."""
    accept(ident != NONE, "entry")
    if kind >> 8 == 0:
        slots.extend(Slot() for _ in range(len(slots), ident + 1))
        slots[ident].kind, slots[ident].name = kind, data
        return
    accept(ident < len(slots) or kind == CREATE and ident == len(slots), "entry")
    if kind == CREATE:
        slots.insert(ident, Slot())
    elif kind == DELETE:
        del slots[ident]
    else:
        accept(slots[ident].kind is not None, "entry")
        if kind >> 8 == 2:
            slots[ident].struct = (kind, data)


def held_log(blocks, address):
    """The log of the block that holds, or None where neither has a commit."""
    one, other = (read_log(blocks[block]) for block in address)
    if one and other:
        later = (other[0] - one[0]) % 2**32
        return other if 0 < later < 2**31 else one
    return one or other


def read_pair(blocks, address):
    held = held_log(blocks, address)
    accept(held, "commit")
    return Pair(address, held[1][0], *fold(held[1]))


def read_thread(blocks):
    pairs, seen, address = [], set(), (0, 1)
    while address is not None:
        for block in address:
            accept(block < len(blocks), "range")
            accept(block not in seen, "repeat")
            seen.add(block)
        pairs.append(read_pair(blocks, address))
        address = pairs[-1].tail[1]
    return pairs


# Skip lists


def trailing_zeros(number):
    return (number & -number).bit_length() - 1


def list_blocks(blocks, head, size):
    """The blocks of a well-formed list, from its first."""
    accept(1 <= size <= LARGEST_FILE, "list")
    count, held = 1, len(blocks[0])
    while held < size:
        held += len(blocks[0]) - 4 * (trailing_zeros(count) + 1)
        count += 1
        accept(count <= len(blocks), "list")
    found, block = [], head
    for index in range(count):
        accept(block < len(blocks), "list")
        found.append(block)
        block = word(blocks[block])
    found.reverse()
    for index in range(1, count):
        for pointer in range(1, trailing_zeros(index) + 1):
            accept(word(blocks[found[index]], 4 * pointer) == found[index - 2**pointer], "list")
    return found


# The rules of an accepted image


def shorter_first(one, other):
    """Whether a name comes before another, where a beginning comes before what begins with it."""
    return one < other


def longer_first(one, other):
    """The same where a beginning comes behind, as littlefs has it."""
    if one.startswith(other) or other.startswith(one):
        return len(one) > len(other)
    return one < other


def last_superblock(pairs):
    """Superblocks may stand alone in their pairs, each with a hard tail to the next one. A pair in front may have no slot at all."""
    root, index = 0, 0
    while index < len(pairs):
        slots, hard = pairs[index].slots, pairs[index].tail[0]
        headed = bool(slots) and slots[0].kind == SUPERBLOCK
        if headed:
            root = index
        elif slots:
            break
        if len(slots) > 1 or not hard:
            break
        index += 1
    return root


class Image:
    """The thread of an image, which of its pairs begins the root, and what the move names."""

    def __init__(self, blocks):
        self.blocks = blocks
        self.pairs = read_thread(blocks)
        self.root = last_superblock(self.pairs)
        self.rising = {shorter_first, longer_first}  # the orders in which all names seen so far rise
        self.moved = None  # (index of the pair, id)
        state = bytes(12)
        for pair in self.pairs:
            state = bytes(a ^ b for a, b in zip(state, pair.move))
        self.sync = state[3] >> 7 == 1
        self.check_move(word(state) >> 20 & 0x7ff, word(state) >> 10 & 0x3ff, words(state[4:]))

    def check_move(self, kind, ident, address):
        if kind == 0:
            accept(ident == 0 and address == (0, 0), "move")
            return
        accept(kind == SET_MOVE, "move")
        known = {frozenset(pair.address): index for index, pair in enumerate(self.pairs)}
        index = known.get(frozenset(address))
        accept(index is not None and ident < len(self.pairs[index].slots), "move")
        accept(self.pairs[index].slots[ident].kind != SUPERBLOCK, "move")
        self.moved = (index, ident)

    def check_superblocks(self, block_size, versions):
        chain = [pair for pair in self.pairs[: self.root + 1] if pair.slots]
        accept(chain and chain[0].first == (SUPERBLOCK, 0, 8, b"littlefs"), "first entry")
        accept(chain[0].slots[0].name == b"littlefs", "superblock's name")
        fields = chain[0].slots[0].struct[1]
        accept(len(fields) == SUPERBLOCK_BYTES and word(fields) in versions, "fields")
        accept(words(fields)[1:3] == (block_size, len(self.blocks)), "fields")
        for pair in chain:
            kind, other = pair.slots[0].struct
            accept(pair.slots[0].kind == SUPERBLOCK and kind == INLINE and len(other) == SUPERBLOCK_BYTES, "same fields")
            accept(word(other) in versions and other[4:] == fields[4:], "same fields")
        for index, pair in enumerate(self.pairs):
            others = pair.slots[1:] if index <= self.root else pair.slots
            accept(all(slot.kind != SUPERBLOCK for slot in others), "second superblock")

    def check_slots(self):
        structs = {FILE: (INLINE, LIST), FOLDER: (PAIR_STRUCT,)}
        for pair in self.pairs:
            for slot in pair.slots:
                if slot.kind == SUPERBLOCK:
                    continue
                accept(slot.struct[0] in structs.get(slot.kind, ()), "struct")
                accept(1 <= len(slot.name) <= 255 and slot.name not in (b".", b".."), "name")
                accept(b"\0" not in slot.name and b"/" not in slot.name, "name")

    def check_blocks(self):
        owned = {block for pair in self.pairs for block in pair.address}
        for index, pair in enumerate(self.pairs):
            for ident, slot in enumerate(pair.slots):
                if slot.struct[0] == LIST and (index, ident) != self.moved:
                    for block in list_blocks(self.blocks, *words(slot.struct[1])):
                        accept(block not in owned, "owned")
                        owned.add(block)

    def lines(self):
        """All entries, depth first, and the checks of names and of what is reached."""
        begins = {frozenset(pair.address): index for index, pair in enumerate(self.pairs)
                  if index == self.root or index > self.root and not self.pairs[index - 1].tail[0]}
        reached, lines = set(range(self.root)), []
        stack = self.below(b"", self.root, reached)
        while stack:
            path, slot = stack.pop()
            if slot.kind == FOLDER:
                index = begins.get(frozenset(words(slot.struct[1])))
                accept(index is not None, "directory")
                stack += self.below(path, index, reached)
                lines.append(b"d 0 %s\n" % escaped(path))
            else:
                size = word(slot.struct[1], 4) if slot.struct[0] == LIST else len(slot.struct[1])
                lines.append(b"f %d %s\n" % (size, escaped(path)))
        accept(self.sync or len(reached) == len(self.pairs), "unreached")
        return b"".join(lines)

    def below(self, path, index, reached):
        """The entries of the directory that begins at a pair, the last one first."""
        entries = []
        while True:
            accept(index not in reached, "directory")
            reached.add(index)
            for ident, slot in enumerate(self.pairs[index].slots):
                if slot.kind != SUPERBLOCK and (index, ident) != self.moved:
                    entries.append(slot)
            if not self.pairs[index].tail[0] or index + 1 == len(self.pairs):
                break
            index += 1
        names = [slot.name for slot in entries]
        self.rising = {order for order in self.rising if all(order(a, b) for a, b in zip(names, names[1:]))}
        accept(self.rising, "order")
        return [(path + b"/" + slot.name, slot) for slot in sorted(entries, key=lambda slot: slot.name, reverse=True)]


def escaped(path):
    return b"".join(b"%c" % byte if 0x20 <= byte <= 0x7e and byte != 0x5c else b"\\x%02x" % byte
                    for byte in path)


def check_geometry(length, block_size, page):
    valid = 1024 <= block_size <= 65536 and 8 <= page <= min(512, block_size // 8)
    valid = valid and page & (page - 1) == 0 and block_size % page == 0
    valid = valid and length % block_size == 0 and 2 <= length // block_size <= 65536
    if not valid or length > 268435456:
        raise Refused("Invalid", "sizes")


def blocks_of(image, block_size):
    return [image[at : at + block_size] for at in range(0, len(image), block_size)]


def listed_image(image, block_size, page, profile=profiles.DEFAULT):
    """The image as it is read, and its lines."""
    check_geometry(len(image), block_size, page)
    image = Image(blocks_of(image, block_size))
    image.check_superblocks(block_size, profile.versions)
    image.check_slots()
    image.check_blocks()
    return image, image.lines()


def listing(image, block_size=4096, page=256, profile=profiles.DEFAULT):
    return listed_image(image, block_size, page, profile)[1]
