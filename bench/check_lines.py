"""What `mklittlefs --check` may print of an image, worked out by the plain reader of image_reader.py.

`known_of(image, (block size, page), profile)` gives what is known: all lines of an image that the reader accepts; and of any other
one each line that is true of it, in the parts in which the program looks for one. Without a profile it is the program's own.
"""

import collections
import itertools
from dataclasses import dataclass

import image_reader
import profiles
from image_reader import CREATE, DELETE, FILE, FOLDER, INLINE, LIST, NONE, PAIR_STRUCT, SET_MOVE, SUPERBLOCK

LARGEST_IMAGE = 268435456
FIRST_ENTRIES = bytes.fromhex("f00ffff7") + b"littlefs" + bytes.fromhex("2fe00010")
LIMITS = "name_max", "file_max", "attr_max"
STRUCTS = {FILE: (INLINE, LIST), FOLDER: (PAIR_STRUCT,)}

# For each rule of the reader the kinds of lines for it. Where the reader stops at a rule, a line of one of its kinds is true.
LINES_OF = {
    "sizes": {"sizes"},
    "range": {"out of range"},
    "repeat": {"one block twice", "in two pairs"},
    "commit": {"no commit"},
    "entry": {"malformed"},
    "first entry": {"no superblock", "other first entry"},
    "superblock's name": {"other name"},
    "fields": {"no superblock", "no fields", "other fields"},
    "same fields": {"no superblock", "no fields", "other fields", "other superblock"},
    "second superblock": {"second superblock"},
    "struct": {"other struct"},
    "name": {"bad name"},
    "order": {"out of order", "two orders"},
    "directory": {"no directory", "leads to the root", "leads to the same"},
    "unreached": {"not reached"},
    "move": {"bad move"},
    "list": {"bad list"},
    "owned": {"in pair and file", "in two files", "bad list"},
}
INCOMPLETE = {"no name", "no struct"}  # the reader looks for these behind the thread; the search doesn't go on there


@dataclass
class Known:
    """What is known of an image without the program."""

    rule: str  # at which the reader stops; None where it accepts the image
    summary: str  # the output for an accepted image
    parts: list  # of lines (kind, text) that are true if the image isn't accepted, in the order of the search

    def first(self):
        """The true lines of the first part that has any: text to kind."""
        part = next(part for part in self.parts if part)
        return {text: kind for kind, text in part}


# The lines of an accepted image


def attribute_sizes(entries):
    """For each slot the lengths of its attributes by their types."""
    slots = []
    for kind, ident, length, _ in entries:
        if kind >> 8 == 0:
            slots.extend({} for _ in range(len(slots), ident + 1))
        elif kind == CREATE:
            slots.insert(ident, {})
        elif kind == DELETE:
            del slots[ident]
        elif kind >> 8 == 3 and length == NONE:
            slots[ident].pop(kind, None)
        elif kind >> 8 == 3:
            slots[ident][kind] = length
    return [sum(4 + length for length in slot.values()) for slot in slots]


def is_small(read, pair, block_size, page, profile):
    """Whether a pair and its entries are no larger than they are written."""
    attributes = attribute_sizes(image_reader.held_log(read.blocks, pair.address)[1])
    size = sum(8 + len(slot.name) + len(slot.struct[1]) for slot in pair.slots) + sum(attributes)
    entries = [(slot, its) for slot, its in zip(pair.slots, attributes) if slot.kind != SUPERBLOCK]
    charges = [8 + len(slot.name) + profile.struct_limit(block_size) + its for slot, its in entries]
    most = block_size - 39 - page
    return size <= most and len(pair.slots) <= 1000 and all(charge <= most // 2 for charge in charges)


def other_limit(slot, profile):
    """The first limit of a superblock that isn't the profile's."""
    limits = zip(LIMITS, image_reader.words(slot.struct[1])[3:], profile.limits())
    return next(f"{name} {number}" for name, number, own in limits if number != own)


def inline_limit_text(profile, block_size):
    return f"inline_max {profile.inline_max}" if profile.inline_max < profiles.DEFAULT.inline_limit(block_size) else "an eighth of a block"


def beyond_profile(read, block_size, page, profile):
    """What of an accepted image isn't in the writing profile of docs/FORMAT.md, in the order of the search."""
    slots = [("pair %d %d, slot %d" % (*pair.address, ident), slot) for pair in read.pairs for ident, slot in enumerate(pair.slots)]
    for where, slot in slots:
        if slot.kind == SUPERBLOCK and image_reader.words(slot.struct[1])[3:] != profile.limits():
            yield where + ": a superblock with other limits than the options give, " + other_limit(slot, profile)
    for where, slot in slots:
        if slot.kind != SUPERBLOCK and slot.struct[0] == INLINE and len(slot.struct[1]) > profile.inline_limit(block_size):
            yield where + ": more bytes inline than " + inline_limit_text(profile, block_size)
    for before, pair in zip(read.pairs[read.root :], read.pairs[read.root + 1 :]):
        if before.tail[0] and not pair.slots:
            yield "pair %d %d: no entry, but a directory goes on in it" % pair.address
    if not all(is_small(read, pair, block_size, page, profile) for pair in read.pairs):
        yield "a pair or an entry is larger than this library writes"


def used_blocks(read):
    used = {block for pair in read.pairs for block in pair.address}
    for index, pair in enumerate(read.pairs):
        for ident, slot in enumerate(pair.slots):
            if slot.struct[0] == LIST and (index, ident) != read.moved:
                used.update(image_reader.list_blocks(read.blocks, *image_reader.words(slot.struct[1])))
    return len(used)


def superblock_lines(read, profile):
    """What the root directory's superblock says of version and limits, where that isn't the default. By the default profile nothing is told."""
    version, _, _, *limits = image_reader.words(read.pairs[read.root].slots[0].struct[1])
    told = [f"version {version >> 16}.{version & 0xffff}"] * (version != profiles.TWO_ZERO)
    told += [f"{name} {number}" for name, number, own in zip(LIMITS, limits, profiles.DEFAULT.limits()) if number != own]
    return "".join(line + "\n" for line in told if profile != profiles.DEFAULT)


def summary(read, listing, block_size, page, profile):
    kinds = collections.Counter(line[:1] for line in listing.splitlines())
    used, count = used_blocks(read), len(read.blocks)
    orders = {image_reader.longer_first: "longer-first", image_reader.shorter_first: "shorter-first"}
    order = "either" if len(read.rising) == 2 else orders[next(iter(read.rising))]
    recover = "yes" if read.sync or read.moved else "no"
    cause = next(beyond_profile(read, block_size, page, profile), None)
    writable = "no: " + cause if cause else "yes"
    return (f"ok\nfiles {kinds[b'f']}\ndirectories {kinds[b'd']}\nused {used} of {count} blocks\nfree {count - used}\n"
            f"order {order}\n{superblock_lines(read, profile)}recover {recover}\nwritable {writable}\n")


# The lines that are true of any other one


def wrong_numbers(fields, block_size, count, versions):
    """What a superblock's 24 bytes say that isn't so."""
    version, size, blocks = image_reader.words(fields)[:3]
    if size != block_size:
        yield f"superblock: block size {size}, given {block_size}"
    if blocks != count:
        yield f"superblock: block count {blocks}, given {count}"
    if version not in versions:
        yield f"superblock: version {version >> 16}.{version & 0xffff}"


def wrong_by_place(image, block_size, versions):
    """The numbers of what seems a superblock in block 0 or 1: the name and the struct are the first entries, whatever the checksum is.

    None are known of a file past the largest image.
    """
    if block_size == 0 or len(image) > LARGEST_IMAGE:
        return
    for at in 0, block_size:
        start = image[at : at + 44]
        if len(start) == 44 and start[4:20] == FIRST_ENTRIES:
            for text in wrong_numbers(start[20:], block_size, len(image) // block_size, versions):
                yield "by place", text


def wrong_sizes(image, block_size, page):
    try:
        image_reader.check_geometry(len(image), block_size, page)
    except image_reader.Refused:
        size = min(len(image), LARGEST_IMAGE + 1)
        yield "sizes", f"no image of blocks of {block_size} bytes and pages of {page} has a length of {size}"


def place(address, ident, slot):
    return 'pair %d %d, slot %d: "%s"' % (*address, ident, image_reader.escaped(slot.name).decode())


def wrong_log(blocks, address):
    """What is wrong with a pair whose blocks are in the image."""
    held = image_reader.held_log(blocks, address)
    if not held:
        yield "no commit", "pair %d %d: no commit with a right checksum" % address
        return
    try:
        slots = image_reader.fold(held[1])[0]
    except image_reader.Refused:
        yield "malformed", "pair %d %d: its log has an entry that may not stand there" % address
        return
    for ident, slot in enumerate(slots):
        if slot.kind is None:
            yield "no name", "pair %d %d, slot %d: no name" % (*address, ident)
        elif slot.struct[0] is None:
            yield "no struct", place(address, ident, slot) + " has no struct"


def wrong_pair(blocks, pairs, address):
    """What is wrong with the pair at the address that the thread names after these pairs."""
    outside = [block for block in address if block >= len(blocks)]
    for block in outside:
        yield "out of range", "pair %d %d: block %d isn't in the image" % (*address, block)
    if address[0] == address[1]:
        yield "one block twice", "pair %d %d: one block twice" % address
    for other in pairs:
        for block in set(other.address) & set(address):
            yield "in two pairs", "block %d: in two pairs, %d %d and %d %d" % (block, *other.address, *address)
    if not outside:
        yield from wrong_log(blocks, address)


def follow(blocks):
    """The pairs of the thread, up to the first with which something is wrong, and what that is."""
    pairs, address = [], (0, 1)
    while address is not None:
        wrong = list(wrong_pair(blocks, pairs, address))
        if wrong:
            return pairs, wrong
        pairs.append(image_reader.read_pair(blocks, address))
        address = pairs[-1].tail[1]
    return pairs, []


def is_headed(pair):
    return bool(pair.slots) and pair.slots[0].kind == SUPERBLOCK


def wrong_chain(pairs, root, block_size, count, versions):
    """What is wrong with slot 0 of the pairs of the superblock's chain."""
    if not is_headed(pairs[root]):
        yield "no superblock", "superblock: the root directory doesn't begin with one"
        return
    for pair in filter(is_headed, pairs[: root + 1]):
        struct, data = pair.slots[0].struct
        if struct != INLINE or len(data) != 24:
            yield "no fields", "pair %d %d, slot 0: no superblock's struct" % pair.address
        else:
            for text in wrong_numbers(data, block_size, count, versions):
                yield "other fields", "pair %d %d, %s" % (*pair.address, text)


def same_superblocks(one, other, versions):
    """Whether two structs of superblocks are the same, or differ in an accepted version alone."""
    accepted = {image_reader.word(one), image_reader.word(other)} <= set(versions)
    return one == other or accepted and len(one) == len(other) and one[4:] == other[4:]


def wrong_others(pairs, root, versions):
    """Superblocks of the chain that differ from the first one."""
    chain = list(filter(is_headed, pairs[: root + 1] if is_headed(pairs[root]) else []))
    for pair in chain[1:]:
        one, other = pair.slots[0].struct, chain[0].slots[0].struct
        if other[0] == INLINE and not (one[0] == INLINE and same_superblocks(one[1], other[1], versions)):
            yield "other superblock", "pair %d %d, superblock: another one than in pair %d %d" % (*pair.address, *chain[0].address)


def wrong_superblock_name(pairs):
    for pair in pairs:
        if pair.slots:
            if pair.slots[0].name != b"littlefs":
                yield "other name", place(pair.address, 0, pair.slots[0]) + " isn't the name of a superblock"
            return


def is_name(name):
    return 1 <= len(name) <= 255 and name not in (b".", b"..") and not set(name) & set(b"\0/")


def wrong_slots(pairs, root):
    """What is wrong with all slots but slot 0 of the pairs of the superblock's chain."""
    for index, pair in enumerate(pairs):
        for ident, slot in enumerate(pair.slots):
            if ident == 0 and index <= root:
                continue
            where = place(pair.address, ident, slot)
            if slot.kind == SUPERBLOCK:
                yield "second superblock", where + " is a second superblock"
            elif slot.struct[0] not in STRUCTS[slot.kind]:
                yield "other struct", where + " has another kind's struct"
            if not is_name(slot.name):
                yield "bad name", where + " is no name"


def global_state(pairs):
    """The sync bit, and the kind, id and pair of the move that is set."""
    state = bytes(12)
    for pair in pairs:
        state = bytes(a ^ b for a, b in zip(state, pair.move))
    word = image_reader.word(state)
    return word >> 31, word >> 20 & 0x7ff, word >> 10 & 0x3ff, image_reader.words(state[4:])


def moved_slots(pairs):
    """The places (index of the pair, id) that count as moved away: one at most."""
    _, kind, ident, address = global_state(pairs)
    return {(index, ident) for index, pair in enumerate(pairs) if kind == SET_MOVE and set(pair.address) == set(address)}


def entries_from(pairs, index, moved):
    """The entries of the directory that begins at a pair, and their places."""
    entries = []
    while True:
        for ident, slot in enumerate(pairs[index].slots):
            if slot.kind != SUPERBLOCK and (index, ident) not in moved:
                entries.append((slot, place(pairs[index].address, ident, slot)))
        if not pairs[index].tail[0] or index + 1 == len(pairs):
            return entries
        index += 1


def first_pairs(pairs, root):
    """The numbers of the pairs with which directories begin, by their blocks."""
    firsts = [index for index in range(root, len(pairs)) if index == root or not pairs[index - 1].tail[0]]
    return {frozenset(pairs[index].address): index for index in firsts}


def reached_directories(pairs, root, moved):
    """Each directory to which a path leads, breadth first: the number of its first pair, its entries, and where these lead.

    That is an entry's place and the address that it names. Of entries of one name only the first is on a path.
    """
    begins, firsts = first_pairs(pairs, root), [root]
    for first in firsts:
        entries, named = entries_from(pairs, first, moved), {}
        for slot, where in entries:
            named.setdefault(slot.name, (slot, where))
        leads = [(where, image_reader.words(slot.struct[1])) for slot, where in named.values() if slot.struct[0] == PAIR_STRUCT]
        yield first, entries, leads
        nexts = [begins.get(frozenset(address)) for _, address in leads]
        firsts += [index for index in dict.fromkeys(nexts) if index is not None and index not in firsts]


def disordered(entries, *orders):
    """The neighbours whose names are in none of the orders."""
    for (one, _), (other, where) in zip(entries, entries[1:]):
        if not any(order(one.name, other.name) for order in orders):
            yield '%s stands behind "%s"' % (where, image_reader.escaped(one.name).decode())


def wrong_walk(pairs, root, moved):
    """Names of a directory in neither order, and entries that lead to none, to the root, or where another one led before."""
    begins, ways = first_pairs(pairs, root), collections.defaultdict(list)
    for _, entries, leads in reached_directories(pairs, root, moved):
        for text in disordered(entries, image_reader.longer_first, image_reader.shorter_first):
            yield "out of order", text
        for where, address in leads:
            index = begins.get(frozenset(address))
            if index is None:
                yield "no directory", where + " leads to pair %d %d, where no directory begins" % address
            elif index == root:
                yield "leads to the root", where + " leads to the root directory"
            else:
                for other in ways[index]:
                    yield "leads to the same", f"{where} leads to the same directory as {other}"
                ways[index].append(where)


def wrong_two_orders(pairs, root, moved):
    """Neighbours that aren't in the one order, with others that aren't in the other."""
    directories = [entries for _, entries, _ in reached_directories(pairs, root, moved)]
    shorter = [text for entries in directories for text in disordered(entries, image_reader.longer_first)]
    longer = [text for entries in directories for text in disordered(entries, image_reader.shorter_first)]
    for one, other in itertools.product(shorter, longer):
        yield "two orders", f"names in two orders: {one}, and {other}"


def wrong_unreached(pairs, root, moved):
    """Directories to which no path leads, where the sync bit is clear."""
    reached, sync = {first for first, _, _ in reached_directories(pairs, root, moved)}, global_state(pairs)[0]
    for index in first_pairs(pairs, root).values():
        if index not in reached and not sync:
            yield "not reached", "pair %d %d: no path leads to its directory, and the sync bit is clear" % pairs[index].address


def wrong_move(pairs):
    _, kind, ident, address = global_state(pairs)
    slots = [slot for pair in pairs if set(pair.address) == set(address) for slot in pair.slots[ident : ident + 1]]
    is_entry = kind == SET_MOVE and any(slot.kind != SUPERBLOCK for slot in slots)
    if not is_entry and (kind, ident, address) != (0, 0, (0, 0)):
        yield "bad move", "global state: " + ("its move names no entry" if kind else "no move is set, but it names a slot")


def wrong_first_entry(pairs):
    """The first pair that has a slot, if its log doesn't begin with the superblock's name."""
    for pair in pairs:
        if pair.slots:
            if pair.first != (SUPERBLOCK, 0, 8, b"littlefs"):
                yield "other first entry", "pair %d %d: its log doesn't begin with the superblock's name" % pair.address
            return


def list_of_slot(blocks, slot):
    """The blocks of a slot's list, or None where it isn't well formed. None of them comes twice."""
    try:
        owned = image_reader.list_blocks(blocks, *image_reader.words(slot.struct[1]))
    except image_reader.Refused:
        return None
    return owned if len(set(owned)) == len(owned) else None


def wrong_lists(blocks, pairs, moved):
    """Lists that aren't well formed, and blocks that are owned twice."""
    lists = []
    for index, pair in enumerate(pairs):
        for ident, slot in enumerate(pair.slots):
            if slot.struct[0] != LIST or (index, ident) in moved:
                continue
            where, owned = place(pair.address, ident, slot), list_of_slot(blocks, slot)
            if owned is None:
                yield "bad list", where + " has a list with a wrong size, block or pointer"
            else:
                lists.append((where, owned))
    for number, (where, owned) in enumerate(lists):
        for block in owned:
            for pair in pairs:
                if block in pair.address:
                    yield "in pair and file", "block %d: in pair %d %d and in a file, %s" % (block, *pair.address, where)
            for other, before in lists[:number]:
                if block in before:
                    yield "in two files", "block %d: in two files, %s and %s" % (block, other, where)


def true_lines(image, block_size, page, versions):
    """The parts in the order in which they are told, each with the lines that are true. What is behind a broken thread isn't known.

    A mount stops at one of the rules on pairs, slots, directories and lists, whichever it comes to first.
    """
    parts = [list(wrong_by_place(image, block_size, versions)), list(wrong_sizes(image, block_size, page))]
    if parts[1]:
        return parts
    blocks = image_reader.blocks_of(image, block_size)
    pairs, wrong = follow(blocks)
    if wrong:
        return parts + [wrong]
    root, moved = image_reader.last_superblock(pairs), moved_slots(pairs)
    rules = [wrong_chain(pairs, root, block_size, len(blocks), versions), wrong_others(pairs, root, versions), wrong_superblock_name(pairs)]
    rules += [wrong_slots(pairs, root), wrong_move(pairs), wrong_first_entry(pairs), wrong_lists(blocks, pairs, moved)]
    rules += [wrong(pairs, root, moved) for wrong in (wrong_walk, wrong_two_orders, wrong_unreached)]
    return parts + [[line for rule in rules for line in rule]]


def known_of(image, geometry, profile=profiles.DEFAULT):
    parts = true_lines(image, *geometry, profile.versions)
    try:
        read, listing = image_reader.listed_image(image, *geometry, profile)
    except image_reader.Refused as refused:
        return Known(refused.rule, None, parts)
    return Known(None, summary(read, listing, *geometry, profile), parts)
