"""A plain session: what `lfs_script` has to print, worked out on a dictionary of paths and on bytearrays, apart from the crates.

`Model(block_size, page, block_count).answer(line)` gives the line that a command has to print (crates/lfs_script/README.md, "Scripts");
what an operation answers is told in docs/OPERATIONS.md. The model holds no blocks: that of space which it knows is that each directory
takes a pair (`extra` pairs more for what an image has), so it is right where no directory outgrows a pair. It knows no words
with `\\xNN`, no `is-used`, no image out of the writing profile and nothing to recover.
"""

import copy
from dataclasses import dataclass, field

NUMBERS = {"NoEnt": 2, "BadFile": 9, "Busy": 16, "Exist": 17, "NotDir": 20, "IsDir": 21, "Invalid": 22, "TooBig": 27, "NoSpace": 28,
           "NameTooLong": 36, "NotEmpty": 39, "NoAttr": 61, "EntryFull": 201}
MOST = 2147483647
READ, WRITE, CREATE, EXCLUSIVE, TRUNCATE, APPEND = 1, 2, 0x100, 0x200, 0x400, 0x800
READERS = 16
SHOWN = [chr(byte) if 0x21 <= byte <= 0x7e and byte not in b"\\*" else "\\x%02x" % byte for byte in range(256)]


class Refused(Exception):
    """An operation is refused; the text is the error's name."""


@dataclass
class Node:
    content: bytes = None  # None: a directory
    attributes: dict = field(default_factory=dict)


@dataclass
class File:
    path: bytes
    writes: bool
    appends: bool = False
    content: bytearray = None  # a writer's
    position: int = 0
    dirty: bool = False
    turned: bool = False
    last_end: int = None


def refuse(fact, name):
    if fact:
        raise Refused(name)


def word(data):
    """Bytes as an answer shows them."""
    if not data:
        return "\\e"
    return "".join(map(SHOWN.__getitem__, data))


def bytes_of(text):
    """The bytes of a word of a script."""
    if text.startswith("*"):
        count, _, rest = text[1:].partition(":")
        return int(count) * bytes_of(rest)
    return b"" if text == "\\e" else text.encode()


def parsed(path):
    """A path in components, none for the root."""
    if path == b"/":
        return []
    refuse(not path.startswith(b"/") or b"\0" in path, "Invalid")
    names = path[1:].split(b"/")
    refuse(any(name in (b"", b".", b"..") for name in names), "Invalid")
    return names


def key(names):
    return b"".join(b"/" + name for name in names)


class Model:
    def __init__(self, block_size, page, block_count, tree=None, extra=0):
        self.block_size, self.page, self.block_count, self.extra = block_size, page, block_count, extra
        self.tree = {b"": Node()} if tree is None else copy.deepcopy(tree)
        self.files = {}

    # Space

    def inline(self):
        return min(self.block_size // 8, 1022)

    def blocks(self, size):
        """How many blocks the list of a file of this size takes."""
        count, held = 0, 0
        while size > self.inline() and held < size:
            held += self.block_size - (4 * (count & -count).bit_length() if count else 0)
            count += 1
        return count

    def used(self):
        pairs = self.extra + sum(node.content is None for node in self.tree.values())
        return 2 * pairs + sum(self.blocks(len(node.content)) for node in self.tree.values() if node.content is not None)

    def held(self, file):
        return (2 + self.blocks(len(file.content)) * (2 if file.turned else 1)) if file.dirty else 0

    def refuse_space(self, need):
        held = sum(self.held(file) for file in self.files.values() if file.writes)
        refuse(self.block_count - self.used() - held < need, "NoSpace")

    def refuse_charge(self, name, attributes):
        charge = 8 + len(name) + self.inline() + sum(4 + len(data) for data in attributes.values())
        refuse(charge > (self.block_size - 39 - self.page) // 2, "EntryFull")

    # What is there

    def check_parents(self, names):
        for count in range(len(names)):
            node = self.tree.get(key(names[:count]))
            refuse(node is None, "NoEnt")
            refuse(node.content is not None, "NotDir")

    def node(self, path):
        names = parsed(path)
        self.check_parents(names)
        refuse(key(names) not in self.tree, "NoEnt")
        return self.tree[key(names)]

    def entry(self, path):
        """An entry's path, not the root's."""
        names = parsed(path)
        refuse(not names, "Invalid")
        self.check_parents(names)
        return key(names)

    def below(self, at):
        return sorted(path[len(at) + 1 :] for path in self.tree if path.startswith(at + b"/") and b"/" not in path[len(at) + 1 :])

    def is_open(self, at, beneath=False):
        return any(file.path == at or beneath and file.path.startswith(at + b"/") for file in self.files.values())

    def file(self, number, writes=None):
        file = self.files.get(int(number))
        refuse(file is None or writes not in (None, file.writes), "BadFile")
        return file

    # Operations

    def open(self, path, flags):
        flags, path = int(flags, 16), bytes_of(path)
        refuse(flags & ~0xf03 or flags & 3 in (0, 3) or flags & READ and flags != READ, "Invalid")
        refuse(flags & EXCLUSIVE and not flags & CREATE, "Invalid")
        names = parsed(path)
        self.check_parents(names)
        at = key(names)
        node = self.tree.get(at)
        refuse(node is None and flags & CREATE and len(names[-1]) > 255, "NameTooLong")
        refuse(node is None and not flags & CREATE, "NoEnt")
        refuse(node and flags & EXCLUSIVE, "Exist")
        refuse(node and node.content is None, "IsDir")
        writers = [file.path for file in self.files.values() if file.writes]
        if flags & READ:
            refuse(at in writers or len(self.files) - len(writers) == READERS, "Busy")
        else:
            refuse(writers or self.is_open(at), "Busy")
        number = min(set(range(18)) - set(self.files))
        file = File(at, bool(flags & WRITE), bool(flags & APPEND))
        if node is None:
            self.refuse_space(2)
            node = self.tree[at] = Node(b"")
        if flags & WRITE:
            file.content = bytearray(node.content)
            if flags & TRUNCATE and node.content:
                file.content, file.dirty = bytearray(), True
                refuse(self.held(file) > self.block_count - self.used(), "NoSpace")
        self.files[number] = file
        return f"fd {number}"

    def read(self, number, count):
        file = self.file(number, writes=False)
        found = self.tree[file.path].content[file.position : file.position + int(count)]
        file.position += len(found)
        return "bytes " + word(found)

    def change(self, file, content, begins, end):
        """Gives a writer other contents, which end a write that begins there; where that is None, they are cut or lengthened."""
        after = copy.copy(file)
        after.content, after.dirty = content, True
        after.turned = file.turned or file.last_end is not None and begins != file.last_end
        after.last_end = file.last_end if end is None else end
        refuse(self.held(after) > self.block_count - self.used(), "NoSpace")
        file.__dict__.update(after.__dict__)

    def write(self, number, data):
        file, data = self.file(number, writes=True), bytes_of(data)
        length = len(file.content)
        at = length if file.appends else file.position
        refuse(at + len(data) > MOST, "TooBig")
        if data:
            refuse(at > 1 << 24, "NoSpace")  # more than any device here holds
            content = file.content + bytearray(max(0, at - length))
            content[at : at + len(data)] = data
            self.change(file, content, min(at, length), at + len(data))
            file.position = at + len(data)
        return f"count {len(data)}"

    def seek(self, number, position):
        file = self.file(number)
        refuse(int(position) > MOST, "Invalid")
        file.position = int(position)
        return "done"

    def truncate(self, number, size):
        file, size = self.file(number, writes=True), int(size)
        refuse(size > MOST, "TooBig")
        length = len(file.content)
        if size != length:
            refuse(size > 1 << 24, "NoSpace")
            content = file.content[:size] + bytearray(max(0, size - length))
            self.change(file, content, None, size if size > length else None)
        return "done"

    def sync(self, number):
        file = self.file(number)
        if file.dirty:
            self.tree[file.path].content = bytes(file.content)
            file.dirty, file.turned, file.last_end = False, False, None
        return "done"

    def close(self, number):
        self.sync(number)
        del self.files[int(number)]
        return "done"

    def mkdir(self, path):
        names = parsed(bytes_of(path))
        self.check_parents(names)
        refuse(names and len(names[-1]) > 255, "NameTooLong")
        refuse(key(names) in self.tree, "Exist")
        self.refuse_space(4)
        self.tree[key(names)] = Node()
        return "done"

    def remove(self, path):
        at = self.entry(bytes_of(path))
        refuse(at not in self.tree, "NoEnt")
        refuse(self.below(at), "NotEmpty")
        refuse(self.is_open(at), "Busy")
        del self.tree[at]
        return "done"

    def rename(self, old, new):
        old, new = parsed(bytes_of(old)), parsed(bytes_of(new))
        refuse(not old or not new or old == new[: len(old)] and old != new, "Invalid")
        self.check_parents(old)
        self.check_parents(new)
        refuse(len(new[-1]) > 255, "NameTooLong")
        refuse(key(old) not in self.tree, "NoEnt")
        node, target = self.tree[key(old)], None if old == new else self.tree.get(key(new))
        if target:
            refuse(node.content is None and target.content is not None, "NotDir")
            refuse(node.content is not None and target.content is None, "IsDir")
            refuse(self.below(key(new)), "NotEmpty")
        refuse(self.is_open(key(old), beneath=True) or self.is_open(key(new)), "Busy")
        self.refuse_charge(new[-1], node.attributes)
        self.refuse_space(2)
        moved = {path: node for path, node in self.tree.items() if path == key(old) or path.startswith(key(old) + b"/")}
        self.tree = {path: node for path, node in self.tree.items() if path not in moved}
        self.tree.update({key(new) + path[len(key(old)) :]: node for path, node in moved.items()})
        return "done"

    def list(self, path):
        at = key(parsed(bytes_of(path)))
        refuse(self.node(bytes_of(path)).content is not None, "NotDir")
        nodes = [(name, self.tree[at + b"/" + name]) for name in self.below(at)]
        shown = [f" d:0:{word(name)}" if node.content is None else f" f:{len(node.content)}:{word(name)}" for name, node in nodes]
        return f"items {len(nodes)}" + "".join(shown)

    def stat(self, path):
        node = self.node(bytes_of(path))
        return "stat d 0" if node.content is None else f"stat f {len(node.content)}"

    def with_attributes(self, path):
        at = self.entry(bytes_of(path))
        refuse(at not in self.tree, "NoEnt")
        return at.rpartition(b"/")[2], self.tree[at].attributes

    def get_attr(self, path, kind):
        _, attributes = self.with_attributes(path)
        refuse(kind not in attributes, "NoAttr")
        return "bytes " + word(attributes[kind])

    def set_attr(self, path, kind, data):
        name, attributes = self.with_attributes(path)
        refuse(len(bytes_of(data)) > 1022, "TooBig")
        self.refuse_charge(name, attributes | {kind: bytes_of(data)})
        self.refuse_space(2)
        attributes[kind] = bytes_of(data)
        return "done"

    def remove_attr(self, path, kind):
        _, attributes = self.with_attributes(path)
        refuse(kind not in attributes, "NoAttr")
        del attributes[kind]
        return "done"

    def used_count(self):
        return f"count {self.used()}"

    def gstate(self):
        return "gstate 0 none"

    def recover(self):
        return "done"

    def remount(self):
        self.files = {}
        return "done"

    def answer(self, line):
        name, *words = line.split(" ")
        try:
            return getattr(self, name.replace("-", "_"))(*words)
        except Refused as refused:
            return f"refused {refused} {NUMBERS[str(refused)]}"


# Looking at a whole tree


def looks(trees):
    """Questions that tell trees of these apart."""
    lines = []
    for path in sorted(set().union(*trees)):
        shown, nodes = path.decode() or "/", [tree[path] for tree in trees if path in tree]
        lines.append(f"stat {shown}")
        if any(node.content is None for node in nodes):
            lines.append(f"list {shown}")
        if any(node.content is not None for node in nodes):
            lines += [f"open {shown} 1", "read 0 1000000", "close 0"]
        lines += [f"get-attr {shown} {kind}" for kind in sorted({kind for node in nodes for kind in node.attributes})]
    return lines


def seen(tree, lines):
    """What questions of a session that has nothing open answer of a tree."""
    model = Model(1024, 128, 65536, tree)
    return [model.answer(line) for line in lines]
