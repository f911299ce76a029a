"""Operations at random for exchange.py: the plain tree that they make, and how littlefs's own code and a session are told them.

A tree has for each path a file's bytes, or None for a directory; the root's path is empty. An operation is a tuple of a word and
its arguments: put PATH SIZE LETTER (a file has these bytes from then on), append PATH SIZE LETTER, write PATH AT SIZE LETTER,
truncate PATH SIZE, read PATH, rename OLD NEW, remove PATH, mkdir PATH, and for sessions alone set-attr PATH TYPE BYTES. Most names are
the beginning of another one in their directory, or begin with one.
"""

from dataclasses import dataclass
import subprocess

from session_model import word

FAMILIES = [[b"index.html", b"index.html.gz"], [b"main.py", b"main.pyc"], [b"log", b"log.old"], [b"x", b"x.tmp"]]
LETTERS = b"abc.~_- "


@dataclass(frozen=True)
class Limits:
    longest: int = 255  # name
    near: int = 0  # many files have about so many bytes, unless it is 0
    files: int = 70  # as many at most


ANY = Limits()


# What an operation means


def carry_out(tree, operation):
    """Changes the plain tree."""
    what, path, *more = operation
    if what in ("put", "append"):
        tree[path] = (tree[path] if what == "append" else b"") + more[1].encode() * more[0]
    elif what == "write":
        at, size, letter = more
        tree[path] = tree[path][:at].ljust(at, b"\0") + letter.encode() * size + tree[path][at + size :]
    elif what == "truncate":
        tree[path] = tree[path][: more[0]].ljust(more[0], b"\0")
    elif what == "mkdir":
        tree[path] = None
    elif what not in ("read", "set-attr"):
        moved = {at: tree.pop(at) for at in beneath(tree, path)}
        if what == "rename":
            tree.update({more[0] + at[len(path) :]: node for at, node in moved.items()})


def carry_attributes(attributes, operation):
    """Changes the attributes of each path that has some."""
    what, path, *more = operation
    if what == "set-attr":
        attributes.setdefault(path, {})[more[0]] = more[1]
    elif what in ("rename", "remove"):
        moved = {at: attributes.pop(at) for at in beneath(attributes, path)}
        if what == "rename":
            attributes.pop(more[0], None)
            attributes.update({more[0] + at[len(path) :]: kept for at, kept in moved.items()})


def carried(attributes, operations):
    """The operations, with which the attributes are changed."""
    for operation in operations:
        yield operation
        carry_attributes(attributes, operation)


def beneath(tree, path):
    """A path and all that is below it."""
    return [at for at in tree if at == path or at.startswith(path + b"/")]


def told(operation):
    """The line for exchange.c."""
    return " ".join(part.hex() if isinstance(part, bytes) else str(part) for part in operation)


def scripted(operation):
    """The lines for a session."""
    what, path, *more = operation
    if what == "put" or what == "append":
        return [f"open {word(path)} {'502' if what == 'put' else '802'}", f"write 0 *{more[0]}:{more[1]}", "close 0"]
    if what == "write":
        return [f"open {word(path)} 2", f"seek 0 {more[0]}", f"write 0 *{more[1]}:{more[2]}", "close 0"]
    if what == "truncate":
        return [f"open {word(path)} 2", f"truncate 0 {more[0]}", "close 0"]
    if what == "read":
        return []
    if what == "set-attr":
        return [f"set-attr {word(path)} {more[0]:x} {word(more[1])}"]
    return [f"{what} {word(path)} {word(more[0])}" if more else f"{what} {word(path)}"]


def answers_of(program, script):
    """What a session answers to the lines of a script."""
    run = subprocess.run([program], input=("\n".join(script) + "\n").encode(), stdout=subprocess.PIPE, check=True)
    return run.stdout.decode().split("\n")


# Trees and changes at random


def some_name(rnd):
    return bytes(rnd.choices(LETTERS, k=rnd.choice([1, 1, 2, 3, 8, 30]))).replace(b".", b"_") + b"~"


def some_family(rnd, limits=ANY):
    """Names each of which is the beginning of the next."""
    if rnd.random() < 0.4:
        return rnd.choice(FAMILIES)
    names = [some_name(rnd)]
    for _ in range(rnd.randint(1, 3)):
        names.append((names[-1] + bytes(rnd.choices(LETTERS, k=rnd.choice([1, 1, 2, 20]))))[: limits.longest])
    return names


def some_size(rnd, block_size, limits=ANY):
    if limits.near and rnd.random() < 0.4:
        return limits.near + rnd.randrange(-1, 2)
    return rnd.choice([1, rnd.randrange(1, 60), rnd.randrange(1, 60), rnd.randrange(1, block_size // 8), rnd.randrange(1, 2 * block_size)])


def some_put(rnd, path, block_size, what="put", limits=ANY):
    return what, path, some_size(rnd, block_size, limits), rnd.choice("uvwxyz")


def some_tree(rnd, block_size, limits=ANY):
    """Operations that make a tree from nothing: directories first, then files in any order."""
    folders = [b""]
    for family in [some_family(rnd, limits) for _ in range(rnd.randrange(3))]:
        above = rnd.choice(folders)
        folders += [above + b"/" + name for name in family]
    folders = list(dict.fromkeys(folders))
    files = {folder + b"/" + name for folder in folders for _ in range(rnd.choice([2, 4, 7])) for name in some_family(rnd, limits)}
    files = sorted(files - set(folders))
    rnd.shuffle(files)
    return [("mkdir", folder) for folder in folders[1:]] + [some_put(rnd, path, block_size, limits=limits) for path in files[: limits.files]]


def some_changes(rnd, tree, block_size, limits=ANY):
    """Operations upon a tree, in which each kind comes; the plain tree is changed with them."""
    kinds = ["put", "append", "replace", "remove", "add"] + rnd.choices(["put", "append", "replace", "remove", "add", "rename"], k=rnd.randrange(8))
    rnd.shuffle(kinds)
    for kind in kinds:
        for operation in some_change(rnd, tree, block_size, kind, limits):
            yield operation
            carry_out(tree, operation)


def every_file(rnd, tree, block_size, limits=ANY):
    """Each file of a tree is written in place, added to and shortened, in some order, and read behind each; the tree is changed with them."""
    for path in [path for path, node in tree.items() if node is not None]:
        for what in rnd.sample(["write", "append", "truncate"], 3):
            for operation in change_of_file(rnd, what, path, len(tree[path])), ("read", path):
                yield operation
                carry_out(tree, operation)


def change_of_file(rnd, what, path, size):
    if what == "truncate":
        return what, path, rnd.randrange(size + 1)
    if what == "append":
        return what, path, rnd.randrange(1, 80), rnd.choice("uvwxyz")
    return what, path, rnd.randrange(size + 1), 1 + rnd.randrange(max(1, size // 2)), rnd.choice("uvwxyz")


def some_change(rnd, tree, block_size, kind, limits=ANY):
    files = [path for path, node in tree.items() if node is not None]
    path = rnd.choice(files) if files else b"/x"
    if kind == "add" or not files:
        return [some_put(rnd, new_path(rnd, tree, path, limits), block_size, limits=limits)]
    if kind == "replace":  # by a file that is written first, under a name that begins with this one
        above, _, name = path.rpartition(b"/")
        before = above + b"/" + name[: limits.longest - 5] + b".tmp"
        before += b"~" * (tree.get(before, b"") is None)
        return [some_put(rnd, before, block_size, limits=limits), ("rename", before, path)]
    if kind == "rename":
        return [("rename", path, new_path(rnd, tree, path, limits))]
    return [("remove", path)] if kind == "remove" else [some_put(rnd, path, block_size, kind, limits)]


def new_path(rnd, tree, path, limits=ANY):
    """A path that isn't there: one that begins with that path, or a beginning of it."""
    above, _, name = path.rpartition(b"/")
    while True:
        cut = name[: rnd.randrange(len(name) + 1)]
        other = rnd.choice([cut, (name[:200] + some_name(rnd)[:20])[: limits.longest], rnd.choice(some_family(rnd, limits))])
        if other not in (b"", b".", b"..") and above + b"/" + other not in tree:
            return above + b"/" + other


# Long use: what is there first, and the operation that comes next


def short_put(rnd, path):
    return "put", path, rnd.randrange(1, 60), rnd.choice("uvwxyz")


def beside_a_log(rnd):
    """A directory with short files, so that the root's pair has the log and little else."""
    return [("mkdir", b"/d")] + [short_put(rnd, b"/d/f%d" % number) for number in range(34)]


def logging(rnd, tree, geometry):
    """A logger in the root: a log that is added to, and moved onto the old one where it is long."""
    log = b"/log"
    if log not in tree:
        return short_put(rnd, log)
    return ("rename", log, b"/log.old") if len(tree[log]) > 2 * geometry[0] else ("append", *short_put(rnd, log)[1:])


def a_few(rnd):
    return [("mkdir", b"/d"), ("mkdir", b"/d~")] + [short_put(rnd, folder + b"/" + name * 2) for folder in (b"", b"/d", b"/d~")
                                                   for family in FAMILIES for name in family]


def mixed(rnd, tree, geometry):
    """Any operation, in a tree that takes at most half of the blocks, with at most six directories."""
    files = [path for path, node in tree.items() if node is not None]
    folders = [path for path, node in tree.items() if node is None]
    kind = rnd.randrange(20)
    if len(files) > 60 or blocks_of(tree, geometry[0]) > geometry[2] // 2:
        return "remove", rnd.choice(files)
    if kind == 0 and len(folders) < 7:
        return "mkdir", new_path(rnd, tree, rnd.choice(folders) + b"/d")
    empty = [path for path in folders if path and len(beneath(tree, path)) == 1]
    if kind == 1 and empty:
        return "remove", rnd.choice(empty)
    if kind < 6 or not files:
        return short_put(rnd, new_path(rnd, tree, rnd.choice(folders) + b"/" + rnd.choice(some_family(rnd))))
    path, other = rnd.choice(files), rnd.choice(files)
    if kind == 6:
        return "remove", path
    if kind < 9:
        return "rename", path, new_path(rnd, tree, path) if other == path else other
    if kind == 9:
        return some_put(rnd, path, geometry[0])
    return ("append" if len(tree[path]) < 400 else "put", *short_put(rnd, path)[1:])


def with_attributes(operate):
    """The same, with attributes that are set now and then, of the types that littlefs's side shows."""
    def operation(rnd, tree, geometry):
        if len(tree) > 1 and rnd.random() < 0.1:
            return "set-attr", rnd.choice([path for path in tree if path]), rnd.randrange(8), rnd.randbytes(rnd.randrange(1, 20))
        return operate(rnd, tree, geometry)

    return operation


def blocks_of(tree, block_size):
    """About how many blocks a tree takes: directories have a pair or a few, short files stand in their entries."""
    names = sum(len(path.rpartition(b"/")[2]) + 12 for path in tree)
    short = sum(len(node) for node in tree.values() if node is not None and len(node) <= block_size // 8)
    lists = sum(len(node) // (block_size - 8) + 1 for node in tree.values() if node is not None and len(node) > block_size // 8)
    return lists + 2 * sum(node is None for node in tree.values()) + 4 * (names + short) // block_size
