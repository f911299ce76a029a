#!/usr/bin/env python3
"""The calls from C and from Python, compared with plain models.

usage: bindings.py [--count N] [--seed WORD] [--built] [--littlefs FOLDER] [--times]

Builds the static library (`rt lib`), and from it the examples and the shared library (`make`); not with `--built`. Then in turn:

- the example in C runs twice on one file, and must print the expected lines;
- N lists of 30 random operations run through bindings/python, on an image each, and through session_model.py, which shares nothing
  with the crates. Each answer and refusal is compared, and the bytes after each refused operation. The whole tree is compared at the
  end of the list, by a second mount of the bytes. With the folder of littlefs's own code, it must show the same tree of each image
  whose longer names come first, as littlefs has them;
- N lists of 60 calls of one volume are compared with the model of volume.py. Files are open several times, for reading and writing
  both, and are renamed and removed while they are open;
- each call that fills a buffer gets one of no byte, one too short, an exact one, and one with room to spare. The bytes after the
  answer must stay, and all of them if the answer doesn't fit;
- hostile images are mounted: changed, truncated and random bytes, and sizes out of range. A mount accepts them, or refuses them by a
  number of littlefs_c.h. Calls over an accepted one leave an image that is accepted;
- directory handles, the superblock, used blocks and the reason why an image is read only, by the calls of littlefs_c.h;
- each call gets a closed handle;
- further promises of bindings/python: file objects, exceptions, limits and versions, threads, and calls after a close.

Prints how many there were of each. Fails at the first difference. With `--times` it prints instead the seconds of 1,000 writes of 100
bytes, 1,000 stats, a read of 1 MiB in pieces, ten more such reads, and 1,000 new files: by a volume, by littlefs's own code if its
folder is given, and from Python.
"""

import argparse
import collections
import contextlib
import copy
import ctypes
import errno
import gc
import io
import json
import os
import random
import re
import subprocess
import sys
import tempfile
import threading
import time
import zipfile
import zlib

import littlefs_code
import session_model
import volume
from session_model import Model, Refused, key, parsed

top = os.path.dirname(os.path.dirname(os.path.abspath(__file__)))
sys.path.insert(0, os.path.join(top, "bindings", "python"))
import littlefs_c
from littlefs_c import library

NAMES = [b"a", b"b", b"ab", b"name with space", b"\\", b"caf\xc3\xa9", b"\xff\x01", b"x" * 255, b"x" * 256]
EXAMPLE = ["21.5 degrees\nf 13 today\n", "21.5 degrees\n21.5 degrees\nf 26 today\n"]
GUARD = 64


class Different(Exception):
    """Two results differ."""


def same(what, got, wanted):
    if got != wanted:
        raise Different(f"{what}: {got!r:.300} and not {wanted!r:.300}")


def build():
    subprocess.run(["rt", "lib"], cwd=os.path.join(top, "crates", "littlefs_c"), check=True, stdout=subprocess.DEVNULL)
    subprocess.run(["make", "-s"], cwd=os.path.join(top, "bindings", "c"), check=True)


# Operations at random


def word(data):
    """Returns bytes as the model takes them here: a character for each."""
    return data.decode("latin-1")


session_model.bytes_of = volume.bytes_of = lambda text: text.encode("latin-1")


def model_items(model, path):
    at = key(parsed(path))
    if model.node(path).content is not None:
        raise Refused("NotDir")
    nodes = [(name, model.tree[at + b"/" + name]) for name in model.below(at)]
    return [(name, None if node.content is None else len(node.content)) for name, node in nodes]


def model_write(model, path, data):
    model.open(word(path), "502")
    model.write(0, word(data))
    model.close(0)


def model_read(model, path, position, count):
    model.open(word(path), "1")
    model.seek(0, position)
    file = model.files.pop(0)
    return model.tree[file.path].content[position : position + count]


def model_stat(model, path):
    node = model.node(path)
    return None if node.content is None else len(node.content)


def model_getattr(model, path, kind):
    _, attributes = model.with_attributes(word(path))
    if kind not in attributes:
        raise Refused("NoAttr")
    return attributes[kind]


IN_MODEL = {
    "items": model_items,
    "stat": model_stat,
    "read": model_read,
    "write": model_write,
    "mkdir": lambda model, path: model.mkdir(word(path)),
    "remove": lambda model, path: model.remove(word(path)),
    "rename": lambda model, old, new: model.rename(word(old), word(new)),
    "getattr": model_getattr,
    "setattr": lambda model, path, kind, data: model.set_attr(word(path), kind, word(data)),
    "removeattr": lambda model, path, kind: model.remove_attr(word(path), kind),
    "used": lambda model: model.used(),
}
CHANGES = {"write", "mkdir", "remove", "rename", "setattr", "removeattr"}


def a_path(chance, model):
    """Returns a path that exists, one beneath it, or one that isn't well formed."""
    kind = chance.random()
    if kind < 0.04:
        return chance.choice([b"", b"a", b"/a/", b"//a", b"/.", b"/a/..", b"/a\x00b", b"/"])
    there = chance.choice(sorted(model.tree))
    if kind < 0.5:
        return there or b"/"
    return there + b"/" + chance.choice(NAMES)


def some_bytes(chance, most):
    return chance.randbytes(chance.choice([0, 1, 7, 100, 511, 512, 513, 1022, 1023, most // 2, chance.randint(0, most)]))


def an_operation(chance, model):
    """Returns a call of `Image` and its arguments."""
    name = chance.choice(["write"] * 5 + ["mkdir"] * 3 + ["rename"] * 2 + ["remove", "setattr", "setattr", "removeattr", "items", "stat", "read", "read", "getattr", "used"])
    path = a_path(chance, model)
    if name in ("mkdir", "write") and sum(at.rpartition(b"/")[0] == path.rpartition(b"/")[0] for at in model.tree) > 5:
        name = "remove"
    takes = {
        "write": lambda: (path, some_bytes(chance, 30000)),
        "rename": lambda: (path, a_path(chance, model)),
        "setattr": lambda: (path, chance.choice([0, 7, 255]), some_bytes(chance, 40)[:1100]),
        "removeattr": lambda: (path, chance.choice([0, 7, 255])),
        "getattr": lambda: (path, chance.choice([0, 7, 255])),
        "read": lambda: (path, chance.choice([0, 1, 500, 4095, 4096, 29000, 2147483647, 2147483648]), chance.choice([0, 1, 100, 5000])),
        "used": lambda: (),
    }.get(name, lambda: (path,))()
    return name, takes


def by_model(model, name, takes):
    """Returns the model's answer, and the model after it."""
    after = copy.deepcopy(model)
    after.files = {}
    try:
        return (IN_MODEL[name](after, *takes), after) if name not in CHANGES else (IN_MODEL[name](after, *takes) and None, after)
    except Refused as refused:
        return str(refused), model


def by_calls(image, name, takes):
    try:
        return getattr(image, name)(*takes)
    except OSError as error:
        return littlefs_c.ERRORS[error.errno]


def look(image, tree):
    """Compares the whole tree of an image with this one."""
    for at, node in sorted(tree.items()):
        path = at or b"/"
        if node.content is None:
            below = sorted(name[len(at) + 1 :] for name in tree if name.startswith(at + b"/") and b"/" not in name[len(at) + 1 :])
            same(f"names in {path}", [name for name, _ in image.items(path)], below)
        else:
            same(f"bytes of {path}", image.read(path), node.content)
        for kind, data in node.attributes.items():
            same(f"attribute {kind} of {path}", image.getattr(path, kind), data)


def by_littlefs(code, image, block_size, page, tree):
    """Compares the tree that littlefs's own code shows of an image with this one."""
    with tempfile.NamedTemporaryFile() as file:
        file.write(bytes(image))
        file.flush()
        shown = littlefs_code.shown(code, file.name, (block_size, page))
    wanted = {path: (None if node.content is None else (len(node.content), zlib.crc32(node.content) ^ 0xFFFFFFFF), {kind: data for kind, data in node.attributes.items() if path and kind < 8}) for path, node in tree.items()}
    same("what littlefs shows", (shown.tree, shown.missing, shown.twice), (wanted, set(), set()))


def compare(count, seed, code):
    seen = collections.Counter()
    for number in range(count):
        chance = random.Random(f"{seed} {number}")
        block_size, page, blocks = chance.choice([(1024, 8, 64), (4096, 256, 24), (4096, 16, 8), (2048, 64, 32), (4096, 512, 16)])
        order = chance.choice([littlefs_c.LONGER_FIRST, littlefs_c.SHORTER_FIRST])
        image = littlefs_c.Image.format(block_size * blocks, block_size, page, order)
        model = Model(block_size, page, blocks)
        for _ in range(30):
            name, takes = an_operation(chance, model)
            before = bytes(image)
            wanted, model = by_model(model, name, takes)
            got = by_calls(image, name, takes)
            same(f"list {number}, {name} {takes!r:.200}", got, wanted)
            if name not in CHANGES or isinstance(wanted, str) and name != "write":
                same(f"list {number}, bytes after {name} {takes!r:.200}", bytes(image) == before, True)
            if name == "write" and isinstance(wanted, str):
                look(image, model.tree)
            seen[name + (" refused" if isinstance(wanted, str) else "")] += 1
        look(littlefs_c.Image(bytes(image), block_size, page), model.tree)
        if code and order == littlefs_c.LONGER_FIRST:
            by_littlefs(code, image, block_size, page, model.tree)
            seen["image shown by littlefs"] += 1
    return seen


# Volumes with open files


IN_VOLUME = ["open"] * 10 + ["write"] * 8 + ["read"] * 6 + ["seek"] * 4 + ["truncate"] * 3 + ["sync"] * 2 + ["close"] * 4 + ["tell", "size", "mkdir", "mkdir", "remove", "remove", "rename", "rename", "items", "stat", "getattr", "setattr", "removeattr", "used", "recover"]
FLAGS = [0x1] * 4 + [0x2, 0x102, 0x902, 0x502, 0x302, 0x3, 0x103, 0x103, 0x903, 0x503, 0x403, 0x303] + [0, 0x100, 0x101, 0x401, 0x801, 0x1002, 0x202]


def a_volume_call(chance, model):
    """Returns a call of a volume and its arguments."""
    name = chance.choice(IN_VOLUME if chance.random() > 0.01 else ["remount"])
    path = a_path(chance, model)
    if name in ("open", "remove", "rename") and chance.random() < 0.5:
        path = chance.choice([at for at, node in model.tree.items() if node.content is not None] or [b"/file"])
    if name in ("mkdir", "open") and sum(at.rpartition(b"/")[0] == path.rpartition(b"/")[0] for at in model.tree) > 5:
        name = "close"
    need = {"write": volume.WRITE, "truncate": volume.WRITE, "read": volume.READ}.get(name, 0)
    fit = [number for number, handle in model.handles.items() if handle.flags & need == need]
    file = chance.choice(fit) if fit and chance.random() < 0.8 else chance.choice([*model.handles, 0, 1, 17, 2**32 - 1])
    size = chance.choice([0, 1, 100, 511, 513, 4096, 9000, chance.randint(0, 30000), 2147483647, 2147483648])
    takes = {
        "open": lambda: (path, chance.choice(FLAGS)),
        "write": lambda: (file, some_bytes(chance, 9000)),
        "read": lambda: (file, min(size, 40000)),
        "seek": lambda: (file, min(size, 60000) if size < 2147483648 else size),
        "truncate": lambda: (file, min(size, 60000) if size < 2147483648 else size),
        "rename": lambda: (path, a_path(chance, model)),
        "setattr": lambda: (path, chance.choice([0, 7, 255]), some_bytes(chance, 40)[:1100]),
        "removeattr": lambda: (path, chance.choice([0, 7, 255])),
        "getattr": lambda: (path, chance.choice([0, 7, 255])),
        **{name: lambda: (file,) for name in ("tell", "size", "sync", "close")},
        **{name: lambda: () for name in ("used", "recover", "remount")},
    }.get(name, lambda: (path,))()
    return name, takes


def model_file_read(model, number, count):
    handle = model.handle(number, volume.READ)
    found = bytes(handle.file.bytes[handle.position : handle.position + count])
    handle.position += len(found)
    return found


BY_NUMBER = {
    "open": lambda model, path, flags: int(model.open(word(path), f"{flags:x}").split()[1]),
    "write": lambda model, number, data: int(model.write(number, word(data)).split()[1]),
    "read": model_file_read,
    "seek": lambda model, number, position: model.seek(number, position) and None,
    "tell": lambda model, number: int(model.position(number).split()[1]),
    "size": lambda model, number: int(model.size(number).split()[1]),
    "truncate": lambda model, number, size: model.truncate(number, size) and None,
    "sync": lambda model, number: model.sync(number) and None,
    "close": lambda model, number: model.close(number) and None,
    "recover": lambda model: None,
    "remount": lambda model: model.remount() and None,
}


def volume_in_model(model, name, takes):
    """Returns the model's answer, and the model after it. A refused close frees the number."""
    after = copy.deepcopy(model)
    try:
        if name in BY_NUMBER:
            return BY_NUMBER[name](after, *takes), after
        answer = IN_MODEL[name](after, *takes)
        return None if name in CHANGES else answer, after
    except Refused as refused:
        return str(refused), after if name == "close" else model


def volume_by_calls(image, name, takes):
    """Makes the same call through the handle of an image."""
    try:
        if name == "open":
            return image._call("open", [], *library.readable(takes[0]), takes[1])
        if name == "read":
            buffer = bytearray(takes[1])
            return bytes(buffer[: image._call("file_read", [], takes[0], *library.writable(buffer))])
        if name == "write":
            return image._call("file_write", [], takes[0], *library.readable(takes[1]))
        if name in ("tell", "size"):
            return image._call("file_" + name, [], *takes)
        if name in ("seek", "truncate", "sync", "close"):
            return "not 0" if image._call("file_" + name, [], *takes) else None
        return getattr(image, name)(*takes)
    except OSError as error:
        return littlefs_c.ERRORS[error.errno]


def volumes(count, seed):
    seen = collections.Counter()
    for number in range(count):
        chance = random.Random(f"{seed} volume {number}")
        block_size, page, blocks = chance.choice([(1024, 8, 64), (4096, 256, 24), (2048, 64, 32), (4096, 512, 16), (1024, 16, 14)])
        model = volume.VolumeModel(blocks, block_size=block_size, page=page)
        with littlefs_c.Image.format(block_size * blocks, block_size, page) as image:
            for _ in range(60):
                name, takes = a_volume_call(chance, model)
                before = bytes(image)
                wanted, model = volume_in_model(model, name, takes)
                got = volume_by_calls(image, name, takes)
                same(f"volume {number}, {name} {takes!r:.200}", got, wanted)
                if isinstance(wanted, str):
                    same(f"volume {number}, bytes after {name} {takes!r:.200}", bytes(image) == before, True)
                seen[name + (" refused" if isinstance(wanted, str) else "")] += 1
            for file in sorted(model.handles):
                wanted, model = volume_in_model(model, "close", (file,))
                same(f"volume {number}, the last close of {file}", volume_by_calls(image, "close", (file,)), wanted)
            look(littlefs_c.Image(bytes(image), block_size, page), model.tree)
    return seen


# Buffers


def guarded(size):
    """Returns a buffer with guards on both sides that no call may touch."""
    whole = (ctypes.c_ubyte * (size + 2 * GUARD))(*(0xa5 for _ in range(size + 2 * GUARD)))
    return whole, ctypes.addressof(whole) + GUARD


def filled(name, size, whole, answer, wanted, may_be_part):
    """Checks that a buffer of this size has the answer, and that nothing around it was written."""
    held = bytes(whole)[GUARD:-GUARD]
    put = wanted[:size] if may_be_part else wanted if len(wanted) <= size else b""
    same(f"{name} into {size} bytes", answer, len(put) if may_be_part else len(wanted))
    same(f"{name} into {size} bytes, the buffer", held, put + b"\xa5" * (size - len(put)))
    same(f"{name} into {size} bytes, around it", bytes(whole)[:GUARD] + bytes(whole)[-GUARD:], b"\xa5" * 2 * GUARD)


def buffers():
    image = littlefs_c.Image.format(24 * 4096)
    image.mkdir("/d")
    image.write("/d/file", bytes(range(256)) * 20)
    image.write("/d/\\back", b"")
    image.setattr("/d/file", 9, b"an attribute")
    data = bytes(image)
    listed, content = b"f 0 \\x5cback\nf 5120 file\n", bytes(range(256)) * 20
    file = image._call("open", [], *library.readable(b"/d/file"), library.READ)
    held = [("list_at", library.readable(b"/d"), listed, False), ("get_attr_at", (*library.readable(b"/d/file"), 9), b"an attribute", False), ("image", (), data, False),
            *[("image_part", (offset,), data[offset:], True) for offset in (0, 1, 50000, len(data) - 1, len(data), len(data) + 1, 2**64 - 1)],
            *[("file_read", (file, position), content[position:], True) for position in (0, 5000, 5120, 6000)]]
    seen = 0
    for name, takes, wanted, may_be_part in held:
        for size in {0, max(len(wanted) - 1, 0), len(wanted), len(wanted) + 1, len(wanted) + 100}:
            whole, address = guarded(size)
            if name == "file_read":
                image._call("file_seek", [], *takes)
                answer = image._call(name, [], takes[0], address, size)
            else:
                answer = image._call(name, [], *takes, address, size)
            filled(name, size, whole, answer, wanted, may_be_part)
            seen += 1
    return seen


# Hostile images


def hostile(chance, images):
    """Returns bytes, a block size and a page that are no image, or a damaged one."""
    data, block_size, page = chance.choice(images)
    data = bytearray(data)
    kind = chance.randrange(8)
    if kind == 0:
        data = bytearray(chance.randbytes(len(data)))
    elif kind == 1:
        data = data[: chance.choice([0, 1, block_size, block_size + 1, 2 * block_size, len(data) - 1])]
    elif kind == 2:
        block_size = chance.choice([0, 1, 512, 1000, 1023, block_size * 2, 2**31, 2**32 - 1])
    elif kind == 3:
        page = chance.choice([0, 1, 7, 24, 1024, 2**32 - 1])
    else:
        for _ in range(chance.choice([1, 1, 2, 5, 100])):
            at = chance.randrange(len(data)) if kind == 4 else chance.randrange(min(len(data), 2 * block_size))
            data[at] ^= 1 << chance.randrange(8) if kind < 7 else 255
    return data, block_size, page


def attack_image(chance, number, data, block_size, page):
    """Calls a volume over hostile bytes, which must leave an image that is accepted. Returns whether they were mounted."""
    try:
        image = littlefs_c.Image(data, block_size, page)
    except OSError as error:
        same(f"image {number}: an error's number", littlefs_c.ERRORS[error.errno] in ("Invalid", "Corrupt"), True)
        return False
    with image:
        path, other = b"/d/file", b"/d/" + chance.randbytes(3).replace(b"/", b"_").replace(b"\0", b"_")
        for call in [lambda: image.recover(), lambda: image.write(other, chance.randbytes(3000)), lambda: list(image.walk()), lambda: image.read(path), lambda: image.rename(path, b"/moved"),
                     lambda: image.setattr(b"/d", 9, b"other"), lambda: image.remove(other), lambda: image.used(), lambda: image.remount(), lambda: image.open(other, "ab").close(), lambda: image.open(path, "r+b").write(b"other"), lambda: image.truncate(path, 9000)]:
            with contextlib.suppress(OSError):
                call()
        image.check()
    return True


def some_images():
    images = []
    for block_size, page, blocks in [(4096, 256, 8), (1024, 8, 32)]:
        image = littlefs_c.Image.format(blocks * block_size, block_size, page)
        image.mkdir("/d")
        image.write("/d/file", b"0123456789" * 400)
        image.setattr("/d", 9, b"attribute")
        images.append((bytes(image), block_size, page))
    return images


def attack(count, seed):
    images, seen = some_images(), collections.Counter()
    for number in range(count):
        chance = random.Random(f"{seed} hostile {number}")
        data, block_size, page = hostile(chance, images)
        seen["mounted" if attack_image(chance, number, bytes(data), block_size, page) else "not mounted"] += 1
    return seen


# Calls of littlefs_c.h that bindings/python doesn't use


class Entry(ctypes.Structure):
    _fields_ = [("kind", ctypes.c_uint32), ("size", ctypes.c_uint32), ("name_len", ctypes.c_uint32)]


class Info(ctypes.Structure):
    _fields_ = [(name, ctypes.c_uint32) for name in ("disk_version", "block_size", "block_count", "name_max", "file_max", "attr_max")]


class Breach(ctypes.Structure):
    _fields_ = [("pair", ctypes.c_uint32 * 2), ("slot", ctypes.c_size_t), ("limit", ctypes.c_uint32)]


def c_calls():
    """Returns a function that makes a call of the shared library by its name, on the volume of an image."""
    shared = ctypes.CDLL(os.environ.get("LITTLEFS_C") or library.built_library())

    def call(name, image, *words):
        made = getattr(shared, "lfs_c_" + name)
        made.restype = ctypes.c_int64
        return made(ctypes.byref(image._handle), *[ctypes.c_size_t(it) if isinstance(it, int) else it for it in words])

    return call


def entries_of(call, image, number):
    """Returns the entries of an open directory from its position on."""
    found, entry, name = [], Entry(), ctypes.create_string_buffer(255)
    while call("dir_read", image, number, ctypes.byref(entry), name, 255) == 1:
        found.append((name.raw[: entry.name_len], entry.size if entry.kind == 1 else None))
    return found


def questions():
    """Directory handles, the superblock, used blocks, and why an image is read only."""
    call, seen = c_calls(), 0
    with littlefs_c.Image.format(64 * 4096) as image:
        image.mkdir("/d")
        for number in range(30):
            image.write(f"/d/{number * number * 37 % 1000:x}" + "x" * number * 8, bytes(number))
        numbers = [call("dir_open", image, *library.readable(path)) for path in (b"/d", b"/", b"/d")]
        same("numbers of directories", numbers, [0, 1, 2])
        listed = image.items("/d")
        same("entries", (entries_of(call, image, 0), entries_of(call, image, 1)), (listed, [(b"d", None)]))
        same("their positions", [call("dir_tell", image, number) for number in numbers], [len(listed), 1, 0])
        same("seeks", [call("dir_seek", image, 0, position) for position in (31, 2**32 - 1, 7)], [-22, -22, 0])
        image.remove(b"/d/" + listed[9][0])
        image.write("/d/zz", b"12")
        same("an old list from entry 7 on", entries_of(call, image, 0), listed[7:])
        same("a rewind", (call("dir_rewind", image, 0), entries_of(call, image, 0)), (0, image.items("/d")))
        same("closed", [call("dir_close", image, number) for number in (0, 0, 1, 5)], [0, -9, 0, -9])
        same("no such number", [call(name, image, 1, *more) for name, more in (("dir_tell", ()), ("dir_seek", (0,)), ("dir_rewind", ()))], [-9] * 3)
        same("the least number", call("dir_open", image, *library.readable(b"/")), 0)
        same("no directory", [call("dir_open", image, *library.readable(path)) for path in (b"/none", b"/d/zz", b"d")], [-2, -20, -22])
        entry, name = Entry(), ctypes.create_string_buffer(b"\xa5" * 10, 10)
        same("a name that doesn't fit", (call("dir_read", image, 2, ctypes.byref(entry), name, 0), entry.name_len, name.raw), (1, len(listed[0][0]), b"\xa5" * 10))
        info = Info()
        same("the superblock", (call("superblock", image, ctypes.byref(info)), [getattr(info, it) for it, _ in Info._fields_]), (0, [0x20000, 4096, 64, 255, 2147483647, 1022]))
        used = [call("is_used", image, block) for block in range(65)]
        same("used blocks", (used[0], used[1], sum(used[:64]), used[64]), (1, 1, image.used(), -22))
        same("writable", (call("is_writable", image), call("read_only_reason", image, ctypes.byref(Breach()))), (1, 0))
        image.remount()
        same("no directory after a remount", call("dir_tell", image, 0), -9)
        data = bytes(image)
    for reason, limits in ((1, {"name_max": 200}), (2, {"file_max": 1000}), (3, {"attr_max": 100}), (4, {"inline_max": 5})):
        breach = Breach()
        with littlefs_c.Image(data, **limits) as image:
            same(f"read only by {limits}", (call("is_writable", image), call("read_only_reason", image, ctypes.byref(breach))), (0, reason))
            same("its limit", breach.limit, {1: 255, 2: 2147483647, 3: 1022, 4: 0}[reason])
        seen += 1
    return seen


# Further promises of bindings/python


def raises(wanted, call, number=None, path=None):
    """Checks that a call raises this exception, with this number and this path if they are given."""
    try:
        call()
    except wanted as error:
        same(f"the number of {error!r}", number in (None, getattr(error, "errno", None)), True)
        same(f"the path of {error!r}", path in (None, getattr(error, "filename", None)), True)
    else:
        raise Different(f"no {wanted} by {call}")


def closed():
    """Each call through a closed handle is refused, and a second unmount does nothing."""
    calls, seen = library.load(), 0
    for name, takes in library.CALLS.items():
        handle, room = library.Handle(None, 0), ctypes.create_string_buffer(100)
        if name in ("mount", "mount_with_limits", "mkfs"):
            continue
        words = [word for letter in takes for word in ((room, 100) if letter == "b" else (library.Change(),) if letter == "g" else (1,))]
        same(f"{name} of a closed handle", calls[name](handle, *words), 0 if name == "unmount" else -77)
        same(f"{name} of a closed handle, the handle", (handle.at, handle.is_open), (None, 0))
        seen += 1
    with littlefs_c.Image.format(16 * 4096) as image:
        data = bytes(image)
        same("a second mount", calls["mount"](image._handle, image._config, data, len(data)), -errno.EBUSY)
        same("a second format", calls["mkfs"](image._handle, image._config, 16), -errno.EBUSY)
        image.check()
    same("a closed image", (image.closed, calls["unmount"](image._handle)), (True, 0))
    for name in ("used", "listdir", "recover", "remount", "check", "__bytes__", "__enter__"):
        raises(ValueError, getattr(image, name))
    raises(ValueError, lambda: image.open("/file", "w"))
    raises(ValueError, lambda: image.write("/file", b""))
    return seen


def both_ways(image):
    """Files that are read and written, several at once, and renamed and removed while they are open."""
    for mode, text, wanted in (("w+", "one two", "one two"), ("r+", "ONE", "ONE two"), ("a+", " three", "ONE two three")):
        with image.open("/both", mode) as file:
            file.write(text)
            file.seek(0)
            same(f"mode {mode}", (file.read(), file.readable(), file.writable()), (wanted, True, True))
    with image.open("/fresh", "x+b", buffering=0) as file:
        same("mode x+", (file.write(b"123"), file.seek(1), file.read(1), file.write(b"Z"), file.tell()), (3, 1, b"2", 1, 3))
    with image.open("/both", "r+b") as one, image.open("/both", "r+b", buffering=0) as two:
        one.seek(4)
        one.write(b"TWO")
        one.flush()
        same("another file object sees it", (two.read(), image.stat("/both")), (b"ONE TWO three", 13))
        image.rename("/both", "/moved")
        two.write(b"!")
        one.seek(-1, io.SEEK_END)
        same("also after a rename", one.read(), b"!")
        image.write("/moved", b"other bytes")
        same("and after a write of all bytes", (two.seek(0), two.read()), (0, b"other bytes"))
        image.remove("/moved")
        same("and once it is removed", (two.seek(0), two.read(), two.write(b"?"), image.exists("/moved")), (0, b"other bytes", 1, False))
    same("nothing brings it back", (image.exists("/moved"), image.exists("/both")), (False, False))
    with image.open("/full", "wb", buffering=0) as file:
        file.write(bytes(70 * 4096))
        raises(OSError, file.sync, errno.ENOSPC)
        raises(OSError, file.close, errno.ENOSPC, "/full")
        same("closed nevertheless", (file.closed, image.stat("/full")), (True, 0))


def files():
    """File objects are those of the module io."""
    image = littlefs_c.Image.format(64 * 4096)
    with image.open("/text", "w") as file:
        file.write("ä\nb\n")
        same("a text's mode", (file.mode, file.encoding), ("w", "utf-8"))
    with image.open("/text", "a") as file:
        print("c", file=file)
    with image.open("/text") as file:
        same("lines", list(file), ["ä\n", "b\n", "c\n"])
        same("a position", (file.seek(0), file.read(1), file.readline()), (0, "ä", "\n"))
    with image.open("/text", "rb") as file:
        same("from the end", (file.seek(-2, io.SEEK_END), file.read(), file.tell()), (5, b"c\n", 7))
        same("after the end", (file.seek(100), file.read()), (100, b""))
        raises(io.UnsupportedOperation, lambda: file.write(b"x"))
    with image.open("/json", "w") as file:
        json.dump({"a": [1, 2]}, file)
    with image.open("/json") as file:
        same("json", json.load(file), {"a": [1, 2]})
    with image.open("/zip", "wb") as file:
        with zipfile.ZipFile(file, "w") as archive:
            archive.writestr("a", "b" * 1000)
    with image.open("/zip", "rb") as file:
        same("zipfile", zipfile.ZipFile(file).read("a"), b"b" * 1000)
    with image.open("/raw", "wb", buffering=0) as file:
        same("a raw file", (type(file), file.write(b"12345"), file.seek(2), file.write(b"ab"), file.truncate(), file.tell()), (littlefs_c.File, 5, 2, 2, 4, 4))
        same("not saved yet", image.stat("/raw"), 0)
        file.sync()
        same("saved", image.stat("/raw"), 4)
        raises(io.UnsupportedOperation, file.read)
    same("its bytes", image.read("/raw"), b"12ab")
    for mode in ("x", "x+", "x+b"):
        raises(FileExistsError, lambda: image.open("/raw", mode), errno.EEXIST, "/raw")
    for mode in ("+", "rw", "r++", "", "b", "rbt", "rr", "q", "r+q"):
        raises(io.UnsupportedOperation, lambda: image.open("/raw", mode))
    both_ways(image)
    readers = [image.open("/raw", "rb") for _ in range(40)]
    same("read by all readers", {file.read() for file in readers}, {b"12ab"})
    del readers
    gc.collect()
    lost, other = image.open("/raw", "rb", buffering=0), image.open("/lost", "wb", buffering=0)
    other.write(b"not saved")
    image.remount()
    with image.open("/text", "rb", buffering=0):
        raises(ValueError, lost.read)
        raises(ValueError, lambda: other.write(b"x"))
        lost.close(), other.close()
    same("after a remount", (lost.closed, other.closed, image.stat("/lost")), (True, True, 0))
    left = image.open("/left", "w")
    left.write("open when the image is closed")
    kept = bytes(image)
    same("not in the image yet", littlefs_c.Image(kept).stat("/left"), 0)
    image.close()
    raises(ValueError, lambda: left.write("x"))
    return image


def refusals():
    """Exceptions are Python's own, with numbers and paths."""
    image = littlefs_c.Image.format(16 * 4096)
    image.makedirs("/a/b/c")
    image.makedirs("/a/b/c", exist_ok=True)
    image.write("/a/file", bytearray(b"12"))
    raises(FileNotFoundError, lambda: image.stat("/none"), errno.ENOENT, "/none")
    raises(FileNotFoundError, lambda: image.open("/none/file", "w"), errno.ENOENT, "/none/file")
    raises(FileExistsError, lambda: image.mkdir("/a"), errno.EEXIST, "/a")
    raises(FileExistsError, lambda: image.makedirs("/a/b"), errno.EEXIST, "/a/b")
    raises(NotADirectoryError, lambda: image.mkdir("/a/file/x"), errno.ENOTDIR)
    raises(NotADirectoryError, lambda: image.listdir("/a/file"), errno.ENOTDIR)
    raises(IsADirectoryError, lambda: image.read("/a"), errno.EISDIR, "/a")
    raises(OSError, lambda: image.remove("/a"), errno.ENOTEMPTY, "/a")
    raises(OSError, lambda: image.mkdir("no slash"), errno.EINVAL)
    raises(OSError, lambda: image.mkdir("/" + "x" * 256), errno.ENAMETOOLONG)
    raises(OSError, lambda: image.write("/large", bytes(16 * 4096)), errno.ENOSPC, "/large")
    raises(OSError, lambda: image.getattr("/a", 1), 61, "/a")
    raises(OSError, lambda: littlefs_c.Image(bytes(16 * 4096)), 84)
    raises(OSError, lambda: littlefs_c.Image(b"12"), errno.EINVAL)
    raises(OSError, lambda: littlefs_c.Image.format(16 * 4096 + 1), errno.EINVAL)
    try:
        image.rename("/none", "/new")
    except FileNotFoundError as error:
        same("both paths", (error.filename, error.filename2), ("/none", "/new"))
    for call in (lambda: image.write("/a/file", 5), lambda: image.write("/a/file", "text"), lambda: littlefs_c.Image(5), lambda: image.setattr("/a", 1, 5), lambda: image.stat(5)):
        raises(TypeError, call)
    for call in (lambda: image.setattr("/a", 256, b""), lambda: image.read("/a/file", -1), lambda: littlefs_c.Image.format(16 * 4096, -1), lambda: image.part(-1, 5)):
        raises(ValueError, call)
    same("the tree that is left", (sorted(image.walk()), image.stat("/a/file"), image.exists("/large")), ([("/", ["a"], []), ("/a", ["b"], ["file"]), ("/a/b", ["c"], []), ("/a/b/c", [], [])], 2, False))
    same("entries", list(image.scandir("/a")), [("b", "/a/b", None), ("file", "/a/file", 2)])
    same("kinds", (image.is_dir("/a"), image.is_file("/a"), image.is_file("/a/file"), image.is_dir("/none"), image.exists("/a/file/x")), (True, False, True, False, False))
    with image.open("/a/file", "rb") as reader:
        reader.seek(1)
        raises(OSError, lambda: image.write("/a/b/file", bytes(16 * 4096)), errno.ENOSPC)
        image.write("/a/b/file", b"kept")
        raises(OSError, lambda: image.write("/a/b/file", bytes(16 * 4096)), errno.ENOSPC)
        same("a reader during a refused write", (reader.read(), image.read("/a/b/file")), (b"2", b"kept"))
    missing = subprocess.run([sys.executable, "-c", "import littlefs_c; littlefs_c.Image.format(65536)"], env={**os.environ, "LITTLEFS_C": "/none.so", "PYTHONPATH": os.path.dirname(os.path.dirname(littlefs_c.__file__))}, capture_output=True, text=True)
    same("a library that isn't there", "run `rt lib` in crates/littlefs_c and `make` in bindings/c" in missing.stderr, True)


def profiles():
    """Limits hold, are in the image, and are checked by whoever mounts it."""
    limits = {"name_max": 10, "file_max": 5000, "attr_max": 20, "inline_max": 100}
    with littlefs_c.Image.format(32 * 4096, **limits) as image:
        image.write("/" + "n" * 10, bytes(5000))
        raises(OSError, lambda: image.write("/" + "n" * 11, b""), errno.ENAMETOOLONG)
        raises(OSError, lambda: image.write("/file", bytes(5001)), errno.EFBIG)
        image.write("/file", bytes(100))
        inline = image.used()
        image.write("/file", bytes(101))
        same("a block for a longer file", image.used(), inline + 1)
        image.setattr("/file", 1, bytes(20))
        raises(OSError, lambda: image.setattr("/file", 1, bytes(21)), errno.EFBIG)
        data = bytes(image)
    with littlefs_c.Image(data) as image:
        same("read by other limits", image.stat("/file"), 101)
        raises(OSError, lambda: image.write("/file", b""), errno.EROFS)
    with littlefs_c.Image(data, **limits) as image:
        image.write("/file", b"written")
        same("a check by the same limits", image.check(), None)
    for name, most in {"name_max": 255, "file_max": 2147483647, "attr_max": 1022, "inline_max": 1022}.items():
        for wrong in (0, most + 1):
            raises(OSError, lambda: littlefs_c.Image(data, **{**limits, name: wrong}), errno.EINVAL)
            raises(OSError, lambda: littlefs_c.Image.format(32 * 4096, **{name: wrong}), errno.EINVAL)
    for order in (2, 2**32 - 1):
        raises(OSError, lambda: littlefs_c.Image.format(32 * 4096, order=order), errno.EINVAL)


def versions(code, room):
    """Images of version 2.1 by littlefs's own code are read and written on request, and it reads them after that."""
    for number, geometry in enumerate([(4096, 256, 32), (4096, 16, 32), (2048, 128, 64)]):
        path = f"{room}/later{number}.img"
        driver = littlefs_code.Driver(code, path, geometry, fresh=True)
        lines = [f"mkdir {b'/d'.hex()}", f"put {b'/d/file'.hex()} 100 a", f"put {b'/long'.hex()} 9000 b", f"append {b'/long'.hex()} 3 c"]
        same("made by littlefs", ([driver.tell(line) for line in lines], driver.end(path)), ([0] * len(lines), 0))
        with open(path, "rb") as file:
            data = file.read()
        raises(OSError, lambda: littlefs_c.Image(data, *geometry[:2]), 84)
        with littlefs_c.Image(data, *geometry[:2], also_2_1=True) as image:
            same("read of version 2.1", (image.read("/d/file"), image.read("/long")), (b"a" * 100, b"b" * 9000 + b"c" * 3))
            image.write("/d/file", b"written")
            with image.open("/d/more", "wb") as file:
                file.write(bytes(5000))
            image.check()
            with open(path, "wb") as file:
                file.write(bytes(image))
        shown = littlefs_code.shown(code, path, geometry)
        wanted = {b"/d/file": b"written", b"/d/more": bytes(5000), b"/long": b"b" * 9000 + b"c" * 3}
        same("shown by littlefs", {at: content for at, (content, _) in shown.tree.items() if content}, {at: (len(data), zlib.crc32(data) ^ 0xFFFFFFFF) for at, data in wanted.items()})
    return number + 1


def threads():
    """Threads that use one image at the same time."""
    image, failed = littlefs_c.Image.format(256 * 4096), []
    image.write("/shared", b"/" * 5000)
    shared = image.open("/shared", "rb")
    names = [f"/file{number}" for number in range(8)]
    for name in names:
        image.write(name, name.encode() * 100)

    def work(name):
        try:
            for number in range(100):
                with image.open(name, "rb") as file:
                    same(f"{name} by a thread", file.read(), name.encode() * 100)
                    same(f"{name} shared", shared.read(1) in (b"/", b""), True)
                    shared.seek(0)
                image.write(f"{name}-{number % 3}", bytes(number))
                image.listdir()
        except BaseException as error:
            failed.append(error)

    workers = [threading.Thread(target=work, args=(name,)) for name in names]
    for worker in workers:
        worker.start()
    for worker in workers:
        worker.join()
    if failed:
        raise failed[0]
    image.check()
    ended = [threading.Thread(target=image.close) for _ in range(2)]
    for worker in ended:
        worker.start()
    for worker in ended:
        worker.join()
    same("closed by two threads", (image.closed, shared.closed), (True, True))
    return len(names)


# Times


def compiled(room, name, words):
    out = os.path.join(room, name)
    subprocess.run(["gcc", "-O2", "-w", *words, "-o", out], check=True)
    return out


def programs(room, littlefs):
    """bindings.c, and the same over littlefs's own code, by name."""
    source, c = os.path.join(top, "bench", "bindings.c"), os.path.join(top, "bindings", "c")
    archives = subprocess.run(["make", "-s", "-C", c, "archives"], check=True, capture_output=True, text=True).stdout.split()
    ours = [source, f"-I{c}", *[os.path.join(c, it) for it in archives]]
    made = {"volume": compiled(room, "volume", ours)}
    if littlefs:
        prefix = "lfs2" if os.path.exists(f"{littlefs}/lfs2.c") else "lfs"
        with open(source) as it:
            names = set(re.findall(r"\b(?:lfs|LFS)_\w+", it.read()))
        renamed = [f"-D{name}={name.replace('lfs', 'lfs2', 1).replace('LFS', 'LFS2', 1)}" for name in sorted(names) if not re.match("(?i)lfs_c_", name)] if prefix == "lfs2" else []
        switches = [f"-D{prefix.upper()}_{it}" for it in ("NO_DEBUG", "NO_WARN", "NO_ERROR")]
        made["littlefs"] = compiled(room, "littlefs", [f'-DHEADER="{prefix}.h"', f"-I{littlefs}", *renamed, *switches, source, f"{littlefs}/{prefix}.c", f"{littlefs}/{prefix}_util.c"])
    return made


def from_python(size, count):
    """The same rows through bindings/python."""
    rows, clock = {}, time.perf_counter

    def put(path, data):
        with image.open(path, "wb", buffering=0) as file:
            file.write(data)

    with littlefs_c.Image.format(size) as image:
        image.write("/small", bytes(100))
        begun = clock()
        for number in range(count):
            put("/small", bytes([number % 256]) * 100)
        rows["writes"], begun = clock() - begun, clock()
        for number in range(count):
            image.stat("/small")
        rows["stats"] = clock() - begun
        image.write("/long", bytes(1 << 20))
        for name, reads in (("read", 1), ("rereads", 10)):
            begun = clock()
            for _ in range(reads):
                with image.open("/long", "rb", buffering=0) as file:
                    while file.read(4096):
                        pass
            rows[name] = clock() - begun
        image.mkdir("/d")
        begun = clock()
        for number in range(count):
            put(f"/d/file{number:05}", bytes(10))
        rows["files"] = clock() - begun
    return rows


def times(littlefs):
    with tempfile.TemporaryDirectory() as room:
        made = programs(room, littlefs)
        for size, count in ((3 << 19, 1000), (16 << 20, 1000)):
            print(f"an image of {size} bytes, seconds (the least of three)")
            for name, program in made.items():
                runs = [subprocess.run([program, str(size), str(count)], check=True, capture_output=True, text=True).stdout for _ in range(3)]
                found = [dict(line.split() for line in run.splitlines()) for run in runs]
                print(f"  {name:12}", *[f"{row} {min(float(it[row]) for it in found):.4f}" for row in found[0]])
            found = [from_python(size, count) for _ in range(3)]
            print(f"  {'Python':12}", *[f"{row} {min(it[row] for it in found):.4f}" for row in found[0]])


def main():
    parser = argparse.ArgumentParser()
    parser.add_argument("--count", type=int, default=2000)
    parser.add_argument("--seed", default="1")
    parser.add_argument("--built", action="store_true")
    parser.add_argument("--littlefs", type=os.path.abspath)
    parser.add_argument("--times", action="store_true")
    given = parser.parse_args()
    if not given.built:
        build()
    if given.times:
        return times(given.littlefs)
    with tempfile.TemporaryDirectory() as room:
        for wanted in EXAMPLE:
            shown = subprocess.run([os.path.join(top, "bindings", "c", "example"), os.path.join(room, "log.img")], capture_output=True, text=True, check=True).stdout
            same("the example", shown, wanted)
    print("closed handles:", closed())
    files()
    refusals()
    profiles()
    print("threads:", threads())
    print("buffers:", buffers())
    print("images read only:", questions())
    print("hostile images:", dict(attack(given.count, given.seed)))
    with tempfile.TemporaryDirectory() as room:
        code = littlefs_code.build(given.littlefs, f"{room}/exchange", "0x00020000") if given.littlefs else None
        seen = compare(given.count, given.seed, code)
        later = versions(littlefs_code.build(given.littlefs, f"{room}/newest"), room) if code else 0
    print("images shown by littlefs:", seen.pop("image shown by littlefs", 0), "of version 2.1:", later)
    print("operations:", sum(seen.values()), dict(sorted(seen.items())))
    seen = volumes(given.count, given.seed)
    print("calls of volumes:", sum(seen.values()), dict(sorted(seen.items())))


if __name__ == "__main__":
    main()
