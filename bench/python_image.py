#!/usr/bin/env python3
"""Promises of bindings/python that bindings.py doesn't compare: each method's refusals, closes during other calls, an installation.

usage: python_image.py [--no-install]

Needs littlefs_c.so (`rt lib` in crates/littlefs_c, `make` in bindings/c). In turn:

- writes within a file and truncations, also refused ones, compared with a plain bytearray; attributes, limits, superblocks and changed
  blocks;
- each method with arguments of wrong types: it raises a `TypeError`, a `ValueError` or an `OSError`, and the image stays as it was;
- each method of an image and of a file after its close;
- threads that read, write and close the same files and images: each call returns or raises, and no bytes are lost or mixed up;
- many images, whose memory is freed, and the example;
- a wheel, and `pip install` into an environment of its own, without and with the library.

Prints a line for each. Fails at the first difference.
"""

import argparse
import array
import contextlib
import errno
import os
from pathlib import Path
import random
import subprocess
import sys
import tempfile
import threading
import venv
import zipfile

top = os.path.dirname(os.path.dirname(os.path.abspath(__file__)))
sys.path.insert(0, os.path.join(top, "bindings", "python"))
from littlefs_c import ERRORS, Image, superblock

WORDS = [None, 5, -1, 2**70, 1.5, "text", "/f", "/d", b"/f", b"\xff", bytearray(b"/f"), [], {}, object(), Path("/f"), array.array("I", [1, 2]), memoryview(b"abcd")[::2], True, "/" + "n" * 300, "\udcff"]
METHODS = {"part": 2, "part_into": 2, "items": 1, "scandir": 1, "listdir": 1, "walk": 1, "mkdir": 1, "makedirs": 2, "stat": 1, "exists": 1, "is_dir": 1, "is_file": 1, "remove": 1, "rename": 2, "getattr": 2,
           "setattr": 3, "removeattr": 2, "attributes": 1, "open": 3, "read": 3, "write": 2, "write_at": 4, "truncate": 2}
WITHOUT_WORDS = ["check", "remount", "recover", "used", "changed_blocks", "__bytes__", "__enter__"]
FILE_METHODS = {"read": 1, "readinto": 1, "write": 1, "seek": 2, "truncate": 1, "readline": 1, "writelines": 1, "readall": 0, "sync": 0, "tell": 0, "readable": 0, "fileno": 0}


class Different(Exception):
    """Two results differ."""


def same(what, got, wanted):
    if got != wanted:
        raise Different(f"{what}: {got!r:.200} and not {wanted!r:.200}")


def raises(wanted, call, number=None):
    try:
        call()
    except wanted as error:
        same(f"the number of {error!r}", number in (None, getattr(error, "errno", None)), True)
    else:
        raise Different(f"no {wanted} by {call}")


def within_files(count):
    """Compares writes within a file with those of a bytearray. A refused one changes nothing."""
    chance, refused = random.Random("within"), 0
    with Image.format(32 * 4096) as image:
        image.write("/f", b"")
        plain = bytearray()
        for number in range(count):
            at, data = chance.randrange(40000), chance.randbytes(chance.choice([0, 1, 100, 5000, 60000]))
            size = chance.choice([None, None, chance.randrange(40000)])
            new = plain[:]
            if data:
                new.extend(bytes(max(at - len(new), 0)))
                new[at : at + len(data)] = data
            if size is not None:
                new = (new + bytes(size))[:size]
            try:
                image.write_at("/f", at, data, size)
                plain = new
            except OSError as error:
                same("a refusal", error.errno, errno.ENOSPC)
                refused += 1
            same(f"write {number}", image.read("/f"), bytes(plain))
        image.truncate("/f", 10)
        same("cut", image.read("/f"), bytes(plain[:10]))
        raises(FileNotFoundError, lambda: image.write_at("/none", 0, b"x"))
        raises(IsADirectoryError, lambda: image.truncate("/", 0))
        same("no file is made", image.listdir(), ["f"])
    return refused


def attributes_and_limits():
    with Image.format(16 * 4096, attr_max=20, name_max=30) as image:
        image.write("/f", b"")
        for kind in (0, 7, 255):
            image.setattr("/f", kind, bytes(kind % 20))
        same("attributes", image.attributes("/f"), {kind: bytes(kind % 20) for kind in (0, 7, 255)})
        raises(FileNotFoundError, lambda: image.attributes("/none"))
        same("limits", tuple(image.limits), (30, 2147483647, 20, 1022))
        same("superblock", tuple(superblock(bytes(image))), (0x20000, 4096, 16, 30, 2147483647, 20))
        same("blocks", (image.block_count, image.used()), (16, 2))
    for block_size, page in ((1024, 8), (65536, 512), (3072, 128)):
        data = bytes(Image.format(4 * block_size, block_size, page))
        same("a superblock in block 1", superblock(bytes(block_size) + data[:block_size] + data[2 * block_size :])[1:3], (block_size, 4))
    same("no superblock", (superblock(b""), superblock(bytes(70000)), superblock(b"littlefs" * 5000)), (None, None, None))


def changed_blocks():
    """They are at least those that differ, where the library notes them."""
    with Image.format(64 * 4096) as image:
        first, noted, chance = image.changed_blocks(), 0, random.Random("changed")
        same("at first", first, None)
        before = bytes(image)
        for number in range(200):
            image.write(f"/{number % 7}", chance.randbytes(chance.randrange(9000)))
            after, found = bytes(image), image.changed_blocks()
            differs = {at // 4096 for at in range(0, len(after), 4096) if after[at : at + 4096] != before[at : at + 4096]}
            if found is not None:
                same("blocks that differ", differs <= found, True)
                noted += 1
            before = after
    return noted


def wrong_types(count):
    """Arguments of any type raise Python's exceptions, and a refused call changes nothing."""
    chance, seen = random.Random("types"), {"answered": 0, "refused": 0}
    image = Image.format(64 * 4096)
    for number in range(count):
        if not image.exists("/f"):
            image.write("/f", b"0123")
        name = chance.choice(list(METHODS))
        words = [chance.choice(WORDS) for _ in range(METHODS[name])]
        if name in ("write", "write_at", "truncate", "setattr", "read") and chance.random() < 0.6:
            words[0] = "/f"
        before = bytes(image)
        try:
            answer = getattr(image, name)(*words)
            if name in ("walk", "scandir"):
                list(answer)
            elif name == "open":
                answer.close()
            seen["answered"] += 1
        except (TypeError, ValueError, OverflowError, OSError) as error:
            if isinstance(error, OSError) and error.errno is not None:
                same(f"{name}{words}: a number", error.errno in ERRORS, True)
            same(f"{name}{words}: the image", bytes(image) == before or name in ("write", "write_at", "truncate", "makedirs", "open"), True)
            seen["refused"] += 1
    image.check()
    for kind, mode in (("r", "rb"), ("w", "wb")):
        image.write("/g", b"0123456789")
        for buffering in (0, -1):
            for name, takes in FILE_METHODS.items():
                for word in WORDS:
                    with image.open("/g", mode, buffering=buffering) as file, contextlib.suppress(TypeError, ValueError, OverflowError, OSError, BufferError, AttributeError):
                        getattr(file, name)(*[word] * takes)
    for wrong in (65536, None, "text", 1.5, []):
        raises(TypeError, lambda: Image(wrong))
    for wrong in (None, "16", 65536.0, b"", []):
        raises(TypeError, lambda: Image.format(wrong))
        raises(TypeError, lambda: Image(bytes(image), block_size=wrong))
    image.check()
    return seen


def after_close():
    """All methods of a closed image or file raise a ValueError."""
    image = Image.format(16 * 4096)
    image.write("/f", b"")
    raw, buffered, text = image.open("/f", "rb", buffering=0), image.open("/f", "rb"), image.open("/f")
    image.close()
    image.close()
    for name in WITHOUT_WORDS:
        raises(ValueError, getattr(image, name))
    for name, takes in METHODS.items():
        words = ["/f", 0, b"", 0][:takes] if name not in ("rename", "setattr", "write", "open", "part", "part_into") else {"rename": ["/f", "/g"], "setattr": ["/f", 0, b""], "write": ["/f", b""], "open": ["/f", "r"], "part": [0, 5], "part_into": [0, bytearray(5)]}[name]
        raises(ValueError, lambda: list(getattr(image, name)(*words)))
    for file in (raw, buffered, text):
        for name in ("read", "tell", "readline"):
            raises(ValueError, getattr(file, name))
        raises(ValueError, lambda: file.seek(0))
        file.close()


def ends_amid_threads(rounds):
    """Threads use files and an image while others close them: each call returns the right bytes, or raises."""
    failed, answered, refused = [], [0], [0]

    def work(image, name, file):
        chance = random.Random(name)
        try:
            for _ in range(60):
                try:
                    kind = chance.randrange(5)
                    if kind == 0:
                        same("its own bytes", set(image.read(name)) <= {ord(name[1])}, True)
                    elif kind == 1:
                        with image.open(name, "rb") as own:
                            same("its own bytes, by a file", set(own.read()) <= {ord(name[1])}, True)
                    elif kind == 2:
                        file.seek(0)
                        same("shared bytes", set(file.read(50)) <= {ord("s")}, True)
                    elif kind == 3:
                        image.write(name, name[1].encode() * chance.randrange(9000))
                    else:
                        (file.close if chance.random() < 0.05 else image.items)()
                    answered[0] += 1
                except (ValueError, OSError):
                    refused[0] += 1
        except BaseException as error:
            failed.append(error)

    for _ in range(rounds):
        image = Image.format(64 * 4096)
        for name in ("/a", "/b", "/c", "/s"):
            image.write(name, name[1].encode() * 5000)
        shared = [image.open("/s", "rb", buffering=number % 2 - 1) for number in range(2)]
        workers = [threading.Thread(target=work, args=(image, name, shared[number % 2])) for number, name in enumerate(("/a", "/b", "/c", "/a"))]
        closers = [threading.Timer(0.004, image.close) for _ in range(2)]
        for thread in workers + closers:
            thread.start()
        for thread in workers + closers:
            thread.join()
        if failed:
            raise failed[0]
        same("closed", (image.closed, [file.closed for file in shared]), (True, [True, True]))
    return answered[0], refused[0]


def memory():
    """Returns how many bytes 400 images and 20,000 refused calls leave allocated, after as many before."""

    def work():
        for number in range(400):
            image = Image.format(1 << 20)
            image.write("/f", bytes(5000))
            file = image.open("/f", "rb")
            with contextlib.suppress(OSError):
                image.write("/large", bytes(2 << 20))
            if number % 2:
                image.close()
            for _ in range(50):
                image.closed or image.exists("/none")
            del image, file

    def resident():
        with open("/proc/self/statm") as file:
            return int(file.read().split()[1]) * os.sysconf("SC_PAGE_SIZE")

    work()
    before = resident()
    work()
    left = resident() - before
    same("little memory is left", left < 4 << 20, True)
    return left


def example():
    with tempfile.TemporaryDirectory() as room:
        path = os.path.join(room, "disk.img")
        with Image.format(16 * 1024, 1024, 64, name_max=30) as image, open(path, "wb") as file:
            file.write(bytes(image))
        words = {**os.environ, "PYTHONPATH": os.path.join(top, "bindings", "python")}
        for name in ("one", "two"):
            shown = subprocess.run([sys.executable, os.path.join(top, "bindings", "python", "example.py"), path, name], env=words, check=True, capture_output=True, text=True).stdout
        same("the example", shown, "/ ['settings.json']\n/log ['changes']\n")
        with open(path, "rb") as file, Image(file.read(), 1024, 64, name_max=30) as image, image.open("/log/changes") as log:
            same("its log", [line.split()[1:] for line in log], [["named", "one"], ["named", "two"]])
            same("its settings", image.read("/settings.json"), b'{"name": "two"}')


def installation():
    """A wheel has the library, and pip installs it into an empty environment."""
    source = os.path.join(top, "bindings", "python")
    program = "import sys, littlefs_c; image = littlefs_c.Image.format(65536); image.write('/f', b'installed'); print(sys.prefix in littlefs_c.__file__, image.read('/f').decode())"
    with tempfile.TemporaryDirectory() as room:
        wheel = subprocess.run([sys.executable, os.path.join(source, "build_wheel.py"), room], check=True, capture_output=True, text=True).stdout.strip()
        with zipfile.ZipFile(os.path.join(room, wheel)) as archive:
            same("the wheel", (archive.testzip(), "littlefs_c/littlefs_c.so" in archive.namelist(), "littlefs_c/py.typed" in archive.namelist()), (None, True, True))
        venv.create(f"{room}/env", with_pip=True)
        subprocess.run([f"{room}/env/bin/pip", "install", "-q", source], check=True)
        words = {name: value for name, value in os.environ.items() if name not in ("LITTLEFS_C", "PYTHONPATH")}
        shown = subprocess.run([f"{room}/env/bin/python", "-c", program], cwd=room, env=words, check=True, capture_output=True, text=True).stdout
        same("installed", shown, "True installed\n")
        missing = subprocess.run([f"{room}/env/bin/python", "-c", program], cwd=room, env={**words, "LITTLEFS_C": "/none.so"}, capture_output=True, text=True).stderr
        same("a library that isn't there", "FileNotFoundError" in missing and "run `rt lib` in crates/littlefs_c and `make` in bindings/c" in missing, True)
    return wheel


def main():
    parser = argparse.ArgumentParser()
    parser.add_argument("--no-install", action="store_true")
    given = parser.parse_args()
    print("writes within a file: 300, refused", within_files(300))
    attributes_and_limits()
    print("changed blocks noted:", changed_blocks())
    print("arguments of any type:", wrong_types(20000))
    after_close()
    print("calls during closes by other threads, returned and raised:", ends_amid_threads(60))
    print("bytes that many images leave allocated:", memory())
    example()
    if not given.no_install:
        print("installed:", installation())


if __name__ == "__main__":
    main()
