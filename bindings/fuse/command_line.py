"""The command line of littlefs-fuse, and what it does."""

import argparse
import errno
import os

from littlefs_c import Image, superblock
from littlefs_c.images import LARGEST

VERSION_2_1 = 0x20001
SAVES = ("close", "sync", "end")
LIMITS = ("name_max", "file_max", "attr_max", "inline_max")


def arguments(words):
    parser = argparse.ArgumentParser(prog="littlefs-fuse", description="Mounts a littlefs image as a folder. `fusermount3 -u FOLDER` ends it.")
    parser.add_argument("image", metavar="IMAGE", help="the image's file")
    parser.add_argument("folder", metavar="FOLDER", help="an empty folder")
    parser.add_argument("-o", metavar="OPTION,..", action="append", default=[], help="ro: the image is only read. Each option below without its dashes, as in block_size=4096. Others are FUSE's own, as allow_other")
    parser.add_argument("-b", "--block-size", type=int, metavar="BYTES", help="the size of a block; the superblock's, if it isn't given, or 4096")
    parser.add_argument("-n", "--block-count", type=int, metavar="COUNT", help="how many blocks the image has; the superblock's, if it isn't given")
    parser.add_argument("-p", "--page", type=int, metavar="BYTES", help="the size of a page; the largest one up to 256, if it isn't given")
    parser.add_argument("--also-2.1", dest="also_2_1", action="store_true", help="takes an image of version 2.1, too")
    for name in LIMITS:
        parser.add_argument("--" + name.replace("_", "-"), type=int, metavar="BYTES", help=f"the limit {name}; the superblock's, if it isn't given" if name != "inline_max" else "the longest file that is kept in its directory's entry: the firmware's cache_size")
    parser.add_argument("--pair-cycles", type=int, default=0, metavar="COUNT", help="after how many compactions a metadata pair moves to other blocks; never, if it isn't given")
    parser.add_argument("--create", type=int, metavar="BYTES", help="makes an empty image of so many bytes, where no file is there")
    parser.add_argument("--save", choices=SAVES, default="close", help="when a change comes to the image's file: at each close of a file and within a second else, at each sync, or at the end alone. A sync always saves")
    parser.add_argument("-f", "--foreground", action="store_true", help="doesn't go to the background")
    parser.add_argument("-d", "--debug", action="store_true", help="prints each operation")
    given = parser.parse_args(words)
    given.for_fuse = dict(take_option(parser, given, it) for group in given.o for it in group.split(",") if it)
    given.for_fuse.pop(None, None)
    return given


def take_option(parser, given, word):
    """Sets an option of this program that follows -o, or returns one of FUSE's."""
    name, has_value, value = word.partition("=")
    if name in ("also_2.1", "also_2_1"):
        given.also_2_1 = True
    elif name in ("block_size", "block_count", "page", "create", "pair_cycles", *LIMITS):
        if not value.isdecimal():
            parser.error(f"-o {word}: a number is missing")
        setattr(given, name, int(value))
    elif name == "save":
        if value not in SAVES:
            parser.error(f"-o {word}: it is {', '.join(SAVES)}")
        given.save = value
    elif name not in ("rw", "dev", "suid", "nodev", "nosuid", "auto", "noauto", "user", "nofail"):
        return name, value if has_value else True
    return None, None


def geometry(found, given):
    """The sizes and limits by which an image is mounted: those that are given, those of its superblock, or the usual ones."""
    sizes = {"block_size": given.block_size or (found.block_size if found else 4096), "also_2_1": given.also_2_1}
    sizes["pair_cycles"] = given.pair_cycles
    sizes["page"] = given.page or None
    for name in LIMITS:
        value = getattr(given, name) or getattr(found, name, None)
        if value:
            sizes[name] = value if getattr(given, name) else min(value, getattr(LARGEST, name))
    return sizes


def create(given):
    with Image.format(given.create, **geometry(None, given)) as image, open(given.image, "xb") as file:
        file.write(bytes(image))


def opened(image_file, given):
    """The image, mounted in memory."""
    data = image_file.read()
    found = superblock(data)
    if found and found.version == VERSION_2_1 and not given.also_2_1:
        raise OSError(errno.EINVAL, "the image is of version 2.1: give --also-2.1")
    sizes = geometry(found, given)
    count = given.block_count or (found.block_count if found else len(data) // sizes["block_size"])
    data = data[: count * sizes["block_size"]]
    image = Image(data, **sizes)
    image_file.begin(image)
    return image


def main(words=None):
    """Mounts the folder, and returns the program's status, or its last message."""
    given = arguments(words)
    try:
        from folder import Folder, mount
    except ImportError:
        return "littlefs-fuse: fusepy isn't there: apt-get install python3-fusepy, or pip install fusepy"
    from image_file import ImageFile, InUse

    is_read_only = "ro" in given.for_fuse
    try:
        if given.create and not os.path.exists(given.image):
            create(given)
        image_file = ImageFile(given.image, not is_read_only)
        image = opened(image_file, given)
        begun = os.stat(given.image).st_mtime_ns
        folder = Folder(image, None if is_read_only else image_file, begun, "end" if is_read_only else given.save)
        mount(folder, os.path.abspath(given.folder), image_file.path, {**given.for_fuse, "foreground": given.foreground, "debug": given.debug})
    except InUse:
        return f"littlefs-fuse: {given.image} is mounted already"
    except OSError as error:
        return f"littlefs-fuse: {given.image}: {error.strerror or error}"
    except RuntimeError:
        return f"littlefs-fuse: {given.folder} isn't mounted"
    return 0
