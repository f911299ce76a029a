"""littlefs over images in memory: `bindings/c/littlefs_c.h` from Python.

    with Image.format(16 * 4096) as image:              # or Image(data, block_size=4096, page=256)
        image.mkdir("/log")
        with image.open("/log/today", "w") as file:     # a file object of the module io
            file.write("21.5 degrees\\n")
        print(image.listdir("/log"), image.read("/log/today"))
        open("disk.img", "wb").write(bytes(image))

Build it first: `rt lib` in crates/littlefs_c, and `make` in bindings/c. Then `pip install ./bindings/python` installs it with the
library, or it is imported where it stands. LITTLEFS_C names another library. A path is text, bytes or an `os.PathLike`: `/` alone, or
names with a `/` in front of each. A name that isn't UTF-8 comes back with Python's surrogate escapes. A refusal is Python's own
exception for its number, with the path as its `filename`: `FileNotFoundError`, `FileExistsError`, `IsADirectoryError`,
`NotADirectoryError`, or an `OSError` whose `errno` is a key of `ERRORS`.
"""

from .files import File
from .images import Entry, Image, Limits
from .library import ERRORS, LONGER_FIRST, SHORTER_FIRST
from .superblocks import Superblock, superblock

__all__ = ["ERRORS", "LONGER_FIRST", "SHORTER_FIRST", "Entry", "File", "Image", "Limits", "Superblock", "superblock"]
__version__ = "1.0.0"
