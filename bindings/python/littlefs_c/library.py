"""The calls of `bindings/c/littlefs_c.h` by ctypes, and the numbers of their errors."""

from __future__ import annotations

import ctypes
import errno
import operator
import os
from pathlib import Path
from typing import Any, Optional, Union

DIRECTORY = 4294967296
LONGER_FIRST, SHORTER_FIRST = 0, 1
READ, WRITE, CREATE, EXCLUSIVE, TRUNCATE, APPEND = 0x1, 0x2, 0x100, 0x200, 0x400, 0x800

# the numbers of littlefs_c.h: their names there, and what is said of those that the system has no such words for
ERRORS = {2: "NoEnt", 9: "BadFile", 12: "NoMemory", 16: "Busy", 17: "Exist",
          20: "NotDir", 21: "IsDir", 22: "Invalid", 27: "TooBig", 28: "NoSpace",
          30: "ReadOnly", 36: "NameTooLong", 39: "NotEmpty", 61: "NoAttr", 84: "Corrupt",
          200: "Failed", 201: "EntryFull"}
MEANINGS = {
    22: "no image of that geometry, or a path, a position or a number is out of range",
    30: "the image can be read, and images like it aren't written",
    61: "the attribute isn't there",
    84: "no image is accepted in these bytes; one of version 2.1 is with also_2_1=True",
    200: "an earlier call had no memory, and remount() mends it",
    201: "a name and its attributes would take more than half of a metadata pair",
}
CORRUPT = 84
NOT_BUILT = "the library isn't there: run `rt lib` in crates/littlefs_c and `make` in bindings/c"

PathName = Union[str, bytes, "os.PathLike[Any]"]


class Handle(ctypes.Structure):
    """`lfs_c_volume`: all zeros while nothing is mounted."""

    _fields_ = [("at", ctypes.c_void_p), ("is_open", ctypes.c_uint64)]


class Config(ctypes.Structure):
    """`lfs_c_config`."""

    _fields_ = [(name, ctypes.c_uint32) for name in ("block_size", "page", "order", "versions", "name_max", "file_max", "attr_max", "inline_max",
                                                  "pair_cycles")]


class Change(ctypes.Structure):
    """`lfs_c_change`: a program (1) or an erase (2), its block, the offset in it, and how many bytes are programmed there."""

    _fields_ = [("kind", ctypes.c_uint32), ("block", ctypes.c_uint32), ("offset", ctypes.c_uint32), ("len", ctypes.c_size_t)]


# what each call takes behind its handle
CALLS = {"mount": "cb", "mount_with_limits": "cb", "mkfs": "cn", "unmount": "", "remount": "", "recover": "", "used_blocks": "", "is_used": "n", "image": "b", "image_part": "sb",
         "stat_at": "b", "list_at": "bb", "mkdir_at": "b", "remove_at": "b", "rename_at": "bb",
         "get_attr_at": "bkb", "set_attr_at": "bkb", "remove_attr_at": "bk",
         "open": "bn", "file_read": "nb", "file_write": "nb", "file_seek": "nn", "file_tell": "n", "file_size": "n", "file_truncate": "nn", "file_sync": "n", "file_close": "n",
         "note_changes": "", "fetch_change": "qgb"}
_TYPES = {"n": [ctypes.c_uint32], "q": [ctypes.c_uint64], "g": [ctypes.POINTER(Change)], "k": [ctypes.c_uint8], "s": [ctypes.c_size_t], "b": [ctypes.c_void_p, ctypes.c_size_t],
          "h": [ctypes.POINTER(Handle)], "c": [ctypes.POINTER(Config)]}


def built_library() -> Path:
    """Returns the path of the shared library: next to this module in an installed wheel, and otherwise in bindings/c."""
    here = Path(__file__).resolve().parent
    name = "littlefs_c.dll" if os.name == "nt" else "littlefs_c.so"
    installed = here / name
    return installed if installed.exists() else here.parent.parent / "c" / name


def load(path: Optional[PathName] = None) -> dict[str, Any]:
    """Returns the calls of the shared library at a path; without one, of the library that LITTLEFS_C names, or of the built one."""
    path = path or os.environ.get("LITTLEFS_C") or built_library()
    calls = {}
    try:
        library = ctypes.CDLL(os.fsdecode(path))
        for name, takes in CALLS.items():
            call = calls[name] = getattr(library, "lfs_c_" + name)
            call.restype = ctypes.c_int64
            call.argtypes = [kind for letter in "h" + takes for kind in _TYPES[letter]]
    except (OSError, AttributeError) as error:
        raise FileNotFoundError(errno.ENOENT, NOT_BUILT, os.fsdecode(path)) from error
    return calls


_calls: dict[str, Any] = {}


def loaded() -> dict[str, Any]:
    """Returns the calls of the library, which is loaded once."""
    if not _calls:
        _calls.update(load())
    return _calls


def path_bytes(path: PathName) -> bytes:
    """Returns a path as the library takes it."""
    path = os.fspath(path)
    return path.encode("utf-8", "surrogateescape") if isinstance(path, str) else path


def path_text(name: bytes) -> str:
    """Returns a name of the library as text."""
    return name.decode("utf-8", "surrogateescape")


def readable(data: Any) -> tuple[Any, int]:
    """Returns an object with bytes as C may read it, and how many they are."""
    if not isinstance(data, bytes):
        data = memoryview(data).tobytes()
    return data, len(data)


def writable(data: Any) -> tuple[Any, int]:
    """Returns an object with bytes as C may write it, and how many they are."""
    view = memoryview(data).cast("B")
    return (ctypes.c_ubyte * len(view)).from_buffer(view) if len(view) else ctypes.create_string_buffer(1), len(view)


def in_range(value: int, bits: int, what: str) -> int:
    """Returns a whole number of at most `bits` bits. Raises a `ValueError` for another number, and a `TypeError` for anything else."""
    value = operator.index(value)
    if not 0 <= value < 1 << bits:
        raise ValueError(f"{what} is out of range: {value}")
    return value


def usual_page(block_size: int) -> int:
    """Returns the largest page up to 256 that suits blocks of that size."""
    return max((page for page in (8, 16, 32, 64, 128, 256) if block_size % page == 0 and 8 * page <= block_size), default=8)


def refusal(number: int, *paths: PathName) -> OSError:
    """Returns the exception for an error's number, with the paths of the call."""
    shown = [os.fsdecode(path) for path in paths]
    return OSError(number, MEANINGS.get(number) or os.strerror(number), *[it for path in shown for it in (path, None)][:3])
