"""Images in memory, mounted."""

from __future__ import annotations

import contextlib
import ctypes
import io
import re
import threading
import weakref
from typing import IO, Any, Iterator, NamedTuple, Optional

from .files import MODES, File
from .library import CORRUPT, CREATE, DIRECTORY, LONGER_FIRST, WRITE, Change, Config, Handle, PathName, in_range, loaded, path_bytes, path_text, readable, refusal, usual_page, writable
from .superblocks import superblock

NO_ATTR, NO_MEMORY = 61, 12
ATTR_ROOM = 1024  # more than an attribute has


class Entry(NamedTuple):
    """An entry of a directory, as from `os.scandir`."""

    name: str
    path: str
    size: Optional[int]  # in bytes; None for a directory

    def is_dir(self) -> bool:
        return self.size is None

    def is_file(self) -> bool:
        return self.size is not None

    def __fspath__(self) -> str:
        return self.path


class Limits(NamedTuple):
    """The longest name, file, attribute and inline file that are written, in bytes."""

    name_max: int
    file_max: int
    attr_max: int
    inline_max: int


LARGEST = Limits(255, 2147483647, 1022, 1022)  # littlefs's own


class Image:
    """An image in memory, mounted until it is closed. A refused call leaves it as it was. Threads may share it: their calls take
    turns."""

    def __init__(self, data: Any, block_size: int = 4096, page: Optional[int] = None, *, also_2_1: bool = False, name_max: int = 255,
                 file_max: int = 2147483647, attr_max: int = 1022, inline_max: int = 1022, pair_cycles: int = 0):
        """Mounts a copy of these bytes. Without a page it is the largest one up to 256. Images of version 2.1 are accepted where
        `also_2_1` says so. Only images whose limits are those that are given are written; without any they are littlefs's own. A
        metadata pair moves to other blocks after `pair_cycles` compactions, and never if that is 0. Raises an `OSError`: EINVAL where
        the bytes are no image of that geometry or a number is out of range, and 84 where no image is accepted in them."""
        numbers = LONGER_FIRST, int(also_2_1), name_max, file_max, attr_max, inline_max, pair_cycles
        self._begin(data, None, (block_size, page, *numbers))

    @classmethod
    def format(cls, size: int, block_size: int = 4096, page: Optional[int] = None, order: int = LONGER_FIRST, *, also_2_1: bool = False,
               name_max: int = 255, file_max: int = 2147483647, attr_max: int = 1022, inline_max: int = 1022,
               pair_cycles: int = 0) -> Image:
        """Returns an empty image of `size` bytes. littlefs's own code reads images whose order is `LONGER_FIRST`."""
        image = cls.__new__(cls)
        numbers = order, int(also_2_1), name_max, file_max, attr_max, inline_max, pair_cycles
        image._begin(None, size, (block_size, page, *numbers))
        return image

    @classmethod
    def by_superblock(cls, data: Any, page: Optional[int] = None, *, also_2_1: bool = False, inline_max: int = LARGEST.inline_max,
                      pair_cycles: int = 0) -> Image:
        """Mounts a copy of an image by the sizes and limits that are in its superblock. Bytes after the image are ignored. Raises an
        `OSError` with the number 84 if no superblock is found."""
        found = superblock(data)
        if found is None:
            raise refusal(CORRUPT)
        limits = {name: min(getattr(found, name), getattr(LARGEST, name)) for name in ("name_max", "file_max", "attr_max")}
        part = memoryview(data)[: found.block_count * found.block_size]
        return cls(part, found.block_size, page, also_2_1=also_2_1, inline_max=inline_max, pair_cycles=pair_cycles, **limits)

    def _begin(self, data: Any, size: Optional[int], numbers: tuple[Any, ...]) -> None:
        numbers = (numbers[0], usual_page(numbers[0]) if numbers[1] is None else numbers[1], *numbers[2:])
        self._handle, self._lock, self._calls = Handle(None, 0), threading.RLock(), loaded()
        self._files: weakref.WeakSet[Any] = weakref.WeakSet()
        self._raws: dict[int, weakref.ref[File]] = {}  # the open files without their buffers, by their numbers
        self._mount = 0
        self._config = Config(*[in_range(number, 32, name) for number, (name, _) in zip(numbers, Config._fields_)])
        self.block_size, self.page = numbers[:2]
        self._next_change: Optional[int] = None
        if size is None:
            data, self._size = readable(data)
            answer = self._calls["mount"](self._handle, self._config, data, self._size)
        else:
            self._size, count = size, size // self.block_size if self.block_size and size % self.block_size == 0 else 0
            answer = self._calls["mkfs"](self._handle, self._config, in_range(count, 32, "size"))
        if answer < 0:
            raise refusal(-answer)

    def _ask(self, name: str, *more: Any) -> int:
        """Returns the result of a call of the volume: an error as minus its number."""
        with self._lock:
            if not self._handle.is_open:
                raise ValueError("the image is closed")
            return self._calls[name](self._handle, *more)

    def _call(self, name: str, paths: list[PathName], *more: Any) -> int:
        answer = self._ask(name, *more)
        if answer < 0:
            raise refusal(-answer, *paths)
        return answer

    def _at(self, name: str, path: PathName, *more: Any) -> int:
        return self._call(name + "_at", [path], *readable(path_bytes(path)), *more)

    def _whole_answer(self, name: str, path: PathName, *more: Any) -> bytes:
        """Returns all bytes that a call writes to a buffer, which grows as the call asks."""
        size = 2048
        while True:
            buffer = ctypes.create_string_buffer(size)
            answer = self._at(name, path, *more, buffer, size)
            if answer <= size:
                return buffer.raw[:answer]
            size = answer

    # ---- the image

    @property
    def closed(self) -> bool:
        """Whether the image is closed."""
        return not self._handle.is_open

    @property
    def limits(self) -> Limits:
        """The limits by which the image is written."""
        return Limits(*[getattr(self._config, name) for name in Limits._fields])

    @property
    def block_count(self) -> int:
        """The number of blocks. `used` returns how many of them are in use."""
        return self._size // self.block_size

    def close(self) -> None:
        """Closes the open files, as `close` of each does, and frees the image. After it only `close` and `closed` work."""
        with contextlib.ExitStack() as stack:
            stack.callback(self._end)
            # without the lock, since a file's buffer has one that is taken before it
            for file in [raw() for raw in list(self._raws.values())] + list(self._files):
                if file is not None:
                    stack.callback(file.close)

    def _end(self) -> None:
        with self._lock:
            self._calls["unmount"](self._handle)

    def __enter__(self) -> Image:
        if self.closed:
            raise ValueError("the image is closed")
        return self

    def __exit__(self, *raised: Any) -> None:
        self.close()

    def __del__(self) -> None:
        if getattr(self, "_handle", None) and self._handle.is_open:
            self._calls["unmount"](self._handle)

    def __repr__(self) -> str:
        return f"<{type(self).__name__} of {self._size} bytes{', closed' * self.closed}>"

    def __bytes__(self) -> bytes:
        """Returns the bytes of the image, without what open files haven't synced."""
        return self.part(0, self._size)

    def part(self, offset: int, count: int) -> bytes:
        """Returns at most `count` bytes of the image from an offset on."""
        buffer = bytearray(min(in_range(count, 64, "count"), max(self._size - in_range(offset, 64, "offset"), 0)))
        return bytes(memoryview(buffer)[: self.part_into(offset, buffer)])

    def part_into(self, offset: int, buffer: Any) -> int:
        """Writes the bytes of the image from an offset on to a buffer, and returns how many they are."""
        return self._call("image_part", [], in_range(offset, 64, "offset"), *writable(buffer))

    def changed_blocks(self) -> Optional[set[int]]:
        """Returns the blocks that have changed since the last such call, or None if that isn't known: at the first call, and if memory
        ran out."""
        with self._lock:
            self.__enter__()
            found, change = set(), Change()
            if self._next_change is not None:
                while (answer := self._ask("fetch_change", self._next_change, change, b"", 0)) == 1:
                    found.add(change.block)
                    self._next_change += 1
                if answer == 0:
                    return found
            self._next_change = self._call("note_changes", [])
            return None

    def check(self) -> None:
        """Mounts the image as it is now a second time, and raises what `Image(..)` raises if that is refused."""
        handle, data = Handle(None, 0), bytes(self)
        answer = self._calls["mount"](handle, self._config, data, len(data))
        self._calls["unmount"](handle)
        if answer < 0:
            raise refusal(-answer)

    def remount(self) -> None:
        """Closes all files without saving them, and reads the image again."""
        with self._lock:
            self._call("remount", [])
            self._mount += 1
            self._raws.clear()

    def recover(self) -> None:
        """Completes or undoes what a loss of power left. Each call that changes the image does so first."""
        self._call("recover", [])

    def used(self) -> int:
        """Returns how many blocks the image uses."""
        return self._call("used_blocks", [])

    # ---- directories

    def items(self, path: PathName = "/") -> list[tuple[bytes, Optional[int]]]:
        """Returns a pair for each entry: its name in bytes, and a file's size or None for a directory. In name order."""
        found = []
        for line in self._whole_answer("list", path).splitlines():
            kind, size, name = line.split(b" ", 2)
            if b"\\" in name:
                name = re.sub(rb"\\x(..)", lambda shown: bytes.fromhex(shown[1].decode()), name)
            found.append((name, int(size) if kind == b"f" else None))
        return found

    def scandir(self, path: PathName = "/") -> Iterator[Entry]:
        """Yields the entries of a directory with their sizes, in name order."""
        above = path_text(path_bytes(path)).rstrip("/")
        return iter([Entry(path_text(name), f"{above}/{path_text(name)}", size) for name, size in self.items(path)])

    def listdir(self, path: PathName = "/") -> list[str]:
        """Returns the names in a directory, in order."""
        return [path_text(name) for name, _ in self.items(path)]

    def walk(self, path: PathName = "/") -> Iterator[tuple[str, list[str], list[str]]]:
        """Yields for each directory its path, the names of its directories and those of its files, as `os.walk` does from the top."""
        entries = list(self.scandir(path))
        folders = [entry.name for entry in entries if entry.is_dir()]
        path = path_text(path_bytes(path))
        yield path, folders, [entry.name for entry in entries if entry.is_file()]
        for name in folders:
            yield from self.walk(path.rstrip("/") + "/" + name)

    def mkdir(self, path: PathName) -> None:
        """Makes an empty directory."""
        self._at("mkdir", path)

    def makedirs(self, path: PathName, exist_ok: bool = False) -> None:
        """Makes a directory, and those above it that don't exist."""
        with self._lock:
            name = path_bytes(path)
            for end in [at for at in range(1, len(name)) if name[at : at + 1] == b"/"]:
                if not self.exists(name[:end]):
                    self.mkdir(name[:end])
            if not (exist_ok and self.is_dir(path)):
                self.mkdir(path)

    # ---- entries

    def stat(self, path: PathName) -> Optional[int]:
        """Returns a file's size in bytes, or None for a directory. A file that is being written has the size of its last sync."""
        answer = self._at("stat", path)
        return None if answer == DIRECTORY else answer

    def exists(self, path: PathName) -> bool:
        """Returns whether a file or directory is at a path."""
        return self._kind(path) != ""

    def is_dir(self, path: PathName) -> bool:
        """Returns whether a directory is at a path."""
        return self._kind(path) == "directory"

    def is_file(self, path: PathName) -> bool:
        """Returns whether a file is at a path."""
        return self._kind(path) == "file"

    def _kind(self, path: PathName) -> str:
        try:
            return "directory" if self.stat(path) is None else "file"
        except (FileNotFoundError, NotADirectoryError):
            return ""

    def remove(self, path: PathName) -> None:
        """Removes a file or an empty directory. A file that is open can still be read and written, but is never stored."""
        self._at("remove", path)

    def rename(self, old: PathName, new: PathName) -> None:
        """Renames or moves an entry, and replaces a file or an empty directory at the new path. Open files go with it."""
        self._call("rename_at", [old, new], *readable(path_bytes(old)), *readable(path_bytes(new)))

    def getattr(self, path: PathName, kind: int) -> bytes:
        """Returns the bytes of an entry's attribute. Its type is 0 to 255."""
        return self._whole_answer("get_attr", path, in_range(kind, 8, "kind"))

    def setattr(self, path: PathName, kind: int, data: Any) -> None:
        """Sets an attribute of an entry, and replaces the one of that type."""
        self._at("set_attr", path, in_range(kind, 8, "kind"), *readable(data))

    def removeattr(self, path: PathName, kind: int) -> None:
        """Removes an attribute of an entry."""
        self._at("remove_attr", path, in_range(kind, 8, "kind"))

    def attributes(self, path: PathName) -> dict[int, bytes]:
        """Returns all attributes of an entry by their types."""
        found, name, buffer = {}, readable(path_bytes(path)), ctypes.create_string_buffer(ATTR_ROOM)
        with self._lock:
            for kind in range(256):
                answer = self._ask("get_attr_at", *name, kind, buffer, ATTR_ROOM)
                if answer >= 0:
                    found[kind] = buffer.raw[:answer]
                elif answer != -NO_ATTR:
                    raise refusal(-answer, path)
        return found

    # ---- files

    def open(self, path: PathName, mode: str = "r", buffering: int = -1, encoding: Optional[str] = None, errors: Optional[str] = None,
             newline: Optional[str] = None) -> IO[Any]:
        """Opens a file, as the builtin `open` does: mode r, w, a or x, with + for both reading and writing, and with b for bytes.
        Without b it is text, in UTF-8 unless an encoding is given. Any number of files may be open, also several times."""
        kinds = [letter for letter in mode if letter in "rwax"]
        kind = "".join(kinds) + "+" * ("+" in mode)
        if kind not in MODES or not set(mode) <= set("rwax+bt") or len(set(mode)) < len(mode) or {"b", "t"} <= set(mode):
            raise io.UnsupportedOperation(f"mode {mode!r}: one of r, w, a and x, with + for both ways, and b or t")
        is_text = "b" not in mode
        if not is_text and (encoding, errors, newline) != (None, None, None):
            raise ValueError("a file of bytes has no encoding, errors or newline")
        if is_text and buffering == 0:
            raise ValueError("a file of text has a buffer")
        with self._lock:
            file: Any = File(self, path, kind)
            raw = file
            if buffering:
                size = buffering if buffering > 1 else io.DEFAULT_BUFFER_SIZE
                file = (io.BufferedRandom if "+" in kind else io.BufferedReader if kind == "r" else io.BufferedWriter)(file, size)
            if is_text:
                file = io.TextIOWrapper(file, encoding or "utf-8", errors, newline, line_buffering=buffering == 1)
                file.mode = mode
            if file is not raw:
                self._files.add(file)
        return file

    def read(self, path: PathName, position: int = 0, count: Optional[int] = None) -> bytes:
        """Returns a file's bytes from a position on, at most `count` of them if that is given."""
        with self._lock:
            with File(self, path, "r") as file:
                file.seek(position)
                return file.readall() if count is None else file.read(in_range(count, 32, "count"))

    def write(self, path: PathName, data: Any) -> None:
        """Makes a file of these bytes, or replaces the contents of the one there. A refusal leaves the tree as it was."""
        data, size = readable(data)
        self._put(path, WRITE | CREATE, 0, data, size)

    def write_at(self, path: PathName, position: int, data: Any, size: Optional[int] = None) -> None:
        """Writes bytes into a file from a position on. After that truncates or extends the file to `size` bytes, if that is given. Its
        other bytes stay. A refusal leaves the tree as it was."""
        self._put(path, WRITE, in_range(position, 32, "position"), data, size)

    def truncate(self, path: PathName, size: int) -> None:
        """Truncates a file to a size, or extends it with zeros."""
        self._put(path, WRITE, 0, b"", size)

    def _put(self, path: PathName, flags: int, position: int, data: Any, size: Optional[int]) -> None:
        data, size = readable(data)[0], None if size is None else in_range(size, 32, "size")
        with self._lock:
            is_new = flags & CREATE and not self.exists(path)
            file = File(self, path, "w", flags)
            try:
                if size is not None:
                    # what is too long is refused here, before anything has changed
                    file.truncate(in_range(max(size, position + len(data) if data else 0), 32, "size"))
                file.seek(position)
                file.write(data)
                if size is not None:
                    file.truncate(size)
                file.close()
            except BaseException as error:
                self._forget(file, is_new, error)
                raise

    def _forget(self, file: File, is_new: int, error: BaseException) -> None:
        """Undoes a write that failed: a new file is removed. If memory ran out, only a remount drops what isn't saved."""
        with contextlib.suppress(OSError):
            if not is_new and getattr(error, "errno", None) == NO_MEMORY:
                self.remount()
            file.close()
        if is_new:
            with contextlib.suppress(OSError):
                self.remove(file.name)
