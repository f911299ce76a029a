"""Open files of an image, in the manner of the module io."""

from __future__ import annotations

import io
from typing import TYPE_CHECKING, Any, Optional
import weakref

from .library import APPEND, CREATE, EXCLUSIVE, READ, TRUNCATE, WRITE, PathName, in_range, path_bytes, readable, writable

if TYPE_CHECKING:
    from .images import Image

_WAYS = {"r": 0, "w": CREATE | TRUNCATE, "a": CREATE | APPEND, "x": CREATE | EXCLUSIVE}
MODES = {
    **{kind: (WRITE if flags else READ) | flags for kind, flags in _WAYS.items()},
    **{kind + "+": READ | WRITE | flags for kind, flags in _WAYS.items()},
}


class File(io.RawIOBase):
    """An open file of an image, without a buffer. `Image.open` makes it. All that are open on one path see the same bytes at once, and
    each has a position of its own."""

    def __init__(self, image: Image, path: PathName, kind: str, flags: Optional[int] = None):
        self._image, self.name, self.mode, self._number, self._mount = image, path, kind[0] + "b" + kind[1:], None, 0
        self._flags = MODES[kind] if flags is None else flags
        with image._lock:
            self._number = image._call("open", [path], *readable(path_bytes(path)), self._flags)
            self._mount = image._mount
            image._raws[self._number] = weakref.ref(self)
            if self._flags & APPEND:
                self.seek(0, io.SEEK_END)

    def _is_open(self) -> bool:
        """Returns whether the file is open. Its number is good until a remount."""
        return self._number is not None and self._mount == self._image._mount

    def _call(self, name: str, *more: Any) -> int:
        with self._image._lock:
            if not self._is_open():
                raise ValueError("I/O operation on closed file")
            return self._image._call(name, [self.name], self._number, *more)

    def readable(self) -> bool:
        return bool(self._flags & READ)

    def writable(self) -> bool:
        return bool(self._flags & WRITE)

    def seekable(self) -> bool:
        return True

    def readinto(self, buffer: Any) -> int:
        """Reads bytes into a buffer and returns how many: fewer than its size if the file ends."""
        if not self.readable():
            raise io.UnsupportedOperation("not readable")
        return self._call("file_read", *writable(buffer))

    def readall(self) -> bytes:
        """Reads all bytes from the position on."""
        if not self.readable():
            raise io.UnsupportedOperation("not readable")
        with self._image._lock:
            buffer = bytearray(max(self._call("file_size") - self._call("file_tell"), 0))
            return bytes(memoryview(buffer)[: self.readinto(buffer)])

    def write(self, data: Any) -> int:
        """Writes all bytes at the position, or at the end in append mode, and returns how many they are."""
        if not self.writable():
            raise io.UnsupportedOperation("not writable")
        return self._call("file_write", *readable(data))

    def seek(self, offset: int, whence: int = io.SEEK_SET) -> int:
        """Sets the position and returns it. It may be past the end."""
        with self._image._lock:
            if whence not in (io.SEEK_SET, io.SEEK_CUR, io.SEEK_END):
                raise ValueError(f"whence is 0, 1 or 2: {whence!r}")
            begin = self._call(("", "file_tell", "file_size")[whence]) if whence else 0
            position = in_range(offset + begin, 32, "position")
            self._call("file_seek", position)
        return position

    def tell(self) -> int:
        return self._call("file_tell")

    def truncate(self, size: Optional[int] = None) -> int:
        """Truncates the file, or extends it with zeros, to a size; without one, to its position. The position stays."""
        if not self.writable():
            raise io.UnsupportedOperation("not writable")
        with self._image._lock:
            size = self.tell() if size is None else in_range(size, 32, "size")
            self._call("file_truncate", size)
        return size

    def sync(self) -> None:
        """Commits what was written. Flush a buffer above this file first."""
        self._call("file_sync")

    def close(self) -> None:
        """Commits what was written and closes the file, even if the commit is refused."""
        with self._image._lock:
            is_open, number = self._is_open(), self._number
            self._number = None
            super().close()
            if is_open:
                del self._image._raws[number]
                if self.writable() or not self._image.closed:
                    self._image._call("file_close", [self.name], number)
