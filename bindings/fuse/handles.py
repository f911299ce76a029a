"""Files that are open in the folder: handles of the image's volume, and the times of their last changes."""

from __future__ import annotations

import errno
import itertools
import os
from dataclasses import dataclass
from typing import Optional

from littlefs_c.library import CREATE, READ, WRITE, readable, writable


@dataclass(eq=False)
class OpenFile:
    """A file while it is open, for all that have it open."""

    path: Optional[bytes]  # None once it is removed
    users: int = 0
    time: Optional[int] = None  # of the last change, where the image doesn't have it


@dataclass(eq=False)
class Handle:
    """A handle of the volume on a file, for reading or for both."""

    image: object
    number: int
    file: OpenFile

    def _call(self, name: str, *words) -> int:
        return self.image._call(name, [], self.number, *words)

    def size(self) -> int:
        """Returns how many bytes the file has, with what isn't saved."""
        return self._call("file_size")

    def read(self, offset: int, count: int) -> bytes:
        self._call("file_seek", offset)
        buffer = bytearray(min(count, max(self.size() - offset, 0)))
        return bytes(memoryview(buffer)[: self._call("file_read", *writable(buffer))])

    def write(self, offset: int, data: bytes, time: int) -> None:
        """Writes bytes. Zeros fill a gap before them."""
        self._call("file_seek", offset)
        self._call("file_write", *readable(data))
        self.file.time = time

    def truncate(self, size: int, time: int) -> None:
        """Truncates the file, or extends it with zeros."""
        self._call("file_truncate", size)
        self.file.time = time


class Handles:
    """The open files of an image, by their paths, and their handles by the numbers that the system knows them by."""

    def __init__(self, image, details):
        self._image, self._details = image, details
        self._files: dict[bytes, OpenFile] = {}
        self._handles: dict[int, Handle] = {}
        self._numbers = itertools.count(1)

    def open(self, path: bytes, is_written: bool, is_new: bool = False) -> int:
        """Opens a file, and returns its number."""
        flags = READ | WRITE * is_written | CREATE * is_new
        number = self._image._call("open", [path], *readable(path), flags)
        file = self._files.setdefault(path, OpenFile(path))
        file.users += 1
        known = next(self._numbers)
        self._handles[known] = Handle(self._image, number, file)
        return known

    def handle(self, number: int) -> Handle:
        """Returns the handle of that number. Refuses one that a remount has closed."""
        if number not in self._handles:
            raise OSError(errno.EIO, os.strerror(errno.EIO))
        return self._handles[number]

    def at(self, path: Optional[bytes]) -> Optional[Handle]:
        """Returns a handle on the open file at that path, or None."""
        return next((it for it in self._handles.values() if path is not None and it.file.path == path), None)

    def save(self, number: int) -> bool:
        """Syncs a file to the image, and returns whether it had changes."""
        handle = self.handle(number)
        handle._call("file_sync")
        return self._note_time(handle.file)

    def _note_time(self, file: OpenFile) -> bool:
        time, file.time = file.time, None
        if time is not None and file.path is not None:
            self._details.note_time(file.path, time)
        return time is not None

    def close(self, number: int) -> bool:
        """Syncs and closes a file, and returns whether it had changes."""
        handle = self.handle(number)
        del self._handles[number]
        file = handle.file
        file.users -= 1
        if not file.users and file.path is not None:
            del self._files[file.path]
        handle._call("file_close")
        return self._note_time(file)

    def save_all(self) -> None:
        """Syncs each file."""
        for number in self._handles:
            self.save(number)

    def lost(self) -> None:
        """Drops all handles: a remount has closed them."""
        self._handles.clear()
        self._files.clear()

    def removed(self, path: bytes) -> None:
        """Notes that a path is gone. A file that is open there stays until it is closed."""
        file = self._files.pop(path, None)
        if file:
            file.path = None

    def renamed(self, old: bytes, new: bytes) -> None:
        """Notes the new path of an entry and of all beneath it."""
        self.removed(new)
        for path in list(self._files):
            if path == old or path.startswith(old + b"/"):
                file = self._files.pop(path)
                file.path = new + path[len(old) :]
                self._files[file.path] = file
