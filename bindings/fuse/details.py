"""Times, modes and further attributes of entries, as attributes of littlefs."""

from __future__ import annotations

import contextlib
import errno
import os
import re
from typing import Optional

TIME = 1  # eight bytes: nanoseconds since 1970, the lowest byte first, as MicroPython has it
MODE = ord("m")  # two bytes: the permissions, where they aren't those of most files
USUAL = {False: 0o644, True: 0o755}  # of a file, and of a directory
NO_ATTR, ENTRY_FULL = 61, 201
WANT_OF_ROOM = {errno.ENOSPC, errno.EFBIG, ENTRY_FULL}
ROOT = b"/"


class Details:
    """Times and modes of entries. The root has no attributes in an image, so its own last until the end."""

    def __init__(self, image, begun: int):
        self._image, self._begun, self._of_root = image, begun, {}

    def _get(self, path: bytes, kind: int) -> Optional[bytes]:
        if path == ROOT:
            return self._of_root.get(kind)
        try:
            return self._image.getattr(path, kind)
        except OSError as error:
            if error.errno == NO_ATTR:
                return None
            raise

    def _set(self, path: bytes, kind: int, data: bytes) -> None:
        if path == ROOT:
            self._of_root[kind] = data
        elif self._get(path, kind) != data:
            self._image.setattr(path, kind, data)

    def time(self, path: bytes) -> int:
        """Returns when an entry was changed, in nanoseconds; without a time of its own, when the image's file was."""
        data = self._get(path, TIME)
        return int.from_bytes(data, "little") if data and len(data) == 8 else self._begun

    def set_time(self, path: bytes, time: int) -> None:
        """Stores when an entry was changed."""
        self._set(path, TIME, min(max(time, 0), 2**64 - 1).to_bytes(8, "little"))

    def note_time(self, path: bytes, time: int) -> None:
        """The same, unless there is no room for it."""
        try:
            self.set_time(path, time)
        except OSError as error:
            if error.errno not in WANT_OF_ROOM:
                raise

    def mode(self, path: bytes, is_directory: bool) -> int:
        """Returns an entry's permissions."""
        data = self._get(path, MODE)
        return int.from_bytes(data, "little") if data and len(data) == 2 else USUAL[is_directory]

    def set_mode(self, path: bytes, mode: int, is_directory: bool) -> None:
        """Sets an entry's permissions."""
        if mode & 0o7777 != USUAL[is_directory] or path == ROOT:
            self._set(path, MODE, (mode & 0o7777).to_bytes(2, "little"))
        elif self._get(path, MODE) is not None:
            self._image.removeattr(path, MODE)


class Attributes:
    """The attributes of entries under the names `user.lfs.0` to `user.lfs.255`."""

    def __init__(self, image):
        self._image = image

    def names(self, path: bytes) -> list[str]:
        """Returns the names of an entry's attributes."""
        return [] if path == ROOT else [f"user.lfs.{kind}" for kind in self._image.attributes(path)]

    def get(self, path: bytes, name: bytes) -> bytes:
        """Returns an attribute's bytes."""
        kind = _kind(name)
        if kind is None or path == ROOT:
            raise OSError(errno.ENODATA, os.strerror(errno.ENODATA))
        return self._image.getattr(path, kind)

    def set(self, path: bytes, name: bytes, data: bytes, flags: int) -> None:
        """Sets an attribute of an entry: a new one or an existing one, if the flags say so."""
        kind = _kind(name)
        if kind is None or path == ROOT:
            raise OSError(errno.ENOTSUP, os.strerror(errno.ENOTSUP))
        if flags:
            is_there = False
            with contextlib.suppress(OSError):
                is_there = self._image.getattr(path, kind) is not None
            if is_there == bool(flags & os.XATTR_CREATE):
                wrong = errno.EEXIST if is_there else errno.ENODATA
                raise OSError(wrong, os.strerror(wrong))
        self._image.setattr(path, kind, data)

    def remove(self, path: bytes, name: bytes) -> None:
        """Removes an attribute."""
        kind = _kind(name)
        if kind is None or path == ROOT:
            raise OSError(errno.ENODATA, os.strerror(errno.ENODATA))
        self._image.removeattr(path, kind)


def _kind(name: bytes) -> Optional[int]:
    found = re.fullmatch(rb"user\.lfs\.(0|[1-9][0-9]{0,2})", name)
    return int(found[1]) if found and int(found[1]) < 256 else None
