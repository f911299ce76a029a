"""The file of an image: read once, and changed as a whole."""

from __future__ import annotations

import contextlib
import fcntl
import os
import stat

PIECE = 1 << 18  # what is read at a time


class InUse(Exception):
    """Another program has mounted the image's file."""


class ImageFile:
    """The file of an image. At its path there is a whole image at each moment: that of the last save, or that of the one before.

    A save writes the blocks that have changed to a second file beside it, and gives that one the path. What was there is the second
    file then, one save behind. A file that is only read is left alone."""

    def __init__(self, path: str, is_written: bool):
        self.path = os.path.realpath(path)
        self._next, self._last = f"{self.path}.next", f"{self.path}.last"
        self._here, self._spare = self._open(is_written), None
        self._behind, self._is_lost, self._is_durable = set(), False, True  # of the spare; of the last save
        self._shown, self._room, self._tail = None, None, b""  # the last save's pieces, and room for new ones

    def _open(self, is_written: bool) -> int:
        while True:
            here = os.open(self.path, os.O_RDWR if is_written else os.O_RDONLY)
            if is_written and not stat.S_ISREG(os.fstat(here).st_mode):
                raise OSError(f"{self.path} is no file, so it is mounted by `-o ro` alone")
            _lock(here, fcntl.LOCK_EX if is_written else fcntl.LOCK_SH)
            if os.path.samestat(os.fstat(here), os.stat(self.path)):
                break
            os.close(here)
        if is_written:
            self._remove_others()
        return here

    def read(self, size: int | None = None) -> bytes:
        """Returns the first bytes of the file, or all of them without a size."""
        with open(self.path, "rb") as file:
            return file.read() if size is None else file.read(size)

    def begin(self, image) -> None:
        """Notes which image the file has. What follows it in the file stays as it is."""
        image.changed_blocks()
        if image.changed_blocks() is None:
            self._shown, self._room = _pieces(image), _pieces(image)
        with open(self.path, "rb") as file:
            file.seek(image.block_count * image.block_size)
            self._tail = file.read()

    def save(self, image, is_durable: bool) -> None:
        """Puts an image's bytes at the path, and on the disk if that is asked for."""
        changed = self._changed(image)
        if changed or self._is_lost:
            try:
                self._write(image, changed)
                self._place(is_durable)
            except OSError:
                self._is_lost = True
                self._forget_spare()
                raise
            self._behind, self._is_lost, self._is_durable = changed, False, is_durable
        elif is_durable and not self._is_durable:
            os.fsync(self._here)
            self._sync_folder()
            self._is_durable = True

    def close(self) -> None:
        """Removes the second file."""
        self._forget_spare()
        os.close(self._here)

    def _changed(self, image) -> set[int]:
        """Returns the blocks that have changed since the last save: as the image notes them, or by a comparison of all."""
        changed = image.changed_blocks()
        if changed is not None:
            return changed
        if self._shown is None:
            return set(range(image.block_count))
        _fill(image, self._room)
        self._shown, self._room = self._room, self._shown
        return {block for piece, (new, old) in enumerate(zip(self._shown, self._room)) if new != old for block in _differing(new, old, piece, image.block_size)}

    def _write(self, image, changed: set[int]) -> None:
        if self._spare is not None:
            for block in sorted(changed | self._behind):
                at = block * image.block_size
                _write_at(self._spare, image.part(at, image.block_size), at)
            return
        self._spare, at = self._new_file(), 0
        for piece in [*_pieces(image), self._tail]:
            _write_at(self._spare, piece, at)
            at += len(piece)

    def _new_file(self) -> int:
        was = os.fstat(self._here)
        new = os.open(self._next, os.O_RDWR | os.O_CREAT | os.O_TRUNC, 0o600)
        _lock(new, fcntl.LOCK_EX)
        with contextlib.suppress(PermissionError):
            os.fchown(new, was.st_uid, was.st_gid)
        os.fchmod(new, stat.S_IMODE(was.st_mode))
        return new

    def _place(self, is_durable: bool) -> None:
        if is_durable:
            os.fsync(self._spare)
        try:
            os.link(self.path, self._last)
        except OSError:  # where files have one name each, the old one ends here
            os.replace(self._next, self.path)
            os.close(self._here)
            self._here, self._spare = self._spare, None
        else:
            os.replace(self._next, self.path)
            os.replace(self._last, self._next)
            self._here, self._spare = self._spare, self._here
        if is_durable:
            self._sync_folder()

    def _sync_folder(self) -> None:
        folder = os.open(os.path.dirname(self.path), os.O_RDONLY)
        try:
            os.fsync(folder)
        finally:
            os.close(folder)

    def _forget_spare(self) -> None:
        if self._spare is not None:
            os.close(self._spare)
            self._spare = None
            self._remove_others()

    def _remove_others(self) -> None:
        for path in (self._next, self._last):
            with contextlib.suppress(FileNotFoundError):
                os.unlink(path)


def _lock(file: int, kind: int) -> None:
    try:
        fcntl.flock(file, kind | fcntl.LOCK_NB)
    except BlockingIOError:
        os.close(file)
        raise InUse from None


def _write_at(file: int, data: bytes, at: int) -> None:
    while data:
        count = os.pwrite(file, data, at)
        data, at = data[count:], at + count


def _step(block_size: int) -> int:
    """Returns how many bytes are compared at a time: some blocks."""
    return max(PIECE // block_size, 1) * block_size


def _pieces(image) -> list[bytearray]:
    """Yields the bytes of an image in pieces."""
    size, step = image.block_count * image.block_size, _step(image.block_size)
    pieces = [bytearray(min(step, size - at)) for at in range(0, size, step)]
    _fill(image, pieces)
    return pieces


def _fill(image, pieces: list[bytearray]) -> None:
    for number, piece in enumerate(pieces):
        image.part_into(number * _step(image.block_size), piece)


def _differing(new: bytearray, old: bytearray, piece: int, size: int) -> list[int]:
    """Returns the blocks in which a piece differs."""
    first = piece * _step(size) // size
    return [first + at // size for at in range(0, len(new), size) if new[at : at + size] != old[at : at + size]]
