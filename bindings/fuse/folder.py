"""An image as a folder: the operations of FUSE, over an `Image`."""

from __future__ import annotations

import errno
import logging
import os
import stat
import threading
import time

try:
    from fuse import FUSE, Operations
except ImportError:
    from fusepy import FUSE, Operations  # as Debian's package python3-fusepy names it

from details import ENTRY_FULL, Attributes, Details
from handles import Handles

FAILED, CORRUPT = 200, 84
FOR_SYSTEM = {FAILED: errno.EIO, CORRUPT: errno.EIO, ENTRY_FULL: errno.ENOSPC}
NOW, OMIT = (1 << 30) - 1, (1 << 30) - 2  # nanoseconds by which utimens means the present, and no change
BY_ITSELF = 1  # seconds within which a change is saved that no file's close or sync saves
NAMES_AS_BYTES = "latin-1"  # so each byte of a name is a letter for fusepy


class Folder(Operations):
    """The operations of a mounted folder. `save_at` says when changes are written to the image's file: at each close of a file and
    otherwise within a second, at each sync, or at the end. A sync always writes them."""

    use_ns = True
    flag_nullpath_ok = 1  # a file that is removed while it is open has no path
    flag_utime_omit_ok = 1

    def __init__(self, image, image_file, begun: int, save_at: str = "close"):
        self.image, self._image_file, self._save_at = image, image_file, save_at
        self._details, self._attributes = Details(image, begun), Attributes(image)
        self._files = Handles(image, self._details)
        self._lock, self._end, self._saver, self._is_changed = threading.RLock(), threading.Event(), None, False

    def __call__(self, name, *words):
        words = [it.encode(NAMES_AS_BYTES) if isinstance(it, str) else it for it in words]
        with self._lock:
            try:
                return getattr(self, name)(*words)
            except OSError as error:
                if error.errno in (errno.ENOMEM, FAILED):
                    self._mend()
                raise OSError(FOR_SYSTEM.get(error.errno, error.errno or errno.EIO), str(error)) from error

    def _mend(self):
        """Reads the image again if the volume has failed for want of memory. What wasn't saved is lost."""
        try:
            self.image.used()
        except OSError:
            self.image.remount()
            self._files.lost()

    # ---- the image's file

    def init(self, path):
        if self._save_at == "close":
            self._saver = threading.Thread(target=self._save_now_and_then, daemon=True)
            self._saver.start()

    def _save_now_and_then(self):
        while not self._end.wait(BY_ITSELF):
            try:
                with self._lock:
                    self._save(is_durable=False)
            except OSError as error:
                logging.error("the image isn't saved: %s", error)

    def _save(self, is_durable):
        if self._is_changed or is_durable:
            self._image_file.save(self.image, is_durable)
            self._is_changed = False

    def _saved(self, was_changed):
        """Saves the image after the last change of a file, if that is wanted."""
        self._is_changed |= was_changed
        if self._save_at == "close":
            self._save(is_durable=False)

    def destroy(self, path):
        self._end.set()
        self._files.save_all()
        if self._image_file:
            self._image_file.save(self.image, is_durable=True)
            self._image_file.close()
        self._is_changed = False

    # ---- entries

    def getattr(self, path, number=None):
        handle = self._files.at(path) if number is None else self._files.handle(number)
        size = handle.size() if handle else self.image.stat(path)
        file, path = (handle.file, handle.file.path) if handle else (None, path)
        is_directory = size is None
        changed = file.time if file and (file.time is not None or path is None) else self._details.time(path)
        mode = self._details.mode(path, is_directory) if path else 0o600
        return {"st_mode": mode | (stat.S_IFDIR if is_directory else stat.S_IFREG), "st_nlink": 2 if is_directory else 1, "st_size": size or 0,
                "st_blocks": ((size or 0) + 511) // 512, "st_blksize": self.image.block_size, "st_uid": os.getuid(), "st_gid": os.getgid(),
                "st_mtime": changed or 0, "st_ctime": changed or 0, "st_atime": changed or 0}

    def readdir(self, path, number):
        return [".", ".."] + [name.decode(NAMES_AS_BYTES) for name, _ in self.image.items(path)]

    def mkdir(self, path, mode):
        self.image.mkdir(path)
        self._begin(path, mode, is_directory=True)
        self._details.note_time(path, time.time_ns())

    def _begin(self, path, mode, is_directory):
        self._is_changed = True
        try:
            self._details.set_mode(path, mode, is_directory)
        except OSError:
            self.image.remove(path)
            raise

    def unlink(self, path):
        self.image.remove(path)
        self._files.removed(path)
        self._is_changed = True

    rmdir = unlink

    def rename(self, old, new):
        if old != new:
            self.image.rename(old, new)
            self._files.renamed(old, new)
            self._is_changed = True

    def chmod(self, path, mode):
        self._details.set_mode(path, mode, self.image.is_dir(path))
        self._is_changed = True

    def chown(self, path, user, group):
        if user not in (-1, os.getuid()) or group not in (-1, os.getgid()):
            raise OSError(errno.EPERM, "littlefs has no owners")

    def utimens(self, path, times=None):
        changed = times[1] if times else NOW
        if changed == OMIT:
            return
        changed = time.time_ns() if changed == NOW else changed
        handle = self._files.at(path)
        if handle:
            handle.file.time = changed
        else:
            self._details.set_time(path, changed)
            self._is_changed = True

    def statfs(self, path):
        free = self.image.block_count - self.image.used()
        return {"f_bsize": self.image.block_size, "f_frsize": self.image.block_size, "f_blocks": self.image.block_count, "f_bfree": free, "f_bavail": free, "f_namemax": self.image.limits.name_max}

    def mknod(self, path, mode, device):
        if not stat.S_ISREG(mode):
            raise OSError(errno.EPERM, "littlefs has files and directories")
        self.release(path, self.create(path, mode))

    def symlink(self, target, source):
        raise OSError(errno.EPERM, "littlefs has no links")

    link = symlink

    # ---- attributes

    def listxattr(self, path):
        return self._attributes.names(path)

    def getxattr(self, path, name, position=0):
        return self._attributes.get(path, name)

    def setxattr(self, path, name, data, flags, position=0):
        self._attributes.set(path, name, data, flags)
        self._is_changed = True

    def removexattr(self, path, name):
        self._attributes.remove(path, name)
        self._is_changed = True

    # ---- files

    def create(self, path, mode, more=None):
        number = self._files.open(path, is_written=True, is_new=True)
        try:
            self._begin(path, mode, is_directory=False)
        except OSError:
            self._files.removed(path)
            self._files.close(number)
            raise
        self._files.handle(number).file.time = time.time_ns()
        return number

    def open(self, path, flags):
        return self._files.open(path, is_written=flags & os.O_ACCMODE != os.O_RDONLY)

    def read(self, path, size, offset, number):
        return self._files.handle(number).read(offset, size)

    def write(self, path, data, offset, number):
        handle = self._files.handle(number)
        self._grow(handle, offset + len(data))
        handle.write(offset, data, time.time_ns())
        return len(data)

    def _grow(self, handle, size):
        """Refuses a size for which there is no room. The volume would refuse it only at a sync."""
        if size > self.image.limits.file_max:
            raise OSError(errno.EFBIG, os.strerror(errno.EFBIG))
        if size > handle.size():
            stored = 0 if handle.file.path is None else self.image.stat(handle.file.path)
            if size - stored > (self.image.block_count - self.image.used()) * self.image.block_size:
                raise OSError(errno.ENOSPC, os.strerror(errno.ENOSPC))

    def truncate(self, path, size, number=None):
        opened = number or self._files.open(path, is_written=True)
        try:
            handle = self._files.handle(opened)
            self._grow(handle, size)
            handle.truncate(size, time.time_ns())
        finally:
            if number is None:
                self._is_changed |= self._files.close(opened)

    def flush(self, path, number):
        self._saved(self._files.save(number))

    def release(self, path, number):
        self._saved(self._files.close(number))

    def fsync(self, path, is_of_data, number):
        self._is_changed |= self._files.save(number)
        self._save(is_durable=True)

    def fsyncdir(self, path, is_of_data, number):
        self._save(is_durable=True)


def mount(folder, path, name, options):
    """Mounts a folder at a path until it is unmounted."""
    always = {"fsname": name.replace(",", "_"), "subtype": "littlefs", "nothreads": True, "default_permissions": True, "hard_remove": True,
              "big_writes": True, "kernel_cache": True, "attr_timeout": 60, "entry_timeout": 60}
    FUSE(folder, os.fsencode(path).decode(NAMES_AS_BYTES), encoding=NAMES_AS_BYTES, **{**always, **options})
