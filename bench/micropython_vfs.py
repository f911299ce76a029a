"""The modules `vfs` and `os` of MicroPython, over images of bindings/python, for its tests.

Each call reads the whole block device, mounts it, and writes the blocks that it has changed. So it sees what a device answers, and what
else is done to it. A file is whole in memory while it is open. Directories are listed as littlefs has them, the longer of two names
first. Errors are shown as MicroPython shows them.
"""

import builtins
import contextlib
import errno
import os
import posixpath
import sys
import time
import types

top = os.path.dirname(os.path.dirname(os.path.abspath(__file__)))
sys.path[:0] = [os.path.join(top, "bindings", "python"), os.path.join(top, "bindings", "fuse")]
from details import Details
from littlefs_c import Image

PAGE, CACHE = 32, 128  # the least program size of MicroPython, and the cache that it takes then
MOST = 2147483647
DIRECTORY, FILE = 0x4000, 0x8000


class MicroError(OSError):
    """An error as MicroPython shows it."""

    def __init__(self, number):
        super().__init__(number, errno.errorcode.get(number, str(number)))

    def __str__(self):
        return f"[Errno {self.errno}] {self.strerror}"

    def __repr__(self):
        return f"OSError({self.errno},)"


class Shown(type):
    """Classes that are printed by their names alone."""

    def __repr__(cls):
        return f"<class '{cls.__name__}'>"


class VfsLfs1(metaclass=Shown):
    """Isn't here: its name alone is."""


class VfsLfs2(metaclass=Shown):
    def __init__(self, device, mtime=True):
        self._device, self._has_times, self._here, self.is_read_only = device, mtime, "/", False
        with self._image(is_changed=False):
            pass

    @staticmethod
    def mkfs(device):
        count, size = device.ioctl(4, 0), device.ioctl(5, 0)
        try:
            image = Image.format(count * size, size, PAGE, inline_max=CACHE)
        except OSError as error:
            raise MicroError(error.errno) from None
        with image:
            _write(device, size, bytes(image), None)

    @contextlib.contextmanager
    def _image(self, is_changed=True):
        """The image that the device has now. What is done to it is brought back to the device."""
        if is_changed and self.is_read_only:
            raise MicroError(errno.EROFS)
        count, size = self._device.ioctl(4, 0), self._device.ioctl(5, 0)
        data = _read(self._device, count, size)
        try:
            with Image(data, size, PAGE, inline_max=CACHE) as image:
                yield image
                if is_changed:
                    _write(self._device, size, bytes(image), data)
        except OSError as error:
            raise error if isinstance(error, MicroError) else MicroError(error.errno) from None

    def _path(self, path):
        path = path.decode() if isinstance(path, bytes) else path
        return posixpath.normpath("/" + posixpath.join(self._here, path)).replace("//", "/")

    def open(self, path, mode):
        return open_file(self, self._path(path), mode)

    def ilistdir(self, path=""):
        shown = (lambda name: name) if isinstance(path, bytes) else bytes.decode
        with self._image(is_changed=False) as image:
            items = sorted(image.items(self._path(path)), key=lambda item: [*item[0], 256])
        return iter([(shown(name), DIRECTORY if size is None else FILE, 0, size or 0) for name, size in items])

    def mkdir(self, path):
        with self._image() as image:
            image.mkdir(self._path(path))

    def remove(self, path):
        with self._image() as image:
            image.remove(self._path(path))

    rmdir = remove

    def rename(self, old, new):
        with self._image() as image:
            image.rename(self._path(old), self._path(new))

    def stat(self, path):
        with self._image(is_changed=False) as image:
            path = self._path(path)
            size, when = image.stat(path), Details(image, 0).time(path.encode()) // 10**9
        return (DIRECTORY if size is None else FILE, 0, 0, 0, 0, 0, size or 0, when, when, when)

    def statvfs(self, path):
        """Free blocks as MicroPython counts them: the pair of each directory is used twice, beneath its name and in the thread."""
        with self._image(is_changed=False) as image:
            directories = sum(len(below) for _, below, _ in image.walk())
            free = image.block_count - image.used() - 2 * directories
            return (image.block_size, image.block_size, image.block_count, free, free, 0, 0, 0, 0, image.limits.name_max)

    def chdir(self, path):
        with self._image(is_changed=False) as image:
            if not image.is_dir(self._path(path)):
                raise MicroError(errno.ENOENT)
        self._here = self._path(path)

    def getcwd(self):
        return self._here

    def umount(self):
        pass


def _read(device, count, size):
    data = bytearray()
    for block in range(count):
        buffer = bytearray(size)
        if (device.readblocks(block, buffer, 0) or 0) < 0:
            raise MicroError(errno.EIO)
        data += buffer
    return bytes(data)


def _write(device, size, new, old):
    for at in range(0, len(new), size):
        if old is None or new[at : at + size] != old[at : at + size]:
            if (device.writeblocks(at // size, new[at : at + size], 0) or 0) < 0:
                raise MicroError(errno.EIO)


class _File:
    """An open file: its bytes in memory, and a position."""

    def __init__(self, fs, path, mode):
        self._fs, self._path, self._is_text, self._position, self._is_open = fs, path, "b" not in mode, 0, True
        self._writes, self._appends = set(mode) & set("wax+") != set(), "a" in mode
        with fs._image(self._writes) as image:
            is_there = image.is_file(path)
            if "x" in mode and is_there:
                raise MicroError(errno.EEXIST)
            if "w" in mode or set(mode) & set("ax") and not is_there:
                image.write(path, b"")
            self._data, self._is_saved = bytearray(image.read(path)), True
            if self._writes and fs._has_times:
                Details(image, 0).set_time(path.encode(), time.time_ns())

    def __repr__(self):
        return "<io.TextIOWrapper>" if self._is_text else "<io.FileIO>"

    def __enter__(self):
        return self

    def __exit__(self, *raised):
        self.close()

    def read(self, count=-1):
        if self._is_saved:
            with self._fs._image(is_changed=False) as image:
                self._data[:] = image.read(self._path)
        data = bytes(self._data[self._position :] if count < 0 else self._data[self._position : self._position + count])
        self._position += len(data)
        return data.decode() if self._is_text else data

    def write(self, data):
        data = data.encode() if isinstance(data, str) else data
        with self._fs._image(is_changed=False):
            pass
        at = len(self._data) if self._appends else self._position
        self._data.extend(bytes(max(at - len(self._data), 0)))
        self._data[at : at + len(data)] = data
        self._position, self._is_saved = at + len(data), False
        return len(data)

    def seek(self, offset, whence=0):
        position = offset + (0, self._position, len(self._data))[whence]
        if not 0 <= position < MOST:
            raise MicroError(errno.EINVAL)
        self._position = position
        return position

    def tell(self):
        return self._position

    def flush(self):
        if self._writes and not self._is_saved:
            with self._fs._image() as image:
                image.write(self._path, bytes(self._data))
                if self._fs._has_times:
                    Details(image, 0).set_time(self._path.encode(), time.time_ns())
            self._is_saved = True

    def close(self):
        if self._is_open:
            self._is_open = False
            self.flush()


def open_file(fs, path, mode):
    return _File(fs, path, mode or "r")


class System:
    """What a test sees of the system: file systems that are mounted, and modules that it imports from them."""

    def __init__(self):
        self.mounted, self.here = {}, "/"
        self.vfs = types.SimpleNamespace(VfsLfs1=VfsLfs1, VfsLfs2=VfsLfs2, mount=self.mount, umount=self.mounted.pop)
        self.os = types.SimpleNamespace(mkdir=self._call("mkdir"), listdir=self.listdir, chdir=self.chdir, rename=self.rename)
        self.sys = types.SimpleNamespace(path=[], modules={})
        self.builtins = {**vars(builtins), "open": self.open, "__import__": self.import_module}

    def mount(self, device, at, readonly=False):
        if not isinstance(device, VfsLfs2):
            try:
                device = VfsLfs2(device)
            except OSError:
                raise MicroError(errno.ENODEV) from None
        device.is_read_only = readonly
        self.mounted[at] = device

    def _place(self, path):
        path = posixpath.join(self.here, path)
        for at, fs in self.mounted.items():
            if path == at or path.startswith(at + "/"):
                return fs, path[len(at) :] or "/"
        raise MicroError(errno.ENOENT)

    def _call(self, name):
        return lambda path: getattr(self._place(path)[0], name)(self._place(path)[1])

    def listdir(self, path):
        return [item[0] for item in self._call("ilistdir")(path)]

    def chdir(self, path):
        self._call("chdir")(path)
        self.here = posixpath.join(self.here, path)

    def rename(self, old, new):
        self._place(old)[0].rename(self._place(old)[1], self._place(new)[1])

    def open(self, path, mode="r"):
        fs, path = self._place(path)
        return fs.open(path, mode)

    def import_module(self, name, *more):
        ours = {"vfs": self.vfs, "os": self.os, "sys": self.sys}
        if name in ours:
            return ours[name]
        for folder in self.sys.path:
            for file in (f"{folder or self.here}/{name}.py", f"{folder or self.here}/{name}/__init__.py"):
                with contextlib.suppress(MicroError):
                    source = self.open(file).read()
                    module = {"__builtins__": self.builtins, "__name__": name}
                    exec(source, module)
                    return types.SimpleNamespace(**module)
        return __import__(name, *more)
