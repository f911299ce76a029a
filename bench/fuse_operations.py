"""Random operations on files in a mounted image and in a plain folder, with kills of the program that mounts it, for fuse.py."""

import contextlib
import os
import random
import threading

MOST = 128 << 10
NAMES = [f"file{number}" for number in range(8)]


class Different(Exception):
    """The mounted folder shows something else than the plain one."""


def same(what, got, wanted):
    if got != wanted:
        raise Different(f"{what}: {got!r:.80} and not {wanted!r:.80}")


class Files:
    """Files in both folders. `saved` has the bytes of each that are in the image's file: those of its last close or sync."""

    def __init__(self, mount, plain, chance):
        self.mount, self.plain, self.chance = mount, plain, chance
        self.open, self.saved = {}, {}  # by name: the two descriptors, and the bytes
        self.in_work = None

    def pair(self, name):
        if name not in self.open:
            is_new = not os.path.exists(f"{self.plain}/{name}")
            flags = os.O_RDWR | os.O_CREAT * is_new  # otherwise a file would be made in the bare folder after a kill
            self.open[name] = (os.open(f"{self.mount}/{name}", flags), os.open(f"{self.plain}/{name}", flags))
            if is_new:
                self.save_folder()
                self.saved[name] = b""
        return self.open[name]

    def held(self, name):
        with open(f"{self.plain}/{name}", "rb") as file:
            return file.read()

    def read(self, name):
        ours, plain = self.pair(name)
        count, at = self.chance.randrange(1 << 16), self.chance.randrange(MOST)
        same(f"{name} at {at}", os.pread(ours, count, at), os.pread(plain, count, at))
        same(f"the size of {name}", os.fstat(ours).st_size, os.fstat(plain).st_size)

    def write(self, name):
        data = self.chance.randbytes(self.chance.choice([1, 7, 100, 4096, self.chance.randrange(1, 20000)]))
        at = self.chance.randrange(MOST - len(data))
        for file in self.pair(name):
            same("a write's count", os.pwrite(file, data, at), len(data))

    def truncate(self, name):
        size = self.chance.randrange(MOST)
        for file in self.pair(name):
            os.ftruncate(file, size)

    def sync(self, name):
        ours, _ = self.pair(name)
        self.in_work = name
        os.fsync(ours)
        self.saved[name], self.in_work = self.held(name), None

    def close(self, name):
        if name in self.open:
            self.in_work = name
            ours, plain = self.open[name]
            os.close(ours)
            del self.open[name]
            os.close(plain)
            self.saved[name], self.in_work = self.held(name), None

    def save_folder(self):
        folder = os.open(self.mount, os.O_RDONLY)
        os.fsync(folder)
        os.close(folder)

    def cut(self, name):
        """Truncates a file by its path, while it isn't open."""
        self.pair(name)
        self.close(name)
        size = self.chance.randrange(MOST)
        for folder in (self.mount, self.plain):
            os.truncate(f"{folder}/{name}", size)
        self.save_folder()
        self.saved[name] = self.held(name)

    def remove(self, name):
        """Removes a file, often one that is open, and reads it after that."""
        ours, plain = self.pair(name)
        for folder in (self.mount, self.plain):
            os.unlink(f"{folder}/{name}")
        self.save_folder()
        same(f"{name}, removed", os.pread(ours, MOST, 0), os.pread(plain, MOST, 0))
        os.close(ours), os.close(plain)
        del self.open[name], self.saved[name]

    def rename(self, name):
        """Renames a file in place of another one. Both may be open."""
        other = self.chance.choice(NAMES)
        self.pair(name)
        for folder in (self.mount, self.plain):
            os.rename(f"{folder}/{name}", f"{folder}/{other}")
        self.save_folder()
        if other != name:
            for file in self.open.pop(other, ()):
                os.close(file)
            self.open[other], self.saved[other] = self.open.pop(name), self.saved.pop(name)

    def step(self):
        kind = self.chance.choices(["read", "write", "truncate", "sync", "close", "cut", "remove", "rename"], [40, 35, 8, 3, 10, 2, 1, 1])[0]
        getattr(self, kind)(self.chance.choice(NAMES))

    def only_files(self):
        """Makes an operation that leaves one file in one of two states if it is killed."""
        kind = self.chance.choices(["read", "write", "truncate", "sync", "close"], [10, 40, 10, 20, 20])[0]
        name = self.chance.choice(sorted(self.saved) or NAMES)
        self.pair(name)
        getattr(self, kind)(name)

    def close_all(self):
        for name in list(self.open):
            self.close(name)

    def give_up(self):
        """Closes the files that a kill has left open."""
        for name in list(self.open):
            for file in self.open.pop(name):
                with contextlib.suppress(OSError):
                    os.close(file)

    def compare(self, is_killed):
        """Compares both folders. After a kill the mounted one must have the saved bytes, and the plain one gets them."""
        same("names", sorted(os.listdir(self.mount)), sorted(self.saved))
        for name, saved in self.saved.items():
            with open(f"{self.mount}/{name}", "rb") as file:
                found = file.read()
            wanted = [saved] + [self.held(name)] * (self.in_work == name)
            if found not in wanted:
                raise Different(f"{name} {'after a kill' if is_killed else ''}: {len(found)} bytes, and not one of {[len(it) for it in wanted]}")
            self.saved[name] = found
            if is_killed:
                with open(f"{self.plain}/{name}", "wb") as file:
                    file.write(found)
        self.in_work = None


def run(mounted, plain, count, seed):
    """Makes so many operations. After each 1,000 or so the program is killed, with all closed, with open files or within a call; or it is
    unmounted."""
    chance, done, ends = random.Random(seed), 0, {"killed at rest": 0, "killed with open files": 0, "killed within calls": 0, "unmounted": 0}
    files = Files(mounted.folder, plain, chance)
    while done < count:
        for _ in range(chance.randrange(200, 1800)):
            files.step()
            done += 1
        end = chance.choice(list(ends))
        ends[end] += 1
        if end in ("killed at rest", "unmounted"):
            files.close_all()
        if end == "unmounted":
            mounted.end()
        elif end == "killed within calls":
            killer = threading.Timer(chance.random() / 10, mounted.kill)
            killer.start()
            with contextlib.suppress(OSError):
                while True:
                    files.only_files()
                    done += 1
            killer.join()
        else:
            mounted.kill()
        files.give_up()
        mounted.begin()
        files.compare(is_killed=end != "unmounted")
    files.close_all()
    return done, ends
