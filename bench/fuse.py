#!/usr/bin/env python3
"""Programs at work in an image that bindings/fuse has mounted as a folder.

usage: fuse.py [--size BYTES] [--operations N] [--seed WORD] [--python PROGRAM] [--littlefs FOLDER] [--only WORD]

Needs littlefs_c.so (`rt lib` in crates/littlefs_c, `make` in bindings/c), fusepy, and of Debian's packages fuse3, rsync, git, sqlite3, fio
and gcc. Prints a line for each try: its seconds, and whether it did the same as in any folder. After them the image is unmounted, must be
accepted, and must show the same tree in a new mount that is read only; with the folder of littlefs's own code, in that as well. Then
follow N random operations, each also made in a plain folder, with kills and new mounts (fuse_operations.py). Fails if a try does.
"""

import argparse
import contextlib
import os
import shutil
import signal
import struct
import subprocess
import sys
import tempfile
import time
import zlib

import fuse_operations
import littlefs_code

top = os.path.dirname(os.path.dirname(os.path.abspath(__file__)))
sys.path.insert(0, os.path.join(top, "bindings", "python"))
from littlefs_c import Image

# Each is a command for bash: M is the mounted folder, R a plain one, S the repository.
TRIES = [
    ("echo and cat", "echo hello > $M/a && echo more >> $M/a && [ \"$(cat $M/a)\" = $'hello\\nmore' ] && rm $M/a"),
    ("mkdir, mv, rm", "mkdir -p $M/x/y/z && echo 1 > $M/x/a && mv $M/x/a $M/x/y/b && mv $M/x $M/w && [ -f $M/w/y/b ] && rm -r $M/w"),
    ("times and modes", "touch $M/t && touch -d '2001-02-03 04:05:06.789012345Z' $M/t && chmod 751 $M/t && [ \"$(stat -c '%.9Y %a' $M/t)\" = '981173106.789012345 751' ]"),
    ("times of a directory and the root", "mkdir $M/td && touch -d 2001-02-03Z $M/td $M && [ $(stat -c %Y $M/td) = 981158400 ] && [ $(stat -c %Y $M) = 981158400 ]"),
    ("cp -a of a folder, with times and modes", "cp -a $R/tree $M/copy && diff -r $R/tree $M/copy && shown() { (cd $1 && find . -printf '%y %p %m %T@\\n' | sort); } && diff <(shown $R/tree) <(shown $M/copy)"),
    ("rsync -a", "rsync -a $R/tree/ $M/sync/ && diff -r $R/tree $M/sync"),
    ("rsync -a, a second time", "rsync -a --stats $R/tree/ $M/sync/ | grep -q 'files transferred: 0'"),
    ("rsync -a back", "rsync -a $M/sync/ $R/back/ && rsync -a --stats $R/tree/ $R/back/ | grep -q 'files transferred: 0'"),
    ("tar of it, and into it", "tar cf $R/t.tar -C $M copy && mkdir $M/untar && tar xf $R/t.tar -C $M/untar && diff -r $M/copy $M/untar/copy"),
    ("tar onto it", "tar cf $M/t.tar -C $R tree && tar tf $M/t.tar > /dev/null && rm $M/t.tar"),
    ("git init, add, commit, fsck", "mkdir $M/git && cd $M/git && git init -q . && cp -r $R/tree . && git add -A && git $WHO commit -qm one && [ -z \"$(git status --short)\" ] && git fsck 2>/dev/null"),
    ("git, 10 commits more", "cd $M/git && for i in $(seq 10); do echo $i >> tree/counted && git add -A && git $WHO commit -qm $i; done && git fsck 2>/dev/null && git log --oneline | wc -l | grep -qx 11"),
    ("git clone from it", "git clone -q $M/git $R/clone && diff -r $M/git/tree $R/clone/tree"),
    ("git gc, fsck", "cd $M/git && git gc -q && git fsck 2>/dev/null && git status --short | wc -l | grep -qx 0"),
    ("sqlite3, a journal that is deleted", "(echo 'create table t(a,b);'; for i in $(seq 200); do echo \"insert into t values($i,'$i');\"; done) | sqlite3 $M/d.db && [ $(sqlite3 $M/d.db 'select sum(a) from t') = 20100 ] && [ $(sqlite3 $M/d.db 'pragma integrity_check') = ok ]"),
    ("sqlite3, WAL", "(echo 'pragma journal_mode=wal; create table t(a,b);'; for i in $(seq 200); do echo \"insert into t values($i,'$i');\"; done) | sqlite3 $M/w.db | grep -qx wal && [ $(sqlite3 $M/w.db 'select sum(a) from t') = 20100 ] && [ $(sqlite3 $M/w.db 'pragma integrity_check') = ok ]"),
    ("fio, random writes with verify", "fio --name=v --directory=$M --size=1m --bs=4k --rw=randwrite --verify=crc32c --fsync=16 --minimal && rm $M/v.*"),
    ("fio, random reads and writes by mmap", "fio --name=m --directory=$M --size=512k --bs=4k --rw=randrw --ioengine=mmap --verify=crc32c --minimal && rm $M/m.*"),
    ("fio, four jobs at a time", "fio --name=j --directory=$M --size=256k --numjobs=4 --bs=4k --rw=randrw --verify=crc32c --minimal && rm $M/j.*"),
    ("gcc of a small program, which is run", "mkdir $M/c && cp $S/bindings/c/littlefs_c.h $M/c && printf '#include \"littlefs_c.h\"\\n#include <stdio.h>\\nint main(void) { return !printf(\"%%d\\\\n\", LFS_C_NO_SPACE); }\\n' > $M/c/p.c && cd $M/c && gcc -O1 -Wall p.c -o p && [ $(./p) = 28 ]"),
    ("attributes as user.lfs.N", "python3 -c \"import os; p='$M/t'; os.setxattr(p,'user.lfs.200',b'kept'); assert os.getxattr(p,'user.lfs.200')==b'kept'; assert sorted(os.listxattr(p))==['user.lfs.1','user.lfs.109','user.lfs.200']; os.removexattr(p,'user.lfs.200'); assert 'user.lfs.200' not in os.listxattr(p)\""),
    ("holes, ftruncate, pread, pwrite", "python3 -c \"import os; d=os.open('$M/s',os.O_RDWR|os.O_CREAT); os.pwrite(d,b'x',10000); assert os.pread(d,4,9998)==bytes(2)+b'x'; os.ftruncate(d,5); os.close(d); assert os.path.getsize('$M/s')==5; os.truncate('$M/s',7000); assert open('$M/s','rb').read()==bytes(7000)\""),
    ("two that write one file", "python3 -c \"f=open('$M/two','wb'); g=open('$M/two','r+b'); f.write(b'aaaa'); f.flush(); g.seek(2); g.write(b'bb'); g.flush(); f.close(); g.close(); assert open('$M/two','rb').read()==b'aabb'\""),
    ("a file that is removed while it is open", "python3 -c \"import os; f=open('$M/u','w+b'); f.write(b'abc'); f.flush(); os.unlink('$M/u'); f.seek(0); assert f.read()==b'abc'; f.write(b'd'); f.close(); assert 'u' not in os.listdir('$M')\""),
    ("names that aren't UTF-8", "python3 -c \"import os; n=os.fsencode('$M')+b'/caf\\xe9 \\xff'; open(n,'w').close(); assert b'caf\\xe9 \\xff' in os.listdir(os.fsencode('$M')); os.remove(n)\""),
    ("a zip file", "python3 -c \"import zipfile; z=zipfile.ZipFile('$M/z.zip','w'); z.writestr('a',b'b'*1000); z.close(); assert zipfile.ZipFile('$M/z.zip').read('a')==b'b'*1000\""),
    ("a disk that is full", "! dd if=/dev/zero of=$M/full bs=64k count=10000 2>/dev/null; rm $M/full && echo more > $M/more && grep -q more $M/more"),
    ("no links", "! ln -s a $M/link 2>/dev/null && ! ln $M/t $M/hard 2>/dev/null"),
    ("df", "df $M | tail -1 | grep -q $M"),
    ("1,000 small files", "mkdir $M/many && for i in $(seq 1000); do echo $i > $M/many/f$i; done && ls $M/many | wc -l | grep -qx 1000"),
    ("ls -l of them", "ls -l $M/many | wc -l | grep -qx 1001"),
    ("rm -r of half of them", "rm $M/many/f*[02468] && ls $M/many | wc -l | grep -qx 500"),
]


class Mounted:
    """An image that another process has mounted."""

    def __init__(self, python, image, folder, words):
        self.words = [python, os.path.join(top, "bindings", "fuse", "littlefs-fuse"), image, folder, "-f", *words]
        self.folder, self.program = folder, None
        os.makedirs(folder, exist_ok=True)
        self.begin()

    def begin(self):
        self.program = subprocess.Popen(self.words)
        for _ in range(3000):
            if os.path.ismount(self.folder):
                return
            if self.program.poll() is not None:
                break
            time.sleep(0.01)
        sys.exit("the image isn't mounted")

    def unmount(self, *words):
        subprocess.run(["fusermount3", "-u", *words, self.folder], check=True)

    def end(self):
        """Unmounts, and waits for the program's end. This takes some tries if another program has the folder in use."""
        for _ in range(200):
            if subprocess.run(["fusermount3", "-u", self.folder], stderr=subprocess.DEVNULL).returncode == 0:
                break
            time.sleep(0.05)
        else:
            self.unmount("-z")
        self.program.wait()

    def kill(self):
        self.program.kill()
        self.program.wait()
        self.unmount("-z")


def tree_of(folder):
    """Returns the tree of a folder: for each path a file's size and checksum, or None."""
    found = {b"": None}
    for at, folders, files in os.walk(os.fsencode(folder)):
        below = os.path.relpath(at, os.fsencode(folder))
        prefix = b"/" if below == b"." else b"/" + below + b"/"
        found.update({prefix + name: None for name in folders})
        for name in files:
            with open(os.path.join(at, name), "rb") as file:
                data = file.read()
            found[prefix + name] = len(data), zlib.crc32(data) ^ 0xFFFFFFFF
    return found


def line(name, is_well, seconds, more=""):
    print(f"{name:40} {'ok' if is_well else 'FAILS':6} {seconds:8.2f} s  {more}".rstrip(), flush=True)
    return is_well


def try_programs(mounted, room, only):
    """Runs each program, and returns how many fail."""
    shutil.copytree(os.path.join(top, "docs"), f"{room}/tree/docs")
    shutil.copytree(os.path.join(top, "bindings"), f"{room}/tree/bindings", ignore=shutil.ignore_patterns("*.so", "example", "__pycache__"))
    words = {**os.environ, "M": mounted.folder, "R": room, "S": top, "WHO": "-c user.name=a -c user.email=a@b -c gc.auto=0"}
    failed = 0
    for name, command in TRIES:
        if only and only not in name:
            continue
        begun = time.monotonic()
        run = subprocess.run(["bash", "-c", command], env=words, cwd=room, stdout=subprocess.PIPE, stderr=subprocess.STDOUT, text=True, errors="replace")
        failed += not line(name, run.returncode == 0, time.monotonic() - begun, "" if run.returncode == 0 else run.stdout.strip()[-200:])
    return failed


def try_operations(mounted, room, count, seed):
    os.mkdir(f"{room}/plain")
    begun = time.monotonic()
    try:
        done, ends = fuse_operations.run(mounted, f"{room}/plain", count, seed)
    except fuse_operations.Different as different:
        return not line("operations at random", False, time.monotonic() - begun, str(different))
    line("operations at random", True, time.monotonic() - begun, f"{done} operations, " + ", ".join(f"{name} {number}" for name, number in ends.items()))
    return 0


def refused_commands(python, room):
    """Checks the messages of command lines that are refused."""
    program = os.path.join(top, "bindings", "fuse", "littlefs-fuse")
    with Image.format(64 << 10) as image:
        image.write("/file", b"kept")
        good = bytes(image)
    later = good.replace(struct.pack("<2I", 0x20000, 4096), struct.pack("<2I", 0x20001, 4096))
    for name, data in {"good": good, "none": bytes(64 << 10), "later": later, "short": good[:5000]}.items():
        with open(f"{room}/{name}.img", "wb") as file:
            file.write(data)
    os.mkdir(f"{room}/point")
    for words, wanted in [(["missing.img", "point"], "No such file"), (["none.img", "point"], "no image is accepted"), (["later.img", "point"], "give --also-2.1"), (["short.img", "point"], "no image"),
                          (["good.img", "nowhere"], "isn't mounted"), (["good.img"], "FOLDER"), (["good.img", "point", "-o", "block_size=x"], "a number is missing"), (["good.img", "point", "-b", "1000"], "no image")]:
        ran = subprocess.run([python, program, *words], cwd=room, capture_output=True, text=True)
        if ran.returncode == 0 or wanted not in ran.stderr or "Traceback" in ran.stderr:
            return f"{words}: {ran.stderr[-200:]}"
    return in_background(python, program, room, good)


def program_of(words):
    """Returns the number of the process with these arguments. Only this run has its paths."""
    for number in filter(str.isdecimal, os.listdir("/proc")):
        with contextlib.suppress(OSError), open(f"/proc/{number}/cmdline", "rb") as file:
            if file.read().split(b"\0")[:-1] == [os.fsencode(word) for word in words]:
                return int(number)
    raise ProcessLookupError(words)


def in_background(python, program, room, good):
    """Checks that the program goes to the background, that a signal ends it with all saved, and that only one may write an image."""
    words = [python, program, f"{room}/good.img", f"{room}/point", "-o", "fsname=named,nodev"]
    subprocess.run(words, check=True)
    again = subprocess.run([python, program, "good.img", "point"], cwd=room, capture_output=True, text=True)
    with open(f"{room}/point/file", "a") as file:
        file.write(", and more")
    with contextlib.suppress(OSError), open(f"{room}/point/other", "w") as file:  # the program has ended before the close
        file.write("open at the end")
        file.flush()
        program = program_of(words)
        os.kill(program, signal.SIGTERM)
        while os.path.exists(f"/proc/{program}"):
            time.sleep(0.01)
    with open(f"{room}/good.img", "rb") as file, Image.by_superblock(file.read()) as image:
        found = image.read("/file"), image.read("/other")
    if "is mounted already" not in again.stderr or found != (b"kept, and more", b"open at the end") or os.path.ismount(f"{room}/point"):
        return f"{again.stderr} {found}"
    return ""


def try_commands(python, room):
    begun = time.monotonic()
    wrong = refused_commands(python, room)
    return not line("command lines, and an end by a signal", not wrong, time.monotonic() - begun, wrong)


def look_again(mounted, image, littlefs, room):
    """Checks that the image is accepted, and has the same tree in a new mount that is read only, and by littlefs's own code."""
    before = tree_of(mounted.folder)
    mounted.end()
    with open(image, "rb") as file, Image(file.read()) as it:
        it.check()
        used = it.used()
    left = [name for name in os.listdir(os.path.dirname(image)) if name.startswith(os.path.basename(image) + ".")]
    mounted.words += ["-o", "ro"]
    mounted.begin()
    again = tree_of(mounted.folder)
    refused = subprocess.run(["touch", f"{mounted.folder}/new"], stderr=subprocess.DEVNULL).returncode
    mounted.end()
    is_well = line("a new mount that is read only", again == before and refused and not left, 0, f"{len(again)} entries, {used} blocks")
    if littlefs:
        shown = littlefs_code.shown(littlefs_code.build(littlefs, f"{room}/littlefs", "0x00020000"), image, (4096, 256))
        is_well &= line("littlefs's own code", shown is not None and {path: content for path, (content, _) in shown.tree.items()} == before, 0)
    return not is_well


def main():
    parser = argparse.ArgumentParser()
    parser.add_argument("--size", type=int, default=16 << 20)
    parser.add_argument("--operations", type=int, default=100000)
    parser.add_argument("--seed", default="1")
    parser.add_argument("--python", default="/usr/bin/python3")
    parser.add_argument("--littlefs", type=os.path.abspath)
    parser.add_argument("--only", default="")
    given = parser.parse_args()
    failed = 0
    with tempfile.TemporaryDirectory() as room:
        failed += try_commands(given.python, room)
        mounted = Mounted(given.python, f"{room}/disk.img", f"{room}/mounted", ["--create", str(given.size)])
        try:
            failed += try_programs(mounted, room, given.only)
            failed += look_again(mounted, f"{room}/disk.img", given.littlefs, room)
        finally:
            subprocess.run(["fusermount3", "-u", "-z", mounted.folder], stderr=subprocess.DEVNULL)
        mounted = Mounted(given.python, f"{room}/random.img", f"{room}/mounted", ["--create", str(4 << 20)])
        try:
            failed += given.operations and try_operations(mounted, room, given.operations, given.seed)
        finally:
            subprocess.run(["fusermount3", "-u", "-z", mounted.folder], stderr=subprocess.DEVNULL)
            mounted.program.wait()
    sys.exit(1 if failed else 0)


if __name__ == "__main__":
    main()
