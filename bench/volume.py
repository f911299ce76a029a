#!/usr/bin/env python3
"""What volumes answer and leave, beside a plain model: open files with several handles, renamed and removed while they are open.

usage: volume.py PROGRAM [--count N] [--stops N] [--memory N] [--seed WORD]

PROGRAM is a built lfs_volume_script. N lists of calls are made at random: files opened for reading, writing or both, under several
handles; reads and writes at any place, appends, cuts, syncs and closes; renames and removes of open files, of files over them and of
directories above them; attributes, remounts, refused calls, files up to a limit, and small devices that are full. What each call
answers is worked out on files as objects of their own, which know no path; rules of the tree and of its space are those of
session_model.py. Both share nothing with the crates. A mount behind the last call finds the tree, and what wasn't synced is lost.

Then N of these lists, each with one call of the device that fails: once, or with all later ones. That call of the volume answers Io, each
later one Failed. After that a remount or a mount finds the tree from before that call or from behind it, also after a recovery, and
nothing is left to recover.

Then each allocation is refused, one after another, of N lists (`--memory`). All answers are right up to the call that answers NoMemory.
That call changed nothing, and all later ones are right; or the later ones answer Failed, and a mount finds the tree from before that call
or from behind it.

Prints how many there were. Fails where anything differs.
"""

import argparse
import itertools
import os
import random
import subprocess
import sys
import tempfile
from dataclasses import dataclass

from contents import BLOCK, LIMIT, PAGE, SIZES, some_path
from fail_alloc import Refusing
from session_model import APPEND, CREATE, EXCLUSIVE, MOST, READ, TRUNCATE, WRITE, Model, Node, bytes_of, key, looks, parsed, refuse, seen, word

BATCH = 100
IO, FAILED, NO_MEMORY = "error Io 5", "refused Failed 200", "error NoMemory 12"
EXTENTS = ["", "", " torn 1", " torn 20", " torn 100", " whole"]
KEPT = [" kept 1", " kept 4", " kept 100", f" kept {BLOCK - 1}"]


class OpenFile:
    """A file that is open: a node of the tree, which may be there no more, and its bytes with what isn't synced."""

    def __init__(self, node):
        self.node, self.bytes, self.differs = node, bytearray(node.content), False


@dataclass
class Handle:
    file: OpenFile
    flags: int
    position: int = 0


class VolumeModel(Model):
    def __init__(self, block_count, most=MOST, block_size=BLOCK, page=PAGE):
        super().__init__(block_size, page, block_count)
        self.handles, self.most = {}, most

    def handle(self, number, flags=0):
        handle = self.handles.get(int(number))
        refuse(handle is None or handle.flags & flags != flags, "BadFile")
        return handle

    def open(self, path, flags):
        bits = int(flags, 16)
        refuse(bits & ~0xf03 or not bits & 3 or bits & 0xd00 and not bits & WRITE, "Invalid")
        refuse(bits & EXCLUSIVE and not bits & CREATE, "Invalid")
        super().open(path, f"{bits & (WRITE | CREATE | EXCLUSIVE):x}" if bits & WRITE else "1")
        self.files = {}
        node = self.tree[key(parsed(bytes_of(path)))]
        file = next((handle.file for handle in self.handles.values() if handle.file.node is node), None) or OpenFile(node)
        if bits & TRUNCATE and file.bytes:
            file.bytes, file.differs = bytearray(), True
        number = min(set(range(len(self.handles) + 1)) - set(self.handles))
        self.handles[number] = Handle(file, bits)
        return f"fd {number}"

    def read(self, number, count):
        handle = self.handle(number, READ)
        found = handle.file.bytes[handle.position : handle.position + int(count)]
        handle.position += len(found)
        return "bytes " + word(found)

    read_into = read

    def write(self, number, data):
        handle, data = self.handle(number, WRITE), bytes_of(data)
        if not data:
            return "count 0"
        file = handle.file
        at = len(file.bytes) if handle.flags & APPEND else handle.position
        refuse(max(at + len(data), len(file.bytes)) > self.most, "TooBig")
        file.bytes.extend(bytes(max(0, at - len(file.bytes))))
        file.bytes[at : at + len(data)] = data
        file.differs, handle.position = True, at + len(data)
        return f"count {len(data)}"

    def seek(self, number, position):
        handle = self.handle(number)
        refuse(int(position) > self.most, "Invalid")
        handle.position = int(position)
        return "done"

    def position(self, number):
        return f"count {self.handle(number).position}"

    def size(self, number):
        return f"count {len(self.handle(number).file.bytes)}"

    def truncate(self, number, size):
        file, size = self.handle(number, WRITE).file, int(size)
        refuse(size > self.most, "TooBig")
        if size != len(file.bytes):
            file.bytes, file.differs = file.bytes[:size] + bytes(max(0, size - len(file.bytes))), True
        return "done"

    def is_there(self, file):
        return any(node is file.node for node in self.tree.values())

    def sync(self, number):
        file = self.handle(number).file
        if file.differs and self.is_there(file):
            refuse(self.used() + 2 + self.blocks(len(file.bytes)) > self.block_count, "NoSpace")
            file.node.content, file.differs = bytes(file.bytes), False
        return "done"

    def close(self, number):
        self.handle(number)
        try:
            return self.sync(number)
        finally:
            del self.handles[int(number)]

    def remount(self):
        self.handles = {}
        return "done"


def copied(tree):
    return {path: Node(node.content, dict(node.attributes)) for path, node in tree.items()}


# Lists of calls


def some_place(rnd, model):
    return min(rnd.choice([0, 1, rnd.randrange(300), rnd.choice(SIZES), rnd.randrange(6000)]), model.most)


def some_bytes(rnd):
    count = rnd.choice([0, 1, 5, rnd.randrange(300), rnd.choice(SIZES), rnd.randrange(3000)])
    return f"*{count}:{rnd.choice('vwxyz')}" if count else "\\e"


def some_handle(rnd, model, flags=0):
    """The number of a handle with these flags where there is one, and now and then any."""
    numbers = [number for number, handle in sorted(model.handles.items()) if handle.flags & flags == flags]
    return rnd.choice(numbers) if numbers and rnd.random() < 0.96 else rnd.randrange(5)


def some_open_path(rnd, model):
    """The path of an open file or of a directory above one, where there is any."""
    paths = [path for path, node in sorted(model.tree.items()) if any(handle.file.node is node for handle in model.handles.values())]
    if not paths or rnd.random() < 0.5:
        return some_path(rnd, model)
    path = rnd.choice(paths)
    above = path.rpartition(b"/")[0]
    return (above if above and rnd.random() < 0.3 else path).decode()


FLAGS = ["103", "103", "103", "3", "3", "1", "1", "2", "102", "903", "903", "902", "803", "503", "403", "402", "302", "303", "0", "100", "101", "1000", "401", "202"]


def some_call(rnd, model):
    path, there, other = some_path(rnd, model), some_open_path(rnd, model), some_open_path(rnd, model)
    any_handle, writer, reader = some_handle(rnd, model), some_handle(rnd, model, WRITE), some_handle(rnd, model, READ)
    few = 1 if model.handles else 20
    kinds = [
        (14, lambda: f"open {rnd.choice([path, there])} {rnd.choice(FLAGS)}"),
        (20 / few, lambda: f"write {writer} {some_bytes(rnd)}"),
        (10 / few, lambda: f"seek {any_handle} {rnd.choice([some_place(rnd, model)] * 12 + [model.most + 1])}"),
        (6 / few, lambda: f"truncate {writer} {rnd.choice([some_place(rnd, model)] * 12 + [model.most + 1])}"),
        (10 / few, lambda: f"{rnd.choice(['read', 'read-into'])} {reader} {some_place(rnd, model)}"),
        (2 / few, lambda: f"position {any_handle}"),
        (2 / few, lambda: f"size {any_handle}"),
        (7 / few, lambda: f"sync {any_handle}"),
        (6 / few, lambda: f"close {any_handle}"),
        (5, lambda: f"mkdir {path}"),
        (5, lambda: f"remove {there}"),
        (9, lambda: f"rename {there} {rnd.choice([path, other])}"),
        (2, lambda: f"list {path}"),
        (2, lambda: f"stat {there}"),
        (2, lambda: f"set-attr {there} 41 *{rnd.choice([1, 20, 20, 300, 1022, 1023])}:t"),
        (1, lambda: f"get-attr {there} 41"),
        (1, lambda: f"remove-attr {there} 41"),
        (1, lambda: rnd.choice(["gstate", "used-count", "recover", "used-count", "remount"])),
    ]
    return rnd.choices([make for _, make in kinds], [weight for weight, _ in kinds])[0]()


class Calls:
    """A list of calls, with what each answers, and the tree before each of them and behind the last."""

    def __init__(self, seed, number):
        rnd = random.Random(f"{seed}/{number}")
        self.blocks, self.most = rnd.choice([6, 10, 14, 20, 40, 200]), rnd.choice([MOST, MOST, MOST, 1025, 3000])
        limits = [] if self.most == MOST else [f"profile file-max {self.most}"]
        self.begin = (limits or ["profile"]) + [f"fresh {BLOCK} {PAGE} {self.blocks}"]
        model = VolumeModel(self.blocks, self.most)
        self.lines, self.answers, self.trees = [], [], [copied(model.tree)]
        for _ in range(60):
            self.lines.append(some_call(rnd, model))
            self.answers.append(model.answer(self.lines[-1]))
            self.trees.append(copied(model.tree))
        self.is_cut = False

    def end_before_remount(self):
        """Leaves out what follows the first remount: it would read the device anew."""
        if "remount" in self.lines:
            end = self.lines.index("remount")
            self.is_cut = True
            self.lines, self.answers, self.trees = self.lines[:end], self.answers[:end], self.trees[: end + 1]

    def used(self, tree):
        return f"count {Model(BLOCK, PAGE, self.blocks, tree).used()}"


def run(program, scripts):
    """The answers to each script."""
    text = "\n".join(line for lines in scripts for line in lines) + "\n"
    told = subprocess.run([program], input=text.encode(), stdout=subprocess.PIPE, timeout=3000, check=True).stdout.decode().split("\n")
    at, answers = 0, []
    for lines in scripts:
        answers.append(told[at : at + len(lines)])
        at += len(lines)
    return answers


def show(lines, told, wanted):
    first = next(index for index in range(len(lines)) if told[index : index + 1] != wanted[index : index + 1])
    print("DIFFERENCE: " + "; ".join(lines[: first + 1]) + f": {told[first][:100]}, and not {wanted[first][:100]}", flush=True)


def tried(program, lists):
    """Whether each list of calls is answered as the model does, and how many calls the device had since a mount."""
    scripts, wanted = [], []
    for calls in lists:
        tree = calls.trees[-1]
        behind = looks([tree])
        scripts.append(calls.begin + ["mount"] + calls.lines + ["calls any", "mount"] + behind + ["used-count", "gstate"])
        wanted.append(["done"] * 3 + calls.answers + [None, "done"] + seen(tree, behind) + [calls.used(tree), "gstate 0 none"])
    for lines, told, right in zip(scripts, run(program, scripts), wanted):
        at = right.index(None)
        right[at] = told[at]
        if told != right:
            show(lines, told, right)
        yield told == right, int(told[at].rpartition(" ")[2])


def stopped(program, rnd, lists, counts):
    """How many of the lists are answered and left right, where a call of the device fails."""
    scripts = []
    for calls, count in zip(lists, counts):
        stops = rnd.random() < 0.75
        extent = rnd.choice(EXTENTS)
        fault = f"mount any {rnd.randrange(1, count + 1)}{' stop' * stops}{extent}"
        if rnd.random() < 0.2:
            fault = f"mount erase {rnd.randrange(1, 2 + count // 20)}{' stop' * stops}{rnd.choice(KEPT)}"
        calls.end_before_remount()
        # where a list was cut, a device with so many calls may fail behind the last of these
        again = "mount" if stops or calls.is_cut or rnd.random() < 0.3 else "remount"
        calls.looks = looks(calls.trees)
        scripts.append(calls.begin + [fault] + calls.lines + [again] + calls.looks + ["recover"] + calls.looks + ["gstate", "used-count"])
    for calls, lines, told in zip(lists, scripts, run(program, scripts)):
        yield is_left_right(calls, lines, told)


def is_left_right(calls, lines, told):
    begin = 2
    answers = told[begin : begin + 1 + len(calls.lines)]
    behind = told[begin + 1 + len(calls.lines) :]
    at = answers.index(IO) if IO in answers else None
    if at is None:
        wanted, trees = ["done"] + calls.answers, [calls.trees[-1]]
    elif at == 0:
        wanted, trees = [IO] + ["error none"] * len(calls.lines), [calls.trees[0]]
    else:
        wanted, trees = ["done"] + calls.answers[: at - 1] + [IO] + [FAILED] * (len(calls.lines) - at), calls.trees[at - 1 : at + 1]
    if answers != wanted:
        show(lines, told, told[:begin] + wanted + behind)
        return False
    if at == 0 and lines[begin + 1 + len(calls.lines)] == "remount":
        return set(behind) == {"error none"}
    for tree in trees:
        shown = seen(tree, calls.looks)
        if behind == ["done"] + shown + ["done"] + shown + ["gstate 0 none", calls.used(tree)]:
            return True
    shown = seen(trees[0], calls.looks)
    show(lines, told, told[:begin] + wanted + ["done"] + shown + ["done"] + shown + ["gstate 0 none", calls.used(trees[0])])
    return False


def refused(program, refusing, calls):
    """Whether the list is answered and left right, for each allocation that is refused."""
    calls.end_before_remount()
    calls.looks = looks(calls.trees)
    lines = calls.begin + ["mount"] + calls.lines + ["mount"] + calls.looks + ["recover", "used-count"]
    for at in itertools.count(1):
        run, is_refused = refusing.run([program], at, input=("\n".join(lines) + "\n").encode())
        if not is_refused:
            return
        is_right = is_right_without_memory(calls, run.stdout.decode().split("\n")[:-1], run.returncode)
        if not is_right:
            print(f"DIFFERENCE: allocation {at} is refused in " + "; ".join(lines), flush=True)
        yield is_right


def is_right_without_memory(calls, told, status):
    begin = len(calls.begin) + 1
    wanted = ["done"] * begin + calls.answers
    whole = wanted + seen_anew(calls, calls.trees[-1])
    if NO_MEMORY not in told:
        return told == whole if status == 0 else status == 1 and told == whole[: len(told)]
    at = told.index(NO_MEMORY)
    if told[:at] != whole[:at] or not begin <= at < len(wanted):
        return told[:at] == whole[:at]
    call, later, behind = at - begin, told[at + 1 : len(wanted)], told[len(wanted) :]
    if set(later) <= {FAILED} and any(behind == seen_anew(calls, tree) for tree in calls.trees[call : call + 2]):
        return True
    model = VolumeModel(calls.blocks, calls.most)
    answers = [model.answer(line) for number, line in enumerate(calls.lines) if number != call]
    return later == answers[call:] and behind == seen_anew(calls, model.tree)


def seen_anew(calls, tree):
    return ["done"] + seen(tree, calls.looks) + ["done", calls.used(tree)]


def batches(seed, count):
    for first in range(0, count, BATCH):
        yield [Calls(seed, number) for number in range(first, min(count, first + BATCH))]


def main():
    parser = argparse.ArgumentParser(description=__doc__.split("\n")[0])
    parser.add_argument("program", type=os.path.abspath)
    parser.add_argument("--count", type=int, default=5000)
    parser.add_argument("--stops", type=int, default=5000)
    parser.add_argument("--memory", type=int, default=40)
    parser.add_argument("--seed", default="volume")
    options = parser.parse_args()
    rnd = random.Random(options.seed)
    wrong, left_wrong, stops = 0, 0, 0
    for lists in batches(options.seed, options.count):
        outcomes = list(tried(options.program, lists))
        wrong += sum(not is_right for is_right, _ in outcomes)
        for _ in range(-(-options.stops // options.count)):
            left = list(stopped(options.program, rnd, lists, [count for _, count in outcomes]))
            stops, left_wrong = stops + len(left), left_wrong + left.count(False)
    print(f"{options.count} lists of calls, {wrong} differ; {stops} with a failed call or a stop, {left_wrong} differ", flush=True)
    with tempfile.TemporaryDirectory() as room:
        refusing = Refusing(room)
        right = [is_right for number in range(options.memory) for is_right in refused(options.program, refusing, Calls(options.seed, number))]
    print(f"{options.memory} lists with {len(right)} refused allocations, {right.count(False)} differ", flush=True)
    return wrong + left_wrong + right.count(False) > 0


if __name__ == "__main__":
    sys.exit(main())
