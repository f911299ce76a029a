#!/usr/bin/env python3
"""Runs the gate and prints the first part of docs/TIMES.md: the processor seconds of each crate, for its code, its tests and its edits.

Each figure is also printed in yardsticks, so that machines compare. One is what the code of lfs_model and lfs_device takes on the same
machine. The page names the kit that ran.

usage: bench/times.py [--anew] [LOG [CRATE..]]     at the top of the repository; what the gate prints goes to LOG (gate.log)

What it prints takes the place of docs/TIMES.md up to that page's first heading of the second level.

With names of crates the gate runs in a copy that has only these and what they stand on, which is proved too and counts.
`taskset -c 0,1 bench/times.py ..` shows what it takes on two processors.

With --anew the gate proves and tries all in this one run. If the kit's `rt ci` doesn't know that word, the gate runs without it. Without --anew
the figures stay in LOG.json: a part that the gate has kept from an earlier run takes no time, and its figure of then is printed. So a
run after a change gives the table of the whole.

The exit status is that of the gate, and 1 if the gate proved nothing and no figure was kept: then no table is printed.

A check of the prover is a process, with one beside it for each further job. Twice a second their time so far is read from /proc, so
each counts half a second too little at most. An edit's check runs in a folder of its own, and a check of tests has the word --test; so
the three are told apart. What all processes of the gate took together, as the kernel counts it, is printed beside their sum: the
difference is what was missed, and what compiling, linking, and running tests and programs took.
"""
import argparse
import collections
import json
import os
import resource
import shutil
import subprocess
import sys
import tempfile
import time

TICK = os.sysconf("SC_CLK_TCK")
PERIOD = 0.5
# in yardsticks
LEAST = 5
PARTS = ("code", "tests", "edits")
# what the code of these two takes tells how fast a machine is
YARDSTICK = ("lfs_model", "lfs_device")


def descendants(of):
    """The processes below one, by their parents."""
    children = collections.defaultdict(list)
    for name in os.listdir("/proc"):
        if name.isdigit():
            try:
                with open(f"/proc/{name}/stat") as it:
                    children[int(it.read().rpartition(")")[2].split()[1])].append(int(name))
            except (OSError, IndexError):
                continue
    found, waiting = [], [of]
    while waiting:
        found += (below := children[waiting.pop()])
        waiting += below
    return found


def seen(process):
    """What names a process, the crate that it checks and which part of it, and its processor seconds so far; none for other processes."""
    try:
        with open(f"/proc/{process}/cmdline", "rb") as it:
            words = it.read().decode(errors="replace").split("\0")
        if not words[0].endswith("rattle") or "--crate-name" not in words:
            return None
        with open(f"/proc/{process}/stat") as it:
            fields = it.read().rpartition(")")[2].split()
        folder = os.readlink(f"/proc/{process}/cwd")
    except OSError:
        return None
    part = "edits" if "/rt-edit-" in folder else "tests" if "--test" in words else "code"
    # (a number is given to another process once its own has ended, at another time)
    named = process, fields[19]
    return (named, words[words.index("--crate-name") + 1], part), (int(fields[11]) + int(fields[12])) / TICK


def measured(log, folder, anew):
    """Runs the gate, and returns its exit status and last line, its wall time, the processor seconds of all its processes, and each crate's by part."""
    spent, began, before = {}, time.monotonic(), taken_by_children()
    with open(log, "w") as out:
        gate = subprocess.Popen(["rt", "ci"] + ["--anew"] * anew, cwd=folder, stdout=out, stderr=subprocess.STDOUT, stdin=subprocess.DEVNULL)
        while gate.poll() is None:
            for process in descendants(gate.pid):
                if found := seen(process):
                    spent[found[0]] = found[1]
            time.sleep(PERIOD)
    totals = collections.defaultdict(lambda: dict.fromkeys(PARTS, 0.0))
    for (_, crate, part), seconds in spent.items():
        totals[crate][part] += seconds
    with open(log) as it:
        last = it.read().strip().rpartition("\n")[2]
    return gate.returncode, last, time.monotonic() - began, taken_by_children() - before, totals


def taken_by_children():
    """The processor seconds of all processes below this one that have ended."""
    used = resource.getrusage(resource.RUSAGE_CHILDREN)
    return used.ru_utime + used.ru_stime


def copy_with(crates, room):
    """A copy of what is committed, with these crates and what they stand on alone."""
    archive = subprocess.run(["git", "archive", "HEAD"], stdout=subprocess.PIPE, check=True).stdout
    subprocess.run(["tar", "x", "-C", room], input=archive, check=True)
    with open(f"{room}/crates.txt") as it:
        lines = {line.partition(":")[0].split()[0]: line for line in it}
    kept, waiting = set(), list(crates)
    while waiting:
        name = waiting.pop()
        if name in lines and name not in kept:
            kept.add(name)
            waiting += lines[name].partition(":")[2].split()
    with open(f"{room}/crates.txt", "w") as it:
        it.writelines(line for name, line in lines.items() if name in kept)
    for name in lines.keys() - kept:
        shutil.rmtree(f"{room}/crates/{name}")
    return room


def remembered(totals, file):
    """The figures of this run, and of earlier ones for what it didn't measure. They are left in the file."""
    if os.path.exists(file):
        with open(file) as it:
            for crate, spent in json.load(it).items():
                for part, seconds in spent.items():
                    totals[crate][part] = totals[crate][part] or seconds
    with open(file, "w") as it:
        json.dump(totals, it, indent=1)
    return totals


def edits_of(crate):
    """How many wrong bodies the gate tries of a crate."""
    folder = f"crates/{crate}/must-fail"
    return len([it for it in os.listdir(folder) if it.endswith(".edit")]) if os.path.isdir(folder) else 0


def shown(amount, seconds, yardstick):
    """Returns an amount of time, and in brackets how many yardsticks its seconds are, if the yardstick was measured."""
    return f"{amount:.0f}" + (f" ({seconds / yardstick:.1f})" if yardstick else "")


def table(totals, yardstick):
    """Yields the lines of the table, the crate that takes longest first. Those that take less than LEAST yardsticks are one line."""
    yield "| Crate | Code | Tests | Wrong bodies | Their number |"
    yield "|---|---|---|---|---|"
    small = [crate for crate, spent in totals.items() if sum(spent.values()) < LEAST * yardstick]
    for crate, spent in sorted(totals.items(), key=lambda it: -sum(it[1].values())):
        if crate not in small:
            yield row(f"`{crate}`", spent, edits_of(crate), yardstick)
    if small:
        spent = {part: sum(totals[crate][part] for crate in small) for part in PARTS}
        yield row(f"{len(small)} others", spent, sum(map(edits_of, small)), yardstick)


def row(crates, spent, edits, yardstick):
    """A line of the table."""
    return f"| {crates} | {' | '.join(shown(spent[part], spent[part], yardstick) for part in PARTS)} | {edits} |"


def page(totals, yardstick, kit):
    """Yields the lines of the page but the last, which is of one run."""
    sums = {part: sum(it[part] for it in totals.values()) for part in PARTS}
    whole, names = sum(sums.values()), " and ".join(f"`{it}`" for it in YARDSTICK)
    all_of, code, tests, edits = (shown(it / 60, it, yardstick) for it in (whole, *sums.values()))
    yield "# Times\n"
    yield f"`bench/times.py` runs the gate, and prints the processor seconds of each crate's checks, from nothing. It ran `{kit}`.\n"
    if yardstick:
        yield f"Figures in brackets are in yardsticks, so that machines compare. One is what the code of {names} takes: {yardstick:.0f} processor seconds on this machine.\n"
    yield from table(totals, yardstick)
    yield f"\nIn all {all_of} processor minutes: {code} for the code, {tests} for tests, {edits} for wrong bodies."
    if sums["code"]:
        yield f"That is {whole / sums['code']:.2f} times as much as the code's proofs alone."


def main():
    parser = argparse.ArgumentParser(usage=__doc__.splitlines()[5].removeprefix("usage: ").partition("  ")[0])
    parser.add_argument("--anew", action="store_true")
    parser.add_argument("log", nargs="?", default="gate.log")
    parser.add_argument("crates", nargs="*")
    options = parser.parse_args()
    anew, log, crates = options.anew, options.log, options.crates
    with tempfile.TemporaryDirectory() as room:
        folder = copy_with(crates, room) if crates else "."
        status, last, wall, whole, totals = measured(log, folder, anew)
        if anew and not totals:
            # (the kit may not know the word)
            status, last, wall, whole, totals = measured(log, folder, False)
    totals = totals if anew else remembered(totals, f"{log}.json")
    if not totals:
        print(f"the gate proved nothing: {last}", file=sys.stderr)
        return status or 1
    yardstick = sum(totals[it]["code"] for it in YARDSTICK if it in totals)
    kit = subprocess.run(["rt", "version"], stdout=subprocess.PIPE, text=True, check=True).stdout.partition("\n")[0]
    print(*page(totals, yardstick, kit), sep="\n")
    print(f"\nThe last run took {shown(wall / 60, wall, yardstick)} minutes on {len(os.sched_getaffinity(0))} processors, {wall / whole:.2f} of the {shown(whole / 60, whole, yardstick)} processor minutes of all its processes. The gate's last line: `{last}`.")
    return status


if __name__ == "__main__":
    sys.exit(main())
