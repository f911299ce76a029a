#!/usr/bin/env python3
"""Tries wrong bodies, those of the gate (crates/CRATE/must-fail) and all others (bench/wrong_bodies/CRATE): the prover must refuse each.

usage: bench/wrong_bodies.py [--apply] [CRATE.. | --changed [COMMIT]]     at the top of the repository; without crates it tries those of all

With --changed it tries those of the crates that changed since COMMIT: their code, definitions, proofs or wrong bodies. Without COMMIT
that is where the branch left its upstream, or the commit before the last one if there is no upstream, or nothing was committed since.
It leaves out the crates above a changed one.

With --apply it only looks whether each can be applied: the prover isn't called, and files are read as they are, committed or not. This
takes a second.

Otherwise the last commit is tried, in a copy, over what earlier checks of the libraries below have kept (rt all check first spares the
copy their proofs). For each wrong body it prints how that ended, with the first goal that stays open or the first error.

The last line counts them: refused, still proved, not to be applied (or not to be read by the prover), and without a verdict. The exit
status is 0 if all are refused, or can be applied; 1 if one isn't; and 2 if a crate that was named has none, or there is no such commit.
"""
import argparse
import collections
import glob
import os
import re
import shutil
import subprocess
import sys
import tempfile

from times import copy_with

ENDS = {"refused": "refused", "NOT REFUSED": "still proved", "BAD EDIT": "not to be applied"}
NO_VERDICT = "without a verdict"
ENDED = re.compile(rf"rt: must-fail \S+/(\S+\.edit): ({'|'.join(ENDS)})\b")


def files_of(crate):
    """Returns the files of a crate's wrong bodies, the gate's first."""
    return sorted(glob.glob(f"crates/{crate}/must-fail/*.edit")) + sorted(glob.glob(f"bench/wrong_bodies/{crate}/*.edit"))


def all_crates():
    """Returns the crates that have wrong bodies."""
    return sorted({file.split("/")[-2 if file.startswith("bench") else 1] for file in files_of("*")})


def git(*words):
    """Returns what git prints, or None if it fails."""
    ran = subprocess.run(["git", *words], stdout=subprocess.PIPE, stderr=subprocess.DEVNULL, text=True)
    return ran.stdout.strip() if ran.returncode == 0 else None


def default_commit():
    """Returns where the branch left its upstream, or else the commit before the last one."""
    left = git("merge-base", "HEAD", "@{upstream}")
    return left if left and left != git("rev-parse", "HEAD") else "HEAD~1"


def changed_since(commit):
    """Returns the crates with wrong bodies that changed since a commit, or None if there is no such commit. Pages don't count."""
    if git("rev-parse", "--verify", "--quiet", f"{commit}^{{commit}}") is None:
        return None
    paths = git("diff", "--name-only", commit, "HEAD", "--", "crates", "bench/wrong_bodies").split("\n")
    changed = {re.sub("^(crates|bench/wrong_bodies)/", "", path).split("/")[0] for path in paths if not path.endswith(".md")}
    return [crate for crate in all_crates() if crate in changed]


def fault_of(crate, file):
    """Returns why a wrong body can't be applied, or None. Each old text must be there once, after the pairs before it are applied."""
    texts, path, old, changes = {}, None, None, False
    with open(file, encoding="utf-8") as it:
        lines = it.read().split("\n")
    for line in lines:
        word, _, text = line.partition(":")
        text = text.removeprefix(" ")
        if word == "file":
            path = text.strip()
            if path not in texts:
                if not os.path.isfile(whole := f"crates/{crate}/{path}"):
                    return f"there is no file {path}"
                with open(whole, encoding="utf-8") as it:
                    texts[path] = it.read()
        elif word == "old":
            old = text
        elif word == "new":
            if not path or not old:
                return "a new text has no file or no old text before it"
            if (count := texts[path].count(old)) != 1:
                return f"{path} has {count} times: {old.strip()}"
            changes |= old != text
            texts[path], old = texts[path].replace(old, text), None
        elif line.strip():
            return f"a line is not read: {line.strip()}"
    return None if changes else "it changes nothing"


def applied(crate):
    """Prints which of the crate's wrong bodies can't be applied, and returns how many end how."""
    ends = collections.Counter()
    for file in files_of(crate):
        twin = f"bench/wrong_bodies/{crate}/{os.path.basename(file)}"
        fault = "another one has its name" if file != twin and os.path.exists(twin) else fault_of(crate, file)
        ends["not to be applied" if fault else "can be applied"] += 1
        if fault:
            print(f"{file}: {fault}")
    return ends


def tried(crate):
    """Has the prover try the crate's wrong bodies, and returns how many end how."""
    files = files_of(crate)
    with tempfile.TemporaryDirectory() as room:
        copy_with([crate], room)
        for name in os.listdir(f"{room}/crates"):
            if os.path.isdir(kept := f"crates/{name}/out"):
                shutil.copytree(kept, f"{room}/crates/{name}/out", symlinks=True)
        os.makedirs(place := f"{room}/crates/{crate}/must-fail", exist_ok=True)
        for file in glob.glob(f"{room}/bench/wrong_bodies/{crate}/*.edit"):
            shutil.copy(file, place)
        found = {}
        with subprocess.Popen(["rt", "must-fail", crate], cwd=room, stdin=subprocess.DEVNULL, stdout=subprocess.PIPE, text=True) as rt:
            for line in rt.stdout:
                print(line, end="", flush=True)
                if ended := ENDED.match(line):
                    found[ended[1]] = ENDS[ended[2]]
    return collections.Counter(found.get(os.path.basename(file), NO_VERDICT) for file in files)


def main():
    asked = argparse.ArgumentParser(usage=__doc__.split("usage: ")[1].partition("     ")[0])
    asked.add_argument("--apply", action="store_true")
    asked.add_argument("--changed", nargs="?", const="", metavar="COMMIT")
    asked.add_argument("crates", nargs="*", metavar="CRATE")
    words = asked.parse_args()
    commit = default_commit() if words.changed == "" else words.changed
    crates = changed_since(commit) if commit else words.crates or all_crates()
    if commit and words.crates or crates is None:
        asked.error(f"there is no commit {commit}" if crates is None else "--changed names the crates itself")
    if lacking := [crate for crate in crates if not files_of(crate)]:
        asked.error(f"no wrong bodies: {' '.join(lacking)}")
    if commit:
        print(f"changed since {commit[:12]}: {' '.join(crates) or 'no crate with wrong bodies'}", flush=True)
    ends = collections.Counter(dict.fromkeys(["can be applied", "not to be applied"] if words.apply else [*ENDS.values(), NO_VERDICT], 0))
    for crate in crates:
        ends.update((applied if words.apply else tried)(crate))
    print(", ".join(f"{count} {end}" for end, count in ends.items()))
    return int(sum(ends.values()) != ends["can be applied" if words.apply else "refused"])


if __name__ == "__main__":
    sys.exit(main())
