#!/usr/bin/env python3
"""Counts the definitions that a promise rests on.

usage: bench/closure.py [--list] [--largest N] [NAME..]     at the top of the repository

From each NAME, `lfs_model`'s file and definition joined by a dot, it follows every name that a definition uses, through all files of
`specs` in all crates, and counts the definitions that are met and their lines, without comments, empty lines and imports. Without names
it counts for the headline, for the promise on power loss, and for both. --list prints each definition with its lines; --largest N the N
largest, and the lines of each file.

What a name means is taken from the imports of its file, and from the file itself. A field is met where it stands behind a dot or before `=`.
A name that std or the kit defines counts for nothing.
So does a word of `declared`, a type of the code. A local definition counts as a part of the one around it.
"""
import argparse
import collections
import glob
import os
import re
import sys

TOP = os.path.dirname(os.path.dirname(os.path.abspath(__file__)))
WORD = re.compile(r"[^\s(){};,.λ∷]+")
STARTS = re.compile(r"^(?:abbrev |pub |unfoldable |private )*(?:record|data|syntax )?")
HEADLINE = ["LifeHeadline.LifeMatchesDisk"]
POWER_LOSS = ["RepeatedPowerLoss.CrashSafe", "RepeatedPowerLoss.MeetsCrashSafetyPremises", "LifeTrees.LeavesTreeOfLife", "LifeTrees.HasWritableDiskTree"]


def without_comments(text):
    """Returns the lines that aren't empty, without comments."""
    return [line for line in (re.sub(r"--\s.*$|--$", "", line).rstrip() for line in text.split("\n")) if line.strip()]


class File:
    """A file of definitions: its imports, and each definition's name, lines, constructors and fields."""

    def __init__(self, path, module):
        self.module, self.imports, self.aliases, self.definitions = module, {}, {}, collections.OrderedDict()
        self.constructors, self.fields = {}, {}
        lines = without_comments(open(path, encoding="utf-8").read())
        current = None
        for line in lines:
            if line.startswith("use ") or line.startswith("pub use "):
                self.read_import(line[line.index("use ") + 4:])
                continue
            if line[0] != " ":
                current = self.name_at(line, current)
                if current is None:
                    continue
            if current is not None:
                self.definitions.setdefault(current, []).append(line)
        for name, body in self.definitions.items():
            kind = re.match(r"^(?:abbrev |pub )*(record|data) ", body[0])
            parts = (self.fields if kind.group(1) == "record" else self.constructors) if kind else {}
            for line in body[1:] if kind else []:
                part = re.match(r"^\s+(?:pub )?([^\s:]+(?: [^\s:()]+)*) :", line)
                for word in part.group(1).split() if part else []:
                    parts.setdefault(word, name)

    def read_import(self, line):
        listed = re.match(r"([\w.]+)\.\{(.*)\}$", line.strip())
        if listed:
            for item in listed.group(2).split(","):
                words = item.split(" as ")
                self.imports[words[-1].strip()] = (listed.group(1), words[0].strip())
            return
        named = re.match(r"([\w.]+) as (\w+)$", line.strip())
        if named:
            self.aliases[named.group(2)] = named.group(1)

    @staticmethod
    def name_at(line, current):
        """Returns the name that a line at the margin defines, or the one that it goes on with."""
        if re.match(r"^(mod|module|open|infix|pub mod|mutual|instance|end)\b", line):
            return None
        stripped = re.sub(r"^(?:(?:abbrev|pub|unfoldable|private)\s+)*", "", line)
        stripped = re.sub(r"^(?:record|data|syntax)\s+", "", stripped)
        if stripped.startswith("unfolding") or stripped.startswith("where"):
            return current
        return re.match(r"[^\s(){};,.:]+", stripped).group(0) if re.match(r"[^\s(){};,.:]+", stripped) else current


def all_files():
    """Returns each file of definitions by its module's name."""
    files = {}
    for path in glob.glob(f"{TOP}/crates/*/specs/**/*.antt", recursive=True):
        parts = os.path.relpath(path, f"{TOP}/crates").split(os.sep)
        module = ".".join(["Rattle", parts[0], *parts[1:-1], parts[-1][: -len(".antt")]])
        files[module] = File(path, module)
    return files


def owner(files, module, name):
    """Returns the definition of a module that has this name, itself or as a constructor or field."""
    file = files.get(module)
    if file is None:
        return None
    if name in file.definitions:
        return (module, name)
    if name in file.constructors:
        return (module, file.constructors[name])
    return owner(files, *file.imports[name]) if name in file.imports else None


def uses(files, module, name):
    """Returns the definitions that one uses."""
    file, found = files[module], set()
    text = "\n".join(file.definitions[name])
    for alias, target in file.aliases.items():
        for word in re.findall(rf"\b{alias}\.([^\s(){{}};,.∷]+)", text):
            found.add(owner(files, target, word))
    for word in set(WORD.findall(text)):
        if word in file.definitions:
            found.add((module, word))
        elif word in file.imports:
            found.add(owner(files, *file.imports[word]))
        elif word in file.constructors:
            found.add((module, file.constructors[word]))
    for word in re.findall(r"\.([^\s(){};,.∷]+)", text) + re.findall(r"([^\s(){};,.λ∷]+) =(?= )", text):
        if word in file.fields:
            found.add((module, file.fields[word]))
    return {f for f in found if f is not None and f != (module, name)}


def closure(files, roots):
    """Returns all definitions that these rest on, themselves among them."""
    met, left = set(), list(roots)
    while left:
        one = left.pop()
        if one not in met:
            met.add(one)
            left += uses(files, *one)
    return met


def lines_of(files, met):
    return sum(len(files[module].definitions[name]) for module, name in met)


def find(files, name):
    """Returns the definition of `lfs_model` that a file's and a definition's name give, or stops."""
    file, word = name.split(".")
    for module in sorted(files):
        if module.startswith("Rattle.lfs_model.") and module.endswith("." + file) and word in files[module].definitions:
            return (module, word)
    sys.exit(f"there is no {name}")


def show(files, title, roots, options):
    met = closure(files, roots)
    print(f"{title}: {len(met)} definitions, {lines_of(files, met)} lines without comments, in {len({m for m, n in met})} files")
    if options.list:
        for module, name in sorted(met):
            print(f"  {len(files[module].definitions[name]):4} {module.split('.')[-1]}.{name}")
    if options.largest:
        for size, module, name in sorted(((len(files[m].definitions[n]), m, n) for m, n in met), reverse=True)[: options.largest]:
            print(f"  {size:4} {module.split('.')[-1]}.{name}")
        by_file = collections.Counter()
        for module, name in met:
            by_file[module.split(".", 1)[1]] += len(files[module].definitions[name])
        for module, size in by_file.most_common():
            print(f"  {size:4} {module}")


def main():
    options = argparse.ArgumentParser(usage="bench/closure.py [--list] [--largest N] [NAME..]")
    options.add_argument("--list", action="store_true")
    options.add_argument("--largest", type=int, default=0)
    options.add_argument("names", nargs="*")
    options = options.parse_args()
    files = all_files()
    if options.names:
        show(files, " ".join(options.names), [find(files, n) for n in options.names], options)
        return
    for title, names in [("headline", HEADLINE), ("power loss", POWER_LOSS), ("both", HEADLINE + POWER_LOSS)]:
        show(files, title, [find(files, n) for n in names], options)


if __name__ == "__main__":
    main()
