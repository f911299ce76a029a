#!/usr/bin/env python3
"""Names in the pages that aren't there: files, crates, functions, definitions and options between backticks.

usage: pages.py [--run [--program PROGRAM] [--proofs]] [PAGE..]

Without PAGE it takes the pages at the top, those in docs and .github, bench/README.md, bindings/README.md, and the pages of the crates.
What names the past, CHANGELOG.md, is passed over, and so is what names other tools. It looks at what stands between backticks:

- a path is one of the repository's: from the top, from `crates`, or from a crate. Its ending may be left out;
- of a wrong body `CRATE/NAME` is its file;
- a name is a word of the code, the definitions or the scripts, outside of comments; where the line speaks of proofs, and in
  the appendices of docs/PORTING.md, of the proofs too. Of `A::b`, `A.b` and `A::{b, c}` it is each part, and of a call the name before the bracket;
- it is a word of a crate where the page says so: in `lfs_tag::find`, in "`A` and `B` of `lfs_tag`" and "of `lfs_tag` `A` and `B`";
- in a column of definitions, and of what shows them, it is a word of `lfs_model`, unless another crate is named behind it;
- in a column of files it is a definitions' file, a crate or a path;
- an option is one of mklittlefs, of lfs_script, of littlefs-fuse or of a script in bench;
- in `docs/FORMAT.md, "Tags"` there is such a heading.

In a block of code it looks at words with a capital within, and at those with two underscores.

The README.md of a crate names each module of its `src`, and says what is proved and what isn't.

A clause that a CALLING.md quotes stands in the crate's `src`, whatever spaces and line ends it has there.

Beside backticks it looks at links, `[..](docs/FORMAT.md#tags)`, and at names of pages, as docs/FORMAT.md. It counts the wrong bodies of
the gate where a page says "The gate tries .. at most 40" or "the 40", and the lines of code where README.md says "some 44,600 lines". It
compares the options of the table in docs/TOOL.md with those of the help, by the table of `lfs_tool`.

With --run it also runs the commands that README.md and docs/TOOL.md print (page_commands.py): some minutes, by `rt try`. PROGRAM is a
built mklittlefs. With --proofs the commands that prove are run as well.

Prints a line for each that isn't there, and fails then.
"""

import argparse
import glob
import os
import re
import subprocess
import sys

import page_commands

TOP = os.path.dirname(os.path.dirname(os.path.abspath(__file__)))
PAGES = ["README.md", "CONTRIBUTING.md", "SECURITY.md", "THIRD_PARTY.md", ".github/*.md", "docs/*.md", "bench/README.md", "bindings/README.md", "crates/*/*.md"]
ENDINGS = ["", ".rt", ".antt", ".py", ".c", ".h", ".md", ".edit"]
WORD = r"[A-Za-z_][A-Za-z0-9_]*(?:[-'][A-Za-z0-9_]+)*"
LONG_OPTION, SHORT_OPTION = r"(?<![\w-])--[a-z][a-z0-9.-]*", r"(?<![\w-])-[a-z](?![\w-])"
DEFINITIONS = "crates/lfs_model/specs/"
# the table of the options of mklittlefs
OPTIONS = "crates/lfs_tool/src/options.rt"
# columns of files, and of what other tools name
FILES, OF_MODEL, OTHERS = {"File", "Files"}, {"Definition", "Shown by"}, {"littlefs's word", "There", "Not there", "littlefs-python", "Where", "Setting", "Where the numbers are from"}
OTHER_SECTIONS = set()

# Names from outside: of littlefs, of the kit and its language, of C, Python and Linux. An ending * stands for any.
OUTSIDE = set("""
LFS_* lfs_dir_find_match lfs_bd_prog struct malloc free realloc lfs.h LittleFS _FS_start _FS_end spiffs MKSPIFFSTOOL
rt antt KIT RT_* rattle-kit-* search grind omega simp subst cc rw refl ap elim absurd Bazel
Vec Option Result Ok Err None Some String Box RefCell Cell Send Sync Drop Copy Model Iterator Read Write Error Debug u8 u16 u32 u64 usize bool
std core alloc libc byteorder arrayvec lru bitflags clap itoa thiserror anyhow std_alloc std_heap
npx objdump perf cat cksum cp mkfs genext2fs zlib echo sync gzip exec
allow_other LICENSE-MIT LICENSE-APACHE strsim
extern unsafe safe ensures requires ghost impl fn let match mod use
""".split())
COMMANDS_FROM_OUTSIDE = ("rt ", "gcc", "npx ", "cp ", "fs.", "pio ", "sync ", "cat ", "grep ")


class Repository:
    """What there is: files and folders, the words of each crate, and those of everything else."""

    def __init__(self):
        run = subprocess.run(["git", "ls-files", "--cached", "--others", "--exclude-standard"], cwd=TOP, stdout=subprocess.PIPE, text=True, check=True)
        self.files = {path for path in run.stdout.splitlines() if os.path.exists(f"{TOP}/{path}")}
        self.paths = self.files | {folder for path in self.files for folder in parents(path)}
        self.bases = {os.path.basename(path) for path in self.paths}
        self.stems = {os.path.splitext(os.path.basename(path))[0] for path in self.paths if "/proofs/" not in path}
        with open(f"{TOP}/crates.txt") as it:
            self.crates = {line.split(":")[0].split()[0] for line in it if ":" in line}
        self.code = {crate: set() for crate in self.crates}  # words of the code with its contracts
        self.definitions = {crate: set() for crate in self.crates}
        self.proofs, self.others, self.options = set(), set(), {"--help", "--version", "-h"}
        for path in self.files:
            self.read(path)
        self.words = set().union(self.others, *self.code.values(), *self.definitions.values()) | self.crates

    def read(self, path):
        """Takes the words of a file to those of its crate, or to the others."""
        is_text = path.endswith((".rt", ".antt", ".py", ".c", ".h", "Makefile", "toml"))
        if not is_text or path == "bench/pages.py":
            return
        with open(f"{TOP}/{path}", encoding="utf-8") as it:
            text = without_comments(path, it.read())
        crate = path.split("/")[1] if path.startswith("crates/") else None
        kinds = {"src": self.code, "specs": self.definitions}
        to = kinds[path.split("/")[2]][crate] if crate in self.crates and path.split("/")[2] in kinds else self.proofs if "/proofs/" in path else self.others
        to |= {part for word in re.findall(WORD, text) for part in [word, *re.split("[-']", word)]}
        if path.endswith(".antt"):
            to.add(os.path.splitext(os.path.basename(path))[0])
        if path == OPTIONS:
            self.options |= {"--" + name for name in re.findall(r'"([a-z][a-z0-9.-]+)"', text)} | {"-" + name for name in re.findall(r"'([a-z])'", text)}
        elif path.startswith(("bench/", "bindings/fuse/")):
            self.options |= set(re.findall(LONG_OPTION, text))
            self.options |= set(re.findall(SHORT_OPTION, text)) if path.startswith("bindings/") else set()

    def has(self, path):
        if "*" not in path:
            return path in self.paths
        form = re.compile(re.escape(path).replace(r"\*", "[^/]*"))
        return any(form.fullmatch(it) for it in self.paths)

    def has_path(self, path):
        """Whether a path, that may lack its ending, is there from the top, from `crates` or from a crate, or is a wrong body."""
        crate, _, rest = path.rstrip("/").partition("/")
        above = ["", "crates/", "docs/", "bench/wrong_bodies/", DEFINITIONS, "crates/*/"] if "*" not in path else ["", "crates/", "crates/*/"]
        ways = [it + path.rstrip("/") for it in above] + [f"crates/{crate}/must-fail/{rest}"] * bool(rest)
        return any(self.has(way + ending) for way in ways for ending in ENDINGS)

    def has_word(self, word, crates):
        """Whether a name is a word of one of these crates, or of anything if none is given."""
        if not crates:
            return word in self.words or word in self.stems or is_outside(word)
        return any(word in self.code[crate] | self.definitions[crate] for crate in crates)


def text_of(path):
    with open(f"{TOP}/{path}", encoding="utf-8") as it:
        return it.read()


def parents(path):
    while path := os.path.dirname(path):
        yield path


def without_comments(path, text):
    """The text of a file without its comments, and without what it takes from elsewhere."""
    if path.endswith(".rt"):
        text = re.sub(r"(?m)^\s*(ghost )?use [^;]*;", "", text)
    if path.endswith((".rt", ".c", ".h")):
        return re.sub(r"(?m)(^|\s)//.*$", "", re.sub(r"(?s)/\*.*?\*/", "", text))
    return re.sub(r"(?m)(^|\s)--.*$", "", text) if path.endswith(".antt") else text


def is_outside(word):
    return word in OUTSIDE or any(word.startswith(it[:-1]) for it in OUTSIDE if it.endswith("*"))


def has_placeholder(path):
    """Whether a part of a path is in capitals: it stands for any."""
    return any(re.fullmatch(r"[A-Z_]{2,}(\.\w+)?", part) and part != "README.md" for part in path.split("/"))


# What a text between backticks names


def missing_in(repository, text, crates=()):
    """What it names that isn't there. Its names have to be words of the crates, if any are given."""
    text = text.strip()
    if text.startswith(("c.", "g.", "l.")):  # what a proof has at hand
        return []
    if re.fullmatch(r"[\w.*-]+(/[\w.*-]*)+", text):
        return missing_path(repository, text)
    if re.fullmatch(r"[\w-]+\.(md|rt|antt|py|c|h|txt|edit)", text):
        return [] if text in repository.bases | OUTSIDE or has_placeholder(text) else [f"no file {text}"]
    missing = missing_options(repository, text)
    if re.fullmatch(rf"{WORD}((::|\.){WORD})*(::\{{[^}}]*\}})?!?", text):
        for name in expanded(text.rstrip("!")):
            missing += missing_name(repository, re.split(r"::|\.", name), crates)
    elif call := re.fullmatch(rf"({WORD}(?:(?:::|\.){WORD})*)\([^()]*\)", text):
        missing += missing_name(repository, re.split(r"::|\.", call[1])[-1:], ())
    return missing


def expanded(name):
    """`a::{b, c}` as a::b and a::c."""
    found = re.fullmatch(r"(.*)::\{(.*)\}", name)
    return [f"{found[1]}::{part.strip()}" for part in found[2].split(",")] if found else [name]


def missing_path(repository, path):
    is_made = "out" in path.split("/") or path.startswith("KIT") or has_placeholder(path)
    if is_made or repository.has_path(path):
        return []
    is_ours = path.split("/")[0] in repository.crates | repository.bases
    return [f"no path {path}"] if is_ours or path.endswith(tuple(ENDINGS[1:])) else []


def missing_options(repository, text):
    if text.startswith(COMMANDS_FROM_OUTSIDE) or "=" in text:
        return []
    named = re.findall(LONG_OPTION, text) + (re.findall(SHORT_OPTION, text) if text.startswith(("-", "mklittlefs")) else [])
    return [f"no option {option}" for option in named if option not in repository.options]


def missing_name(repository, parts, crates):
    if parts[0] in repository.crates:
        crates, parts = [parts[0]], parts[1:]
    if is_outside(parts[0]) if parts and not crates else False:
        return []
    where = f" in {' or '.join(crates)}" if crates else ""
    return [f"no name {part}{where}" for part in parts if len(part) > 1 and not repository.has_word(part, crates)]


# Pages


def lines_of(page):
    """The lines outside of code blocks: their numbers, their cells with the headings of the columns, and the section."""
    section, titles, is_code = "", [], False
    with open(f"{TOP}/{page}", encoding="utf-8") as it:
        for number, line in enumerate(it.read().splitlines(), 1):
            if line.startswith("```"):
                is_code = not is_code
            if is_code or line.startswith("```"):
                continue
            if line.startswith("## "):
                section = line
            cells = [cell.strip() for cell in re.split(r"(?<!\\)\|", line)[1:-1]] if line.startswith("|") else []
            titles = (titles or cells) if cells else []
            yield number, line, list(zip(titles, cells)) or [("", line)], section


def missing_in_code(repository, page):
    """Words of the blocks of code with a capital within, or with two underscores, that are nowhere."""
    is_code, known = False, repository.words | repository.proofs | repository.stems
    for number, line in enumerate(text_of(page).splitlines(), 1):
        is_code ^= line.startswith("```")
        for word in re.findall(WORD, line) if is_code else []:
            is_long = re.search("[a-z][A-Z]", word) or word.count("_") >= 2
            if is_long and word not in known and not is_outside(word):
                yield f"{page}:{number}: no name {word}"


def spans(text):
    return re.findall(r"`([^`]+)`", text)


def of_crates(repository, line):
    """Pairs of a name and the crate of which a line says it is: "`A` and `B` of `lfs_tag`", or "of `lfs_tag` `A` and `B`"."""
    names = r"((?:`[^`]+`(?:, | and |, and )?)+)"
    for named, crate in re.findall(names + r" of `(\w+)`", line):
        yield from ((name, crate) for name in spans(named))
    for crate, named in re.findall(r"of `(\w+)` " + names, line):
        yield from ((name, crate) for name in spans(named))


def missing_headings(line):
    for page, heading in re.findall(r'((?:[\w-]+/)*\w+\.md), "([^"]+)"', line):
        if os.path.exists(f"{TOP}/{page}") and not any(heading in it for it in headings(page)):
            yield f'no heading "{heading}" in {page}'


def headings(page):
    return re.findall(r"(?m)^#+ (.*)$", text_of(page))


def missing_links(page, line):
    """Links that lead nowhere, and names of pages in docs that aren't there."""
    for path, anchor in re.findall(r"\]\(([\w./-]*)(?:#([\w-]+))?\)", line):
        to = os.path.normpath(os.path.join(os.path.dirname(page), path)) if path else page
        if not os.path.exists(f"{TOP}/{to}"):
            yield f"no page {to}"
        elif anchor and anchor not in {re.sub(r"[^\w -]", "", it).lower().replace(" ", "-") for it in headings(to)}:
            yield f"no heading #{anchor} in {to}"
    for named in re.findall(r"(?<![\w/.])docs/\w+\.md", line):
        if not os.path.exists(f"{TOP}/{named}"):
            yield f"no page {named}"


def missing_files(repository, names):
    """Names in a column of files, or that begin a point of a list of files, that are no definitions' file, crate or path."""
    for name in names:
        if re.fullmatch(WORD, name) and name not in repository.crates and not any(repository.has_path(DEFINITIONS + way + name) for way in ("", "*/")):
            yield f"no definitions' file {name}"


def missing_of_line(repository, page, line, cells, section):
    if (page, section) in OTHER_SECTIONS:
        return
    is_of_proofs = section.startswith("## Appendix") or "proofs" in line
    for title, cell in cells:
        for text in spans(cell) if title not in OTHERS else []:
            if not (is_of_proofs and text in repository.proofs):
                yield from missing_in(repository, text)
        of_other = {name for name, _ in of_crates(repository, cell)}
        if title in OF_MODEL and "contract" not in cell:
            yield from (it for name in spans(cell) if name not in of_other for it in missing_in(repository, name, ["lfs_model"]))
        if title in FILES:
            yield from missing_files(repository, [name for name in spans(cell) if name not in of_other | repository.bases])
    if page.endswith("READING.md") and line.startswith("- "):
        yield from missing_files(repository, spans(line.partition(":")[0]))
    for text, crate in of_crates(repository, line):
        if crate in repository.crates:
            yield from missing_in(repository, text, [crate])
    yield from missing_headings(line)
    yield from missing_links(page, line)


def missing_quotes(repository, page):
    """Clauses in the blocks of text of a CALLING.md that aren't in the crate's code."""
    crate, _, name = page.rpartition("/")
    if name != "CALLING.md":
        return
    paths = sorted(path for path in repository.files if path.startswith(f"{crate}/src/") and path.endswith(".rt"))
    code = without_spaces("".join(map(text_of, paths)))
    for block in re.findall(r"(?s)```text\n(.*?)```", text_of(page)):
        for clause in re.split(r"\n(?=fn |  ensures|  requires)", block)[1:]:
            if not clause.startswith("fn ") and without_spaces(clause) not in code:
                yield f"{page}: no clause {clause.strip()}"


def without_spaces(text):
    return re.sub(r"\s+", "", text)


def missing_of_crate(repository, page):
    """Modules of a crate that its README.md doesn't name, and headings that it lacks."""
    crate, _, name = page.rpartition("/")
    if not crate.startswith("crates/") or name != "README.md":
        return
    text = text_of(page)
    for path in sorted(repository.files):
        module, ending = os.path.splitext(os.path.basename(path))
        if path.startswith(f"{crate}/src/") and ending == ".rt" and module not in ("lib", "main") and f"`{module}`" not in text:
            yield f"{page}: module {module} isn't named"
    for heading in ("What is proved", "What isn't", "What may be changed"):
        if f"\n## {heading}\n" not in text:
            yield f'{page}: no heading "{heading}"'


def wrong_counts(repository, page):
    """Counts that a page states and that aren't so: of the gate's wrong bodies, and in README.md of lines, to a hundred."""
    text, edits = text_of(page), sum(bool(re.fullmatch(r"crates/\w+/must-fail/\w+\.edit", path)) for path in repository.files)
    for limit, count in re.findall(r"The gate tries[^.]*?\b(at most|the) (\d+)", text):
        if int(count) < edits or limit == "the" and int(count) != edits:
            yield f"{page}: the gate tries {edits} wrong bodies, not {limit} {count}"
    if page != "README.md":
        return
    forms = {
        r"some ([\d,]+) lines of code": r"crates/\w+/src/.*\.rt",
        r"([\d,]+) of definitions of littlefs": DEFINITIONS + r".*\.antt",
        r"([\d,]+) of other definitions": r"crates/(?!lfs_model/)\w+/specs/.*\.antt",
        r"([\d,]+) of proofs": r"crates/\w+/proofs/.*\.antt",
    }
    for form, paths in forms.items():
        lines = sum(text_of(path).count("\n") for path in repository.files if re.fullmatch(paths, path))
        told = re.search(form, text)
        if told is None or abs(int(told[1].replace(",", "")) - lines) > 50:
            yield f"{page}: {lines:,} lines, and not {told[0] if told else form}"


def wrong_help(repository, page):
    """Options of the help that docs/TOOL.md doesn't name, and options of its table that the help lacks."""
    if page != "docs/TOOL.md":
        return
    table = text_of(OPTIONS)
    helped = {"--" + name for name in re.findall(r'(?m)^    "([a-z0-9.-]+)", \w.*, Value::', table)} - {"--image"}
    text = text_of(page)
    named, rows = set(re.findall(LONG_OPTION, text)), set(re.findall(r"(?m)^\| `(--[a-z0-9.-]+)", text))
    yield from (f"{page}: {option} of the help isn't named" for option in sorted(helped - named))
    yield from (f"{page}: {option} isn't in the help" for option in sorted(rows - helped))


def count_of_words(pages):
    """As `wc -w README.md docs/*.md` counts them, of these pages."""
    return sum(len(text_of(page).split()) for page in pages if page == "README.md" or page.startswith("docs/"))


def main():
    parser = argparse.ArgumentParser(usage=__doc__.splitlines()[2].removeprefix("usage: "))
    parser.add_argument("pages", nargs="*")
    parser.add_argument("--run", action="store_true")
    parser.add_argument("--program")
    parser.add_argument("--proofs", action="store_true")
    options = parser.parse_args()
    repository = Repository()
    pages = options.pages or sorted(os.path.relpath(path, TOP) for form in PAGES for path in glob.glob(f"{TOP}/{form}"))
    missing = [f"{page}:{number}: {what}" for page in pages for number, *line in lines_of(page)
               for what in dict.fromkeys(missing_of_line(repository, page, *line))]
    missing += [what for page in pages for find in (missing_in_code, missing_of_crate, missing_quotes, wrong_counts, wrong_help) for what in find(repository, page)]
    missing += page_commands.missing_runs(TOP, options.program, options.proofs) if options.run else []
    print("\n".join(missing) or f"{len(pages)} pages, {count_of_words(pages)} words in README.md and docs, nothing is missing")
    return bool(missing)


if __name__ == "__main__":
    sys.exit(main())
