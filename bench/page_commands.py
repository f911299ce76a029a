"""The commands that README.md and docs/TOOL.md print, run in a copy of the repository, with the output that stands below each.

`pages.py --run [--program PROGRAM] [--proofs]` calls it. In a block of code a command begins with `$ `, and the lines up to the next one are its output. In README.md
commands in a line of text, such as `(cd crates/example && rt try)`, are run too, and the block of Rust is built and run in a crate
of its own.

Lines of `mklittlefs` are run by `rt try` of that crate, or by a built program; a word without `/` that begins with a letter is a
path in a new folder, which has what FILES says. Commands that prove (`rt run`, `rt check`) are run only if that is asked for, and
the gate never.
"""

import os
import re
import shlex
import subprocess
import tempfile

PAGES = ["README.md", "docs/TOOL.md"]
FILES = {
    "data/firmware.bin": bytes(10_000),
    "data/log/today": b"21.5 degrees",
    "data/wifi.txt": b"secret 1\n",
    "settings/log/today": b"21.5 degrees",
    "settings/wifi.txt": b"secret 1\n",
    "wifi.txt": b"secret 1\n",
}
PROVES, GATE = ("rt run", "rt check", "rt lib"), ".ci/run"
MAIN = """
fn main(rt: HostRuntime) -> std::io::Result<()> {
    match log_once(rt.alloc()) {
        Ok(bytes) => println!(rt; "{}", bytes.len()),
        Err(error) => println!(rt; "error {error:?}"),
    }
}
"""


def commands_of(text):
    """Pairs of a command and its output: those of blocks of code, and those in lines, whose output is None."""
    for block in re.findall(r"(?ms)^```\n(\$ .*?)^```", text):
        for part in re.split(r"(?m)^\$ ", block)[1:]:
            line, _, output = part.partition("\n")
            yield re.sub(r"\s{2,}#.*", "", line).strip(), output
    for line in re.findall(r"`(\(cd [^`]*\))`", re.sub(r"(?ms)^```.*?^```", "", text)):
        yield line, None


def differences(found, told, status, wanted):
    """What a run shows wrongly."""
    wrong = [] if status == 0 else [f"status {status}"]
    wrong += ["the program may loop forever"] if "may loop forever" in told else []
    return wrong + ([] if wanted in (None, found) else [f"printed {found!r}"])


def copy_of(top, room):
    """A copy of the files that git knows."""
    to = f"{room}/repository"
    files = subprocess.run(["git", "ls-files", "-z"], cwd=top, stdout=subprocess.PIPE, check=True).stdout
    os.mkdir(to)
    tar = subprocess.run(["tar", "--null", "--ignore-failed-read", "-cT", "-"], cwd=top, input=files, stdout=subprocess.PIPE, check=True)
    subprocess.run(["tar", "-x"], cwd=to, input=tar.stdout, check=True)
    subprocess.run(["git", "init", "-q"], cwd=to, check=True)
    return to


def run_shell(line, repository):
    run = subprocess.run(["bash", "-c", line], cwd=repository, stdout=subprocess.PIPE, stderr=subprocess.PIPE, text=True)
    return run.stdout, run.stderr, run.returncode


def fill(room):
    """Puts the files there, for any user."""
    for path, data in FILES.items():
        os.makedirs(os.path.dirname(f"{room}/{path}"), exist_ok=True)
        with open(f"{room}/{path}", "wb") as it:
            it.write(data)
    for folder, _, names in os.walk(room):
        for path in [folder] + [f"{folder}/{name}" for name in names]:
            os.chmod(path, 0o777)


def run_tool(lines, repository, program):
    """What `mklittlefs` prints on both streams for each list of words."""
    if program:
        for words in lines:
            run = subprocess.run([os.path.abspath(program), *words], stdout=subprocess.PIPE, stderr=subprocess.STDOUT, text=True)
            yield run.stdout
        return
    with tempfile.TemporaryDirectory() as cases:
        for number, words in enumerate(lines, 1000):
            open(f"{cases}/{number}", "w").close()
            with open(f"{cases}/{number}.args", "w") as it:
                it.write("\n".join(words) + "\n")
        told = run_shell(f"rt try --cases {cases} 2>&1", f"{repository}/crates/mklittlefs")[0]
    for number in range(1000, 1000 + len(lines)):
        found = re.search(rf"(?ms)^== {number}\n(.*?)\n?case={number} run=ended", told)
        yield found[1] if found else "not run"


def tool_words(line, room):
    """The words of a line of `mklittlefs`, with paths in the room, and how many lines of output it takes."""
    line, _, head = line.partition("| head -")
    return [f"{room}/{word}" if re.match(r"[a-z]", word) and word != "auto" else word for word in shlex.split(line)[1:]], int(head or 10**9)


def check_tool(page, commands, room, repository, program):
    """Runs all lines of `mklittlefs` of a page, one after another in one folder."""
    lines = [(command, output, *tool_words(command, room)) for command, output in commands]
    for (command, output, _, head), told in zip(lines, run_tool([words for _, _, words, _ in lines], repository, program)):
        first = "".join(told.splitlines(keepends=True)[:head])
        if first.rstrip("\n") != output.rstrip("\n"):
            yield f"{page}: {command}: printed {first!r}"


def check_snippet(text, repository):
    """Builds and runs the block of Rust in README.md."""
    os.makedirs(f"{repository}/crates/snippet/src")
    with open(f"{repository}/crates/snippet/src/main.rt", "w") as it:
        it.write("#![tactic(auto)]\n" + re.search(r"(?ms)^```rust\n(.*?)^```", text)[1] + MAIN)
    with open(f"{repository}/crates.txt", "a") as it:
        it.write("snippet: lfs_device lfs_fs\n")
    told = run_shell("rt try", f"{repository}/crates/snippet")[0]
    if told.strip().splitlines()[:1] != ["12"]:
        yield f"README.md: the block of Rust printed {told!r}"


def missing_runs(top, program, proves):
    with tempfile.TemporaryDirectory() as room:
        os.chmod(room, 0o755)
        repository = copy_of(top, room)
        for page in PAGES:
            with open(f"{top}/{page}", encoding="utf-8") as it:
                text = it.read()
            commands = list(dict.fromkeys(commands_of(text)))
            with tempfile.TemporaryDirectory(ignore_cleanup_errors=True) as files:
                fill(files)
                yield from check_tool(page, [it for it in commands if it[0].startswith("mklittlefs ")], files, repository, program)
            for line, output in commands:
                if line.startswith("mklittlefs ") or GATE in line or (any(word in line for word in PROVES) and not proves):
                    continue
                yield from (f"{page}: {line}: {what}" for what in differences(*run_shell(line, repository), output))
            if page == "README.md":
                yield from check_snippet(text, repository)
