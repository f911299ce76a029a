#!/usr/bin/python3
"""Runs what ports/build.py built, compared with the proved program for x86-64: the same words have to give the same bytes.

usage: ports/test.py [--folders N] [--images N] [--seed WORD] [--times]

- bindings/c/example.c and flash.c, with each library: what they print, and the files that they leave;
- mklittlefs for each machine and in Node, on N random folders, all its modes: status, both streams, images and unpacked trees;
- calls.c: 30 random calls on each of N images, of which some are damaged, by each library, and by both modules in Node: each answer, what
  is put into a buffer, and all bytes at the end; and by the module in Chromium and Firefox;
- bindings/js: its own tests, and the rows of bench/program_lines.py in Node.

With --times it prints instead how long the same work takes natively and by the modules. In browsers that is time that passed.
"""

import argparse
from concurrent.futures import ThreadPoolExecutor
import http.server
import os
from pathlib import Path
import random
import re
import shutil
import subprocess
import sys
import tempfile
import threading

TOP = Path(__file__).resolve().parent.parent
sys.path[:0] = [str(TOP / "bench"), str(TOP / "page")]
import browsers
from browsers import same
import image_maker
import profiles
import program_lines

OUT, JS = TOP / "ports/out", TOP / "bindings/js"
RUNS = {"x86_64": [], "aarch64": ["qemu-aarch64-static"], "windows": ["/usr/lib/wine/wine64"]}
COMPILERS = {"x86_64": ["gcc"], "aarch64": ["aarch64-linux-gnu-gcc"], "windows": ["x86_64-w64-mingw32-gcc", "-D__USE_MINGW_ANSI_STDIO=1"]}
LIBRARIES = [*[(machine, "liblittlefs_c.a") for machine in RUNS], ("windows", "liblittlefs_c.dll.a")]
MODULES = {"littlefs.wasm": ["node"], "littlefs64.wasm": ["node", "--experimental-wasm-memory64"]}
SIZES = [(1024, 128, 64), (1024, 8, 96), (2048, 256, 40), (4096, 256, 16), (4096, 512, 48), (65536, 512, 4)]
NAMES = ["a", "ab", "b", "settings.json", "log", "today.csv", "name with space", "caf\u00e9", "back\\slash", "x" * 60, ".hidden", "\u6f22\u5b57"]
ENTRIES = [b"a", b"b", b"ab", b"name with space", b"\\", b"caf\xc3\xa9", b"\xff\x01", b"z", b"x" * 255, b"x" * 256]
ODD = [b"", b"a", b"//a", b"/a/", b"/"]
CALLS = ["write"] * 4 + ["append", "mkdir", "remove", "rename"] * 2 + ["setAttribute", "getAttribute", "removeAttribute", "list", "read", "usedBlocks", "recover"]
OPTIONS = [[], ["-b", "8192"], ["-b", "1024", "-p", "128"], ["--board", "esp32"], ["--inline-max", "64"], ["--order", "shorter-first"], ["--times"],
           ["--name-max", "32"], ["--exclude", "*.csv"]]
# Node has no locks, so no leftover of another run is removed; and it needs more memory itself than that row grants
LINUX_ALONE = ["-c files image", "a file that is too big, in little memory"]


def ran(words, **how):
    done = subprocess.run([str(it) for it in words], stdin=subprocess.DEVNULL, stdout=subprocess.PIPE, stderr=subprocess.PIPE, **how)
    return done.returncode, done.stdout, done.stderr


def compiled(source, machine, library, work):
    """Returns the words that run a program of C for a machine, with its library."""
    to = work / f"{source.stem}-{machine}-{library}.exe"
    words = [*COMPILERS[machine], "-std=c11", "-Wall", "-Wextra", "-Werror", "-O2", *["-static"] * library.endswith("_c.a"), f"-I{TOP / 'bindings/c'}", "-o", to]
    subprocess.run([str(it) for it in [*words, source, OUT / machine / library]], check=True)
    return [*RUNS[machine], to]


def library(work):
    for name in ("example", "flash"):
        wanted = None
        for machine, library in LIBRARIES:
            program, image = compiled(TOP / f"bindings/c/{name}.c", machine, library, work), work / f"{name}-{machine}-{library}.img"
            runs = [ran([*program, image.name], cwd=work)[:2] for _ in range(2)]
            found = [(status, text.replace(b"\r\n", b"\n")) for status, text in runs], image.read_bytes()
            wanted = wanted or found
            same(f"{name} for {machine}, {library}", [runs[0][0], found], [0, wanted])
    print(f"example, flash: the same for {', '.join(RUNS)}, and with the DLL", flush=True)


# ---- the tool

def tree(folder, has_times):
    """What is in a folder, or None where there is none."""
    found = {str(it.relative_to(folder)): (None if it.is_dir() else it.read_bytes(), int(it.stat().st_mtime) if has_times else 0) for it in folder.rglob("*")}
    return found if folder.exists() else None


def make_folder(rnd, at, depth=0):
    at.mkdir(parents=True)
    for name in rnd.sample(NAMES, rnd.randint(1, 7)):
        if depth < 3 and rnd.random() < 0.3:
            make_folder(rnd, at / name, depth + 1)
        else:
            (at / name).write_bytes(rnd.randbytes(rnd.choice([0, 1, 60, 400, 511, 512, 1023, 3000, 4096, 30000])))
        os.utime(at / name, (1e9, rnd.randrange(10**9, 2 * 10**9)))


def session(rnd, folder, work):
    """Word lists of one image's life, without the program, for a folder `work` that each program has of its own."""
    options = rnd.choice(OPTIONS)
    image, reads = "disk.img", ["-b", "auto", "--also-2.1"]
    files = [it for it in folder.rglob("*") if it.is_file()]
    some = "/" + str(rnd.choice(files).relative_to(folder)) if files else "/a"
    (work / "new").write_bytes(rnd.randbytes(rnd.choice([0, 100, 5000])))
    sized = rnd.choice(["auto", "512k", "1M", "16k"])
    block = options[options.index("-b") + 1] if "-b" in options else "4096"
    change = ["-b", block, *(options if options[:1] in (["-p"], ["--name-max"], ["--inline-max"]) else [])]
    return [
        ["-c", str(folder), "-s", sized, *options, image],
        ["-l", *reads, image], ["-l", "--json", *reads, image], ["--check", *reads, image], ["--check", "--json", *reads, image],
        ["-u", "unpacked", *reads, *["--times"] * ("--times" in options), image],
        ["--cat", some, *reads, image], ["--cat", "/missing", "--explain", *reads, image],
        ["--put", str(work / "new"), "/put", *change, image], ["--mkdir", "/made", *change, image], ["--mkdir", "/made", "--explain", *change, image],
        ["--remove", some, *change, image], ["--check", *reads, image], ["-l", *reads, image],
        ["--check", "-b", "2048", image], ["-l", "missing.img"], ["-c", str(folder / "missing"), "--explain", "x.img"], ["--size", "1.3k", "-l", image],
        ["-c", str(folder), "-s", "8k", "--explain", "small.img"], ["--help"], ["--version"], [],
    ]


def tool(work, seed, count):
    programs = {"proved": [TOP / "crates/mklittlefs/out/mklittlefs"], **{machine: [*RUNS[machine], OUT / machine / "mklittlefs"] for machine in ("x86_64", "aarch64")}}

    def runs_on(number):
        rnd, place, wanted = random.Random(f"{seed} {number}"), work / f"life{number}", None
        make_folder(rnd, place / "folder")
        words = session(rnd, place / "folder", place)
        node = ["node", *["--liftoff-only"] * (number % 10 > 0), JS / "mklittlefs.js"]  # V8's optimizer takes most of the time: nine of ten go without
        for name, program in {**programs, "node": node}.items():
            at, found = place / name, []
            at.mkdir()
            for line in words:
                done, image = ran([*program, *line], cwd=at), at / "disk.img"
                found.append([line, *done, tree(at / "unpacked", "--times" in words[5]), image.read_bytes() if image.exists() else None])
            wanted = wanted or found
            for got, it in zip(found, wanted):
                same(f"mklittlefs for {name}, folder {number}, {' '.join(got[0])}", got[1:], it[1:])
        shutil.rmtree(place)
        return len(words), wanted[0][1] == 0
    with ThreadPoolExecutor() as pool:
        runs, images = map(sum, zip(*pool.map(runs_on, range(count))))
    print(f"mklittlefs: {count} folders, {images} images made, {runs} runs, the same by {', '.join(list(programs)[1:])}, node", flush=True)


# ---- calls on images

def line_of(what, path=b"", other=b"", *numbers):
    """A line as calls.c reads it."""
    return " ".join([what, path.hex() or "-", other.hex() or "-", *map(str, (numbers + (0,) * 5)[:5])])


def some_path(rnd, files, folders, is_made):
    """A path that may be there, or may be made, or none that is well formed."""
    if rnd.random() < 0.05:
        return rnd.choice(ODD)
    return rnd.choice(folders) + b"/" + rnd.choice(ENTRIES) if rnd.random() < (0.7 if is_made else 0.1) else rnd.choice([*files, *folders]) or b"/"


def lines_of(number, rnd, work):
    """An image, made or of a file that is damaged or not; 30 calls on it, and what it is then."""
    (block, page, blocks), versions, image, files, folders = rnd.choice(SIZES), rnd.randrange(2), b"", [], [b""]
    if number % 2 == 0:
        accepted = profiles.Profile(versions=(profiles.TWO_ZERO, profiles.TWO_ONE)[: 1 + versions])
        plan, shown = image_maker.random_plan(rnd, profile=accepted)
        block, page, blocks, image = plan.block_size, plan.page, 0, b"image%d" % number
        for line in shown.splitlines():
            kind, _, path = line.split(b" ", 2)
            (folders if kind == b"d" else files).append(re.sub(rb"\\x(..)", lambda it: bytes.fromhex(it[1].decode()), path))
        data = bytearray(plan.image())
        for _ in range(rnd.choice([1, 3, 20]) if rnd.random() < 0.3 else 0):
            at = rnd.choice([0, plan.block_size]) + rnd.randrange(64)  # in the superblock's pair
            data[rnd.choice([at, rnd.randrange(len(data))])] ^= 1 << rnd.randrange(8)
        (work / image.decode()).write_bytes(data)
    yield line_of("image", image, b"", block, page, versions, rnd.randrange(2), blocks)
    for _ in range(30):
        what, size = rnd.choice(CALLS), rnd.choice([0, 1, 30, 200, 600, 1500, 3000, 20000]) if rnd.random() < 0.9 else 200000
        path, other = some_path(rnd, files, folders, what in ("write", "append", "mkdir")), some_path(rnd, files, folders, True)
        yield line_of(what, path, other, rnd.randrange(4), size % 1501 if what == "setAttribute" else size)
        if path not in ODD:
            (folders if what == "mkdir" else files).append(path)
    yield line_of("bytes")


def in_browser(kind, work, has_times):
    """What calls.mjs gives in a browser, which is served the files in `work`."""
    handler = type("Quiet", (http.server.SimpleHTTPRequestHandler,), {"log_message": lambda *_: None})
    server = http.server.ThreadingHTTPServer(("127.0.0.1", 0), lambda *given: handler(*given, directory=work))
    threading.Thread(target=server.serve_forever, daemon=True).start()
    with tempfile.TemporaryDirectory(ignore_cleanup_errors=True) as profile:
        page = kind(f"http://127.0.0.1:{server.server_port}/", Path(profile), work)
        try:
            page.script("document.head.append(Object.assign(document.createElement('script'), { type: 'module', src: '/js/test/calls.mjs' + arguments[0] }))", "?times" * has_times)
            page.until("all calls are made", lambda: page.script("return document.body.dataset.ready"), 3600)
            return page.script("return document.body.textContent").split("\n")
        finally:
            page.quit()
            server.shutdown()


def answers(work, lines, libraries, *more):
    """What each library, both modules in Node, and the module in browsers print for lines of calls, by their names."""
    (work / "list").write_text("\n".join(lines) + "\n")
    programs = {f"{machine}, {library}": compiled(TOP / "ports/calls.c", machine, library, work) for machine, library in libraries}
    programs |= {name: [*words, JS / "test/calls.mjs", OUT / "wasm" / name] for name, words in MODULES.items()}
    shutil.copytree(JS, work / "js", dirs_exist_ok=True)
    shutil.copy(OUT / "wasm/littlefs.wasm", work)

    def by(name):
        if kind := getattr(browsers, name, None):
            return f"littlefs.wasm in {name}", in_browser(kind, work, bool(more))
        status, found, errors = ran([*programs[name], "list", *more], cwd=work)
        same(f"calls for {name}: status, with {errors.decode()!r}", status, 0)
        return name, found.decode().splitlines()
    with ThreadPoolExecutor(1 if more else None) as pool:
        return dict(pool.map(by, [*programs, "Chromium", "Firefox"]))


def calls(work, rnd, count):
    lines = [line for number in range(count) for line in lines_of(number, rnd, work)]
    found = answers(work, lines, LIBRARIES)
    wanted = next(iter(found.values()))
    for name, theirs in found.items():
        same(f"calls for {name}: lines", len(theirs), len(lines))
        for number, pair in enumerate(zip(theirs, wanted)):
            same(f"calls for {name}, line {number + 1}: {lines[number]}", *pair)
    all = [(line.split()[0], int(it.split()[0])) for line, it in zip(lines, wanted)]
    made = [answer for what, answer in all if what not in ("image", "bytes") and answer != -77]
    print(f"calls: {count} images, {sum(what == 'image' and answer < 0 for what, answer in all)} refused; {len(made)} calls, {sum(it < 0 for it in made)} refused; "
          f"the same by {'; '.join(found)}", flush=True)


def work_of_times():
    """What is done for `--times`, by parts: an image of 8 MiB, and what is measured of it."""
    files = [b"/folder%d/file%d" % (at // 50, at % 50) for at in range(500)]
    yield None, [line_of("image", b"", b"", 4096, 256, 0, 0, 2048)]
    yield "500 files of up to 4,900 bytes in 10 folders", [*[line_of("mkdir", b"/folder%d" % at) for at in range(10)], *[line_of("write", it, b"", 0, 100 * (at % 50)) for at, it in enumerate(files)]]
    yield "a file of 1 MiB", [line_of("write", b"/large", b"", 0, 1 << 20)]
    yield "1,000 appends of 100 bytes, each closed", [line_of("append", b"/log", b"", 0, 100)] * 1000
    yield "reads of all these", [line_of("read", it, b"", 0, 1 << 20) for it in [*files, b"/large"]]
    yield None, [line_of("bytes")]
    yield "10 mounts", [line_of("image", b"", b"", 4096, 256)] * 10


def times(work):
    """Prints the least of the last forty of sixty rounds, and the first, while an engine compiles what it runs."""
    parts = list(work_of_times())
    lines = [line for _ in range(60) for _, lines in parts for line in [*lines, line_of("time")]]
    found = {name: [float(it) for it in them] for name, them in answers(work, lines, LIBRARIES[:1], "times").items()}
    print("| milliseconds | " + " | ".join(f"{name} | at first" for name in found) + " |\n|---|" + "---|---|" * len(found))
    for at, (part, _) in enumerate(parts):
        if part:
            rows = [them[at :: len(parts)] for them in found.values()]
            print(f"| {part} | " + " | ".join(f"{min(it[-40:]):.1f} | {it[0]:.1f}" for it in rows) + " |")


# ---- scripts

def scripts(work):
    subprocess.run(["node", "--test", "--test-reporter=dot", "test/image.test.mjs"], cwd=JS, check=True)
    rows = [*program_lines.tool_rows(str(JS / "mklittlefs.js"), str(work))]
    same("the rows of bench/program_lines.py that differ in Node", [[what, came] for what, came, wanted in rows if came != wanted and what not in LINUX_ALONE], [])
    print(f"mklittlefs in Node: {len(rows)} rows of bench/program_lines.py, {len(LINUX_ALONE)} of which need what Linux alone has", flush=True)


def main():
    parser = argparse.ArgumentParser(usage=__doc__.split("usage: ")[1].split("\n")[0])
    parser.add_argument("--folders", type=int, default=10)
    parser.add_argument("--images", type=int, default=100)
    parser.add_argument("--seed", default="1")
    parser.add_argument("--times", action="store_true")
    given = parser.parse_args()
    with tempfile.TemporaryDirectory() as folder:
        work = Path(folder)
        if given.times:
            return times(work)
        for name in ("littlefs.wasm", "mklittlefs.wasm"):
            shutil.copy(OUT / "wasm" / name, JS)
        shutil.copy(OUT / "windows/littlefs_c.dll", work)
        library(work)
        tool(work, given.seed, given.folders)
        calls(work, random.Random(given.seed), given.images)
        (work / "rows").mkdir()
        scripts(work / "rows")


if __name__ == "__main__":
    main()
