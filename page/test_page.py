#!/usr/bin/python3
"""Uses the page as a person does, in Chromium and in Firefox: the built file alone, from the disk.

usage: page/test_page.py [--page FILE] [chromium] [firefox]

ports/out/x86_64/mklittlefs makes the images and reads what the page saves. Fails at the first thing that isn't as it should be. In
Chromium files and folders are also dropped, and the page may ask for nothing but itself.
"""

import argparse
from pathlib import Path
import random
import re
import shutil
import subprocess
import tempfile
import time
import zipfile

import browsers
from browsers import same

TOP = Path(__file__).resolve().parent.parent
FILES = {
    "settings/wifi.json": b'{\n  "ssid": "workshop",\n  "channel": 11,\n  "password": "not this one"\n}\n',
    "settings/name": "K\u00fcche \u2013 21.5 \u00b0C\n".encode(),
    "log/2026-11-29.csv": b"time,degrees\n" + b"".join(b"%02d:%02d,%d.%d\n" % (h, m, 18 + h % 5, m % 10) for h in range(24) for m in range(0, 60, 5)),
    "log/today.csv": b"time,degrees\n00:00,19.5\n",
    "www/index.html": b"<!doctype html><title>board</title><h1>Board</h1>\n",
    "www/logo.gif": bytes.fromhex("47494638396101000100800000ffffff00000021f90401000000002c00000000010001000002024401003b"),  # of one dot
    "firmware.bin": random.Random(5).randbytes(40000),
    "empty": b"",
}

# the longest time, in milliseconds, for which the page did nothing else
PAUSES = """let was = performance.now();
    setInterval(() => {
        document.body.dataset.pause = Math.max(document.body.dataset.pause, performance.now() - was - 10);
        was = performance.now();
    }, 10)"""
# a worker is made of a text, which gets a line before it
NO_MEMORY = """const Whole = Blob, none = "File.prototype.arrayBuffer = () => { throw new RangeError('none is left') };";
    Blob = function (parts, ...more) { return new Whole(typeof parts[0] === "string" ? [none, ...parts] : parts, ...more) }"""


class Use:
    """A person who uses the page, with a folder of their own and the tool beside it."""

    def __init__(self, page, work):
        self.page, self.work = page, work
        for name, data in FILES.items():
            (work / "board" / name).parent.mkdir(parents=True, exist_ok=True)
            (work / "board" / name).write_bytes(data)
        (work / "board/spare").mkdir()
        same("the tool", self.run("-c", work / "board", "-s", "256k", "--times", work / "board.img").returncode, 0)
        self.listed = [line.split(" ", 2)[2] for line in self.run("-l", work / "board.img").stdout.decode().splitlines()]

    def run(self, *words):
        return subprocess.run([TOP / "ports/out/x86_64/mklittlefs", *map(str, words)], capture_output=True)

    def give(self, what, selector, *paths):
        """Clicks a button that asks for files, and gives it these."""
        self.page.do(what)
        self.page.give(selector, *paths)

    def unpacked(self, data):
        """Returns the files of an image, as the tool unpacks it."""
        image, folder = self.work / "saved.img", self.work / "unpacked"
        shutil.rmtree(folder, ignore_errors=True)
        image.write_bytes(data)
        same("the saved image", self.run("--check", image).returncode, 0)
        self.run("-u", folder, image)
        return {str(it.relative_to(folder)): it.read_bytes() for it in folder.rglob("*") if it.is_file()}

    def view(self):
        page, work = self.page, self.work
        self.give("choose-image", "#pick-image", work / "board.img")
        page.until("the image is open", lambda: page.rows() == ["/", *self.listed])
        check = dict(line.split(" ", 1) for line in self.run("--check", work / "board.img").stdout.decode().splitlines()[1:])
        facts = self.facts()
        same("the facts", [facts["Files"], facts["Folders"], facts["Used"]], [check["files"], check["directories"], check["used"].replace(" blocks", "")])
        same("the verdict", page.text("#verdict"), "Accepted; nothing is left to recover")
        page.choose("/settings/wifi.json")
        page.until("its text is shown", lambda: '"ssid": "workshop"' in page.text("#panel"))
        page.choose("/www/logo.gif")
        page.until("the picture is shown", lambda: page.script("return document.querySelector('#panel img')?.naturalWidth") == 1)
        page.choose("/firmware.bin")
        page.until("bytes are shown", lambda: page.text("#panel").startswith("000000  " + FILES["firmware.bin"][:8].hex(" ")))
        page.button("#view", "Download")
        same("a file", page.downloaded("firmware.bin"), FILES["firmware.bin"])
        page.do("download-all")
        (work / "all.zip").write_bytes(page.downloaded("board.zip"))
        with zipfile.ZipFile(work / "all.zip") as archive:
            same("the .zip", {it: archive.read(it) for it in archive.namelist() if not it.endswith("/")}, FILES)
            same("its folders", "spare/" in archive.namelist(), True)
            day = time.strftime("%Y-%m-%d", time.gmtime((work / "board/empty").stat().st_mtime))
            same("its times", "%04d-%02d-%02d" % archive.getinfo("empty").date_time[:3], day)

    def proofs(self):
        """Where the proofs are: each path is there, and the link is CITATION.cff's address."""
        found = self.page.script("return [...document.querySelectorAll('#proofs code')].map((it) => it.textContent)")
        same("paths that aren't there", [it for it in found if not (TOP / it).exists() and not (TOP / "crates/lfs_fs" / it).exists()], [])
        links = self.page.script("return [...document.querySelectorAll('#proofs a')].map((it) => it.getAttribute('href'))")
        same("the link", links, re.findall(r"^repository-code: *(\S+)", (TOP / "CITATION.cff").read_text(), re.M))

    def keys(self):
        page = self.page
        page.choose("/")
        page.press("ArrowDown"), page.press("ArrowDown")
        same("the second row", page.chosen(), self.listed[1])
        page.press("End")
        same("the last row", page.chosen(), self.listed[-1])
        page.choose("/log")
        was = page.rows()
        page.press("ArrowLeft")
        page.until("a folder closes", lambda: len(page.rows()) < len(was))
        page.press("ArrowRight")
        page.until("a folder opens again", lambda: page.rows() == was)
        page.choose("/empty")
        page.press("Delete")
        page.until("a file is removed", lambda: "/empty" not in page.rows())
        page.choose("/log/today.csv")
        page.press("F2")
        page.answer(path="/log/2026-11-30.csv")
        page.until("a file has another path", lambda: page.chosen() == "/log/2026-11-30.csv")

    def change(self):
        page, work = self.page, self.work
        page.choose("/spare")
        page.do("new-folder")
        page.answer(name="")
        page.until("a name that is empty is refused", lambda: "isn't empty" in page.text("#ask .error"))
        page.answer(name="deep")
        page.until("a folder is made", lambda: "/spare/deep" in page.rows())
        (work / "new file.txt").write_text("added\n")
        self.give("add-files", "#pick-files", work / "new file.txt", work / "board/settings/name")
        page.until("files are added", lambda: {"/spare/deep/new file.txt", "/spare/deep/name"} <= set(page.rows()))
        if page.takes_folders:
            self.give("add-folder", "#pick-folder", work / "board/www")
            page.until("a folder is added", lambda: "/spare/deep/www/logo.gif" in page.rows())
        page.choose("/settings/wifi.json")
        page.button("#view", "Edit")
        page.script("document.querySelector('#panel textarea').value += '// changed'; document.querySelector('#panel button.main').click()")
        page.until("the text is put into the image", lambda: "// changed" in page.text("#panel"))
        page.do("save")
        wanted = {name: data for name, data in FILES.items() if name not in ("empty", "log/today.csv")}
        wanted |= {"log/2026-11-30.csv": FILES["log/today.csv"], "spare/deep/new file.txt": b"added\n", "spare/deep/name": FILES["settings/name"],
                   "settings/wifi.json": FILES["settings/wifi.json"] + b"// changed"}
        if page.takes_folders:
            wanted |= {f"spare/deep/{name}": data for name, data in FILES.items() if name.startswith("www/")}
        same("what the tool reads of it", self.unpacked(page.downloaded("board.img")), wanted)

    def refusals(self):
        page, work = self.page, self.work
        (work / "large").write_bytes(bytes(400000))
        page.choose("/")
        self.give("add-files", "#pick-files", work / "large")
        page.until("too much is refused", lambda: "too few blocks are free" in page.text("#status"))
        same("and isn't there", "/large" in page.rows(), False)
        page.do("close")
        page.answer()
        page.until("the image is closed", lambda: page.script("return document.querySelector('#image').hidden"))
        broken = bytearray((work / "board.img").read_bytes())
        for at in range(16, 60):
            broken[at] ^= 0x55
            broken[4096 + at] ^= 0x55
        (work / "broken.img").write_bytes(broken)
        self.give("choose-image", "#pick-image", work / "broken.img")
        reason = self.run("--check", "-b", "auto", "--also-2.1", work / "broken.img").stdout.decode().splitlines()[1]
        page.until("an image is refused, with the tool's reason", lambda: page.text("#refused .reason") == reason)
        with open(work / "huge.bin", "wb") as huge:
            huge.truncate(300 << 20)
        self.give("choose-image", "#pick-image", work / "huge.bin")
        page.until("no image is found in 300 MiB", lambda: "300 MiB" in page.text("#status") and "no superblock" in page.text("#status"))

    def flash(self):
        """A whole flash that has an image, and a folder of which an image is made."""
        page, work = self.page, self.work
        flash = random.Random(6).randbytes(0x90000) + (work / "board.img").read_bytes() + b"\xff" * 0x10000
        (work / "flash.bin").write_bytes(flash)
        self.give("choose-image", "#pick-image", work / "flash.bin")
        page.until("a part is found", lambda: "0x90000" in page.text("#refused .parts"))
        page.click("#refused .parts button")
        page.until("the part is open", lambda: page.rows() == ["/", *self.listed])
        page.choose("/empty")
        page.press("Delete")
        page.until("a file is removed", lambda: "/empty" not in page.rows())
        page.press("s", ctrlKey=True)
        saved = page.downloaded("flash.bin")
        same("the flash before and behind the image", [len(saved), saved[:0x90000], saved[-0x10000:]], [len(flash), flash[:0x90000], flash[-0x10000:]])
        plain = work / "plain"
        if page.takes_folders:
            shutil.copytree(work / "board", plain, ignore=shutil.ignore_patterns("spare"))
            self.give("choose-folder", "#pick-folder", plain)
        else:
            shutil.copytree(work / "board/log", plain)
            page.drop_texts({it.name: it.read_text() for it in plain.iterdir()})
        page.answer(size="8k")
        page.until("a folder that doesn't fit is refused", lambda: "2 blocks are too few" in page.text("#ask .error"))
        page.answer(size="auto")
        name = "plain.img" if page.takes_folders else "the files.img"
        page.until("an image is made", lambda: page.text("#image-name") == name)
        page.do("save")
        self.run("-c", plain, "-s", "auto", work / "auto.img")
        same("an image of a folder", page.downloaded(name), (work / "auto.img").read_bytes())
        page.do("new-empty")
        page.answer(size="1M")
        page.until("an empty image is made", lambda: page.text("#image-name") == "littlefs.img" and page.rows() == ["/"])
        if page.takes_folders:
            self.drops()

    def facts(self):
        return self.page.script("return Object.fromEntries([...document.querySelectorAll('#facts div')].map((it) => [it.firstChild.textContent, it.lastChild.textContent]))")

    def said(self):
        """Why an image is read only, and which of its pairs are the oldest."""
        page, work = self.page, self.work
        image = work / "worn.img"
        shutil.copy(work / "board.img", image)
        (work / "new").write_bytes(bytes(500))
        for _ in range(40):
            same("a put", self.run("--put", work / "new", "/worn", image).returncode, 0)
        page.script("document.querySelector('#options [name=inline]').value = '64'")
        self.give("choose-image", "#pick-image", image)
        page.answer()
        line = next(it for it in self.run("--check", "--inline-max", "64", image).stdout.decode().splitlines() if it.startswith("writable no: "))
        page.until("why it is read only", lambda: page.text("#verdict").endswith(f"It can be read only: {line.removeprefix('writable no: ')}"))
        revisions = [int.from_bytes(image.read_bytes()[at : at + 4], "little") for at in (0, 4096)]
        same("the oldest pair", self.facts()["Revisions of metadata pairs"].startswith(f"{max(revisions)} (blocks 0, 1); "), True)
        page.script("document.querySelector('#options [name=inline]').value = ''")

    def many(self):
        """10,000 files in a folder, and a file full of superblocks that promise what isn't there: the page never waits for a second."""
        page, work = self.page, self.work
        (work / "many/all").mkdir(parents=True)
        for number in range(10000):
            (work / f"many/all/file{number:05}").write_bytes(b"%d" % number)
        same("10,000 files", self.run("-c", work / "many", "-s", "4M", work / "listed.img").returncode, 0)
        (work / "hostile.bin").write_bytes((work / "listed.img").read_bytes()[:48].ljust(4096, b"\xff") * 16384)  # superblocks without a checksum
        page.script(PAUSES)
        pauses = []
        for _ in range(3):  # other programs make pauses, too: the shortest counts
            page.script("document.body.dataset.pause = 0")
            if page.takes_folders:
                self.give("choose-folder", "#pick-folder", work / "many")
                page.answer(size="4M")
                page.until("an image is made of them", lambda: self.facts().get("Files") == "10000", 300)
                page.do("save")
                same("an image of 10,000 files", page.downloaded("many.img"), (work / "listed.img").read_bytes())
            self.give("choose-image", "#pick-image", work / "listed.img")
            page.until("the first rows are shown", lambda: page.text("#image-name") == "listed.img" and len(page.rows()) == 202, 300)
            page.click("#tree .more")
            page.until("more rows are shown", lambda: len(page.rows()) == 402)
            page.choose("/all/file00399")
            page.until("a file is shown", lambda: page.text("#panel") == "399")
            page.press("Delete")
            page.until("a file is removed", lambda: self.facts()["Files"] == "9999")
            page.do("save")
            same("the rest", len(self.unpacked(page.downloaded("listed.img"))), 9999)
            self.give("choose-image", "#pick-image", work / "hostile.bin")
            page.until("it is refused", lambda: not page.script("return document.querySelector('#refused').hidden"), 300)
            pauses.append(page.script("return Number(document.body.dataset.pause)"))
        same("a pause of a second", min(pauses) if min(pauses) > 1000 else None, None)
        return min(pauses)

    def lacking(self, file):
        """The page in a browser that has no CompressionStream, and in one that grants no memory for a file."""
        page, lacking = self.page, self.work / "lacking.html"
        for script, seen in (("delete window.CompressionStream", "no CompressionStream: take a newer one"), (NO_MEMORY, "")):
            lacking.write_text(re.sub("<meta http-equiv=[^>]*>", lambda _: f"<script>{script}</script>", file.read_text(), count=1))
            page.open(lacking.as_uri())
            page.until("what it lacks is said", lambda: seen in page.text("#status"))
        page.do("new-empty")
        page.answer(size="1M")
        page.until("an empty image is made", lambda: page.rows() == ["/"])
        self.give("choose-image", "#pick-image", self.work / "board.img")
        page.answer()
        page.until("that memory is refused is said", lambda: page.text("#status") == "The browser granted no memory for this: none is left")
        same("the image that was open", [page.text("#image-name"), page.rows()], ["littlefs.img", ["/"]])

    def drops(self):
        page, work = self.page, self.work
        page.drop("#image .columns", work / "board/www")
        page.until("a folder is dropped into the image", lambda: page.rows() == ["/", "/www", "/www/index.html", "/www/logo.gif"])
        page.drop("#image .columns", work / "board/firmware.bin")
        page.until("a file is dropped into it", lambda: "/firmware.bin" in page.rows())


def main():
    parser = argparse.ArgumentParser(usage=__doc__.split("usage: ")[1].split("\n")[0])
    parser.add_argument("--page", type=Path, default=TOP / "page/out/index.html")
    parser.add_argument("which", nargs="*", choices=[[], "chromium", "firefox"])
    given = parser.parse_args()
    for name in given.which or ["chromium", "firefox"]:
        with tempfile.TemporaryDirectory(ignore_cleanup_errors=True) as folder:
            work, profile, saved = [Path(folder) / it for it in ("work", "profile", "saved")]
            for it in (work, profile, saved):
                it.mkdir()
            address = given.page.resolve().as_uri()
            page = getattr(browsers, name.capitalize())(address, profile, saved)
            try:
                page.until("the library starts", lambda: page.script("return document.body.dataset.ready") == "yes")
                use = Use(page, work)
                use.proofs(), use.view(), use.keys(), use.change(), use.refusals(), use.flash(), use.said()
                pause = use.many()
                if name == "chromium":
                    same("nothing else is asked for", [it for it in page.requests() if not it.startswith((address, "blob:", "data:", "chrome:"))], [])
                use.lacking(given.page)
            finally:
                page.quit()
        print(f"{page.name}: all as it should be; the longest pause with 10,000 files and with a hostile file: {pause:.0f} ms", flush=True)


if __name__ == "__main__":
    main()
