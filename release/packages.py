#!/usr/bin/python3
"""Packs what ports/build.py made into release/out, as README.md here says, with SHA256SUMS."""

import email.utils
import gzip
import hashlib
import json
import os
from pathlib import Path
import re
import shutil
import subprocess
import sys
import tempfile
import time

TOP = Path(__file__).resolve().parent.parent
sys.path[:0] = [str(TOP / it) for it in ("bindings/python", "page", "ports")]
import build as page
import build_wheel
import rattle_words

NAME, VERSION = "mklittlefs", build_wheel.VERSION
PORTS, OUT = TOP / "ports/out", TOP / "release/out"
SHARED = f"liblittlefs_c.so.{VERSION}"
MACHINES = {"x86_64": ("amd64", "x86_64-linux-gnu"), "aarch64": ("arm64", "aarch64-linux-gnu")}
MAINTAINER = "littlefs proved developers <nobody@example.org>"  # whoever releases it writes an address here
LFS = ["lfs.c", "lfs.h", "lfs_util.c", "lfs_util.h"]
SUMMARY = "make, check, unpack and change images of littlefs"
COPYRIGHT = f"""The program is linked with crates whose licences follow, and with the GNU C Library, which is under the LGPL 2.1 or later.
{NAME}.o is the program's own code, to link it with another version: cc -static -o {NAME} {NAME}.o

"""


def output(words):
    return subprocess.run([str(it) for it in words], cwd=TOP, check=True, stdout=subprocess.PIPE).stdout


WHEN = int(os.environ.get("SOURCE_DATE_EPOCH") or output(["git", "log", "-1", "--format=%ct"]))


def licences():
    """Returns the licence, and those of the kit's crates that are linked, as THIRD_PARTY.md lists them."""
    others = re.findall(r"^\| `(\w+)`.*?\| `(LICENSE[\w-]*)`", (TOP / "THIRD_PARTY.md").read_text(), re.M)
    texts = [(TOP / "LICENSE").read_text(), *[f"==== {name}\n\n{(rattle_words.kit() / 'rattle' / name / file).read_text()}" for name, file in others]]
    return "\n\n".join(texts)


def packed(data):
    return gzip.compress(data, 9, mtime=0)


def manual():
    """Returns the manual page, packed: what the tool prints for --help."""
    text = output([PORTS / "x86_64" / NAME, "--help"]).decode()
    lines = [it.replace("\\", "\\e").replace("-", "\\-") for it in text.splitlines()]
    body = "".join(("\\&" if it.startswith((".", "'")) else "") + it + "\n" for it in lines)
    head = f'.TH MKLITTLEFS 1 "" "littlefs, proved {VERSION}" "User Commands"\n.SH NAME\n{NAME} \\- {SUMMARY}\n.SH DESCRIPTION\n.nf\n'
    return packed(f"{head}{body}.fi\n".encode())


# ---- what is in a package: each file's bytes, or a link's text, by its path

def configured(name, libdir, shared):
    """Returns one of the files by which a build finds the library, for a package with these paths."""
    up = "/".join([".."] * (len(Path(libdir).parts) + (2 if name.endswith(".cmake") else 1)))
    text = (TOP / "release" / name).read_text()
    for word, value in (("PREFIX", up), ("LIBDIR", libdir), ("SHARED", shared), ("VERSION", VERSION)):
        text = text.replace(f"@{word}@", value)
    return text.encode()


def beside_library(name, libdir, shared):
    """Returns what a package has beside the library: the header, littlefs's own as source, files for builds, and documents."""
    cmake, documents, bindings = f"{libdir}/cmake/littlefs_c", f"share/doc/{name}", TOP / "bindings"
    return {
        "include/littlefs_c.h": (bindings / "c/littlefs_c.h").read_bytes(),
        **{f"share/littlefs_c/lfs/{it}": (bindings / "lfs" / it).read_bytes().replace(b"../c/littlefs_c.h", b"littlefs_c.h") for it in LFS},
        f"{libdir}/pkgconfig/littlefs_c.pc": configured("littlefs_c.pc", libdir, shared),
        **{f"{cmake}/{it}": configured(it, libdir, shared) for it in ("littlefs_c-config.cmake", "littlefs_c-config-version.cmake")},
        f"{documents}/example.c": (bindings / "c/example.c").read_bytes(),
        f"{documents}/lfs_example.c": (bindings / "lfs/example.c").read_bytes(),
        f"{documents}/CHANGELOG.md": (TOP / "CHANGELOG.md").read_bytes(),
        f"{documents}/LICENSE": licences().encode(),
    }


def files_for_linux(machine, libdir="lib"):
    made = PORTS / machine
    return {
        f"bin/{NAME}": (made / NAME).read_bytes(),
        f"{libdir}/liblittlefs_c.a": (made / "liblittlefs_c.a").read_bytes(),
        f"{libdir}/{SHARED}": (made / "littlefs_c.so").read_bytes(),
        f"{libdir}/liblittlefs_c.so.1": SHARED,
        f"{libdir}/liblittlefs_c.so": SHARED,
        f"{libdir}/{NAME}/{NAME}.o": (made / "program.o").read_bytes(),
        f"share/man/man1/{NAME}.1.gz": manual(),
        **beside_library(NAME, libdir, f"{libdir}/{SHARED}"),
    }


def files_for_windows():
    made = {"bin": ["littlefs_c.dll"], "lib": ["liblittlefs_c.a", "liblittlefs_c.dll.a"]}
    libraries = {f"{folder}/{it}": (PORTS / "windows" / it).read_bytes() for folder, names in made.items() for it in names}
    return {**libraries, **beside_library("littlefs_c", "lib", "bin/littlefs_c.dll")}


# ---- packages

def stage(root, files):
    """Puts files into a folder of their own."""
    for path, file in files.items():
        at = root / path
        at.parent.mkdir(parents=True, exist_ok=True)
        if isinstance(file, str):
            at.symlink_to(file)
        else:
            at.write_bytes(file)
            at.chmod(0o755 if at.name in (NAME, f"{NAME}.js") else 0o644)
    for at in [root, *root.rglob("*")]:
        if at.is_dir() and not at.is_symlink():
            at.chmod(0o755)
        os.utime(at, (WHEN, WHEN), follow_symlinks=False)


def tarball(name, top, files):
    with tempfile.TemporaryDirectory() as folder:
        stage(Path(folder) / top, files)
        (OUT / name).write_bytes(packed(output(["tar", "--sort=name", "--owner=root:0", "--group=root:0", "-C", folder, "-cf", "-", top])))


def zipped(top, files):
    build_wheel.write_zip(OUT / f"{top}.zip", {f"{top}/{path}": data for path, data in sorted(files.items())}, time.gmtime(WHEN)[:6])


def debian(machine):
    """Packs the Debian package, with the files at Debian's paths."""
    arch, libdir = MACHINES[machine]
    date = email.utils.formatdate(WHEN)
    changes = f"{NAME} ({VERSION}-1) unstable; urgency=medium\n\n  * Release {VERSION}: CHANGELOG.md says what is in it.\n\n -- {MAINTAINER}  {date}\n"
    files = {f"usr/{path}": file for path, file in files_for_linux(machine, f"lib/{libdir}").items()}
    files |= {f"usr/share/doc/{NAME}/changelog.Debian.gz": packed(changes.encode()), f"usr/share/doc/{NAME}/copyright": (COPYRIGHT + licences()).encode()}
    size = sum((len(it) + 1023) // 1024 for it in files.values() if isinstance(it, bytes)) + len(files)
    control = f"""Package: {NAME}
Version: {VERSION}-1
Architecture: {arch}
Maintainer: {MAINTAINER}
Depends: libc6 (>= 2.17)
Installed-Size: {size}
Section: utils
Priority: optional
Description: {SUMMARY}
 The program mklittlefs makes images of folders in the format of the flash
 file system littlefs, and lists, checks, unpacks and changes them. With it
 comes littlefs_c, a library for C over images in memory. Their code is proved
 to keep its contracts. Over it is littlefs's own interface, lfs.h, as source.
"""
    about = {"control": control, "triggers": "activate-noawait ldconfig\n"}
    with tempfile.TemporaryDirectory() as folder:
        stage(Path(folder), {**files, **{f"DEBIAN/{name}": text.encode() for name, text in about.items()}})
        to, env = OUT / f"{NAME}_{VERSION}-1_{arch}.deb", {**os.environ, "SOURCE_DATE_EPOCH": str(WHEN)}
        subprocess.run(["dpkg-deb", "--root-owner-group", "-Zxz", "--threads-max=1", "--build", folder, to], check=True, env=env, stdout=subprocess.DEVNULL)


def wheel_for_linux(machine):
    library = PORTS / machine / "littlefs_c.so"
    needed = [tuple(map(int, it.split("."))) for it in re.findall(r"GLIBC_([\d.]+)", output(["readelf", "-W", "--version-info", library]).decode())]
    if max(needed) > (2, 17):
        sys.exit(f"{library} needs a glibc above 2.17, and the tag of its wheel and the Debian package say that 2.17 is enough")
    build_wheel.write_wheel(OUT, library, f"py3-none-manylinux_2_17_{machine}", licences())


def npm():
    """Packs what package.json lists; not by npm, whose versions make other bytes."""
    scripts, files = TOP / "bindings/js", {}
    about = json.loads((scripts / "package.json").read_text())
    for name in ["package.json", *about["files"]]:
        files[name] = licences().encode() if name == "LICENSE" else ((PORTS / "wasm" if name.endswith(".wasm") else scripts) / name).read_bytes()
    tarball(f"{about['name']}-{about['version']}.tgz", "package", files)


def main():
    shutil.rmtree(OUT, ignore_errors=True)
    OUT.mkdir()
    for machine in MACHINES:
        name = f"{NAME}-{VERSION}-linux-{machine}"
        tarball(f"{name}.tar.gz", name, files_for_linux(machine))
        debian(machine)
        wheel_for_linux(machine)
    zipped(f"littlefs_c-{VERSION}-windows-x86_64", files_for_windows())
    build_wheel.write_wheel(OUT, PORTS / "windows/littlefs_c.dll", "py3-none-win_amd64", licences())
    npm()
    (OUT / f"littlefs-page-{VERSION}.html").write_text(page.page(licences()))
    made = sorted(OUT.iterdir())
    (OUT / "SHA256SUMS").write_text("".join(f"{hashlib.sha256(it.read_bytes()).hexdigest()}  {it.name}\n" for it in made))
    for it in made:
        print(f"{it.stat().st_size:>9}  {it.name}")


if __name__ == "__main__":
    main()
