"""Builds a crate with the kit's `rattle build` as `rt` does, and keeps what clang is given: the module before it is optimized."""

import os
from pathlib import Path
import re
import shutil
import subprocess
import sys

TOP = Path(__file__).resolve().parent.parent
X86_64 = "x86_64-unknown-linux-gnu"


def kit():
    """Returns the folder of the Rattle kit, found by its command rt."""
    found = shutil.which("rt")
    if not found:
        sys.exit("there is no command rt: the Rattle kit is needed (README.md, \"Start\")")
    return Path(found).resolve().parent.parent


def words_of(name):
    """Returns the words that rt gives `rattle build` for a crate, and whether it is a static library. What it uses has to be built."""
    sys.dont_write_bytecode, os.environ["RT_ALLOW_C"] = True, name
    sys.path.append(str(kit() / "bin"))
    import rtlib
    crate = rtlib.Crate(str(TOP / "crates" / name), str(TOP), {})
    missing = [it.name for it in crate.below() if not os.path.isdir(it.rlib)]
    if missing:
        sys.exit(f"{', '.join(missing)}: not built. Run `rt {'lib' if crate.is_static else 'run'}` in crates/{name}")
    return crate.words(["--jobs", os.environ.get("JOBS", "1"), "--target", X86_64, "--backend", "llvm", *rtlib.KEPT]), crate.is_static


def toolchain_that_keeps(folder):
    """Copies the kit's toolchain, with a clang that also leaves its words and its module in a folder; returns the copy's path."""
    made, given = Path(folder) / "toolchain", kit() / "toolchain"
    shutil.rmtree(made, ignore_errors=True)
    shutil.copytree(given, made, copy_function=os.symlink)
    script = made / "bin" / "clang"
    script.unlink()
    script.write_text(f"""#!/bin/sh
# the kit's clang; the module that it is given is kept, with the words
for word; do
    case $word in *.bc) [ -f "$word" ] && cp "$word" '{folder}/module.bc' && chmod u+rw '{folder}/module.bc' && printf '%s\\n' "$@" > '{folder}/words';; esac
done
exec '{given}/bin/clang' "$@"
""")
    script.chmod(0o755)
    return made


def lift(name, kept):
    """Builds a crate for x86-64 from what `rt lib` or `rt run` kept, and returns rattle's verdict.

    Leaves in the folder `kept` the module that clang was given, `module.ll`, clang's `words`, and what clang made of it, `x86_64.o`
    or, of a static library, `x86_64.a`.
    """
    kept = Path(kept).resolve()
    shutil.rmtree(kept, ignore_errors=True)
    kept.mkdir(parents=True)
    words, is_static = words_of(name)
    words = [kit() / "bin/rattle", "build", *words, "--toolchain", toolchain_that_keeps(kept), "-o", kept / ("x86_64.a" if is_static else "x86_64.o")]
    ran = subprocess.run(words, cwd=TOP / "crates" / name, stdout=subprocess.PIPE, stderr=subprocess.STDOUT, text=True)
    (kept / "log").write_text(ran.stdout)
    verdict = ran.stdout.rstrip().rpartition("\n")[2]
    if ran.returncode or not re.match(r"logic=proved ", verdict) or not (kept / "module.bc").is_file():
        sys.exit(f"{ran.stdout}\nrattle didn't build {name}: its lines are in {kept / 'log'}")
    subprocess.run([kit() / "toolchain/bin/clang", f"--target={X86_64}", "-x", "ir", kept / "module.bc", "-S", "-emit-llvm", "-O0", "-Xclang",
                    "-disable-llvm-passes", "-o", kept / "module.ll"], check=True)
    return verdict
