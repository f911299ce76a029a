#!/usr/bin/env python3
"""Builds the library and the tool for each platform, from the proved crates, into ports/out.

usage: ports/build.py [x86_64] [aarch64] [wasm] [windows]

Without a name all are built. `rt lib` in crates/littlefs_c and `rt run` in crates/mklittlefs come first: they prove the crates. The
modules that clang is given stay in ports/out/kept until rt builds the crates again. README.md here says how a platform is built, and
release/README.md what has to be installed.
"""

import argparse
from pathlib import Path
import re
import subprocess
import sys

import module
import rattle_words
from rattle_words import TOP

PORTS = TOP / "ports"
OUT = PORTS / "out"
CRATES = {"littlefs_c": "liblittlefs_c.a", "mklittlefs": "mklittlefs.o"}  # with what rt leaves of each in its folder out
AARCH64, WASM64, WINDOWS = "aarch64-unknown-linux-gnu", "wasm64-unknown-unknown", "x86_64-w64-windows-gnu"
WASM_FEATURES = ["-mcpu=mvp", "-mbulk-memory", "-msign-ext", "-mmutable-globals"]
STACK = 1 << 20
CLANG = rattle_words.kit() / "toolchain/bin/clang"
EMSCRIPTEN = Path("/usr/share/emscripten/system")


def run(*words, **how):
    subprocess.run([str(it) for it in words], check=True, **how)


def exports():
    """Returns the calls that littlefs_c.h declares."""
    text = (TOP / "bindings/c/littlefs_c.h").read_text()
    return sorted(set(re.findall(r"^int64_t (lfs_c_\w+)\(", text, re.M)))


def is_kept(crate):
    """Returns whether the module of a crate is newer than what rt has built of it."""
    built, kept = TOP / "crates" / crate / "out" / CRATES[crate], OUT / "kept" / crate / "module.ll"
    if not built.is_file():
        sys.exit(f"{crate} isn't built: run `rt lib` in crates/littlefs_c and `rt run` in crates/mklittlefs")
    return kept.is_file() and kept.stat().st_mtime > built.stat().st_mtime


def fresh(folder):
    folder.mkdir(parents=True, exist_ok=True)
    return folder


# ---- Linux and Windows

def archive(prefix, made, archives, objects):
    """Makes liblittlefs_c.a of other archives and of objects, without times and owners."""
    to = made / "liblittlefs_c.a"
    to.unlink(missing_ok=True)
    lines = [f"create {to}", *[f"addlib {it}" for it in archives], *[f"addmod {it}" for it in objects], "save", "end"]
    run(f"{prefix}ar", "-M", input="\n".join(lines) + "\n", text=True)
    run(f"{prefix}ar", "sD", to)


def library_for_linux(prefix, made, archives, objects):
    """Makes the static library, and of all of it a shared one that exports the calls of the header alone."""
    archive(prefix, made, archives, objects)
    script = made / "littlefs_c.map"
    script.write_text("{ global: " + " ".join(f"{it};" for it in exports()) + " local: *; };\n")
    run(f"{prefix}gcc", "-shared", "-s", "-o", made / "littlefs_c.so", "-Wl,--whole-archive", made / "liblittlefs_c.a", "-Wl,--no-whole-archive", "-Wl,--gc-sections",
        "-Wl,-z,defs", f"-Wl,--version-script={script}", "-Wl,-soname,liblittlefs_c.so.1", "-Wl,--build-id=none")


def tool_for_linux(prefix, made, objects):
    """Links the tool, from one object that has all of its own code."""
    run(f"{prefix}gcc", "-r", "-nostdlib", "-Wl,--build-id=none", "-o", made / "program.o", *objects)
    run(f"{prefix}gcc", "-static", "-s", "-Wl,--gc-sections", "-Wl,--build-id=none", "-o", made / "mklittlefs", made / "program.o")


def for_x86_64(crate, made, kept):
    runtime = rattle_words.kit() / "c"
    if crate == "littlefs_c":
        library_for_linux("", made, [kept / "x86_64.a", runtime / "liblibc_c.a"], [])
    else:
        tool_for_linux("", made, [kept / "x86_64.o", runtime / "libos_c.a", runtime / "liblibc_c.a"])


def for_aarch64(crate, made, kept):
    proved, prefix = module.compile_module(kept, fresh(made / "parts" / crate), AARCH64, "-fPIC", keeps_probes=True), "aarch64-linux-gnu-"
    if crate == "littlefs_c":
        return library_for_linux(prefix, made, [], [proved])
    run(f"{prefix}gcc", "-std=c11", "-Wall", "-Wextra", "-Werror", "-O2", f"-ffile-prefix-map={TOP}=.", "-fPIC", "-c", PORTS / "os.c", "-o", made / "os.o")
    tool_for_linux(prefix, made, [proved, made / "os.o"])


def for_windows(crate, made, kept):
    if crate != "littlefs_c":
        return
    proved, prefix = module.compile_module(kept, fresh(made / "parts"), WINDOWS), "x86_64-w64-mingw32-"
    archive(prefix, made, [], [proved])
    definitions = made / "littlefs_c.def"
    definitions.write_text("EXPORTS\n" + "".join(f"{it}\n" for it in exports()))
    # both make numbers and names of the path that they write to, so it is the same everywhere
    run(f"{prefix}gcc", "-shared", "-s", "-Wl,--no-insert-timestamp", "-o", "littlefs_c.dll", definitions, proved, cwd=made)
    run(f"{prefix}dlltool", "-d", definitions, "-D", "littlefs_c.dll", "-l", "liblittlefs_c.dll.a", cwd=made)


# ---- WebAssembly

def c_for_wasm(made):
    """Compiles what a module has of C: memory, comparisons of bytes, and products and shifts of 128 bits."""
    words = [f"--target={WASM64}", *WASM_FEATURES, "--no-default-config", "-std=gnu11", "-Wall", "-Wextra", "-Werror", "-O2"]
    for folder in ("lib", "lib/libc/musl/include", "lib/libc/musl/arch/emscripten", "include"):
        words += ["-isystem", EMSCRIPTEN / folder]
    sources = [PORTS / "wasm.c", *[EMSCRIPTEN / f"lib/compiler-rt/lib/builtins/{it}.c" for it in ("multi3", "ashlti3", "lshrti3")]]
    for source in sources:
        run(CLANG, *words, "-ffunction-sections", "-c", source, "-o", made / f"{source.stem}.o")
    return [made / f"{it.stem}.o" for it in sources]


def link_wasm(made, objects, names, imports, to):
    """Links a module. The stack is below the data, so it can't run into it: it traps. What isn't there is the host's to give."""
    linker = made / "wasm-ld"
    linker.unlink(missing_ok=True)
    linker.symlink_to(CLANG)
    run(linker, "-mwasm64", "--no-entry", "--gc-sections", "--strip-all", "--stack-first", "-z", f"stack-size={STACK}", *["--import-undefined"] * imports,
        *[f"--export={it}" for it in names], "-o", to, *objects)


def for_wasm(crate, made, kept):
    """Makes a module of 64-bit memory, and of it one of 32-bit addresses, optimized again, whose functions still take and return pointers of 64 bits."""
    at, name = fresh(made / "parts" / crate), crate.removesuffix("_c")
    proved = module.compile_module(kept, at, WASM64, *WASM_FEATURES)
    names, imports = (["malloc", "free", *exports()], False) if crate == "littlefs_c" else (["main"], True)
    link_wasm(at, [proved, *c_for_wasm(at)], names, imports, made / f"{name}64.wasm")
    run("wasm-opt", "--enable-memory64", "--enable-bulk-memory", "--enable-sign-ext", "--enable-mutable-globals", "--memory64-lowering", "-O2", made / f"{name}64.wasm",
        "-o", made / f"{name}.wasm")


BUILDS = {"x86_64": for_x86_64, "aarch64": for_aarch64, "wasm": for_wasm, "windows": for_windows}


def main():
    parser = argparse.ArgumentParser(usage=__doc__.split("usage: ")[1].split("\n")[0])
    parser.add_argument("which", nargs="*", choices=[[], *BUILDS])
    which = parser.parse_args().which or BUILDS
    for crate in CRATES:
        if not is_kept(crate):
            print(f"{crate}: {rattle_words.lift(crate, OUT / 'kept' / crate)}", flush=True)
        for name in which:
            BUILDS[name](crate, fresh(OUT / name), OUT / "kept" / crate)
            print(f"{crate} for {name}: in {OUT / name}", flush=True)


if __name__ == "__main__":
    main()
