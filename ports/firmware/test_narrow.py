#!/usr/bin/env python3
"""Tests narrow.py: the forms that it changes, and forms that it has to refuse.

usage: ports/firmware/test_narrow.py [--clang CLANG]

With --clang each changed form is also compiled for a Cortex-M0 and for 32-bit RISC-V, by that clang.
"""

import argparse
import subprocess
import sys

import narrow

# of each form the line, and the lines that it becomes
CHANGED = [
    ("%a = alloca ptr, align 8", ["%a = alloca i64, align 8"]),
    ("%a = alloca { i8, ptr }, align 8", ["%a = alloca { i8, i64 }, align 8"]),
    ("%a = alloca [24 x i8], align 8", ["%a = alloca [24 x i8], align 8"]),
    ("%a = load ptr, ptr %p, align 8, !noundef !1", ["%narrow.1 = load i64, ptr %p, align 8, !noundef !1", "%a = inttoptr i64 %narrow.1 to ptr"]),
    ("%a = load i64, ptr %p, align 8", ["%a = load i64, ptr %p, align 8"]),
    ("%a = load { i64, ptr }, ptr %p, align 8", [
        "%narrow.1 = load { i64, i64 }, ptr %p, align 8",
        "%narrow.2 = extractvalue { i64, i64 } %narrow.1, 0",
        "%narrow.3 = insertvalue { i64, ptr } poison, i64 %narrow.2, 0",
        "%narrow.4 = extractvalue { i64, i64 } %narrow.1, 1",
        "%narrow.5 = inttoptr i64 %narrow.4 to ptr",
        "%a = insertvalue { i64, ptr } %narrow.3, ptr %narrow.5, 1"]),
    ("store ptr null, ptr %p, align 8", ["store i64 0, ptr %p, align 8"]),
    ("store ptr %q, ptr %p, align 8", ["%narrow.1 = ptrtoint ptr %q to i64", "store i64 %narrow.1, ptr %p, align 8"]),
    ("store i64 7, ptr %p, align 8", ["store i64 7, ptr %p, align 8"]),
    ("store { ptr, i8 } %s, ptr %p, align 8", [
        "%narrow.1 = extractvalue { ptr, i8 } %s, 0",
        "%narrow.3 = ptrtoint ptr %narrow.1 to i64",
        "%narrow.2 = insertvalue { i64, i8 } poison, i64 %narrow.3, 0",
        "%narrow.4 = extractvalue { ptr, i8 } %s, 1",
        "%narrow.5 = insertvalue { i64, i8 } %narrow.2, i8 %narrow.4, 1",
        "store { i64, i8 } %narrow.5, ptr %p, align 8"]),
    ("call void @llvm.memset.p0.i64(ptr %p, i8 0, i64 24, i1 false)", ["call void @llvm.memset.p0.i32(ptr %p, i8 0, i32 24, i1 false)"]),
    ("call void @llvm.memcpy.p0.p0.i64(ptr %p, ptr %q, i64 %n, i1 false)", [
        "%narrow.1 = trunc i64 %n to i32", "call void @llvm.memcpy.p0.p0.i32(ptr %p, ptr %q, i32 %narrow.1, i1 false)"]),
    ("%a = call ptr @malloc(i64 %n)", [
        "%narrow.1 = icmp ult i64 %n, 2147483648", "%narrow.2 = select i1 %narrow.1, i64 %n, i64 2147483648",
        "%narrow.3 = trunc i64 %narrow.2 to i32", "%a = call ptr @malloc(i32 %narrow.3)"]),
    ("%a = getelementptr inbounds i8, ptr %p, i64 %n", ["%a = getelementptr inbounds i8, ptr %p, i64 %n"]),
    ("%a = ptrtoint ptr %p to i64", ["%a = ptrtoint ptr %p to i64"]),
    ("%a = icmp ult ptr %p, %q", ["%a = icmp ult ptr %p, %q"]),
    ("%a = select i1 %c, ptr %p, ptr %q", ["%a = select i1 %c, ptr %p, ptr %q"]),
]

# forms whose meaning depends on how wide a pointer is, or that no module for x86-64 had when this was written
REFUSED = [
    "%a = getelementptr ptr, ptr %p, i64 %n",
    "%a = getelementptr inbounds { ptr, i64 }, ptr %p, i64 0, i32 1",
    "%a = getelementptr [4 x ptr], ptr %p, i64 0, i64 %n",
    "%a = getelementptr i8, <2 x ptr> %v, i64 1",
    "%a = alloca [4 x ptr], align 8",
    "%a = alloca { [2 x ptr], i64 }, align 8",
    "%a = alloca ptr, i64 %n, align 8",
    "%a = alloca %struct, align 8",
    "%a = load <2 x ptr>, ptr %p, align 16",
    "%a = load [2 x ptr], ptr %p, align 8",
    "%a = load { { ptr, i64 }, i64 }, ptr %p, align 8",
    "%a = load volatile ptr, ptr %p, align 8",
    "%a = load atomic ptr, ptr %p seq_cst, align 8",
    "%a = load %struct, ptr %p, align 8",
    "store <2 x ptr> %v, ptr %p, align 16",
    "store volatile ptr %q, ptr %p, align 8",
    "store { ptr, i64 } { ptr null, i64 1 }, ptr %p, align 8",
    "store ptr getelementptr (i8, ptr @g, i64 8), ptr %p, align 8",
    "%a = ptrtoint ptr %p to i32",
    "%a = ptrtoint ptr %p to i128",
    "%a = inttoptr i32 %n to ptr",
    "%a = inttoptr i128 %n to ptr",
    "%a = addrspacecast ptr %p to ptr addrspace(1)",
    "%a = cmpxchg ptr %p, i64 0, i64 1 seq_cst seq_cst, align 8",
    "%a = atomicrmw add ptr %p, i64 1 seq_cst, align 8",
    "fence seq_cst",
    "%a = va_arg ptr %p, i64",
    "indirectbr ptr %p, [label %b]",
    "%a = invoke i64 @f(ptr %p) to label %b unwind label %c",
    "%a = landingpad { ptr, i32 } cleanup",
    "resume { ptr, i32 } %e",
    "%a = call ptr @llvm.ptrmask.p0.i64(ptr %p, i64 -8)",
    "%a = call i64 @llvm.objectsize.i64.p0(ptr %p, i1 false, i1 true, i1 false)",
    "call void @llvm.memset.p0.i64(ptr %p, i8 0, i64 4294967296, i1 false)",
    "call void @llvm.memset.p0.i64(ptr %p, i8 0, i64 %n, i1 true)",
    "call void @f(ptr byval({ ptr, i64 }) %p)",
    "call void @f(ptr sret({ ptr, i64 }) %p)",
    "call void (ptr, ...) @f(ptr %p, i32 1)",
    'call void asm sideeffect "nop", ""()',
    "%a = phi <2 x ptr> [ %p, %b ], [ %q, %c ]",
    "%a = extractvalue [2 x ptr] %v, 0",
    "%a = insertelement <2 x ptr> %v, ptr %p, i32 0",
    "%a = bitcast ptr %p to <2 x i32>",
    "%a = icmp eq <2 x ptr> %v, %w",
    "ret [2 x ptr] %v",
    "%a = fadd double %x, %y",
    "an instruction of a later LLVM",
]

# lines outside of functions
REFUSED_AROUND = [
    "@g = constant ptr @f",
    "@g = constant { ptr, i64 } { ptr @f, i64 1 }",
    "@g = constant [2 x ptr] zeroinitializer",
    "%struct = type { ptr, i64 }",
    "declare i64 @strlen(ptr)",
    "declare ptr @malloc(i128)",
    "declare ptr @llvm.ptrmask.p0.i64(ptr, i64)",
    "declare void @lfs_flash_read(ptr byval(i64))",
    'module asm "nop"',
    "$g = comdat any",
]


def function(line):
    return f"define internal void @f(ptr %p) {{\nstart:\n  {line}\n}}\n"


def refuses(text):
    try:
        narrow.narrowed(text, ("lfs_flash_read",))
    except SystemExit as error:
        return str(error).startswith("narrow: a form that isn't known: ")
    return False


def compiles(clang, line):
    """Returns whether a form that was changed is right for LLVM, on machines with 32-bit pointers."""
    heads = "declare void @llvm.memset.p0.i64(ptr, i8, i64, i1 immarg)\ndeclare void @llvm.memcpy.p0.p0.i64(ptr, ptr, i64, i1 immarg)\ndeclare ptr @malloc(i64)\n"
    text = narrow.narrowed(f"{heads}define void @f(ptr %p, ptr %q, i64 %n, i1 %c, {{ ptr, i8 }} %s) {{\nstart:\n  {line}\n  ret void\n}}\n!1 = !{{}}\n")
    for triple in ("thumbv6m-none-unknown-eabi", "riscv32-unknown-unknown-elf"):
        words = [clang, f"--target={triple}", "-Wno-override-module", "-x", "ir", "-", "-c", "-o", "/dev/null"]
        if subprocess.run(words, input=text, text=True).returncode:
            return False
    return True


def main():
    parser = argparse.ArgumentParser(usage=__doc__.split("usage: ")[1].split("\n\n")[0])
    parser.add_argument("--clang")
    given = parser.parse_args()
    wrong = []
    for line, wanted in CHANGED:
        came = narrow.narrowed(function(line)).splitlines()[2:-1]
        if came != [f"  {it}" for it in wanted]:
            wrong.append(f"{line}\n  became {came}")
        if given.clang and not compiles(given.clang, line):
            wrong.append(f"{line}\n  isn't compiled")
    wrong += [f"{line}\n  wasn't refused" for line in REFUSED if not refuses(function(line))]
    wrong += [f"{line}\n  wasn't refused" for line in REFUSED_AROUND if not refuses(f"{line}\n")]
    print("\n".join(wrong + [f"{len(CHANGED)} forms are changed, {len(REFUSED) + len(REFUSED_AROUND)} refused; {len(wrong)} are wrong"]))
    return len(wrong) > 0


if __name__ == "__main__":
    sys.exit(main())
