"""The module that clang is given for x86-64, before it is optimized, as one for another machine with 64-bit pointers, lowest byte first."""

import re
import subprocess
import sys

from rattle_words import X86_64, kit

# what a module says to one machine alone; the module before it is optimized has none of it
FOREIGN = re.compile(r"@llvm\.(x86|aarch64)\.|module asm|asm sideeffect|<vscale|\b(thread_local|fence|cmpxchg|atomicrmw|blockaddress|x86_fp80|byval|sret)\b(?!\.)")
# what clang is told of x86-64, of its files, and of its own output
FOR_X86_64 = re.compile(r"--target=.*|--sysroot=.*|-march=.*|-mtune=.*|-mcmodel=.*|-c|-fPIE|-fPIC|-fpic|-fpie")

# The three calls for memory, over malloc: what the kit's c/liblibc_c.a is for x86-64, with the contracts of its rattle/libc/src/heap.rt.
# They are LLVM's text, since C of Windows returns two numbers in another way. A block has at least `size` bytes, and `align` divides its
# address: malloc keeps that, since `align` is at most 16. A size of 0 asks for `align` bytes, so a block is never null.
HEAP = """
declare ptr @malloc(i64)
declare ptr @realloc(ptr, i64)
declare void @free(ptr)
@"heap nothing" = internal global [16 x i8] zeroinitializer, align 16

define internal RESULT @"heap tried"(ptr %at) nounwind {
  %is = icmp ne ptr %at, null
  %ok = zext i1 %is to i64
  %there = select i1 %is, ptr %at, ptr @"heap nothing"
  %number = ptrtoint ptr %there to i64
  %one = insertvalue RESULT poison, i64 %ok, 0
  %both = insertvalue RESULT %one, i64 %number, 1
  ret RESULT %both
}

define internal RESULT @rattle_alloc(i64 %size, i64 %align) nounwind {
  %none = icmp eq i64 %size, 0
  %asked = select i1 %none, i64 %align, i64 %size
  %at = call ptr @malloc(i64 %asked)
  %tried = call RESULT @"heap tried"(ptr %at)
  ret RESULT %tried
}

define internal RESULT @rattle_realloc(ptr %from, i64 %kept, i64 %size, i64 %align) nounwind {
  %none = icmp eq i64 %size, 0
  %asked = select i1 %none, i64 %align, i64 %size
  %at = call ptr @realloc(ptr %from, i64 %asked)
  %tried = call RESULT @"heap tried"(ptr %at)
  ret RESULT %tried
}

define internal void @rattle_dealloc(ptr %at) nounwind {
  call void @free(ptr %at)
  ret void
}
"""


# A program first asks glibc whether the machine is an x86-64 of level 2. Others are asked nothing: each word has all features.
ALL = "\\FF"
FEATURES_ASKED = "declare ptr @__x86_get_cpuid_feature_leaf(i32)"
FEATURES = f"""
@"all features" = internal constant [32 x i8] c"{ALL * 32}"

define internal ptr @__x86_get_cpuid_feature_leaf(i32 %leaf) nounwind {{
  ret ptr @"all features"
}}
"""


def layout_of(triple):
    """Returns how clang lays out data for a machine."""
    words = [kit() / "toolchain/bin/clang", f"--target={triple}", "--no-default-config", "-x", "c", "-", "-S", "-emit-llvm", "-o", "-"]
    text = subprocess.run(words, check=True, input="", stdout=subprocess.PIPE, text=True).stdout
    return re.search(r'^target datalayout = "(.*)"$', text, re.M)[1]


def retargeted(text, triple, keeps_probes=False):
    """Returns the text of the module for a machine; with `keeps_probes` large frames touch each page, as they do on x86-64 Linux."""
    if found := FOREIGN.search(re.sub(r'"[^"\n]*"', "", text)):
        sys.exit(f"the module has `{found[0]}`, which is for one machine alone")
    text, layouts = re.subn(r'^target datalayout = ".*"$', f'target datalayout = "{layout_of(triple)}"', text, flags=re.M)
    text, triples = re.subn(r'^target triple = ".*"$', f'target triple = "{triple}"', text, flags=re.M)
    result = re.search(r"^declare (.*) @rattle_alloc\(", text, re.M)
    if layouts != 1 or triples != 1 or not result:
        sys.exit("the module doesn't say what it is for, or says it twice, or takes memory in another way")
    # C of x86-64 widens small arguments, and that of other machines need not
    text = re.sub(r"^define (?!internal |private ).*$", lambda line: re.sub(r" (zero|sign)ext\b", "", line[0]), text, flags=re.M)
    text = re.sub(r"^declare .*@rattle_(alloc|realloc|dealloc)\(.*\n", "", text, flags=re.M)
    probes = "" if keeps_probes else "|probe-stack|stack-probe-size"
    text = re.sub(rf' "(target-cpu|target-features|tune-cpu|frame-pointer{probes})"="[^"]*"', "", text)
    text = re.sub(r"^(attributes #\d+ = )\{ *\}$", r'\1{ "none" }', text, flags=re.M)
    text, asks = re.subn(rf"^{re.escape(FEATURES_ASKED)}.*$", "", text, flags=re.M)
    return text + HEAP.replace("RESULT", result[1].replace("noundef ", "")) + FEATURES * asks


def clang_words(kept):
    """Returns the words that rattle gave clang for what `rattle_words.lift` kept, but those for x86-64 and for its files."""
    given = re.sub(r"^(-x|-o)\n.*\n|^-mllvm\n.*x86.*\n", "", (kept / "words").read_text(), flags=re.M)
    return [it for it in given.splitlines() if not FOR_X86_64.fullmatch(it) and not it.endswith((".bc", ".o"))]


def compile_module(kept, made, triple, *words, keeps_probes=False):
    """Compiles what `rattle_words.lift` kept for a machine, by the kit's clang with the words that rattle gave it; returns the object."""
    text, to = made / "module.ll", made / "proved.o"
    text.write_text(retargeted((kept / "module.ll").read_text(), triple, keeps_probes))
    subprocess.run([kit() / "toolchain/bin/clang", f"--target={triple}", *clang_words(kept), *words, "-c", "-x", "ir", text, "-o", to], check=True)
    return to
