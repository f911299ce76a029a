"""The boards, all qemu's, and how programs for them are compiled, linked and run."""

from dataclasses import dataclass, field
from pathlib import Path
import re
import subprocess
import sys

HERE = Path(__file__).resolve().parent
C_WORDS = ["-std=gnu11", "-Os", "-Wall", "-Wextra", "-Werror", "-ffunction-sections", "-fdata-sections", "-fno-builtin-malloc"]
STACK, HEAP = 0x40000, 0x180000  # of programs in the emulator, in bytes; no product needs as much


@dataclass
class Board:
    name: str
    bits: int
    triple: str
    cpu: list  # words for clang and gcc
    gcc: str  # the beginning of the names of gcc's programs
    start: str  # the start-up code and the linker's script
    machine: list
    libc: str
    start_words: list = field(default_factory=list)
    symbols: dict = field(default_factory=dict)


def cortex(name, cpu, arch, machine, *start_words, code=0, ram=0x20000000):
    words = [f"-mcpu={cpu}", "-mthumb", "-mfloat-abi=soft"]
    symbols = {"CODE": code, "RAM": ram, "STACK": STACK, "HEAP": HEAP}
    return Board(name, 32, f"{arch}-none-unknown-eabi", words, "arm-none-eabi", "cortex_m", ["qemu-system-arm", "-M", *machine], "-specs=nano.specs",
                 list(start_words), symbols)


def riscv(name, bits, abi):
    machine = [f"qemu-system-riscv{bits}", "-M", "virt", "-bios", "none"]
    words = [f"-march=rv{bits}imac", f"-mabi={abi}", "-mcmodel=medany"]
    return Board(name, bits, f"riscv{bits}-unknown-unknown-elf", words, "riscv64-unknown-elf", "riscv", machine, "-specs=picolibc.specs",
                 [f"-march=rv{bits}imac_zicsr"], {"STACK": STACK, "HEAP": HEAP})


BOARDS = {it.name: it for it in (
    # the microbit's chip has 16 kB of memory; here it gets 4 MiB, for the flash that the tests keep in memory
    cortex("m0", "cortex-m0", "thumbv6m", ["microbit", "-global", "nrf51-soc.sram-size=4194304"], "-DNRF51"),
    cortex("m3", "cortex-m3", "thumbv7m", ["mps2-an385"]),
    cortex("m4", "cortex-m4", "thumbv7em", ["mps2-an386"]),
    cortex("m7", "cortex-m7", "thumbv7em", ["mps2-an500"]),
    cortex("m33", "cortex-m33", "thumbv8m.main", ["mps2-an505"], "-DTIMER=0x50000000", "-DTICK_PS=50000", code=0x10000000, ram=0x38000000),
    riscv("rv32", 32, "ilp32"),
    riscv("rv64", 64, "lp64"),
)}


def run(*words, **how):
    subprocess.run([str(it) for it in words], check=True, **how)


def c_object(board, source, to, *words):
    run(f"{board.gcc}-gcc", *board.cpu, board.libc, *C_WORDS, *words, "-c", source, "-o", to)
    return to


def link(board, made, name, objects):
    """Links a program with the board's start-up code, and leaves the linker's map beside it."""
    start = c_object(board, HERE / f"board/{board.start}.c", made / f"{board.start}.o", *board.start_words)
    elf = made / f"{name}.elf"
    symbols = [f"-Wl,--defsym={symbol}={value}" for symbol, value in board.symbols.items()]
    run(f"{board.gcc}-gcc", *board.cpu, board.libc, "-nostartfiles", "-Wl,--gc-sections", "-Wl,--no-warn-rwx-segments", "-Wl,--no-warn-execstack", f"-Wl,-Map={made / name}.map",
        "-T", HERE / f"board/{board.start}.ld", *symbols, *objects, start, "-lc", "-lgcc", "-o", elf)
    return elf


def run_program(board, elf, folder, counts=False, seconds=1200):
    """Runs a program in the emulator, with its files in a folder, and returns what it prints."""
    words = [*board.machine, "-display", "none", "-monitor", "none", "-serial", "none", "-semihosting", *["-icount", "shift=0"] * counts, "-kernel", str(elf.resolve())]
    ran = subprocess.run(words, cwd=folder, stdin=subprocess.DEVNULL, stdout=subprocess.PIPE, stderr=subprocess.STDOUT, text=True, timeout=seconds)
    if ran.returncode:
        sys.exit(f"{ran.stdout}{board.name}: {elf.name} ended with status {ran.returncode}")
    return ran.stdout


def sizes(linker_map):
    """Returns the bytes of a program by the linker's map: for each object or library its code with constants, its data and its bss."""
    found = {}
    text = linker_map.read_text().split("Linker script and memory map")[1]
    text = re.sub(r"^( \.\S+)\n +(?=0x)", r"\1 ", text, flags=re.M)
    for section, size, whose in re.findall(r"^ \.(\w+)\S* +0x[0-9a-f]+ +0x([0-9a-f]+) (\S+)$", text, re.M):
        kind = {"text": "code", "rodata": "code", "srodata": "code", "data": "data", "sdata": "data", "bss": "bss", "sbss": "bss"}.get(section)
        if kind and int(size, 16):
            # a member of the library, of libgcc or of the C library
            whose = re.sub(r".*/(lib\w+)\.a\(.*", r"\1", whose).split("/")[-1]
            at = found.setdefault(whose, {"code": 0, "data": 0, "bss": 0})
            at[kind] += int(size, 16)
    return found
