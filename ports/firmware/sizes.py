"""What is how large in a firmware program: by object and library, by crate, and by function."""

import collections
import re
import subprocess

from boards import sizes


def functions(board, elf):
    """Returns each function of the library with its bytes, the largest first."""
    lines = subprocess.run([f"{board.gcc}-nm", "-S", "--defined-only", elf], check=True, stdout=subprocess.PIPE, text=True).stdout
    found = re.findall(r"^[0-9a-f]+ ([0-9a-f]+) [tT] (.*)$", lines, re.M)
    ours = [(int(size, 16), name) for size, name in found if "::" in name or name.startswith("lfs_flash_")]
    return sorted(ours, reverse=True)


def table(board, elf, count=40):
    """Returns the bytes of a program as text: its objects, and then the library's crates and its largest functions."""
    lines = ["  code    data     bss"]
    for whose, at in sorted(sizes(elf.with_suffix(".map")).items(), key=lambda it: -it[1]["code"]):
        lines.append(f"{at['code']:6}  {at['data']:6}  {at['bss']:6}  {whose}")
    ours, crates = functions(board, elf), collections.Counter()
    for size, name in ours:
        crates[re.match(r"<?&?(\w+)", name)[1] if "::" in name else "calls of the header"] += size
    lines += ["", "  code  crate"] + [f"{size:6}  {name}" for name, size in crates.most_common()]
    lines += ["", "  code  function"] + [f"{size:6}  {name[:120]}" for size, name in ours[:count]]
    return "\n".join(lines) + "\n"
