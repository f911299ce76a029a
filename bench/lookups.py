#!/usr/bin/env python3
"""Look-ups in a block of 64 KiB with a thousand files, each created in front of the others.

Builds and runs the program lfs_bench. Prints how long a reading of the log takes, a log that is known by its end, a
look-up of a name and a reading of the content. Fails where a known log takes more than a tenth of a reading, which
computes the checksum, or a look-up more than a reading of the content.
"""
import os
import subprocess
import sys

ROUNDS = 200
top = os.path.dirname(os.path.dirname(os.path.abspath(__file__)))
crate = os.path.join(top, "crates", "lfs_bench")

run = subprocess.run(["rt", "run", "--", "look_ups", str(ROUNDS)], cwd=crate, stdout=subprocess.PIPE, stderr=subprocess.PIPE, check=True, text=True)
read, known, found, content = (int(word) / ROUNDS / 1000 for word in run.stderr.split()[-4:])
print(f"log read: {read:.1f} us, known: {known:.3f} us, name found: {found:.1f} us, content read: {content:.1f} us")
sys.exit(10 * known > read or found > content)
