"""Makes a wheel of littlefs_c with the library in it, for pip, and needs nothing else.

    pip install ./bindings/python
    python3 bindings/python/build_wheel.py FOLDER                  # a wheel in a folder, for machines like this one
    python3 bindings/python/build_wheel.py FOLDER LIBRARY TAG      # with another library, as littlefs_c.dll and py3-none-win_amd64

The same files make the same wheel, byte for byte.
"""

import base64
import hashlib
import os
from pathlib import Path
import platform
import sys
import zipfile

HERE = Path(__file__).resolve().parent
LIBRARY, LICENCE = HERE.parent / "c" / "littlefs_c.so", HERE.parent.parent / "LICENSE"
NAME, VERSION = "littlefs_c", "1.0.0"
TAG = f"py3-none-linux_{platform.machine()}"
METADATA = f"""Metadata-Version: 2.1
Name: {NAME}
Version: {VERSION}
Summary: littlefs images in memory, by a proved library
License: BSD-3-Clause
Requires-Python: >=3.9
"""
WHEEL = """Wheel-Version: 1.0
Generator: build_wheel
Root-Is-Purelib: false
Tag: {}
"""


def files_of_wheel(library, tag, licences):
    """Returns the bytes of each file of the wheel by its name there."""
    if not library.exists():
        sys.exit(f"{library} isn't there: run `rt lib` in crates/littlefs_c and `make` in bindings/c")
    package = HERE / NAME
    files = {f"{NAME}/{path.name}": path.read_bytes() for path in sorted(package.iterdir()) if path.suffix in (".py", ".typed")}
    info = f"{NAME}-{VERSION}.dist-info"
    about = {"LICENSE": licences, "METADATA": METADATA, "WHEEL": WHEEL.format(tag)}
    return {**files, f"{NAME}/{library.name}": library.read_bytes(), **{f"{info}/{name}": text.encode() for name, text in about.items()}}


def line_of_record(name, data):
    digest = base64.urlsafe_b64encode(hashlib.sha256(data).digest()).rstrip(b"=").decode()
    return f"{name},sha256={digest},{len(data)}\n"


def build_wheel(folder, config_settings=None, metadata_directory=None):
    """Writes the wheel to a folder, and returns its name. pip calls this."""
    return write_wheel(folder, LIBRARY, TAG)


def write_wheel(folder, library, tag, licences=LICENCE.read_text()):
    """Writes a wheel with a library, for the machines of a tag, and returns its name."""
    files = files_of_wheel(library, tag, licences)
    record = f"{NAME}-{VERSION}.dist-info/RECORD"
    files[record] = ("".join(line_of_record(*it) for it in files.items()) + f"{record},,\n").encode()
    wheel = f"{NAME}-{VERSION}-{tag}.whl"
    write_zip(os.path.join(folder, wheel), files)
    return wheel


def write_zip(to, files, when=(1980, 1, 1, 0, 0, 0)):
    """Writes a .zip of files, each with its bytes by its name there."""
    with zipfile.ZipFile(to, "w", zipfile.ZIP_DEFLATED) as archive:
        for name, data in files.items():
            entry = zipfile.ZipInfo(name, when)
            entry.create_system, entry.external_attr = 3, 0o100644 << 16
            archive.writestr(entry, data, zipfile.ZIP_DEFLATED)


if __name__ == "__main__":
    print(write_wheel(sys.argv[1], Path(sys.argv[2]), sys.argv[3]) if len(sys.argv) == 4 else build_wheel(sys.argv[1]))
