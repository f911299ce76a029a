"""The sizes and limits that an image has in its superblock."""

from __future__ import annotations

import struct
from typing import Any, NamedTuple, Optional

MAGIC, BEHIND_REVISION = b"littlefs", 8
SIZES = struct.Struct("<8x4x6I")  # behind the name and a tag


class Superblock(NamedTuple):
    """The fields of a superblock. `version` is 0x20000 for 2.0, and 0x20001 for 2.1."""

    version: int
    block_size: int
    block_count: int
    name_max: int
    file_max: int
    attr_max: int


def superblock(data: Any) -> Optional[Superblock]:
    """Returns the superblock of an image by its place in block 0 or 1, or None. Nothing is checked, so an old one counts as well."""
    head = bytes(memoryview(data)[: 65536 + BEHIND_REVISION + SIZES.size])
    at = head.find(MAGIC)
    while at >= 0:
        if at + SIZES.size <= len(head):
            found = Superblock(*SIZES.unpack_from(head, at))
            if found.version >> 16 == 2 and at - BEHIND_REVISION in (0, found.block_size):
                return found
        at = head.find(MAGIC, at + 1)
    return None
