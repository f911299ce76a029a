// The metadata pairs of an image and their revisions. Erases aren't counted anywhere; but each compaction of a pair erases one of its
// blocks, and adds one to its revision. It only looks: what is no log ends it.

function checksum(sum, bytes) {
  for (const byte of bytes) {
    sum ^= byte;
    for (let bit = 0; bit < 8; bit++) sum = (sum >>> 1) ^ (sum & 1 ? 0xedb88320 : 0);
  }
  return sum >>> 0;
}

/** The revision of a block's log and the tail that its whole commits leave, or null if none is whole. */
function logOf(block) {
  const view = new DataView(block.buffer, block.byteOffset, block.length), revision = view.getUint32(0, true);
  let found = null, tail = null, before = 0xffffffff, sum = checksum(0xffffffff, block.subarray(0, 4));
  for (let at = 4; at + 8 <= block.length; ) {
    const tag = (view.getUint32(at) ^ before) >>> 0, type = (tag >>> 20) & 0x7ff, length = tag & 0x3ff, end = at + 4 + (length === 0x3ff ? 0 : length);
    if (tag >>> 31 || end > block.length) break;
    if (type >>> 1 === 0x300 && length === 8) tail = [view.getUint32(at + 4, true), view.getUint32(at + 8, true)];
    before = tag;
    if (type >>> 8 === 5 && type !== 0x5ff) {
      if (checksum(sum, block.subarray(at, at + 4)) !== view.getUint32(at + 4, true)) break;
      [found, sum, before] = [{ revision, tail }, 0xffffffff, (tag ^ (type << 31)) >>> 0];
    } else sum = checksum(sum, block.subarray(at, end));
    at = end;
  }
  return found;
}

/** The pairs in the order of their tails: their blocks, and the newer revision. */
export function pairsOf(bytes, blockSize) {
  const found = [], count = bytes.length / blockSize, seen = new Set();
  for (let blocks = [0, 1]; blocks && blocks.every((it) => it < count) && !seen.has(blocks[0]); ) {
    const [a, b] = blocks.map((it) => logOf(bytes.subarray(it * blockSize, (it + 1) * blockSize)));
    const log = a && b ? ((a.revision - b.revision) | 0) > 0 ? a : b : a ?? b;
    if (!log) break;
    seen.add(blocks[0]);
    found.push({ blocks, revision: log.revision });
    blocks = log.tail;
  }
  return found;
}
