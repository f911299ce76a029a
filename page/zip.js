// A .zip of files, whose bytes the browser compresses.

/** A name as other systems take it. */
export const plain = (name) => name.replace(/[\ud800-\udfff](?![\udc00-\udfff])/g, (code) => `%${(code.charCodeAt(0) & 0xff).toString(16)}`).replace(/[\x00-\x1f<>:"|?*\\]/g, "_");

const pack = async (bytes) => new Uint8Array(await new Response(new Blob([bytes]).stream().pipeThrough(new CompressionStream("gzip"))).arrayBuffer());

/** Numbers of two bytes, or of four for those in a list of their own, the lowest byte first. */
const numbers = (...all) => Uint8Array.from(all.flatMap((it) => (Array.isArray(it) ? [0, 8, 16, 24].map((shift) => it[0] >>> shift) : [it, it >>> 8])));

/** Returns the .zip of entries: the path, whose first letters are left out, the time, and `bytes`, which reads a file, or null for a folder. */
export async function zipped(entries, left) {
  const files = [], list = [];
  let at = 0, size = 0;
  if (entries.length > 65535) throw new Error("a .zip holds at most 65,535 files and folders");
  for (const { path, time, bytes } of entries) {
    const name = new TextEncoder().encode(path.slice(left).split("/").map(plain).join("/") + (bytes ? "" : "/")), all = bytes?.() ?? new Uint8Array(0);
    // what gzip makes is 10 bytes, the bytes compressed as in a .zip, their checksum and their size
    const packed = await pack(all), data = packed.subarray(10, -8), sum = new DataView(packed.buffer).getUint32(packed.length - 8, true);
    const day = ((time.getUTCFullYear() - 1980) << 9) | ((time.getUTCMonth() + 1) << 5) | time.getUTCDate();
    const second = (time.getUTCHours() << 11) | (time.getUTCMinutes() << 5) | (time.getUTCSeconds() >> 1);
    const head = numbers(20, 0x800, 8, second, day, [sum], [data.length], [all.length], name.length, 0);
    files.push(numbers([0x04034b50]), head, name, data);
    list.push(numbers([0x02014b50], 20), head, numbers(0, 0, 0, [bytes ? 0 : 16], [at]), name);
    at += 4 + head.length + name.length + data.length;
  }
  for (const it of list) size += it.length;
  return new Blob([...files, ...list, numbers([0x06054b50], 0, 0, entries.length, entries.length, [size], [at], 0)], { type: "application/zip" });
}
