// The page's worker: it has an image, the library and the tool, so that the page itself never waits for them.
//
// It answers messages [number, name, values], of which `calls` has the functions, by [number, error, answer].
import { Image, load, superblock } from "../bindings/js/littlefs.js";
import { Tool } from "../bindings/js/tool.js";
import { pairsOf } from "./wear.js";
import { zipped } from "./zip.js";

const MOST = 1 << 28, TRIES = 200;
const MAGIC = [0x6c, 0x69, 0x74, 0x74, 0x6c, 0x65, 0x66, 0x73];

let tool, image;
const taken = new Map(); // files by the key of engine.js
let file = null, offset = 0, given = {}; // where the image comes from, and how it is mounted

const bytesOf = async (file) => new Uint8Array(await file.arrayBuffer());

/** A time that is kept as an attribute, as the tool and MicroPython do. */
function modified(attributes) {
  const t = attributes.get(0x74), m = attributes.get(1);
  if (t?.length === 4) return new Date(new DataView(t.buffer, t.byteOffset).getUint32(0, true) * 1000);
  if (m?.length === 8) return new Date(Number(new DataView(m.buffer, m.byteOffset).getBigUint64(0, true) / 1000000n));
}

/** Where in the file images begin that are accepted: a whole flash may have some. */
function parts() {
  const found = new Map();
  let tries = 0;
  for (let at = file.indexOf(MAGIC[0]); at >= 0 && found.size < 20 && tries < TRIES; at = file.indexOf(MAGIC[0], at + 1)) {
    if (!MAGIC.every((byte, n) => file[at + n] === byte)) continue;
    const size = superblock(file.subarray(at - 8))?.blockSize;
    for (const from of [at - 8, at - 8 - size]) {
      const said = from >= 0 && !found.has(from) && superblock(file.subarray(from));
      if (!said || [...found].some(([start, it]) => from > start && from < start + it.blockSize * it.blockCount)) continue;
      try {
        tries++;
        Image.mount(file.subarray(from), { also21: true }).close();
        found.set(from, said);
      } catch {
        // no image begins here
      }
    }
  }
  return [...found];
}

/** Takes an image, or says why it is refused. */
function open(name, options) {
  [offset, given] = [options.offset, { ...options, also21: true }];
  const all = file.subarray(offset), found = superblock(all);
  // of a file that is larger than an image may be, what its superblock says
  const bytes = all.length > MOST && found ? all.subarray(0, Math.min(MOST, found.blockCount * found.blockSize)) : all;
  if (bytes.length > MOST) throw new Error(`${name} has ${bytes.length / 1048576} MiB and no superblock at its beginning, and an image has at most 256 MiB`);
  const checked = tool.check(bytes, given);
  if (checked.ok) image = Image.mount(bytes, given);
  else return { reason: checked.reason, length: bytes.length, superblock: found, parts: options.blockSize || offset ? [] : parts() };
}

/** Reads the files that were taken: each has a path, its bytes or null for a folder, and when it was modified. */
async function read(key) {
  const entries = taken.get(key) ?? [], size = entries.reduce((sum, [, file]) => sum + (file?.size ?? 0), 0), found = [];
  taken.delete(key);
  if (size > MOST) throw new Error(`the files have ${size.toLocaleString("en")} bytes, and an image holds at most 256 MiB`);
  for (const [path, file] of entries) found.push({ path, bytes: file && (await bytesOf(file)), time: file?.lastModified });
  return found.sort((a, b) => (a.path < b.path ? -1 : a.path > b.path ? 1 : 0));
}

function rowsBelow(path, depth, shown, found) {
  const entries = image.list(path), most = shown.get(path);
  for (const entry of entries.slice(0, most)) {
    found.push({ ...entry, depth });
    if (entry.isDirectory && shown.has(entry.path)) rowsBelow(entry.path, depth + 1, shown, found);
  }
  if (entries.length > most) found.push({ path, depth, left: entries.length - most, most });
  return found;
}

const calls = {
  async start(library, program) {
    await load(library);
    tool = new Tool(program);
  },

  async open(from, options) {
    if (from.size > 4 * MOST) throw new Error(`${from.name} has ${from.size.toLocaleString("en")} bytes, and a file of more than 1 GiB isn't read`);
    file = await bytesOf(from);
    return open(from.name, options);
  },

  take: (key, some) => void taken.set(key, [...(taken.get(key) ?? []), ...some]),
  openAt: (name, options) => open(name, options),
  format: (options) => void (image = Image.format(options)),

  /** Makes an image of the files that were taken, as `mklittlefs -c`. */
  async make(key, { size, ...options }) {
    const { blockSize, ...limits } = options;
    image = Image.mount(tool.make(await read(key), { size, ...options }), { inlineMax: options.inlineMax });
    given = limits;
  },

  /** What is said of the image beside its tree. */
  state() {
    const bytes = image.bytes(), { blockSize, blockCount } = image;
    return {
      blockSize, blockCount, offset, size: bytes.length, behind: file ? file.length - offset - bytes.length : 0,
      superblock: superblock(bytes), checked: tool.check(bytes, { ...given, blockSize }), pairs: pairsOf(bytes, blockSize),
    };
  },

  /** The rows of the tree: of each folder in `shown`, which says how many of its entries. */
  rows: (shown) => rowsBelow("/", 1, shown, []),

  /** What is at a path: a file's bytes, or how many entries a folder has; and attributes. */
  entry(path) {
    const isFolder = path === "/" || image.stat(path).isDirectory, all = path === "/" ? new Map() : image.attributes(path);
    const attributes = [...all].map(([type, bytes]) => ({ type, bytes, time: modified(new Map([[type, bytes]])) }));
    return { attributes, ...(isFolder ? { count: image.list(path).length } : { bytes: image.read(path) }) };
  },

  countBelow: (path) => [...image.walk(path)].length,

  /** Makes a change by one of the image's own functions. */
  change: (name, ...values) => image[name](...values),

  replace: async (path, file) => image.write(path, await bytesOf(file)),

  /** Puts what was taken into the image, below a folder of it. Returns how many files, and how many blocks more are used. */
  async add(below, key) {
    const was = image.usedBlocks();
    let count = 0;
    for (const { path, bytes } of await read(key)) {
      const to = `${below === "/" ? "" : below}/${path}`, parent = to.slice(0, to.lastIndexOf("/")) || "/";
      if (parent !== "/" && !image.exists(parent)) image.mkdir(parent, { recursive: true });
      if (bytes) {
        image.write(to, bytes);
        count++;
      } else if (!image.exists(to)) image.mkdir(to, { recursive: true });
    }
    return { count, blocks: Math.max(0, image.usedBlocks() - was) };
  },

  /** The file to save: the image, with what lies before and behind it in its file. */
  save() {
    const bytes = image.bytes();
    return new Blob(file ? [file.subarray(0, offset), bytes, file.subarray(offset + bytes.length)] : [bytes]);
  },

  zip(path) {
    const entries = [...image.walk(path)].map(({ path, isDirectory }) => {
      const time = modified(image.attributes(path)) ?? new Date(Date.UTC(1980, 0, 1));
      return { path, time, bytes: isDirectory ? null : () => image.read(path) };
    });
    return zipped(entries, path === "/" ? 1 : path.length + 1);
  },
};

async function answer([number, name, values]) {
  try {
    postMessage([number, null, await calls[name](...values)]);
  } catch (error) {
    postMessage([number, error instanceof RangeError ? `The browser granted no memory for this: ${error.message}` : error.message]);
  }
}

let last = Promise.resolve();
onmessage = ({ data }) => (last = last.then(() => answer(data))); // one after another
