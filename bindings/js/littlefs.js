// littlefs over images in memory: the calls of littlefs_c.h, from the module littlefs.wasm.

/** The names of errors, by the numbers of littlefs_c.h, and what is said of each. */
const ERRORS = {
  2: ["NoEnt", "nothing is there, or a folder above it is missing"],
  9: ["BadFile", "no such file is open"],
  12: ["NoMemory", "memory was wanted and not granted"],
  16: ["Busy", "the volume is mounted already"],
  17: ["Exist", "something is there already"],
  20: ["NotDir", "a file stands where a folder is needed"],
  21: ["IsDir", "a folder stands where a file is needed"],
  22: ["Invalid", "no image of that geometry, or a path, a position or a number is out of range"],
  27: ["TooBig", "a file or an attribute would pass its limit"],
  28: ["NoSpace", "too few blocks are free"],
  30: ["ReadOnly", "the image can be read, and images like it aren't written"],
  36: ["NameTooLong", "a name is longer than it may be"],
  39: ["NotEmpty", "the folder has entries"],
  61: ["NoAttr", "the attribute isn't there"],
  77: ["Closed", "the image is closed"],
  84: ["Corrupt", "no image is accepted in these bytes; one of version 2.1 is with also21"],
  200: ["Failed", "an earlier call had no memory, and remount() mends it"],
  201: ["EntryFull", "a name and its attributes would take more than half of a metadata pair"],
};
const NO_ENT = 2, NO_MEMORY = 12, EXIST = 17, NOT_DIR = 20, INVALID = 22, NO_ATTR = 61, CLOSED = 77, CORRUPT = 84;

const DIRECTORY = 2 ** 32;
const READ = 0x1, WRITE = 0x2, CREATE = 0x100, EXCLUSIVE = 0x200, TRUNCATE = 0x400, APPEND = 0x800;
const AT_ONCE = 1 << 20;
const LARGEST = { nameMax: 255, fileMax: 2147483647, attrMax: 1022, inlineMax: 1022 };

/** What a refused call throws. Its `name` is the error's, as "NoEnt", and `number` that of littlefs_c.h. */
export class LittlefsError extends Error {
  constructor(number, path) {
    const [name, meaning] = ERRORS[number] ?? ["Unknown", `error ${number}`];
    super(path === undefined ? meaning : `${shown(path)}: ${meaning}`);
    this.name = name;
    this.number = number;
    if (path !== undefined) this.path = path;
  }
}

const shown = (path) => (typeof path === "string" ? path : nameOf(path));

// ---- names: bytes of UTF-8; a byte that is none is a code from U+DC80 to U+DCFF, as in Python

const utf8 = new TextDecoder("utf-8", { fatal: true, ignoreBOM: true });

function decoded(bytes) {
  try {
    return utf8.decode(bytes);
  } catch {
    return null;
  }
}

/** A name's bytes as text. */
export function nameOf(bytes) {
  const whole = decoded(bytes);
  if (whole !== null) return whole;
  let text = "", part;
  for (let at = 0; at < bytes.length; ) {
    const length = [4, 3, 2, 1].find((it) => (part = decoded(bytes.subarray(at, at + it))) !== null);
    text += length ? part : String.fromCharCode(0xdc00 + bytes[at]);
    at += length ?? 1;
  }
  return text;
}

/** The bytes of a name or a path that is text, or bytes already. */
export function bytesOf(path) {
  if (typeof path !== "string") return bytesIn(path);
  if (!/[\ud800-\udfff]/.test(path)) return new TextEncoder().encode(path);
  const found = [];
  for (const letter of path) {
    const code = letter.codePointAt(0);
    if (code >= 0xdc80 && code <= 0xdcff) found.push(code - 0xdc00);
    else if (code >= 0xd800 && code <= 0xdfff) throw new LittlefsError(INVALID, path);
    else found.push(...new TextEncoder().encode(letter));
  }
  return Uint8Array.from(found);
}

/** The bytes that a caller gives: of a buffer, a view, or a text as UTF-8. */
function bytesIn(data) {
  if (typeof data === "string") return new TextEncoder().encode(data);
  if (data instanceof Uint8Array) return data;
  if (ArrayBuffer.isView(data)) return new Uint8Array(data.buffer, data.byteOffset, data.byteLength);
  if (data instanceof ArrayBuffer || Object.prototype.toString.call(data) === "[object SharedArrayBuffer]") return new Uint8Array(data);
  throw new TypeError("bytes are an ArrayBuffer, a view of one, or text");
}

// ---- the module

/** A module's instance, and its memory. */
class Library {
  #held = [];

  constructor({ exports }) {
    this.memory = exports.memory;
    this.calls = Object.fromEntries(Object.entries(exports).map(([name, call]) => [name.replace("lfs_c_", ""), call]));
    this.failure = null;
  }

  /** The memory as bytes, until it grows. */
  get bytes() {
    return new Uint8Array(this.memory.buffer);
  }

  /** Makes a call, and returns its answer. A trap ends the instance, since what it was doing is left halfway. */
  call(name, ...values) {
    if (this.failure) throw this.failure;
    try {
      return Number(this.calls[name](...values));
    } catch (error) {
      if (error instanceof WebAssembly.RuntimeError || error instanceof RangeError) this.failure = error;
      throw error;
    }
  }

  /** Returns the address of memory of its own. */
  take(size) {
    const at = this.call("malloc", BigInt(size));
    if (!at) throw new LittlefsError(NO_MEMORY);
    return at;
  }

  /** Runs a function that takes room and puts bytes, and then lets them go. None is within another. */
  with(run) {
    try {
      return run(this);
    } finally {
      for (const at of this.#held.splice(0)) if (!this.failure) this.call("free", at);
    }
  }

  /** Returns the address of room. */
  room(size) {
    this.#held.push(BigInt(this.take(size || 1)));
    return Number(this.#held.at(-1));
  }

  /** Puts bytes or a path into room, and returns where they are and how many. */
  put(data) {
    const bytes = bytesOf(data), at = this.room(bytes.length);
    this.bytes.set(bytes, at);
    return [BigInt(at), BigInt(bytes.length)];
  }
}

let library = null;

/** Loads the library: from a module's bytes, a compiled module, or a response that has it. `index.js` has done so. */
export async function load(source) {
  const given = await source;
  const isResponse = typeof Response !== "undefined" && given instanceof Response;
  const module = given instanceof WebAssembly.Module ? given : await WebAssembly.compile(isResponse ? await given.arrayBuffer() : given);
  library = new Library(await WebAssembly.instantiate(module, {}));
}

const forgotten = typeof FinalizationRegistry === "undefined" ? null : new FinalizationRegistry(({ library, volume }) => end(library, volume));

function end(library, volume) {
  if (library.failure) return;
  library.call("unmount", volume);
  library.call("free", volume);
}

// ---- images

/** What a superblock says of its image, found by its place in block 0 or 1, or null. Nothing of it is checked. */
export function superblock(data) {
  const bytes = bytesIn(data), view = new DataView(bytes.buffer, bytes.byteOffset, bytes.byteLength);
  const magic = [...new TextEncoder().encode("littlefs")];
  for (let at = 8; at + 36 <= bytes.length && at <= 65536 + 8; at++) {
    if (!magic.every((letter, n) => bytes[at + n] === letter)) continue;
    const [version, blockSize, blockCount, nameMax, fileMax, attrMax] = Array.from({ length: 6 }, (_, n) => view.getUint32(at + 12 + 4 * n, true));
    if (version >>> 16 === 2 && (at === 8 || at - 8 === blockSize)) return { version, blockSize, blockCount, nameMax, fileMax, attrMax };
  }
  return null;
}

/** The largest page up to 256 that goes with blocks of that size. */
export function usualPage(blockSize) {
  return [256, 128, 64, 32, 16, 8].find((page) => blockSize % page === 0 && 8 * page <= blockSize) ?? 8;
}

/** A littlefs image in memory, mounted. index.d.ts says what each call is for. A refused call leaves the image as it was. */
export class Image {
  #library;
  #volume;
  #size;

  static mount(data, options = {}) {
    let bytes = bytesIn(data), given = { ...options };
    if (given.blockSize === undefined) {
      const found = superblock(bytes);
      if (!found) throw new LittlefsError(CORRUPT);
      const least = (name) => Math.min(found[name], LARGEST[name]);
      given = { blockSize: found.blockSize, nameMax: least("nameMax"), fileMax: least("fileMax"), attrMax: least("attrMax"), ...options };
      given.blockSize = found.blockSize;
      bytes = bytes.subarray(0, found.blockCount * found.blockSize);
    }
    const image = new Image();
    image.#begin(given, bytes.length, (lib, volume, config) => lib.call("mount", volume, config, ...lib.put(bytes)));
    return image;
  }

  static format(options) {
    const { blockCount, blockSize = 4096 } = options;
    const image = new Image();
    image.#begin({ ...options, blockSize }, blockSize * blockCount, (lib, volume, config) => lib.call("mkfs", volume, config, number32(blockCount)));
    return image;
  }

  #begin(given, size, start) {
    if (!library) throw new Error("the library isn't loaded: import index.js, or call load()");
    const { blockSize, page = usualPage(blockSize), order = "longer-first", also21 = false, pairCycles = 0 } = given;
    const limits = Object.fromEntries(Object.entries(LARGEST).map(([name, largest]) => [name, given[name] ?? largest]));
    const numbers = [blockSize, page, order === "shorter-first" ? 1 : 0, also21 ? 1 : 0, ...Object.values(limits), pairCycles];
    const lib = library, at = lib.take(16), volume = BigInt(at);
    try {
      lib.bytes.fill(0, at, at + 16);
      lib.with(() => {
        const [config] = lib.put(Uint32Array.from(numbers, number32));
        const answer = start(lib, volume, config);
        if (answer < 0) throw new LittlefsError(-answer);
      });
    } catch (error) {
      if (!lib.failure) lib.call("free", volume);
      throw error;
    }
    [this.#library, this.#volume, this.#size] = [lib, volume, size];
    Object.assign(this, { blockSize, blockCount: size / blockSize, page, limits });
    forgotten?.register(this, { library: lib, volume }, this);
  }

  /** What a call of the volume answers: an error as minus its number. */
  #ask(name, ...values) {
    if (!this.#volume) throw new LittlefsError(CLOSED);
    return this.#library.call(name, this.#volume, ...values);
  }

  #call(name, path, ...values) {
    const answer = this.#ask(name, ...values);
    if (answer < 0) throw new LittlefsError(-answer, path);
    return answer;
  }

  #with(run) {
    if (!this.#volume) throw new LittlefsError(CLOSED);
    return this.#library.with(run);
  }

  #at(name, path, ...values) {
    return this.#with((lib) => this.#call(name, path, ...lib.put(path), ...values));
  }

  /** What a call puts into a buffer, once it is told how much room that wants. */
  #whole(name, path, ...values) {
    for (let size = 4096; ; ) {
      const found = this.#with((lib) => {
        const given = lib.put(path), at = lib.room(size);
        const answer = this.#call(name, path, ...given, ...values, BigInt(at), BigInt(size));
        if (answer <= size) return lib.bytes.slice(at, at + answer);
        size = answer;
      });
      if (found) return found;
    }
  }

  // ---- the image

  close() {
    if (!this.#volume) return;
    forgotten?.unregister(this);
    const volume = this.#volume;
    this.#volume = null;
    end(this.#library, volume);
  }

  bytes() {
    return this.#filled(new Uint8Array(this.#size), (from, at, size) => this.#call("image_part", undefined, BigInt(from), at, size));
  }

  /** Fills bytes by calls that each put a part into room and return how long it is. */
  #filled(found, part) {
    return this.#with((lib) => {
      const room = Math.min(found.length, AT_ONCE), at = lib.room(room);
      for (let from = 0, count; from < found.length; from += count) {
        count = part(from, BigInt(at), BigInt(Math.min(room, found.length - from)));
        if (!count) throw new LittlefsError(INVALID);
        found.set(lib.bytes.subarray(at, at + count), from);
      }
      return found;
    });
  }

  usedBlocks() {
    return this.#call("used_blocks", undefined);
  }

  recover() {
    this.#call("recover", undefined);
  }

  remount() {
    this.#call("remount", undefined);
  }

  // ---- folders

  list(path = "/") {
    const above = shown(path).replace(/\/$/, "");
    const lines = new TextDecoder("latin1").decode(this.#whole("list_at", path)).split("\n").slice(0, -1);
    return lines.map((line) => {
      const [, kind, size, escaped] = line.match(/^([fd]) (\d+) (.*)$/s);
      const name = nameOf(Uint8Array.from(unescaped(escaped), (letter) => letter.charCodeAt(0)));
      return { name, path: `${above}/${name}`, isDirectory: kind === "d", size: kind === "d" ? null : Number(size) };
    });
  }

  *walk(path = "/") {
    for (const entry of this.list(path)) {
      yield entry;
      if (entry.isDirectory) yield* this.walk(entry.path);
    }
  }

  mkdir(path, { recursive = false } = {}) {
    if (recursive) {
      const text = shown(path);
      for (let at = text.indexOf("/", 1); at > 0; at = text.indexOf("/", at + 1)) if (!this.exists(text.slice(0, at))) this.#at("mkdir_at", text.slice(0, at));
      if (this.stat(path)?.isDirectory) return;
    }
    this.#at("mkdir_at", path);
  }

  // ---- entries

  stat(path) {
    const answer = this.#with((lib) => this.#ask("stat_at", ...lib.put(path)));
    if (answer === -NO_ENT || answer === -NOT_DIR) return null;
    if (answer < 0) throw new LittlefsError(-answer, path);
    return { isDirectory: answer === DIRECTORY, size: answer === DIRECTORY ? null : answer };
  }

  exists(path) {
    return this.stat(path) !== null;
  }

  remove(path, { recursive = false } = {}) {
    if (recursive && this.stat(path)?.isDirectory) for (const entry of this.list(path)) this.remove(entry.path, { recursive });
    this.#at("remove_at", path);
  }

  rename(from, to) {
    this.#with((lib) => this.#call("rename_at", from, ...lib.put(from), ...lib.put(to)));
  }

  getAttribute(path, type) {
    return this.#whole("get_attr_at", path, number8(type));
  }

  setAttribute(path, type, data) {
    this.#with((lib) => this.#call("set_attr_at", path, ...lib.put(path), number8(type), ...lib.put(bytesIn(data))));
  }

  removeAttribute(path, type) {
    this.#at("remove_attr_at", path, number8(type));
  }

  attributes(path) {
    const found = new Map(), size = 1024;
    this.#with((lib) => {
      const name = lib.put(path), at = lib.room(size);
      for (let type = 0; type < 256; type++) {
        const answer = this.#ask("get_attr_at", ...name, type, BigInt(at), BigInt(size));
        if (answer >= 0) found.set(type, lib.bytes.slice(at, at + answer));
        else if (answer !== -NO_ATTR) throw new LittlefsError(-answer, path);
      }
    });
    return found;
  }

  // ---- files

  read(path, { position = 0, length = Infinity } = {}) {
    const file = this.#at("open", path, READ);
    try {
      if (position) this.#call("file_seek", path, file, number32(position));
      const left = Math.max(0, this.#call("file_size", path, file) - position);
      return this.#filled(new Uint8Array(Math.min(left, length)), (_, at, size) => this.#call("file_read", path, file, at, size));
    } finally {
      if (!this.#library.failure) this.#ask("file_close", file);
    }
  }

  readText(path) {
    return new TextDecoder().decode(this.read(path));
  }

  write(path, data) {
    this.#put(path, TRUNCATE, data);
  }

  append(path, data) {
    this.#put(path, APPEND, data);
  }

  #put(path, flags, data) {
    const bytes = bytesIn(data);
    // whether the file is new counts where it can't be written: that it is asked first, by an open that is refused, costs least
    let file = this.#with((lib) => this.#ask("open", ...lib.put(path), WRITE | (flags === APPEND ? flags : CREATE | EXCLUSIVE)));
    const isOther = file === -(flags === APPEND ? NO_ENT : EXIST), isNew = isOther === (flags === APPEND);
    if (isOther) file = this.#at("open", path, WRITE | CREATE | flags);
    else if (file < 0) throw new LittlefsError(-file, path);
    let isWritten = false;
    try {
      this.#with((lib) => this.#call("file_write", path, file, ...lib.put(bytes)));
      isWritten = true;
      this.#call("file_close", path, file);
    } catch (error) {
      if (this.#library.failure) throw error;
      // a close would store the file as it was opened, and without memory the volume may have failed
      if (!isWritten || error.number === NO_MEMORY) this.#ask("remount");
      if (isNew) this.#with((lib) => this.#ask("remove_at", ...lib.put(path)));
      throw error;
    }
  }
}

/** The letters of a name that a listing has with `\x` and two digits for some. */
const unescaped = (text) => text.replace(/\\x(..)/g, (_, digits) => String.fromCharCode(parseInt(digits, 16)));

function whole(value, most) {
  if (!Number.isInteger(value) || value < 0 || value > most) throw new RangeError(`a whole number from 0 to ${most} is wanted, and not ${value}`);
  return value;
}

const number32 = (value) => whole(value, 0xffffffff);
const number8 = (value) => whole(value, 0xff);
