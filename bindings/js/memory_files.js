// Files and folders in memory, which are only read, and standard streams, as system.js asks for them: what a page lends the program.
import { fail } from "./system.js";

const FOLDER = 0o040755, FILE = 0o100644, WRITES = 0o1103;

/** A path's names, as text with a letter for each byte, each with a slash before it. */
const namesOf = (path) => Array.from(path, (byte) => String.fromCharCode(byte)).join("").split("/").filter((it) => it && it !== ".").map((it) => `/${it}`);

/** What is open: a file's bytes, or a folder, which has `names`. */
class Opened {
  #found;
  #at = 0;

  constructor(found, path) {
    this.#found = found;
    this.path = path;
    if (found.names) this.list = () => found.names.map((name) => Uint8Array.from(name.slice(1), (letter) => letter.charCodeAt(0)));
  }

  read(room, position) {
    if (this.#found.names) fail("EISDIR");
    const from = position ?? this.#at, part = this.#found.bytes.subarray(from, from + room.length);
    room.set(part);
    if (position === null) this.#at += part.length;
    return part.length;
  }

  stat() {
    const { names, bytes, time = 0 } = this.#found;
    return { mode: names ? FOLDER : FILE, size: names ? 0 : bytes.length, mtimeNs: BigInt(Math.trunc(time)) * 1000000n };
  }
}

/** A stream that the program writes. */
class Written {
  #parts = [];

  get all() {
    const all = new Uint8Array(this.#parts.reduce((sum, it) => sum + it.length, 0));
    this.#parts.reduce((at, part) => (all.set(part, at), at + part.length), 0);
    return all;
  }

  write(bytes) {
    this.#parts.push(bytes.slice());
    return bytes.length;
  }

  stat = () => ({ mode: FILE, size: 0 });
  sync() {}
}

/** A host whose files and streams are in memory. `output` is what the program has written, and `errors` its messages. */
export class MemoryHost {
  #all = new Map([["", { names: [] }]]);
  #streams;

  constructor(input = new Uint8Array(0)) {
    this.#streams = [new Opened({ bytes: input }), new Written(), new Written()];
    this.mkdir = this.unlink = this.rename = () => fail("EROFS");
  }

  stream = (number) => this.#streams[number];

  get output() {
    return this.#streams[1].all;
  }

  get errors() {
    return new TextDecoder().decode(this.#streams[2].all);
  }

  /** Puts a file there, whose bytes aren't copied, or without bytes a folder; and the folders above it. */
  put(path, bytes, time) {
    let at = "";
    for (const name of namesOf(path)) {
      if (!this.#all.has(at + name)) this.#all.set(at + name, { names: [] }).get(at).names.push(name);
      at += name;
    }
    this.#all.set(at, bytes ? { bytes, time } : { ...this.#all.get(at), time });
  }

  #find = (path) => (path.length && this.#all.get(namesOf(path).join(""))) || fail("ENOENT");
  open = (path, flags) => (flags & WRITES ? fail("EROFS") : new Opened(this.#find(path), path));
  openFolder = (path) => (this.#find(path).names ? this.open(path) : fail("ENOTDIR"));
  stat = (path) => this.open(path).stat();
}
