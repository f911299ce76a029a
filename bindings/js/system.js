// What the program mklittlefs calls of a system, by JavaScript: its words, standard streams, and files that a host lends it.
//
// The calls and their numbers are those of Linux, for which the program is written. A host has what they need of folders and files:
// files.js in Node, and memory_files.js in a page. It throws an error with a `code` such as "ENOENT".

const ERRORS = {
  EPERM: [1, "Operation not permitted"], ENOENT: [2, "No such file or directory"], EINTR: [4, "Interrupted system call"], EIO: [5, "Input/output error"],
  ENXIO: [6, "No such device or address"], EBADF: [9, "Bad file descriptor"], EAGAIN: [11, "Resource temporarily unavailable"], ENOMEM: [12, "Cannot allocate memory"],
  EACCES: [13, "Permission denied"], EBUSY: [16, "Device or resource busy"], EEXIST: [17, "File exists"], EXDEV: [18, "Invalid cross-device link"], ENODEV: [19, "No such device"],
  ENOTDIR: [20, "Not a directory"], EISDIR: [21, "Is a directory"], EINVAL: [22, "Invalid argument"], ENFILE: [23, "Too many open files in system"],
  EMFILE: [24, "Too many open files"], ETXTBSY: [26, "Text file busy"], EFBIG: [27, "File too large"], ENOSPC: [28, "No space left on device"], ESPIPE: [29, "Illegal seek"],
  EROFS: [30, "Read-only file system"], EMLINK: [31, "Too many links"], EPIPE: [32, "Broken pipe"], ENAMETOOLONG: [36, "File name too long"], ENOLCK: [37, "No locks available"],
  ENOSYS: [38, "Function not implemented"], ENOTEMPTY: [39, "Directory not empty"], ELOOP: [40, "Too many levels of symbolic links"],
  EOVERFLOW: [75, "Value too large for defined data type"], EILSEQ: [84, "Invalid or incomplete multibyte or wide character"], ENOTSUP: [95, "Operation not supported"],
  ESTALE: [116, "Stale file handle"], EDQUOT: [122, "Disk quota exceeded"],
};
const TEXTS = new Map(Object.values(ERRORS));
const HERE = -100, EMPTY_PATH = 0x1000, NO_FOLLOW = 0x100; // of statx
const NOW = 0x3fffffffn, OMIT = 0x3ffffffen; // of futimens
const SLASH = 0x2f;

/** Throws an error as a host does. */
export function fail(code) {
  throw Object.assign(new Error(code), { code });
}

/** A run of the program: its words, its environment, and its host. */
export class System {
  #bytes;
  #opened = new Map();
  #error = 0;
  #words;
  #environment;
  #host;

  constructor(words, host, environment = {}) {
    const encode = (text) => (typeof text === "string" ? new TextEncoder().encode(text) : text);
    this.#words = words.map(encode);
    this.#environment = Object.entries(environment).map(([name, value]) => encode(`${name}=${value}`));
    this.#host = host;
  }

  /** Runs the program of a compiled module, and returns its status. */
  run(module) {
    const calls = {};
    for (const { name } of WebAssembly.Module.imports(module)) {
      if (!this[name]) throw new Error(`the module calls ${name}, which isn't known here`);
      calls[name] = (...values) => this.#call(name, values);
    }
    const { memory, main } = new WebAssembly.Instance(module, { env: calls }).exports;
    this.#bytes = () => new Uint8Array(memory.buffer);
    return main(0, 0n); // it may have C's two parameters, and reads neither
  }

  #call(name, values) {
    const isWide = WIDE.has(name);
    try {
      const answer = this[name](...values) ?? 0;
      return isWide ? BigInt(answer) : answer;
    } catch (error) {
      if (error.code === undefined) throw error;
      this.#error = (ERRORS[error.code] ?? ERRORS.EIO)[0];
      return isWide ? -1n : -1;
    }
  }

  // ---- the program's memory

  #part(at, size) {
    return this.#bytes().subarray(Number(at), Number(at) + Number(size));
  }

  #view(at, size) {
    const part = this.#part(at, size);
    return new DataView(part.buffer, part.byteOffset, part.length);
  }

  #path(at) {
    const bytes = this.#bytes(), from = Number(at);
    return bytes.slice(from, bytes.indexOf(0, from));
  }

  /** Copies a text into a buffer: -1 if there is none, -2 if it doesn't fit. */
  #copied(text, at, size) {
    if (!text) return -1;
    this.#part(at, size).set(text.subarray(0, Number(size)));
    return text.length > Number(size) ? -2 : text.length;
  }

  // ---- what is open

  #file(number) {
    if (number >= 0 && number <= 2) return this.#host.stream(number);
    return this.#opened.get(number) ?? fail("EBADF");
  }

  #open(file) {
    let number = 3;
    while (this.#opened.has(number)) number++;
    this.#opened.set(number, file);
    return number;
  }

  /** A path from an open folder on. */
  #from(folder, path) {
    if (folder === HERE || path[0] === SLASH) return path;
    const above = this.#file(folder).path;
    return Uint8Array.from([...above, SLASH, ...path]);
  }

  // ---- words and errors

  rattle_arg(number, at, size) {
    return this.#copied(this.#words[Number(number)], at, size);
  }

  rattle_env_at(number, at, size) {
    return this.#copied(this.#environment[Number(number)], at, size);
  }

  rattle_env(name, at, size) {
    const start = [...this.#path(name), 0x3d];
    const found = this.#environment.find((it) => start.every((byte, n) => it[n] === byte));
    return this.#copied(found?.subarray(start.length), at, size);
  }

  rattle_errno() {
    return this.#error;
  }

  rattle_set_errno(error) {
    this.#error = error;
  }

  __xpg_strerror_r(error, at, size) {
    const text = new TextEncoder().encode(`${TEXTS.get(error) ?? `Unknown error ${error}`}\0`);
    this.#part(at, size).set(text.subarray(0, Number(size)));
  }

  /** Node and browsers raise no signal for a pipe that nobody reads. */
  __sysv_signal() {}

  clock_gettime(clock, at) {
    const now = BigInt(Math.round((clock === 0 ? Date.now() : performance.now()) * 1e6)), view = this.#view(at, 16);
    view.setBigInt64(0, now / 1000000000n, true);
    view.setBigInt64(8, now % 1000000000n, true);
  }

  // ---- files

  open(path, flags, rest) {
    const mode = flags & 0o100 ? this.#view(rest, 4).getUint32(0, true) : 0;
    return this.#open(this.#host.open(this.#path(path), flags, mode));
  }

  rattle_open_dir_at(folder, name) {
    return this.#open(this.#host.openFolder(this.#from(folder, this.#path(name))));
  }

  close(number) {
    const file = this.#file(number);
    this.#opened.delete(number);
    file.close?.();
  }

  read(number, at, size) {
    return this.#file(number).read(this.#part(at, size), null);
  }

  pread(number, at, size, position) {
    return this.#file(number).read(this.#part(at, size), Number(position));
  }

  write(number, at, size) {
    return this.#file(number).write(this.#part(at, size));
  }

  isatty(number) {
    if (!this.#file(number).isTerminal) fail("EINVAL");
    return 1;
  }

  static {
    for (const [name, does] of [["fsync", "sync"], ["fdatasync", "sync"], ["ftruncate", "truncate"], ["fchmod", "chmod"]]) {
      this.prototype[name] = function (number, ...values) {
        this.#file(number)[does](...values.map(Number));
      };
    }
  }

  futimens(number, at) {
    const view = this.#view(at, 32), now = Date.now() / 1000;
    const times = [0, 16].map((from) => {
      const nanoseconds = view.getBigInt64(from + 8, true);
      return nanoseconds === NOW ? now : nanoseconds === OMIT ? undefined : Number(view.getBigInt64(from, true)) + Number(nanoseconds) / 1e9;
    });
    this.#file(number).setTimes(...times);
  }

  /** Without locks the program removes no leftover of another run. */
  flock() {
    fail("ENOSYS");
  }

  mkdir(path, mode) {
    this.#host.mkdir(this.#path(path), mode);
  }

  unlink(path) {
    this.#host.unlink(this.#path(path));
  }

  rename(from, to) {
    this.#host.rename(this.#path(from), this.#path(to));
  }

  statx(folder, path, flags, _mask, at) {
    const name = this.#path(path), isOpen = flags & EMPTY_PATH && !name.length;
    const found = isOpen ? this.#file(folder).stat() : this.#host.stat(this.#from(folder, name), !(flags & NO_FOLLOW));
    const view = this.#view(at, 256);
    this.#part(at, 256).fill(0);
    view.setUint32(0, 0x7ff, true);
    view.setUint32(4, 4096, true);
    view.setUint32(16, Number(found.nlink ?? 1), true);
    view.setUint16(28, Number(found.mode), true);
    view.setBigUint64(32, BigInt(found.ino ?? 0), true);
    view.setBigUint64(40, BigInt(found.size), true);
    for (const from of [64, 96, 112]) {
      // seconds are rounded down, also before 1970
      const all = BigInt(found.mtimeNs ?? 0), part = ((all % 1000000000n) + 1000000000n) % 1000000000n;
      view.setBigInt64(from, (all - part) / 1000000000n, true);
      view.setUint32(from + 8, Number(part), true);
    }
    view.setUint32(136, Number(found.dev ?? 0), true);
  }

  /** Puts entries into the buffer as Linux does: a number, an offset, the length, a kind that isn't known, and the name. */
  getdents64(number, at, size) {
    const folder = this.#file(number);
    if (!folder.list) fail("ENOTDIR");
    folder.left ??= folder.list();
    const room = Number(size), view = this.#view(at, size);
    let used = 0;
    while (folder.left.length) {
      const name = folder.left[0], length = (19 + name.length + 1 + 7) & ~7;
      if (used + length > room) break;
      this.#part(at, size).fill(0, used, used + length);
      view.setBigUint64(used, 1n, true);
      view.setUint16(used + 16, length, true);
      this.#part(at, size).set(name, used + 19);
      folder.left.shift();
      used += length;
    }
    if (!used && folder.left.length) fail("EINVAL");
    return used;
  }
}

// the calls that answer a number of 64 bits
const WIDE = new Set(["rattle_arg", "rattle_env", "rattle_env_at", "read", "pread", "write", "getdents64", "__sysv_signal"]);
