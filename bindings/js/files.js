// Node's files and standard streams, as system.js asks for them. Paths are bytes, so a name that isn't UTF-8 stays what it is.
import fs from "node:fs";
import tty from "node:tty";
import { fail } from "./system.js";

const { O_RDONLY, O_WRONLY, O_RDWR, O_CREAT, O_EXCL, O_TRUNC, O_APPEND, S_IFMT, S_IFDIR } = fs.constants;
// Linux's flags, which other systems number in another way
const FLAGS = [[0o1, O_WRONLY], [0o2, O_RDWR], [0o100, O_CREAT], [0o200, O_EXCL], [0o1000, O_TRUNC], [0o2000, O_APPEND]];
const EXACT = { bigint: true };

const named = (path) => (path.length ? Buffer.from(path) : fail("ENOENT"));
const isFolder = (found) => (Number(found.mode) & S_IFMT) === S_IFDIR;

/** Does it again until the system is ready: Node opens some pipes and terminals so that they don't wait. */
function waiting(run) {
  for (;;) {
    try {
      return run();
    } catch (error) {
      if (error.code === "EOF") return 0;
      if (error.code !== "EAGAIN") throw error;
      Atomics.wait(new Int32Array(new SharedArrayBuffer(4)), 0, 0, 2);
    }
  }
}

/** What is open: a file by its number, or a folder by its path, since not each system opens one. */
class Opened {
  constructor(number, path) {
    this.number = number;
    this.path = path;
    if (path) this.list = () => fs.readdirSync(named(path), { encoding: "buffer" });
  }

  get isTerminal() {
    return !this.path && tty.isatty(this.number);
  }

  read(room, position) {
    return this.path ? fail("EISDIR") : waiting(() => fs.readSync(this.number, room, 0, room.length, position));
  }

  write(bytes) {
    return this.path ? fail("EBADF") : waiting(() => fs.writeSync(this.number, bytes));
  }

  stat() {
    return this.path ? fs.statSync(named(this.path), EXACT) : fs.fstatSync(this.number, EXACT);
  }

  /** Has the bytes on the disk, or a folder's names if the system can. */
  sync() {
    if (this.path && process.platform === "win32") return;
    const number = this.path ? fs.openSync(named(this.path), O_RDONLY) : this.number;
    try {
      fs.fsyncSync(number);
    } finally {
      if (this.path) fs.closeSync(number);
    }
  }

  truncate(size) {
    fs.ftruncateSync(this.number, size);
  }

  chmod(mode) {
    fs.fchmodSync(this.number, mode);
  }

  setTimes(read, changed) {
    const now = this.stat(), [set, at] = this.path ? [fs.utimesSync, named(this.path)] : [fs.futimesSync, this.number];
    set(at, read ?? Number(now.atimeNs) / 1e9, changed ?? Number(now.mtimeNs) / 1e9);
  }

  close() {
    if (!this.path) fs.closeSync(this.number);
  }
}

/** What system.js asks for, of Node. */
export const host = {
  stream: (number) => new Opened(number),

  open(path, flags, mode) {
    const found = fs.statSync(named(path), { throwIfNoEntry: false });
    if (found && isFolder(found)) return flags & 0o303 ? fail(flags & 0o200 ? "EEXIST" : "EISDIR") : new Opened(null, path);
    return new Opened(fs.openSync(named(path), FLAGS.reduce((sum, [theirs, ours]) => (flags & theirs ? sum | ours : sum), O_RDONLY), mode));
  },

  openFolder: (path) => (isFolder(host.stat(path, false)) ? new Opened(null, path) : fail("ENOTDIR")),

  /** With a slash at the end a link is followed, as everywhere on Linux. */
  stat: (path, follows) => (follows || path.at(-1) === 0x2f ? fs.statSync : fs.lstatSync)(named(path), EXACT),
  mkdir: (path, mode) => void fs.mkdirSync(named(path), { mode }),
  unlink: (path) => fs.unlinkSync(named(path)),
  rename: (from, to) => fs.renameSync(named(from), named(to)),
};
