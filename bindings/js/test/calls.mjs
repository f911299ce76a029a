// Makes by littlefs.js the calls of a list that ports/calls.c makes by the library, and prints the same: node calls.mjs MODULE LIST [times]; in a browser for a server's files
import { Image, bytesOf, load } from "../littlefs.js";

const FROM = 7;
const data = Uint8Array.from({ length: 1 << 20 }, (_, at) => (at * 7) >> 3);
const sum = (all) => all.reduce((sum, byte) => Math.imul(sum ^ byte, 0x01000193), 0x811c9dc5 | 0) >>> 0;

/** The lines of a folder, as the library has them. */
function listed(path) {
  const shown = (byte) => (byte >= 0x20 && byte < 0x7f && byte !== 0x5c ? String.fromCharCode(byte) : `\\x${byte.toString(16).padStart(2, "0")}`);
  const text = image.list(path).map((it) => `${it.isDirectory ? "d" : "f"} ${it.size ?? 0} ${Array.from(bytesOf(it.name), shown).join("")}\n`);
  return new TextEncoder().encode(text.join(""));
}

let none, image, file, all;

// those that aren't a call of an image with the same values
const CALLS = {
  image: (path, _, blockSize, page, versions, order, blockCount) => {
    const given = { blockSize, page, blockCount, order: order ? "shorter-first" : "longer-first", also21: versions === 1 };
    image.close();
    image = none;
    image = blockCount ? Image.format(given) : Image.mount(path.length ? file : all, given);
  },
  bytes: () => (all = image.bytes()),
  write: (path, _, kind, size) => image.write(path, data.subarray(0, size)),
  append: (path, _, kind, size) => image.append(path, data.subarray(0, size)),
  setAttribute: (path, _, kind, size) => image.setAttribute(path, kind, data.subarray(0, size)),
  getAttribute: (path, _, kind) => image.getAttribute(path, kind),
  removeAttribute: (path, _, kind) => image.removeAttribute(path, kind),
  list: listed,
  read: (path, _, kind, size) => image.read(path, { position: FROM, length: size }),
};

/** The number that the library answers, and what it puts into a buffer. */
function answer([what, ...values]) {
  try {
    const found = CALLS[what] ? CALLS[what](...values) : image[what](...values);
    return found instanceof Uint8Array ? [found.length, found] : [found ?? 0, []];
  } catch (error) {
    if (error.number === undefined) throw error;
    return [-error.number, []];
  }
}

const bytes = (hex) => Uint8Array.from(hex.match(/../g) ?? [], (it) => parseInt(it, 16));
const textOf = (bytes) => new TextDecoder().decode(bytes);

/** In milliseconds: what the process has used, or in a browser those that passed. */
function clock() {
  if (!globalThis.process) return performance.now();
  const { user, system } = process.cpuUsage();
  return (user + system) / 1000;
}

/** Returns the lines for a list, whose images `read` reads by their names. */
async function run(module, list, times, read) {
  await load(module);
  image = none = Image.format({ blockCount: 2 });
  none.close();
  const calls = list.trim().split("\n").map((line) => {
    const [what, path, other, ...numbers] = line.split(" "), at = bytes(path);
    return [what, times ? textOf(at) : at, bytes(other), ...numbers.map(Number)];
  });
  const lines = [];
  let since = clock();
  for (const call of calls) {
    if (call[0] === "time") {
      lines.push((clock() - since).toFixed(3));
      since = clock();
    } else {
      if (call[0] === "image" && call[1].length) file = await read(textOf(call[1]));
      const [number, bytes] = answer(call);
      if (!times) lines.push(`${number} ${sum(bytes).toString(16).padStart(8, "0")}`);
    }
  }
  return lines;
}

if (globalThis.process) {
  const { readFileSync } = await import("node:fs"), [, , module, list, times] = process.argv;
  console.log((await run(readFileSync(module), readFileSync(list, "utf8"), times, readFileSync)).join("\n"));
} else {
  const part = async (name) => (await fetch(`/${name}`)).arrayBuffer();
  document.body.textContent = (await run(await part("littlefs.wasm"), textOf(await part("list")), import.meta.url.endsWith("times"), part)).join("\n");
  document.body.dataset.ready = "yes";
}
