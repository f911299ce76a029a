// What littlefs.js promises beside the library's answers: node --test bindings/js/test
import assert from "node:assert/strict";
import { readFile } from "node:fs/promises";
import test from "node:test";
import { Image, LittlefsError, bytesOf, nameOf, superblock } from "../index.js";
import { Tool } from "../tool.js";

const refusal = (name) => (error) => error instanceof LittlefsError && error.name === name;
const fresh = (blockCount = 16) => Image.format({ blockCount });
const tool = new Tool(await WebAssembly.compile(await readFile(new URL("../mklittlefs.wasm", import.meta.url))));

test("files, folders and names", () => {
  const image = fresh();
  image.mkdir("/log/old", { recursive: true });
  image.mkdir("/log/old", { recursive: true });
  image.write("/log/today", "21.5 degrees\n");
  image.append("/log/today", "22 degrees\n");
  assert.equal(image.readText("/log/today"), "21.5 degrees\n22 degrees\n");
  assert.deepEqual([...image.walk()].map((it) => [it.path, it.size]), [["/log", null], ["/log/old", null], ["/log/today", 24]]);
  assert.deepEqual(image.stat("/log"), { isDirectory: true, size: null });
  assert.equal(image.stat("/log/today/x"), null);
  assert.throws(() => image.remove("/log"), refusal("NotEmpty"));
  image.rename("/log/today", "/caf\u00e9");
  assert.equal(image.readText("/caf\u00e9").length, 24);
  assert.equal(new TextDecoder().decode(image.read("/caf\u00e9", { position: 5, length: 7 })), "degrees");
  image.remove("/log", { recursive: true });
  assert.deepEqual(image.list().map((it) => it.name), ["caf\u00e9"]);
  image.close();
  assert.throws(() => image.list(), refusal("Closed"));
});

test("names that aren't UTF-8 come back as they are", () => {
  const name = Uint8Array.from([0x2f, 0xff, 0x61, 0xc3, 0xc3, 0xa9, 0xf0, 0x5c]), image = fresh();
  image.write(name, "x");
  const [entry] = image.list();
  assert.equal(entry.name, "\udcffa\udcc3\u00e9\udcf0\\");
  assert.deepEqual(bytesOf(entry.path), name);
  assert.equal(image.readText(entry.path), "x");
  assert.equal(nameOf(name), entry.path);
  assert.throws(() => image.write("/\ud812", "x"), refusal("Invalid"));
});

test("an image comes back as it is", () => {
  const image = fresh();
  image.write("/a", new Uint8Array(30000).fill(7));
  image.setAttribute("/a", 0x74, Uint8Array.from([1, 2, 3, 4]));
  const bytes = image.bytes(), again = Image.mount(bytes);
  assert.deepEqual(again.read("/a"), new Uint8Array(30000).fill(7));
  assert.deepEqual([...again.attributes("/a")], [[0x74, Uint8Array.from([1, 2, 3, 4])]]);
  assert.deepEqual(again.bytes(), bytes);
  assert.deepEqual(superblock(bytes), { version: 0x20000, blockSize: 4096, blockCount: 16, nameMax: 255, fileMax: 2147483647, attrMax: 1022 });
  const behind = new Uint8Array(bytes.length + 5000);
  behind.set(bytes);
  assert.deepEqual(Image.mount(behind).bytes(), bytes);
});

test("a refused write leaves the tree as it was", () => {
  const image = fresh(4);
  image.write("/a", "kept");
  const before = image.bytes();
  assert.throws(() => image.write("/b", new Uint8Array(100000)), refusal("NoSpace"));
  assert.throws(() => image.write("/a", new Uint8Array(100000)), refusal("NoSpace"));
  assert.deepEqual(image.list().map((it) => [it.name, it.size]), [["a", 4]]);
  assert.equal(image.readText("/a"), "kept");
  assert.equal(before.length, image.bytes().length);
});

test("refusals of sizes, bytes and values", () => {
  assert.throws(() => Image.mount(new Uint8Array(65536)), refusal("Corrupt"));
  assert.throws(() => Image.mount(new Uint8Array(65536), { blockSize: 4096 }), refusal("Corrupt"));
  assert.throws(() => Image.mount(new Uint8Array(65537), { blockSize: 4096 }), refusal("Invalid"));
  assert.throws(() => Image.format({ blockCount: 1 }), refusal("Invalid"));
  assert.throws(() => Image.format({ blockCount: 2 ** 32 }), RangeError);
  assert.throws(() => Image.mount({}), TypeError);
  assert.throws(() => fresh().setAttribute("/a", 256, "x"), RangeError);
});

test("memory goes back: many large images, closed or forgotten", () => {
  for (let round = 0; round < 40; round++) {
    const image = Image.format({ blockCount: 4096 });
    image.write("/a", new Uint8Array(1 << 20));
    image.close();
  }
});

test("too large an image is refused, and others go on", () => {
  const held = [];
  assert.throws(() => {
    for (let n = 0; n < 40; n++) held.push(Image.format({ blockSize: 65536, blockCount: 4096 }));
  }, refusal("NoMemory"));
  assert.ok(held.length >= 10);
  held.forEach((it) => it.close());
  const image = fresh();
  image.write("/a", "x");
  assert.equal(image.readText("/a"), "x");
});

test("the tool checks, lists and reads", () => {
  const image = fresh();
  image.write("/a", "hello");
  image.mkdir("/d");
  const bytes = image.bytes();
  assert.deepEqual(tool.check(bytes), { ok: true, files: 1, directories: 1, used: 4, blocks: 16, free: 12, order: "either", recover: false, writable: true, behind: 0 });
  assert.equal(new TextDecoder().decode(tool.run(["-l", "-"], bytes).output), "f 5 /a\nd 0 /d\n");
  assert.equal(new TextDecoder().decode(tool.run(["--cat", "/a", "-"], bytes).output), "hello");
  assert.deepEqual(tool.check(bytes, { blockSize: 8192 }), { ok: false, reason: "superblock: block size 4096, given 8192" });
  assert.equal(tool.run(["--nothing"]).status, 2);
  assert.match(tool.run(["-l", "missing.img"]).errors, /error: input/);
});

test("the tool makes an image of files", () => {
  const entries = [{ path: "d/a", bytes: new TextEncoder().encode("hello") }, { path: "e" }];
  const image = Image.mount(tool.make(entries));
  assert.deepEqual([...image.walk()].map((it) => [it.path, it.size]), [["/d", null], ["/d/a", 5], ["/e", null]]);
  assert.equal(image.readText("/d/a"), "hello");
  assert.throws(() => tool.make([{ path: "a", bytes: new Uint8Array(100000) }], { size: "8k" }), /error: NoSpace \(28\): 2 blocks are too few/);
});
