#!/usr/bin/env node
// The program mklittlefs for the command line, with Node's files: mklittlefs -c FOLDER IMAGE
import { existsSync, readFileSync } from "node:fs";
import { host } from "./files.js";
import { System } from "./system.js";

/** The command line's words: as bytes if the system tells, since Node replaces what isn't UTF-8. */
function words() {
  const given = process.argv.slice(2), list = "/proc/self/cmdline";
  if (!given.some((word) => word.includes("\ufffd")) || !existsSync(list)) return given;
  const all = readFileSync(list), found = [];
  for (let from = 0; from < all.length; from = all.indexOf(0, from) + 1) found.push(Uint8Array.from(all.subarray(from, all.indexOf(0, from))));
  return found.slice(found.length - given.length);
}

try {
  const module = new WebAssembly.Module(readFileSync(new URL("./mklittlefs.wasm", import.meta.url)));
  process.exitCode = new System(["mklittlefs", ...words()], host, process.env).run(module);
} catch (error) {
  process.stderr.write(`error: the program stopped: ${error.message}\n`);
  process.exitCode = 1;
}
