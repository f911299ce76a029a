// The program mklittlefs on bytes: what --check says of an image, and an image of files as -c makes it, from the module mklittlefs.wasm.

import { bytesOf, superblock, usualPage } from "./littlefs.js";
import { MemoryHost } from "./memory_files.js";
import { System } from "./system.js";

const TOO_MUCH = 1 << 28;

/** The tool, from a compiled module. Each run begins a fresh instance. */
export class Tool {
  #module;

  constructor(module) {
    this.#module = module;
  }

  /** Runs the tool with the words of a command line and the bytes of its standard input. It sees the files of `host` alone. */
  run(words, input = new Uint8Array(0), host = new MemoryHost(input)) {
    if (input.length > TOO_MUCH) throw new RangeError("an image has at most 256 MiB");
    const status = new System(["mklittlefs", ...words], host).run(this.#module);
    return { status, output: host.output, errors: host.errors };
  }

  /** Returns what `--check --json` says of an image: `ok`, and what is in it or the reason why it is refused. */
  check(bytes, { blockSize, page, also21 = true, nameMax, fileMax, attrMax, inlineMax } = {}) {
    const inline = inlineWithin(inlineMax, blockSize ?? superblock(bytes)?.blockSize);
    const options = { "-b": blockSize ?? "auto", "-p": page, "--name-max": nameMax, "--file-max": fileMax, "--attr-max": attrMax, "--inline-max": inline };
    const { status, output, errors } = this.run(["--check", "--json", ...optionWords(options), ...(also21 ? ["--also-2.1"] : []), "-"], bytes);
    if (!output.length) throw new Error(errors.trim() || `the check ended with status ${status}`);
    return JSON.parse(new TextDecoder().decode(output));
  }

  /** Returns the image that `-c` makes of files and folders: `{ path: "log/today", bytes, time }`, or without bytes for a folder. */
  make(entries, { size = "auto", ...options } = {}) {
    const host = new MemoryHost(), { blockSize = 4096, page = usualPage(blockSize), nameMax, inlineMax, times } = options;
    host.put(bytesOf("data"));
    for (const { path, bytes, time } of entries) host.put(bytesOf(`data/${path}`), bytes, time);
    const given = optionWords({ "-s": size, "-b": blockSize, "-p": page, "--name-max": nameMax, "--inline-max": inlineWithin(inlineMax, blockSize) });
    const { status, output, errors } = this.run(["-c", "data", "--explain", ...given, ...(times ? ["--times"] : []), "-"], undefined, host);
    if (status) throw new Error(errors.trim().replaceAll("\n", ": ").replaceAll("data/", "/"));
    return output;
  }
}

/** The library takes a larger one as an eighth of a block, and the tool refuses it. */
const inlineWithin = (inlineMax, blockSize = 4096) => (inlineMax === undefined ? undefined : Math.min(inlineMax, Math.floor(blockSize / 8), 1022));

const optionWords = (options) => Object.entries(options).flatMap(([name, value]) => (value === undefined ? [] : [name, String(value)]));
