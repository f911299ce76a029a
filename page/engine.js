// The library and the tool in a worker of their own: each engine has at most one image, and its memory goes when it ends.
import source from "worker.js";
import librarySource from "littlefs.wasm.gz";
import toolSource from "mklittlefs.wasm.gz";

const unpacked = (bytes) => new Response(new Blob([bytes]).stream().pipeThrough(new DecompressionStream("gzip"))).arrayBuffer();
const compiled = async (bytes) => WebAssembly.compile(await unpacked(bytes));

const FILES_AT_ONCE = 100;
let modules;

/** What the page needs of a browser, by the names of what lacks. */
const NEEDED = { WebAssembly: "WebAssembly", BigInt: "BigInt", CompressionStream: "CompressionStream", Worker: "workers", "HTMLDialogElement.prototype.showModal": "dialogs" };

/** Compiles both modules, for all engines. */
export async function start() {
  const lacks = Object.entries(NEEDED).filter(([path]) => path.split(".").reduce((from, name) => from?.[name], globalThis) === undefined).map(([, what]) => what);
  if (lacks.length) throw new Error(`this browser has no ${lacks.join(" and no ")}: take a newer one`);
  modules = await Promise.all([compiled(librarySource), compiled(toolSource)]);
}

const address = URL.createObjectURL(new Blob([source]));

export class Engine {
  #worker = new Worker(address);
  #waiting = new Map();
  #number = 0;
  #ended = null;

  constructor() {
    this.#worker.onmessage = ({ data: [number, error, answer] }) => {
      const { resolve, reject } = this.#waiting.get(number);
      this.#waiting.delete(number);
      if (error === null) resolve(answer);
      else reject(new Error(error));
    };
    this.#worker.onerror = ({ message }) => this.end(`The browser ended what was being done: ${message}`);
    this.call("start", ...modules).catch(() => {});
  }

  /** Makes a call of worker.js, and returns a promise of its answer. */
  call(name, ...values) {
    return new Promise((resolve, reject) => {
      if (this.#ended) reject(new Error(this.#ended));
      this.#waiting.set(++this.#number, { resolve, reject });
      this.#worker.postMessage([this.#number, name, values]);
    });
  }

  /** Gives the worker files, some at a time, since a browser looks at each as it goes over. Returns what a call names them by. */
  async take(entries) {
    const key = ++this.#number;
    for (let at = 0; at < entries.length; at += FILES_AT_ONCE) await this.call("take", key, entries.slice(at, at + FILES_AT_ONCE));
    return key;
  }

  /** Lets the image go, and stops what is being done. */
  end(why = "Stopped") {
    this.#ended ??= why;
    this.#worker.terminate();
    for (const { reject } of this.#waiting.values()) reject(new Error(why));
    this.#waiting.clear();
  }
}
