import type { Options as ImageOptions } from "./index.js";

type Options = Omit<ImageOptions, "pairCycles">;

export type Check =
  | { ok: false; reason: string; behind?: number }
  | {
      ok: true; files: number; directories: number; used: number; blocks: number; free: number;
      order: "longer-first" | "shorter-first" | "either"; recover: boolean; writable: boolean; reason?: string;
      version?: string; name_max?: number; file_max?: number; attr_max?: number; behind?: number;
    };

/** A file, or without bytes a folder, by its path as "log/today"; `time` is in milliseconds since 1970. */
export interface FileEntry {
  path: string;
  bytes?: Uint8Array | null;
  time?: number;
}

/** The tool mklittlefs, from the compiled module mklittlefs.wasm. */
export declare class Tool {
  constructor(module: WebAssembly.Module);
  /** Runs the tool with the words of a command line and the bytes of its standard input, `-`. It sees no file. */
  run(words: string[], input?: Uint8Array): { status: number; output: Uint8Array; errors: string };
  /** What `--check --json` says of an image. Version 2.1 is accepted unless `also21` is false. */
  check(bytes: Uint8Array, options?: Options): Check;
  /** Returns the image that `-c` makes of files and folders. Throws an error with the tool's lines if it refuses. */
  make(entries: FileEntry[], options?: Pick<Options, "blockSize" | "page" | "nameMax" | "inlineMax"> & { size?: number | string; times?: boolean }): Uint8Array;
}
