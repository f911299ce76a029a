// A page that opens, changes and makes littlefs images.
import { ask, button, download, el, number, one, plural, say, sized, terms } from "./dom.js";
import { Engine, start } from "./engine.js";
import { chosen, dropped, inside } from "./files.js";
import { showFile, showFolder } from "./view.js";
import { plain } from "./zip.js";

const BLOCK_SIZES = [["4096", "4096 (most chips)"], ...[8192, 2048, 1024, 16384, 32768, 65536].map((it) => [`${it}`, `${it}`])];
const ROWS_AT_ONCE = 200, OLDEST = 4;

let disk = null; // the image that is open
let coming = null; // the engine of one that is being opened

/** Runs what a person asked for, and says what went wrong. */
async function act(run) {
  const busy = setTimeout(() => {
    one("#busy").hidden = false;
    one("#busy button").hidden = !coming;
  }, 400);
  try {
    await ready;
    await run();
  } catch (error) {
    console.error(error);
    say(error.message, true);
  } finally {
    clearTimeout(busy);
    one("#busy").hidden = true;
  }
}

// ---- opening

function optionsGiven() {
  const value = (name, what) => number(one(`#options [name=${name}]`).value, what);
  return { blockSize: value("block", "Block size"), page: value("page", "Page"), offset: value("offset", "Offset") ?? 0, inlineMax: value("inline", "Longest inline file") };
}

/** Takes an image in place of the one that is open, once an engine of its own has it: until then, and where it is refused, that one stays. */
async function begin(engine, name, run, isChanged = false) {
  if (coming !== engine) coming?.end();
  coming = engine;
  const refused = await run(engine).catch((error) => {
    engine.end();
    throw error;
  });
  if (refused) return refuse(engine, name, refused);
  coming = null;
  close();
  disk = { engine, name, isChanged, shown: new Map([["/", ROWS_AT_ONCE]]), chosen: "/", rows: [] };
  document.body.classList.add("has-image");
  const top = (await engine.call("rows", disk.shown)).filter((it) => it.isDirectory);
  if (top.length <= 8) top.forEach((it) => disk.shown.set(it.path, ROWS_AT_ONCE));
  await refresh();
  one("#image").hidden = false;
}

async function openFile(file) {
  const options = optionsGiven();
  if (await mayLeave()) await begin(new Engine(), file.name, (engine) => engine.call("open", file, options));
}

function refuse(engine, name, { reason, length, superblock, parts }) {
  const box = one("#refused");
  box.hidden = false;
  box.classList.toggle("has-parts", parts.length > 0);
  one("h2", box).textContent = parts.length ? `${name} has no image at its beginning` : `${name} isn't accepted`;
  one(".reason", box).textContent = reason;
  one("dl", box).replaceChildren(...terms([
    ["Length", `${sized(length)} (${length.toLocaleString("en")} bytes)`],
    ...(superblock ? [["Superblock", versionOf(superblock)], ["Block size", superblock.blockSize], ["Blocks", superblock.blockCount]] : [["Superblock", "none in block 0 or 1"]]),
  ]));
  const openAt = (offset) => begin(engine, name, () => engine.call("openAt", name, { ...optionsGiven(), offset }));
  one(".parts", box).replaceChildren(...parts.map(([at, said]) =>
    el("p", {}, button(`Open the part at 0x${at.toString(16)}`, () => act(() => openAt(at)), { className: "main" }),
      ` ${plural(said.blockCount, "block")} of ${said.blockSize} bytes, ${sized(said.blockCount * said.blockSize)}`)));
  say("");
}

const versionOf = ({ version }) => `version ${version >>> 16}.${version & 0xffff}`;

async function mayLeave() {
  return !disk?.isChanged || Boolean(await ask("The image has changes that aren't saved", [], () => true, { ok: "Drop the changes" }));
}

function close() {
  disk?.engine.end();
  disk = null;
  one("#image").hidden = one("#refused").hidden = true;
  document.body.classList.remove("has-image");
}

// ---- what is shown

function named() {
  one("#image-name").textContent = disk.name;
  one("#changed").hidden = !disk.isChanged;
  document.title = `${disk.isChanged ? "● " : ""}${disk.name} – littlefs images`;
}

/** Shows the whole image again. */
async function refresh(focus = false) {
  const state = await disk.engine.call("state"), { checked, superblock: said } = state;
  disk.canWrite = checked.ok && checked.writable;
  named();
  const meter = el("meter", { min: 0, max: checked.blocks, value: checked.used, high: 0.9 * checked.blocks, title: `${checked.used} of ${checked.blocks} blocks` });
  const limits = [["nameMax", "name", 255], ["fileMax", "file", 2147483647], ["attrMax", "attribute", 1022]].filter(([key, , usual]) => said && said[key] !== usual);
  one("#facts").replaceChildren(...terms([
    ["Version", said ? versionOf(said).slice(8) : "?"],
    ["Size", sized(state.size)],
    ["Blocks", `${state.blockCount} of ${state.blockSize} bytes`],
    ["Used", el("span", {}, `${checked.used} of ${checked.blocks}`, meter)],
    ["Files", checked.files],
    ["Folders", checked.directories],
    ["Order of names", checked.order],
    ...(limits.length ? [["Limits", limits.map(([key, what]) => `${what} ${said[key]}`).join(", ")]] : []),
    ...(state.offset ? [["In the file at", `0x${state.offset.toString(16)}`]] : []),
    ...(state.behind > 0 ? [["Behind the image", sized(state.behind)]] : []),
    ["Revisions of metadata pairs", wear(state.pairs)],
  ]));
  one("#verdict").replaceChildren(
    el("span", { className: checked.ok ? "good" : "bad" }, checked.ok ? "Accepted" : `Not accepted: ${checked.reason}`),
    checked.ok ? (checked.recover ? "; a loss of power left something to be ended, and the first change does it" : "; nothing is left to recover") : "",
    checked.ok && !checked.writable ? el("span", { className: "warn" }, `. It can be read only: ${checked.reason}`) : "");
  document.querySelectorAll("[data-writes]").forEach((it) => (it.disabled = !disk.canWrite));
  await drawTree(focus);
  await drawView();
}

/** The oldest pairs: a revision counts compactions, each of which erases one of the two blocks. */
function wear(pairs) {
  const oldest = [...pairs].sort((a, b) => b.revision - a.revision).slice(0, OLDEST);
  const text = oldest.map(({ blocks, revision }) => `${revision} (blocks ${blocks.join(", ")})`).join("; ") + (pairs.length > OLDEST ? `; ${plural(pairs.length - OLDEST, "younger pair")}` : "");
  return el("span", { title: "The oldest first. Each compaction of a pair erases one of its blocks and adds one. How often other blocks were erased isn't kept in an image." }, text);
}

/** Has the rows from the engine, and shows them. */
async function drawTree(focus = false) {
  const root = { name: "/", path: "/", isDirectory: true, size: null, depth: 0 }, { engine } = disk;
  const rows = disk.shown.has("/") ? await engine.call("rows", disk.shown) : [];
  if (disk?.engine !== engine) return;
  disk.rows = [root, ...rows.filter((it) => !it.left)];
  if (!disk.rows.some((it) => it.path === disk.chosen)) disk.chosen = "/";
  one("#tree").replaceChildren(...[root, ...rows].map((row) => (row.left ? moreOf(row) : rowOf(row))));
  if (!rows.length && disk.shown.has("/")) one("#tree").append(el("p", {}, disk.canWrite ? "Nothing is in it yet. Add files, or drop them here." : "Nothing is in it."));
  mark(focus);
}

const indented = (depth) => `padding-left: ${0.3 + depth * 1.1}rem`;

function rowOf(row) {
  const isOpen = disk.shown.has(row.path);
  return el("div", {
    role: "treeitem", className: row.isDirectory ? "row is-folder" : "row", tabIndex: -1, title: row.path, style: indented(row.depth),
    "aria-level": row.depth + 1, "aria-selected": false, "aria-expanded": row.isDirectory ? isOpen : undefined,
    onclick: () => (row.isDirectory && (row.path === disk.chosen || !isOpen) ? toggle(row.path) : choose(row.path)),
  },
  el("span", { className: "mark", "aria-hidden": "true" }, row.isDirectory ? (isOpen ? "▾" : "▸") : "·"),
  el("span", { className: "name" }, row.depth ? row.name + (row.isDirectory ? "/" : "") : "/"),
  el("span", { className: "size" }, row.isDirectory ? "" : sized(row.size)));
}

/** Stands for the entries of a folder that aren't shown yet. */
const moreOf = ({ path, depth, left, most }) =>
  button(`Show more (${left.toLocaleString("en")} left)`, () => act(() => (disk.shown.set(path, most + ROWS_AT_ONCE), drawTree())), { className: "more", style: indented(depth) });

/** Marks the row that is chosen, and no other. */
function mark(focus) {
  const rows = [...document.querySelectorAll("#tree .row")], row = rows.find((it) => it.title === disk.chosen);
  for (const it of rows) it.tabIndex = it === row ? 0 : -1;
  for (const it of rows) it.setAttribute("aria-selected", it === row);
  if (focus) row.focus();
  row.scrollIntoView({ block: "nearest" });
}

const choose = (path, focus = true) => act(async () => {
  disk.chosen = path;
  mark(focus);
  await drawView();
});

/** Opens or closes a folder in the tree. */
const toggle = (path) => act(async () => {
  if (!disk.shown.delete(path)) disk.shown.set(path, ROWS_AT_ONCE);
  disk.chosen = path;
  await drawTree(true);
  await drawView();
});

const folderOf = (path) => path.slice(0, path.lastIndexOf("/")) || "/";

one("#tree").addEventListener("keydown", (event) => {
  const { rows } = disk, at = rows.findIndex((it) => it.path === disk.chosen), row = rows[at];
  const isOpen = disk.shown.has(row.path), to = (n) => choose(rows[Math.max(0, Math.min(rows.length - 1, n))].path);
  const keys = {
    ArrowDown: () => to(at + 1),
    ArrowUp: () => to(at - 1),
    Home: () => to(0),
    End: () => to(rows.length - 1),
    ArrowRight: () => (row.isDirectory && !isOpen ? toggle(row.path) : row.isDirectory && to(at + 1)),
    ArrowLeft: () => (row.isDirectory && isOpen ? toggle(row.path) : choose(folderOf(row.path))),
    Enter: () => (row.isDirectory ? toggle(row.path) : one("#view [role=tab]")?.focus()),
    " ": () => row.isDirectory && toggle(row.path),
    Delete: () => act(() => asked(row, "remove")),
    F2: () => act(() => asked(row, "rename")),
  };
  if (!keys[event.key] || event.ctrlKey || event.metaKey || event.altKey) return;
  event.preventDefault();
  keys[event.key]();
});

async function drawView() {
  const row = disk.rows.find((it) => it.path === disk.chosen), { engine } = disk;
  const { bytes, count, attributes } = await engine.call("entry", row.path);
  if (disk?.engine !== engine || disk.chosen !== row.path) return;
  const doing = (what, more) => act(() => asked(row, what, more));
  if (row.isDirectory) showFolder(one("#view"), row, count, attributes, disk.canWrite, doing);
  else showFile(one("#view"), row, bytes, attributes, disk.canWrite, doing);
}

// ---- changing

/** Makes a change by a call of the engine, and shows the image then, also where it was refused. */
async function change(name, ...values) {
  try {
    return await disk.engine.call(name, ...values);
  } finally {
    disk.isChanged = true;
    await refresh(name === "change");
  }
}

const folderChosen = () => (disk.rows.find((it) => it.path === disk.chosen).isDirectory ? disk.chosen : folderOf(disk.chosen));

const beside = (folder, name) => (folder === "/" ? "" : folder) + "/" + name;

/** Asks for a path, makes a change by it, and shows the path then. */
async function changeBy(title, field, run) {
  const path = await ask(title, [field], run);
  if (!path) return;
  for (let at = 0; at >= 0; at = path.indexOf("/", at + 1)) disk.shown.set(path.slice(0, at) || "/", ROWS_AT_ONCE);
  disk.isChanged = true;
  disk.chosen = path;
  await refresh(true);
}

const ASKED = {
  async download({ isDirectory, path, name }) {
    if (isDirectory) download(await disk.engine.call("zip", path), `${plain(name)}.zip`);
    else download(new Blob([(await disk.engine.call("entry", path)).bytes]), plain(name));
  },

  replace: ({ path }) => pick("#pick-replacement", async ([[, file]]) => {
    await change("replace", path, file);
    say(`${path} has the bytes of ${file.name}`);
  }),

  async text({ path }, text) {
    await change("change", "write", path, text);
    say(`${path} is put into the image`);
  },

  rename: (row) => changeBy(`Another path for ${row.path}`, ["path", "Path", row.path], async ({ path }) => {
    await disk.engine.call("change", "rename", row.path, path);
    return path;
  }),

  async remove({ path, isDirectory, depth }) {
    const count = isDirectory ? await disk.engine.call("countBelow", path) : 0;
    if (count && !(await ask(`Remove ${path} with all that is in it, ${count === 1 ? "1 entry" : `${count.toLocaleString("en")} entries`}?`, [], () => true, { ok: "Remove" }))) return;
    const at = disk.rows.findIndex((it) => it.path === path), next = disk.rows[at + 1];
    disk.chosen = next?.depth === depth ? next.path : disk.rows[Math.max(0, at - 1)].path;
    await change("change", "remove", path, { recursive: true });
    say(`${path} is removed`);
  },
};

const asked = (row, what, more) => (what === "download" || (disk.canWrite && row.path !== "/") ? ASKED[what](row, more) : undefined);

async function add(below, entries) {
  const folders = new Set(entries.flatMap(([path]) => path.split("/").slice(0, -1).map((_, at, names) => names.slice(0, at + 1).join("/"))));
  if (folders.size <= 20) ["", ...folders].forEach((path) => disk.shown.set(path ? beside(below, path) : below, ROWS_AT_ONCE));
  const { count, blocks } = await change("add", below, await disk.engine.take(entries));
  say(`${plural(count, "file")} added below ${below}, ${plural(blocks, "block")} more`);
}

function pick(selector, run) {
  const input = one(selector);
  input.value = "";
  input.onchange = () => input.files.length && act(() => run(chosen(input)));
  input.click();
}

// ---- making

/** Makes an image by a dialog, whose values a function turns into what an engine is to do. */
async function make(title, fields, name, runOf, more) {
  if (!(await mayLeave())) return;
  await ask(title, [["block", "Block size", "4096", BLOCK_SIZES], ...fields], async (given) => {
    const run = runOf({ blockSize: number(given.block, "Block size") }, given);
    await begin(new Engine(), name, async (engine) => void (await run(engine)), true);
  }, { ok: "Make it", ...more });
}

function makeOf(entries, name) {
  const count = entries.filter(([, file]) => file).length; // asking for the sizes of many would keep the page waiting
  const fields = [["size", "Size of the image", "auto"], ["inline", "Longest inline file", "1022"], ["names", "Longest name", "255"]];
  const hint = "The size is that of the firmware's partition, as 1408k or 0x160000; auto takes the fewest blocks that hold the files, as -s auto of the tool. Give the firmware's cache_size as the longest inline file, and its LFS_NAME_MAX.";
  return make(`An image of ${name}: ${plural(count, "file")}`, fields, `${plain(name) || "littlefs"}.img`, ({ blockSize }, given) => {
    const size = given.size.trim() === "auto" ? "auto" : number(given.size, "Size");
    const options = { blockSize, size, inlineMax: number(given.inline, "Longest inline file"), nameMax: number(given.names, "Longest name") };
    return async (engine) => engine.call("make", await engine.take(entries), options);
  }, { hint });
}

const makeEmpty = () => make("An empty image", [["size", "Size of the image", "64k"]], "littlefs.img", ({ blockSize }, given) => {
  const size = number(given.size, "Size");
  if (!size || size % blockSize) throw new Error(`the size is a whole number of blocks of ${blockSize} bytes`);
  return (engine) => engine.call("format", { blockSize, blockCount: size / blockSize });
});

// ---- what a person does

const DOING = {
  "choose-image": () => pick("#pick-image", ([[, file]]) => openFile(file)),
  "choose-folder": () => pick("#pick-folder", (entries) => makeOf(inside(entries), entries[0][0].split("/")[0])),
  "new-empty": makeEmpty,
  "add-files": () => pick("#pick-files", (entries) => add(folderChosen(), entries)),
  "add-folder": () => pick("#pick-folder", (entries) => add(folderChosen(), entries)),
  "new-folder": () => changeBy("A new folder", ["name", `Its name, in ${folderChosen()}`, ""], async ({ name }) => {
    if (!name || name.includes("/")) throw new Error("a name has no /, and isn't empty");
    const path = beside(folderChosen(), name);
    await disk.engine.call("change", "mkdir", path);
    disk.shown.set(path, ROWS_AT_ONCE);
    return path;
  }),
  save: async () => {
    download(await disk.engine.call("save"), disk.name);
    disk.isChanged = false;
    named();
    say(`${disk.name} is given to the browser to save`);
  },
  "download-all": () => ASKED.download({ isDirectory: true, path: "/", name: disk.name.replace(/\.[^.]*$/, "") }),
  close: async () => (await mayLeave()) && close(),
};

document.addEventListener("click", (event) => {
  const what = event.target.closest("[data-do]")?.dataset.do;
  if (what === "stop") coming?.end();
  else if (what) act(DOING[what]);
});

document.addEventListener("keydown", (event) => {
  const what = (event.ctrlKey || event.metaKey) && { s: disk && "save", o: "choose-image" }[event.key];
  if (!what) return;
  event.preventDefault();
  act(DOING[what]);
});

addEventListener("dragover", (event) => {
  event.preventDefault();
  document.body.classList.add("is-over");
});
addEventListener("dragleave", (event) => event.relatedTarget || document.body.classList.remove("is-over"));
addEventListener("drop", (event) => {
  event.preventDefault();
  document.body.classList.remove("is-over");
  const isInto = disk?.canWrite && event.target.closest("#image"), reading = dropped(event.dataTransfer);
  act(async () => {
    const { entries, isOneFile, folder } = await reading;
    if (!entries.length) return;
    if (isInto) await add(folderChosen(), entries);
    else if (isOneFile) await openFile(entries[0][1]);
    else await makeOf(folder ? inside(entries) : entries, folder ?? "the files");
  });
});
addEventListener("beforeunload", (event) => disk?.isChanged && event.preventDefault());

const ready = start();
ready.then(() => (document.body.dataset.ready = "yes"), (error) => say(`The library didn't start: ${error.message}`, true));
