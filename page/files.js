// Files and folders of the machine, as the page is given them: pairs of a path and a File. A folder that is empty has no file.

/** What was dropped. `entries` are [path, File or null]; a folder is told by its path alone, with null. It is to be called while the
 * drop is handled: what was dropped is forgotten then. A page from the disk reads folders by handles, since Chromium refuses it the
 * files of an entry. */
export async function dropped(transfer) {
  const roots = [...transfer.items].filter((it) => it.kind === "file").map((it) => {
    const entry = it.webkitGetAsEntry?.();
    return entry?.isDirectory ? { entry, handle: it.getAsFileSystemHandle?.() } : { file: it.getAsFile() };
  });
  const found = [];
  for (const { file, entry, handle } of roots) {
    if (file) found.push([file.name, file]);
    else if (handle) await walkHandle(await handle, entry.name, found);
    else await walkEntry(entry, entry.name, found);
  }
  const isOne = roots.length === 1;
  return { entries: found, isOneFile: isOne && Boolean(roots[0].file), folder: isOne && roots[0].entry ? roots[0].entry.name : null };
}

async function walkHandle(handle, path, found) {
  found.push([path, handle.kind === "file" ? await handle.getFile() : null]);
  if (handle.kind === "directory") for await (const it of handle.values()) await walkHandle(it, `${path}/${it.name}`, found);
}

async function walkEntry(entry, path, found) {
  if (entry.isFile) {
    found.push([path, await new Promise((resolve, reject) => entry.file(resolve, reject))]);
    return;
  }
  found.push([path, null]);
  const reader = entry.createReader();
  for (;;) {
    const some = await new Promise((resolve, reject) => reader.readEntries(resolve, reject));
    if (!some.length) return;
    for (const it of some) await walkEntry(it, `${path}/${it.name}`, found);
  }
}

/** What an input element has: files alone, or a folder, whose name comes first in each path. */
export const chosen = (input) => [...input.files].map((file) => [file.webkitRelativePath || file.name, file]);

/** The same entries without the first name of each path, which is the folder's own. */
export const inside = (entries) => entries.map(([path, file]) => [path.slice(path.indexOf("/") + 1), file, path]).filter(([, , path]) => path.includes("/"));
