// For Node, whose `fetch` takes no file: tmpl.mjs, with the module read from the disk.
import { readFile } from "node:fs/promises";
import { load as loaded } from "./tmpl.mjs";

export { MemoryError, Problem, TemplateError, TrapError } from "./tmpl.mjs";

export async function load(source = new URL("./tmpl.wasm", import.meta.url)) {
    return loaded(source instanceof URL && source.protocol === "file:" ? readFile(source) : source);
}
