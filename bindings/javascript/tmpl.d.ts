/** Templates of the language of Go's text/template over data in JSON. */

/** A string, or bytes, which need not be UTF-8. */
export type Bytes = string | Uint8Array;

/** Template files: pairs of a path and what the file holds, in order, or an object or a Map of them. What a later file defines replaces
 * what an earlier one did. An object has keys that are integers before all others, whatever the order in which it was written. */
export type Files = Iterable<readonly [path: Bytes, what: Bytes]> | Readonly<Record<string, Bytes>>;

export interface Options {
    /** What a missing key gives: `"default"` if left out. */
    missingKey?: "default" | "invalid" | "zero" | "error";
    /** How deep calls of templates may be nested, 1 to 100,000: 1,000 if left out. */
    depth?: number;
    /** How many steps a run may take, 1 to 2^62: 10,000,000 if left out, which is less than the 1,000,000,000 of the command. */
    steps?: number | bigint;
    /** Prints the set of templates, and runs none; the name and the data are not looked at. */
    printed?: boolean;
    /** How many bytes of text a render may write: any number if left out or 0. A text that is longer is a TemplateError of status 6, with
     * the bytes that come first. */
    output?: number;
    /** The format of which the text has to be, as `"json"`, `"yaml"` or `"csv:3"`: any text if left out. A text that is not is not given, and
     * is a TemplateError of status 8. */
    writes?: string;
    /** How many bytes of memory the module may take for it, to parse, to read data and to run: any number if left out or 0. Where it needs more
     * it throws MemoryError. What was given as files, name and data does not count, nor does what is kept from before. */
    memory?: number;
}

/** An error in a template file, and where it is. As a string it is a line as compilers write it, `FILE:LINE:COLUMN: error: TEXT`. */
export class Problem {
    /** The path of the file, as a line shows it: control characters by their codes. */
    readonly file: string;
    /** From 1, as columns, which count characters. */
    readonly line: number;
    readonly column: number;
    /** The rule that is broken, as `tmpl-check --format json` names it. */
    readonly rule: string;
    /** The reason, as the command has it, what is wrong, and what to write instead where that is known. */
    readonly text: string;
    constructor(file: string, line: number, column: number, rule: string, text: string);
    toString(): string;
}

/** What a check over a JSON Schema found, and where. */
export interface Finding {
    readonly file: string;
    /** From 1, as columns, which count characters. */
    readonly line: number;
    readonly column: number;
    readonly level: "error" | "warning";
    /** The rule, as `tmpl-check --format json` names it. */
    readonly rule: string;
    readonly text: string;
    /** A counterexample, where one is found. */
    readonly note?: string;
}

export interface SchemaOptions {
    /** The template that is rendered: the first file's own if left out. */
    name?: Bytes;
    /** The one mode for missing keys that is asked for: each if left out. */
    missingKey?: "default" | "invalid" | "zero" | "error";
    /** Templates that may be missing, since a call of them is meant to fail. */
    stops?: Iterable<Bytes>;
    /** The name by which findings call the schema: `"schema"` if left out. */
    schemaName?: Bytes;
    /** How many bytes of memory the module may take: any number if left out or 0. */
    memory?: number;
}

/** A render that failed. Its message is its line. */
export class TemplateError extends Error {
    /** As of the command: 1 a fault of the run, 2 the name of a file that is not UTF-8, 4 a refused template file or no template of the
     * name, 5 refused data, 6 a text that is longer than `output`. */
    readonly status: 1 | 2 | 4 | 5 | 6;
    /** What went wrong, as the command says it, without its newline: `tmpl: hello.tmpl:1: unclosed or unreadable action`. */
    readonly line: string;
    /** The text before the fault. */
    readonly text: Uint8Array;
    /** The path of the template file that the line names, where it names one. */
    readonly file?: string;
    /** The line in that file, from 1. */
    readonly lineNumber?: number;
    /** The first 1,000 errors of a file that is refused. They are looked for when this is read first, in the memory that
     * the refused call was allowed: it may throw MemoryError. The file is kept until then. */
    readonly problems: readonly Problem[];
}

/** Out of memory: the module's own, of 4 GiB at most, is at its end. What is kept stays as it was. */
export class MemoryError extends Error {
    readonly line: string;
}

/** The module stopped where it should not have, as where the host has no more stack. A new instance takes its place, so later calls
 * are as if this one had not been, those of templates that are kept included. */
export class TrapError extends Error {}

/** Loads the module tmpl.wasm: the one beside this file, or that of an address, a response, its bytes, or compiled. */
export function load(source?: Source | Promise<Source>): Promise<Engine>;

export type Source = URL | string | Response | ArrayBuffer | Uint8Array | WebAssembly.Module;

export interface Engine {
    /** The text of the template of this name of the files: by default that of the first file. Data is JSON as bytes, nothing where it is
     * undefined, and else a value that JSON.stringify takes. What is no UTF-8 in the text becomes U+FFFD. Throws TemplateError,
     * MemoryError or TrapError. */
    render(files: Files, name?: Bytes, data?: unknown, options?: Options): string;
    /** The same as bytes. */
    renderBytes(files: Files, name?: Bytes, data?: unknown, options?: Options): Uint8Array;
    /** The errors in template files, with what to write instead where that is known: the first `most` of them, 1,000 if that is left out
     * or 0. There are none where all files are accepted, one after the other. */
    check(files: Files, options?: { memory?: number; most?: number }): Problem[];
    /** What `tmpl-check` finds with `--schema`: every error in the files; where there is none, what of the JSON Schema is not understood; else
     * each place at which the template may fail over data of the schema; and warnings. Where none has the level `"error"`, the template fails
     * over no data that conform, but by limits and stops. */
    checkSchema(files: Files, schema: Bytes, options?: SchemaOptions): Finding[];
    /** Templates that are parsed once, and rendered as often as you like. `memory` is that of each file, as where it is added. */
    templates(files?: Files, options?: { memory?: number }): Templates;
}

export interface Templates {
    /** Adds the templates of one more file, or throws and leaves them as they are. `memory` is what it may take for that. */
    add(path: Bytes, what: Bytes, options?: { memory?: number }): void;
    /** As that of the engine, but that data is read anew only where its JSON is another than before. */
    render(name?: Bytes, data?: unknown, options?: Options): string;
    /** The same as bytes. */
    renderBytes(name?: Bytes, data?: unknown, options?: Options): Uint8Array;
    /** Frees templates and data. It has none then. */
    close(): void;
}
