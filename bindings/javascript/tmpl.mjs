// Templates of the language of Go's text/template over data in JSON, by tmpl.wasm, which is looked for beside this file:
// `(await load()).render(files, name, data)`. tmpl.d.ts says what each call takes and gives.

const OK = 0, FAULT = 1, REFUSED = 4, FULL = 6, MEMORY = 7; // statuses of the C library, whose calls the module has
const AS_JSON = 1; // the form of findings that is asked for
const MISSING_KEY = { default: 0, invalid: 1, zero: 2, error: 3 };
const STEPS = 10_000_000; // the steps that a run may take by default
const ROOM = 1 << 16; // bytes of the first buffer for text
const LINE = 1 << 12; // bytes of the first buffer for a line
const FILE = 32, SETTINGS = 56, BUFFER = 32, KEPT = 8, TEXT = 24, NAME = 16, QUESTION = 72; // bytes of the structs of tmpl.h, whose pointers have 64 bits
const SET = 0, PROGRAM = 1, DATA = 2, OUT = 3, SAID_AT = 4; // the parts of what templates keep
const MOST = 1000; // problems of files that are kept where nothing else is said
const SAID = "tmpl: ", ERROR = ": error: "; // before what a line says
// the rules of tmpl-check, by the reason for which a file is refused
const RULES = {
    "unclosed or unreadable action": "unreadable",
    "action not understood": "not-understood",
    "out of place": "out-of-place",
    "undeclared variable": "undeclared-variable",
    "file ends inside a control": "open-at-end",
    "nested too deeply": "nested-too-deeply",
    "file longer than 16777216 bytes": "too-long",
    "second definition": "second-definition",
    "too many errors": "too-many-errors",
};

const encoder = new TextEncoder();
const decoder = new TextDecoder("utf-8", { ignoreBOM: true });

/** What is wrong in a template file, and where. */
export class Problem {
    constructor(file, line, column, rule, text) {
        Object.assign(this, { file, line, column, rule, text });
    }

    toString() {
        return `${this.file}:${this.line}:${this.column}: error: ${this.text}`;
    }
}

export class TemplateError extends Error {
    #find; // finds the problems, where nobody asked for them yet
    #problems = [];

    constructor(status, line, text, find = undefined) {
        super(line);
        Object.assign(this, { name: "TemplateError", status, line, text });
        [this.file, this.lineNumber] = placeIn(status, line);
        this.#find = find;
    }

    get problems() {
        if (this.#find) this.#problems = this.#find();
        this.#find = undefined;
        return this.#problems;
    }
}

export class MemoryError extends Error {
    constructor(line) {
        super(line);
        Object.assign(this, { name: "MemoryError", line });
    }
}

export class TrapError extends Error {
    constructor(cause) {
        super(`the module stopped: ${cause}`, { cause });
        this.name = "TrapError";
    }
}

export async function load(source = new URL("./tmpl.wasm", import.meta.url)) {
    return new Engine(new Host(await compiled(await source)));
}

async function compiled(source) {
    if (source instanceof WebAssembly.Module) return source;
    if (ArrayBuffer.isView(source) || source instanceof ArrayBuffer) return WebAssembly.compile(source);
    const response = source instanceof Response ? source : await fetch(source);
    if (!response.ok) throw new Error(`${response.url}: status ${response.status}`);
    return WebAssembly.compile(await response.arrayBuffer());
}

// ---- what is given, as bytes

const encoded = (it) => (typeof it === "string" ? encoder.encode(it) : it);
const baseOf = (path) => path.subarray(path.lastIndexOf(0x2f) + 1);

/** The files as pairs of bytes, in order. */
function pairsOf(files) {
    const pairs = Symbol.iterator in files ? [...files] : Object.entries(files);
    return pairs.map(([path, what]) => [encoded(path), encoded(what)]);
}

/** The bytes of the data: bytes as they are, none of what is undefined, and the JSON of anything else. */
const jsonOf = (data) => (data instanceof Uint8Array ? data : encoder.encode(JSON.stringify(data) ?? ""));

function isSame(one, other) {
    if (one.length !== other.length) return false;
    for (let at = 0; at < one.length; at++) if (one[at] !== other[at]) return false;
    return true;
}

/** Refuses options that are not these. */
function refuseOthers(options, known) {
    for (const name of Object.keys(options)) if (!known.includes(name)) throw new TypeError(`there is no option ${name}`);
}

/** The option, an integer of bytes or of problems; 0 for any number. */
function countOf(name, { [name]: count = 0 }) {
    if (!Number.isSafeInteger(count) || count < 0) throw new RangeError(`${name} is ${count}`);
    return count;
}

/** The words of the settings of tmpl.h before the format of the text, that format, and the bytes of memory. */
function settingsOf(options = {}) {
    refuseOthers(options, ["missingKey", "depth", "steps", "printed", "output", "memory", "writes"]);
    const { missingKey = "default", depth = 1000, steps = STEPS, printed = false } = options;
    if (!Object.hasOwn(MISSING_KEY, missingKey)) throw new RangeError(`missingKey is ${missingKey}`);
    if (!(Number.isInteger(depth) && depth >= 1 && depth <= 100_000)) throw new RangeError(`depth is ${depth}`);
    const isWhole = typeof steps === "bigint" || Number.isInteger(steps);
    if (!(isWhole && steps >= 1 && steps <= 2n ** 62n)) throw new RangeError(`steps is ${steps}`);
    const flags = MISSING_KEY[missingKey] | (printed ? 1 << 8 : 0), [output, memory] = [countOf("output", options), countOf("memory", options)];
    const words = [BigInt(SETTINGS), BigInt(steps), (BigInt(flags) << 32n) | BigInt(depth), BigInt(output)];
    return { words, memory, writes: encoded(options.writes ?? "").slice() };
}

// ---- what the module says, taken apart. Regular expressions may end the process where the stack is at its end, so there are none

const isDigit = (letter) => letter >= "0" && letter <= "9";

/** The number that ends just before this place, and where it begins; none without digits. */
function numberBefore(text, end) {
    let at = end;
    while (at > 0 && isDigit(text[at - 1])) at--;
    return at < end && text[at - 1] === ":" ? { number: Number(text.slice(at, end)), at: at - 1 } : undefined;
}

const chomped = (line) => (line.endsWith("\n") ? line.slice(0, -1) : line);

/** The file and the number of the line that a line of the command names: of a run that stopped, in a template, or of a refused file. */
function placeIn(status, line) {
    const mark = status === FAULT ? ': in "' : ": ";
    for (let at = line.lastIndexOf(mark); (status === FAULT || status === REFUSED) && at > 0; at = line.lastIndexOf(mark, at - 1)) {
        const found = numberBefore(line, at);
        const isNamed = status === REFUSED || line.includes('": ', at + mark.length);
        if (found && isNamed && line.startsWith(SAID)) return [line.slice(SAID.length, found.at), found.number];
    }
    return [undefined, undefined];
}

/** The name of the rule that a text breaks, as tmpl-check has it; none where it begins with no reason. */
function ruleOf(text) {
    const reason = Object.keys(RULES).find((it) => text === it || text.startsWith(`${it}: `));
    return reason && RULES[reason];
}

/** A line of a check, taken apart: at this mark, or at the first one that stands where one can. */
function problemIn(line, from = 0) {
    for (let at = line.indexOf(ERROR, from); at >= 0; at = line.indexOf(ERROR, at + 1)) {
        const column = numberBefore(line, at), number = column && numberBefore(line, column.at);
        const text = line.slice(at + ERROR.length), rule = ruleOf(text);
        if (number && rule) return new Problem(line.slice(0, number.at), number.number, column.number, rule, text);
    }
    return new Problem("", 0, 0, "", line);
}

/** The same, where the names of the files are these: what looks like a place in the name of a file is none. */
function problemOf(line, names) {
    const name = names.filter((it) => line.startsWith(`${it}:`)).reduce((one, other) => (other.length > one.length ? other : one), "");
    return problemIn(line, name.length);
}

// ---- the module

/** Whether an error says how a call ended, so that the module is as it was. */
const isAnswer = (error) => error instanceof TemplateError || error instanceof MemoryError;

/** An instance of the module. What stops a call where it should not leaves the memory as it was then, so another one takes its place. */
class Host {
    #module;
    #room = ROOM;
    #view = {};
    #isInside = false; // whether a call of the instance began and did not end

    constructor(module) {
        this.#module = module;
        this.#begin();
    }

    #begin() {
        this.exports = undefined;
        const { exports } = new WebAssembly.Instance(this.#module);
        // names are hashed by keys that nobody can know, where the host has random numbers
        const keys = globalThis.crypto?.getRandomValues(new BigUint64Array(2));
        if (keys) exports.keys_set(...keys);
        this.exports = exports;
        this.#isInside = false;
    }

    /** Makes calls of the module, which take at most this many bytes of memory together, or any number for 0. Any error but an answer stopped
     * them, as the end of the stack does. Then there may be no room for a call here, so that the next one sees it: nothing was noted. */
    enter(memory, what) {
        if (this.#isInside || !this.exports) this.#begin();
        this.#isInside = true;
        let came, answer;
        try {
            this.exports.tmpl_limit_memory(BigInt(memory));
            came = what();
        } catch (error) {
            if (!isAnswer(error)) throw new TrapError(error);
            answer = error;
        }
        this.exports.tmpl_limit_memory(0n);
        this.#isInside = false;
        if (answer) throw answer;
        return came;
    }

    /** The memory, as bytes and as words of 64 bits. As it grows it becomes another one. */
    view() {
        const { buffer } = this.exports.memory;
        if (this.#view.buffer !== buffer) this.#view = { buffer, bytes: new Uint8Array(buffer), words: new BigUint64Array(buffer) };
        return this.#view;
    }

    call(name, ...words) {
        return this.exports[name](...words);
    }

    /** Borrows memory in parts of these sizes for one call. */
    borrow(sizes, call) {
        const borrowed = new Borrowed(this, sizes);
        let came;
        try {
            came = call(borrowed);
        } catch (error) {
            if (isAnswer(error)) borrowed.give();
            throw error;
        }
        borrowed.give();
        return came;
    }

    /** The text of a call that takes buffers for text and line. It is made again with more room where one of them does not fit. */
    whole(call, size = 0, find = undefined) {
        for (let room = Math.max(this.#room, size), lineRoom = LINE; ; ) {
            const [status, text, said] = this.borrow([BUFFER, BUFFER, room, lineRoom], (borrowed) => {
                borrowed.words(0, borrowed.at[2], room, 0, 0);
                borrowed.words(1, borrowed.at[3], lineRoom, 0, 0);
                return [call(borrowed.pointer(0), borrowed.pointer(1)), borrowed.taken(0, 2), borrowed.taken(1, 3)];
            });
            if (status === OK) return text.bytes;
            const line = chomped(decoder.decode(said.bytes));
            if (status === MEMORY) throw new MemoryError(line);
            // a text that fits, and is not whole, is at the limit of the settings
            if ((status !== FULL || text.needed <= room) && said.needed <= lineRoom) throw errorOf(status, line, text.bytes, find);
            [room, lineRoom] = [Math.max(room, text.needed), Math.max(lineRoom, said.needed)];
            this.#room = room;
        }
    }
}

/** One block of the module's memory, with parts at multiples of 8. */
class Borrowed {
    #host;
    #exports;

    constructor(host, sizes) {
        let size = 0;
        const places = sizes.map((it) => [size, (size += Math.ceil(it / 8) * 8)][0]);
        const block = host.call("memory_take", BigInt(size));
        if (!block) throw new MemoryError("tmpl: out of memory");
        [this.#host, this.#exports] = [host, host.exports];
        this.at = places.map((it) => Number(block) + it);
    }

    /** Whether its instance is the one that is called. */
    isThere() {
        return this.#host.exports === this.#exports;
    }

    give() {
        if (this.isThere()) this.#host.call("memory_give", BigInt(this.at[0]));
    }

    pointer(part) {
        return BigInt(this.at[part]);
    }

    put(part, bytes) {
        this.#host.view().bytes.set(bytes, this.at[part]);
    }

    /** Writes words of 64 bits to a part. */
    words(part, ...words) {
        const { words: all } = this.#host.view(), first = this.at[part] / 8;
        for (let number = 0; number < words.length; number++) all[first + number] = BigInt(words[number]);
    }

    /** What a text holds, until the next call. */
    seen(part) {
        const { bytes, words } = this.#host.view(), first = this.at[part] / 8, begin = Number(words[first]);
        return bytes.subarray(begin, begin + Number(words[first + 1]));
    }

    /** A copy of it. */
    text(part) {
        return this.seen(part).slice();
    }

    /** What a buffer over another part took, and how many bytes there were for it. */
    taken(part, over) {
        const { bytes, words } = this.#host.view(), first = this.at[part] / 8, begin = this.at[over];
        return { bytes: bytes.slice(begin, begin + Number(words[first + 2])), needed: Number(words[first + 3]) };
    }
}

// ---- what others call

/** How a call ended that did not end well. */
function errorOf(status, line, text, find) {
    return new TemplateError(status, line, text, status === REFUSED ? find : undefined);
}

class Engine {
    #host;

    constructor(host) {
        this.#host = host;
    }

    renderBytes(files, name, data, options) {
        const pairs = pairsOf(files), { words, memory, writes } = settingsOf(options), json = jsonOf(data);
        const run = encoded(name ?? (pairs.length ? baseOf(pairs[0][0]) : ""));
        const texts = [run, json, writes, ...pairs.flat()], sizes = texts.map((it) => it.length);
        const borrowed = (borrowed) => {
            const spans = sizes.map((size, number) => [borrowed.pointer(number + 2), BigInt(size)]);
            texts.forEach((it, number) => borrowed.put(number + 2, it));
            borrowed.words(0, ...words, ...spans[2]);
            borrowed.words(1, ...spans.slice(3).flat());
            const given = [borrowed.pointer(0), borrowed.pointer(1), BigInt(pairs.length), ...spans[0], ...spans[1]];
            const call = (out, err) => this.#host.call("tmpl_render", ...given, out, err);
            return this.#host.whole(call, 2 * json.length, problemsIn(this.#host, pairs, memory));
        };
        return this.#host.enter(memory, () => this.#host.borrow([SETTINGS, FILE * pairs.length, ...sizes], borrowed));
    }

    render(files, name, data, options) {
        return decoder.decode(this.renderBytes(files, name, data, options));
    }

    templates(files = [], options = {}) {
        return new Templates(this.#host, files, options);
    }

    check(files, options = {}) {
        refuseOthers(options, ["memory", "most"]);
        return problemsOf(this.#host, pairsOf(files), countOf("memory", options), countOf("most", options) || MOST);
    }

    checkSchema(files, schema, options = {}) {
        return findingsOf(this.#host, pairsOf(files), schema, options);
    }
}

/** What finds the problems of files that are refused, once somebody asks for them: the bytes that the host gave are kept until then. */
function problemsIn(host, pairs, memory) {
    return () => problemsOf(host, pairs, memory, MOST);
}

/** The first lines of a text of the module, up to a limit: those of a file with millions of errors are more than a string can hold. */
function linesOf(bytes, most) {
    const lines = [];
    for (let at = 0, end; lines.length < most && (end = bytes.indexOf(10, at)) >= 0; at = end + 1) {
        lines.push(decoder.decode(bytes.subarray(at, end)));
    }
    return lines;
}

/** The first problems of files, up to a limit. */
function problemsOf(host, pairs, memory, most) {
    const parts = pairs.flat(), sizes = parts.map((it) => it.length), names = pairs.map(([path]) => decoder.decode(path));
    const lines = (borrowed) => {
        parts.forEach((it, number) => borrowed.put(number + 2, it));
        borrowed.words(0, 0, 0, 0);
        borrowed.words(1, ...sizes.flatMap((size, number) => [borrowed.pointer(number + 2), size]));
        const status = host.call("tmpl_check", borrowed.pointer(1), BigInt(pairs.length), BigInt(most), borrowed.pointer(0));
        const said = linesOf(borrowed.seen(0), most);
        host.call("tmpl_text_free", borrowed.pointer(0));
        if (status === MEMORY) throw new MemoryError("tmpl: out of memory");
        if (status !== OK && status !== REFUSED) throw new TemplateError(status, "tmpl: the name of a file is not UTF-8", new Uint8Array());
        return said;
    };
    return host.enter(memory, () => host.borrow([TEXT, FILE * pairs.length, ...sizes], lines)).map((it) => problemOf(it, names));
}

/** What is found of templates over a JSON Schema. */
function findingsOf(host, pairs, schema, options) {
    refuseOthers(options, ["name", "missingKey", "stops", "schemaName", "memory"]);
    const { name = "", missingKey, stops = [], schemaName = "schema" } = options;
    if (missingKey !== undefined && !Object.hasOwn(MISSING_KEY, missingKey)) throw new RangeError(`missingKey is ${missingKey}`);
    const mode = missingKey === undefined ? 0 : 1 + MISSING_KEY[missingKey];
    const names = [...stops].map(encoded), parts = [...[schemaName, schema, name].map(encoded), ...names, ...pairs.flat()];
    const found = (borrowed) => {
        parts.forEach((it, number) => borrowed.put(number + 4, it));
        const spans = parts.map((it, number) => [borrowed.pointer(number + 4), it.length]);
        borrowed.words(0, 0, 0, 0);
        borrowed.words(1, ...spans.slice(0, 3).flat(), borrowed.pointer(3), names.length, mode | (AS_JSON << 8));
        borrowed.words(2, ...spans.slice(3 + names.length).flat());
        borrowed.words(3, ...spans.slice(3, 3 + names.length).flat());
        const status = host.call("tmpl_check_schema", borrowed.pointer(2), BigInt(pairs.length), borrowed.pointer(1), borrowed.pointer(0));
        const said = decoder.decode(borrowed.seen(0));
        host.call("tmpl_text_free", borrowed.pointer(0));
        if (status === MEMORY) throw new MemoryError("tmpl: out of memory");
        if (status !== OK && status !== REFUSED) throw new TemplateError(status, "tmpl: a name is not UTF-8", new Uint8Array());
        return JSON.parse(said).problems;
    };
    const sizes = [TEXT, QUESTION, FILE * pairs.length, NAME * names.length, ...parts.map((it) => it.length)];
    return host.enter(countOf("memory", options), () => host.borrow(sizes, found));
}

/** Gives back what is kept for an object that nobody has any more. */
const forgotten = new FinalizationRegistry((free) => free());

/** Frees what templates keep, and the memory for it. */
function freeAll(host, borrowed) {
    if (!borrowed.isThere()) return;
    ["set", "program", "data", "text", "text"].forEach((kind, part) => host.call(`tmpl_${kind}_free`, borrowed.pointer(part)));
    borrowed.give();
}

class Templates {
    #host;
    #borrowed; // the set, its program, the data and two texts; none before the first file, and once they are freed
    #isMade; // whether the program is that of the set
    #free;
    #files = [];
    #read; // the JSON of the data that is there, where it is known

    constructor(host, files, options) {
        this.#host = host;
        for (const it of pairsOf(files)) this.add(...it, options);
    }

    add(path, what, options = {}) {
        refuseOthers(options, ["memory"]);
        const file = [encoded(path).slice(), encoded(what).slice()], memory = countOf("memory", options);
        this.#host.enter(0, () => this.#settle());
        this.#host.enter(memory, () => {
            this.#parse(this.#borrowed, file, memory);
            this.#isMade = false;
            this.#files.push(file);
        });
    }

    renderBytes(name, data, options) {
        const { words, memory, writes } = settingsOf(options), json = jsonOf(data);
        const run = encoded(name ?? (this.#files.length ? baseOf(this.#files[0][0]) : ""));
        const at = (part) => this.#borrowed.pointer(part);
        this.#host.enter(0, () => this.#settle());
        return this.#host.enter(memory, () => {
            if (options?.printed) return this.#whole(this.#host.call("tmpl_set_print", at(SET), at(OUT)));
            return this.#run(json, run, words, writes);
        });
    }

    #run(json, run, settings, writes) {
        const at = (part) => this.#borrowed.pointer(part);
        this.#readAnew(json);
        if (!this.#isMade) this.#whole(this.#host.call("tmpl_program_make", at(SET), at(PROGRAM)));
        this.#isMade = true;
        return this.#host.borrow([SETTINGS, run.length, writes.length], (borrowed) => {
            borrowed.words(0, ...settings, borrowed.pointer(2), writes.length);
            borrowed.put(1, run);
            borrowed.put(2, writes);
            const words = [borrowed.pointer(0), at(PROGRAM), at(DATA), borrowed.pointer(1), BigInt(run.length), at(OUT), at(SAID_AT)];
            return this.#whole(this.#host.call("tmpl_render_text", ...words));
        });
    }

    /** The text of a call that ended with this status, which was put into a text of the module's own. */
    #whole(status) {
        if (status === MEMORY) throw new MemoryError("tmpl: out of memory");
        const text = this.#borrowed.text(OUT);
        if (status === OK) return text;
        throw errorOf(status, chomped(decoder.decode(this.#borrowed.text(SAID_AT))), text);
    }

    render(name, data, options) {
        return decoder.decode(this.renderBytes(name, data, options));
    }

    close() {
        this.#free?.();
        forgotten.unregister(this);
        [this.#borrowed, this.#free, this.#files] = [undefined, undefined, []];
    }

    /** Has the files in the instance that there is: none was there before the first one, and a trap takes all. */
    #settle() {
        if (this.#borrowed?.isThere()) return;
        const host = this.#host, borrowed = new Borrowed(host, [KEPT, KEPT, KEPT, TEXT, TEXT]);
        const free = () => borrowed.isThere() && host.enter(0, () => freeAll(host, borrowed));
        borrowed.words(SET, 0, 0, 0, 0, 0, 0, 0, 0, 0);
        try {
            for (const it of this.#files) this.#parse(borrowed, it, 0);
        } catch (error) {
            if (isAnswer(error)) freeAll(host, borrowed);
            throw error;
        }
        forgotten.unregister(this);
        forgotten.register(this, free, this);
        this.#free = free;
        this.#read = new Uint8Array();
        this.#isMade = false;
        this.#borrowed = borrowed;
    }

    #parse(kept, [path, what], memory) {
        this.#host.borrow([FILE, path.length, what.length], (borrowed) => {
            borrowed.words(0, borrowed.at[1], path.length, borrowed.at[2], what.length);
            borrowed.put(1, path);
            borrowed.put(2, what);
            const find = problemsIn(this.#host, [[path, what]], memory);
            this.#told(find, "tmpl_set_add", kept.pointer(SET), borrowed.pointer(0));
        });
    }

    /** Reads data in the place of other data. Where it is refused, the other stays. */
    #readAnew(json) {
        if (this.#read && isSame(json, this.#read)) return;
        this.#read = undefined;
        this.#host.borrow([json.length], (borrowed) => {
            borrowed.put(0, json);
            this.#told(undefined, "tmpl_data_read", this.#borrowed.pointer(DATA), borrowed.pointer(0), BigInt(json.length));
        });
        this.#read = json.slice();
    }

    /** A call without output. */
    #told(find, name, ...words) {
        this.#host.whole((_, err) => this.#host.call(name, ...words, err), 0, 0, find);
    }
}
