// binding.mjs TMPL: tries what the binding in the folder TMPL does beyond the calls of the rows: in which forms it takes files, data and
// the module, what it refuses, what it keeps, and what it does where memory ends. trap.mjs tries what it does where it is stopped.
import { readFileSync } from "node:fs";
import { pathToFileURL } from "node:url";
import { isDeepStrictEqual } from "node:util";

const address = (name) => pathToFileURL(`${process.argv[2]}/${name}`);
const { load, Problem, TemplateError, MemoryError, TrapError } = await import(address("node.mjs"));
const bytes = readFileSync(address("tmpl.wasm"));
const engine = await load();
let passed = 0, failed = 0;

function check(what, got, wanted) {
    const isRight = isDeepStrictEqual(got, wanted);
    if (!isRight) console.log(`FAILED ${what}\n    got`, got, "\n    wanted", wanted);
    isRight ? passed++ : failed++;
}

/** What comes of a call: a value, or an error as its name, its message and the text before. */
function cameOf(call) {
    try {
        return call();
    } catch (error) {
        return [error.name, error.message, ...(error.text ? [error.status, Buffer.from(error.text).toString()] : [])];
    }
}

const tries = (what, call, wanted) => check(what, cameOf(call), wanted);

// ---- files, names and data

const hello = { "hello.tmpl": "Hello, {{.name}}!" }, greeted = "Hello, Ada!", ada = { name: "Ada" };
const utf8 = new TextEncoder();
tries("files as an object", () => engine.render(hello, "hello.tmpl", ada), greeted);
tries("files as a Map", () => engine.render(new Map(Object.entries(hello)), "hello.tmpl", ada), greeted);
const pairs = Object.entries(hello).map(([path, what]) => [utf8.encode(`a/${path}`), utf8.encode(what)]);
tries("files as pairs of bytes", () => engine.render(pairs, "hello.tmpl", ada), greeted);
tries("the name of the first file is its last part", () => engine.render([["a/b", "one"], ["c", "two"]]), "one");
tries("a later file replaces", () => engine.render([["a", "one"], ["b/a", "two"]]), "two");
tries("no file", () => engine.render({}), ["TemplateError", 'tmpl: no template ""', 4, ""]);
tries("data as bytes are JSON", () => engine.render({ m: "{{.}}" }, "m", utf8.encode("[1,2]")), "[1 2]");
tries("a text is data", () => engine.render({ m: "{{.}}" }, "m", "[1,2]"), "[1,2]");
tries("null is data", () => engine.render({ m: "{{if .}}yes{{else}}{{.}}{{end}}" }, "m", null), "<no value>");
tries("no data", () => engine.render({ m: "{{.a}}" }, "m"), "<no value>");
const broken = ["TemplateError", "tmpl: data: number not whole or out of range", 5, ""];
tries("a number that is not whole", () => engine.render({ m: "x" }, "m", [1.5]), broken);
tries("a mark of the order of bytes stays", () => engine.render({ m: "\ufeff{{.}}" }, "m", "\ufeff"), "\ufeff\ufeff");
tries("bytes that are no text", () => engine.render({ m: Uint8Array.of(0xff, 0x61) }, "m"), "\ufffda");
tries("bytes that are no text, as bytes", () => [...engine.renderBytes({ m: Uint8Array.of(0xff, 0x61) }, "m")], [0xff, 0x61]);
const beyond = ["TemplateError", 'tmpl: m:1: in "m": index: out of range', 1, "before "];
tries("the text before a fault", () => engine.render({ m: "before {{index . 7}}" }, "m", [1]), beyond);
const nameless = ["TemplateError", "tmpl: arguments refused; see tmpl --help", 2, ""];
tries("the name of a file is no UTF-8", () => engine.render([[Uint8Array.of(0xff), ""]]), nameless);
const long = "x".repeat(9000);
tries("a line longer than the room for it", () => engine.render({ m: `{{template "${long}"}}` }),
    ["TemplateError", `tmpl: m:1: in "m": no template "${long}"`, 1, ""]);
tries("a text longer than the room for it", () => engine.render({ m: "{{range 300000}}{{.}} {{end}}" }).length, 1988890);

// ---- what is wrong in files

const said = (problems) => problems.map(String);
const mistake = 'error: action not understood: no function "name": write .name';
tries("what is wrong in files", () => said(engine.check([["a", "{{name}}"], ["b", "text"], ["c", "\n{{name}}"]])), [`a:1:1: ${mistake}`, `c:2:1: ${mistake}`]);
tries("nothing is wrong in a file", () => engine.check(hello), []);
const required = JSON.stringify({ type: "object", properties: { a: { type: "string" } }, required: ["a"] });
const placesOf = (found) => found.map((it) => `${it.file}:${it.line}:${it.column}: ${it.level}`);
tries("a template that never fails over a schema", () => engine.checkSchema({ m: "{{len .a}}" }, required), []);
tries("one that may fail", () => placesOf(engine.checkSchema({ m: "{{len .b}}" }, required, { stops: ["x"], name: "m" })), ["m:1:1: error"]);
tries("a name over a schema is no UTF-8", () => engine.checkSchema([[Uint8Array.of(0xff), ""]], required), ["TemplateError", "tmpl: a name is not UTF-8", 2, ""]);
tries("nothing is wrong in no file", () => engine.check([]), []);
tries("the name of a file that is checked is no UTF-8", () => engine.check([[Uint8Array.of(0xff), ""]]), ["TemplateError", "tmpl: the name of a file is not UTF-8", 2, ""]);
const problemsOf = (call) => {
    try {
        call();
    } catch (error) {
        return error.problems;
    }
};
const nameless1 = new Problem("a", 1, 1, "not-understood", 'action not understood: no function "name": write .name');
check("what an error bears", problemsOf(() => engine.render({ a: "{{name}}" })), [nameless1]);
check("what an error of what is kept bears", problemsOf(() => engine.templates({ a: "{{name}}" })), [nameless1]);
check("a problem as a line", said([nameless1]), [`a:1:1: ${mistake}`]);
const ofB = problemsOf(() => engine.render([["a", "{{if 1}}{{end}}"], ["b:1:1: error: out of place: c", "\n {{if 1}}"], ["c", "{{"]]));
check("the parts of problems", ofB.map(({ file, line, column, rule }) => [file, line, column, rule]),
    [["b:1:1: error: out of place: c", 2, 10, "open-at-end"], ["c", 1, 1, "unreadable"]]);
const many = "{{".repeat(3000);
check("at most 1,000 problems are kept", problemsOf(() => engine.render({ m: many.replaceAll("{{", "{{}}") })).length, 1000);
check("as many problems as are asked for", engine.check({ m: "{{}}".repeat(30) }, { most: 7 }).length, 7);
tries("problems in little memory", () => engine.check({ m: "{{}}".repeat(30000) }, { memory: 100_000 }), ["MemoryError", "tmpl: out of memory"]);

/** The place that an error names. */
const placeOf = (call) => {
    try {
        call();
    } catch (error) {
        return [error.file, error.lineNumber];
    }
};
check("the place of a refusal", placeOf(() => engine.render({ m: "\n{{" })), ["m", 2]);
check("the place of a fault", placeOf(() => engine.render({ 'd:7: in "q": /m': "{{range 1}}\n{{len .}}{{end}}" }, "m")), ['d:7: in "q": /m', 2]);
check("the place of a fault that names a template", placeOf(() => engine.render({ m: '\n{{template "q:1: in "}}' })), ["m", 2]);
check("an error without a place", placeOf(() => engine.render({ m: "" }, "n")), [undefined, undefined]);
check("what any other error bears", problemsOf(() => engine.render({ m: "{{index . 7}}" }, "m", [1])), []);

// ---- limits

const digits = { m: "{{range 100000}}0123456789{{end}}" }, cut = ["TemplateError", "tmpl: more than 12 bytes of output", 6, "012345678901"];
tries("a limit of the text", () => engine.render(digits, "m", undefined, { output: 12 }), cut);
tries("a limit of the text of what is kept", () => engine.templates(digits).render("m", undefined, { output: 12 }), cut);
tries("a limit that is not reached", () => engine.render(hello, "hello.tmpl", ada, { output: 11 }), greeted);
tries("a limit of memory", () => engine.templates(digits).render("m", undefined, { memory: 1 << 16 }), ["MemoryError", "tmpl: out of memory"]);
tries("a limit of memory that is not reached", () => engine.templates(digits).render("m", undefined, { memory: 1 << 23 }).length, 1000000);

tries("a limit of memory of a render of files", () => engine.render(digits, "m", undefined, { memory: 1 << 16 }), ["MemoryError", "tmpl: out of memory"]);
tries("a limit of memory of reading data", () => engine.render({ m: "" }, "m", Array(20_000).fill(7), { memory: 1 << 16 }), ["MemoryError", "tmpl: out of memory"]);
tries("a limit of memory of parsing", () => engine.render({ m: "{{.}}".repeat(20_000) }, "m", 1, { memory: 1 << 16 }), ["MemoryError", "tmpl: out of memory"]);
tries("a limit of memory of files that are kept", () => engine.templates({ m: "{{.}}".repeat(20_000) }, { memory: 1 << 16 }), ["MemoryError", "tmpl: out of memory"]);
tries("no limit after it", () => engine.templates({ m: "{{.}}".repeat(20_000) }).render("m", 1).length, 20_000);
/** Whether a render ends in this memory, of templates that hold older data, or none. */
function endsIn(memory, before) {
    const kept = engine.templates({ m: "{{range 40000}}0123456789{{end}}", s: "" });
    kept.render("s", before);
    const came = cameOf(() => kept.render("m", Array(4000).fill("newer"), { memory }).length);
    kept.close();
    return came;
}
let least = 1 << 18;
while (endsIn(least) !== 400_000) least += least >> 4;
check("memory for a render beside older data", endsIn(least, Array(200_000).fill("older")), 400_000);
const tooLittle = least - (least >> 4);
check("older data that is given back makes no room", endsIn(tooLittle, Array(200_000).fill("older")), ["MemoryError", "tmpl: out of memory"]);

// ---- options

for (const [what, call] of Object.entries({
    "a render": (options) => engine.render(hello, "hello.tmpl", ada, options), "a render of what is kept": (options) => engine.templates(hello).render("hello.tmpl", ada, options),
    "templates": (options) => engine.templates(hello, options), "a check": (options) => engine.check(hello, options),
})) {
    tries(`an option that is not there, of ${what}`, () => call({ memroy: 5 }), ["TypeError", "there is no option memroy"]);
    tries(`half a byte of memory, of ${what}`, () => call({ memory: 1.5 }), ["RangeError", "memory is 1.5"]);
}
tries("half a step", () => engine.render(hello, "hello.tmpl", ada, { steps: 1.5 }), ["RangeError", "steps is 1.5"]);
const greet = (options) => () => engine.render(hello, "hello.tmpl", {}, options);
tries("a missing key", greet({ missingKey: "error" }),
    ["TemplateError", 'tmpl: hello.tmpl:1: in "hello.tmpl": no entry for key "name"', 1, "Hello, "]);
tries("a mode that is not there", greet({ missingKey: "eror" }), ["RangeError", "missingKey is eror"]);
tries("no steps", greet({ steps: 0 }), ["RangeError", "steps is 0"]);
tries("too deep", greet({ depth: 100_001 }), ["RangeError", "depth is 100001"]);
const spent = (steps) => ["TemplateError", `tmpl: m:1: in "m": more than ${steps} steps`, 1, ""];
tries("steps as a bigint", () => engine.render({ m: "{{range 9}}{{end}}" }, "m", {}, { steps: 5n }), spent(5));
tries("steps are bounded", () => engine.render({ m: "{{range 100000000}}{{end}}" }), spent(10_000_000));
const printed = { printed: true };
tries("the printed set", () => engine.render({ m: "{{ .a }}" }, undefined, undefined, printed), '{{define "m"}}{{.a}}{{end}}\n');

// ---- templates that are kept

const kept = engine.templates({ a: "one {{.}}" });
const unread = (path) => ["TemplateError", `tmpl: ${path}:1: unclosed or unreadable action`, 4, ""];
tries("kept: a file is refused", () => kept.add("b", '{{define "a"}}two{{end}}{{'), unread("b"));
tries("kept: the set is as it was", () => kept.render("a", 1), "one 1");
tries("kept: data is refused", () => kept.render("a", [1.5]), broken);
tries("kept: the same data again", () => kept.render("a", 1), "one 1");
tries("kept: no data", () => kept.render("a"), "one <no value>");
const lent = Uint8Array.of(0x31);
tries("kept: data as bytes", () => kept.render("a", lent), "one 1");
lent[0] = 0x32;
tries("kept: the bytes are others now", () => kept.render("a", lent), "one 2");
tries("kept: the first file's name", () => kept.render(undefined, 3), "one 3");
tries("kept: a file after it", () => kept.add("c", '{{define "a"}}three {{.}}{{end}}'), undefined);
tries("kept: it replaces the first", () => kept.render("a", 1), "three 1");
tries("kept: the printed set", () => kept.render("", undefined, printed), '{{define "a"}}three {{.}}{{end}}\n{{define "c"}}{{end}}\n');
tries("kept: freed", () => kept.close(), undefined);
tries("kept: freed twice", () => kept.close(), undefined);
tries("kept: nothing is there", () => kept.render("a", 1), ["TemplateError", 'tmpl: no template "a"', 4, ""]);
tries("kept: filled again", () => (kept.add("a", "four {{.}}"), kept.render()), "four <no value>");
tries("kept: a refused file among the first", () => engine.templates({ a: "{{" }), unread("a"));

// ---- the module

for (const [what, source] of Object.entries({
    bytes, "a view of bytes": bytes.buffer.slice(bytes.byteOffset, bytes.byteOffset + bytes.length), "an address": address("tmpl.wasm"),
    "a response": new Response(bytes), "a compiled module": new WebAssembly.Module(bytes), "a promise": Promise.resolve(bytes),
})) {
    check(`loaded of ${what}`, (await load(source)).render(hello, "hello.tmpl", ada), greeted);
}
check("a response that failed", await load(new Response("", { status: 404 })).catch((error) => error.message), ": status 404");
check("it imports nothing", WebAssembly.Module.imports(new WebAssembly.Module(bytes)), []);

/** The module with this many pages of memory at most, in the place of its own limit, which takes three bytes. */
function limited(pages) {
    const made = Buffer.from(bytes);
    let at = 8;
    function number() {
        for (let it = 0, shift = 0; ; shift += 7) {
            it |= (made[at] & 0x7f) << shift;
            if (!(made[at++] & 0x80)) return it;
        }
    }
    while (made[at++] !== 5) { // that is the section of memories
        const size = number();
        at += size;
    }
    for (let skipped = 0; skipped < 4; skipped++) number(); // its size, one memory, with a limit, of as many pages as it begins with
    made.set([(pages & 0x7f) | 0x80, ((pages >> 7) & 0x7f) | 0x80, pages >> 14], at);
    return made;
}

// At the module's own end of memory a call is refused, what is kept stays, and the next call is as any other.
const small = await load(limited(64)), others = small.templates({ a: "{{len .}}" });
const ends = ["MemoryError", "tmpl: out of memory"];
tries("memory ends in a run", () => small.render({ m: `{{range 100000}}{{printf "%99d" .}}{{end}}` }), ends);
tries("memory ends in a template", () => small.render({ m: "{{.}}".repeat(100_000) }), ends);
tries("memory ends in data", () => small.render({ m: "x" }, "m", Array.from({ length: 100_000 }, (_, it) => it)), ends);
tries("memory ends where a template is lent", () => small.render({ m: "x".repeat(5_000_000) }), ends);
tries("memory ends in a file that is kept", () => others.add("b", "{{.}}".repeat(100_000)), ends);
tries("memory ends in data that is kept", () => others.render("a", Array.from({ length: 100_000 }, (_, it) => it)), ends);
tries("what is kept stays", () => others.render("a", [1, 2, 3]), "3");
tries("after it all is well", () => small.render(hello, "hello.tmpl", ada), greeted);
tries("all of the memory is there again", () => small.render({ m: "x".repeat(300_000) }).length, 300_000);

// At the end of the host's stack, which comes at each place of a call: the next one, with more of it, is as any other.
const again = engine.templates({ a: "{{define `r`}}{{if .}}({{template `r` index . 0}}){{end}}{{end}}{{template `r` .}}" });
const nested = JSON.parse("[".repeat(100) + "]".repeat(100)), seen = new Set();
again.render("a", [[[]]]);
function deep() {
    try {
        return deep();
    } catch (error) {
        seen.add(error.name);
        return again.render("a", nested);
    }
}
check("at the end of the stack", deep(), `${"(".repeat(99)}${")".repeat(99)}`);
check("nothing else was told there", [...seen].filter((it) => !["RangeError", "TrapError"].includes(it)), []);
check("the errors are errors", [TemplateError, MemoryError, TrapError].map((it) => it.prototype instanceof Error), [true, true, true]);

// All memory of calls is given back: many calls of each kind need no more than the first ones.
const roomy = await load(limited(256));
for (let time = 0; time < 3000; time++) {
    const [text, list] = ["{{.}} ".repeat(time % 50), Array.from({ length: time % 97 }, (_, it) => `${it}`.repeat(time % 31))];
    const held = roomy.templates({ a: text, b: text });
    cameOf(() => held.render("a", list));
    cameOf(() => held.add("c", "{{"));
    cameOf(() => held.render("b", "x".repeat(time)));
    cameOf(() => roomy.render({ a: `${text}{{index . 1000}}` }, "a", list));
    held.close();
}
tries("all memory is given back", () => roomy.render({ m: "x".repeat(2_000_000) }).length, 2_000_000);

// Blocks that the heap lends, in a random order: none lies over another, each holds what was put there, and all of them come back.
const { memory, memory_take, memory_give } = new WebAssembly.Instance(new WebAssembly.Module(limited(256))).exports;
const most = 8_000_000, first = memory_take(BigInt(most)), blocks = [];
memory_give(first);
let state = 1, spoilt = 0;
const drawn = (below) => (state = (state * 48271) % 2147483647) % below;
for (let time = 0; time < 50_000; time++) {
    if (drawn(5) < 3 || !blocks.length) {
        const size = drawn(4) ? drawn(200) : drawn(20_000), at = memory_take(BigInt(size)), mark = time & 255;
        if (at === 0n || at % 16n !== 0n) {
            if (at) spoilt++;
            continue;
        }
        new Uint8Array(memory.buffer, Number(at), size).fill(mark);
        blocks.push({ at, size, mark });
    } else {
        const [{ at, size, mark }] = blocks.splice(drawn(blocks.length), 1);
        if (!new Uint8Array(memory.buffer, Number(at), size).every((it) => it === mark)) spoilt++;
        memory_give(at);
    }
}
check("no block was spoilt by another", spoilt, 0);
blocks.forEach(({ at }) => memory_give(at));
check("all blocks are one again", memory_take(BigInt(most)), first);

console.log(`${passed} passed, ${failed} failed`);
process.exit(failed || !passed ? 1 : 0);
