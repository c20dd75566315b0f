"use strict";

const RUN = { what: "run", seconds: 2 }; // that it may take
const CHECK = { what: "check", seconds: 10 };
const PAUSE = 150; // milliseconds without a key before a run
const SHOWN = 1 << 20; // bytes of output that are shown
const TYPED = 1 << 18; // bytes of data that are put where one types; a field with more of them is slow, so they are held beside it
const LINES = 20_000; // up to which each line of a template has its number
const LISTED = 200; // findings that are listed
const LINKED = 1 << 25; // characters that a link may stand for
const KEPT = "tmpl"; // the name under which the browser keeps what was typed

const at = (id) => document.getElementById(id);
const encoder = new TextEncoder();
const decoder = new TextDecoder("utf-8", { ignoreBOM: true });
const textIn = (id) => at(id).textContent;

// ---- the engine, in workers

/** Bytes that were packed by gzip and spelled in base64. */
async function unpacked(spelled) {
    const packed = Uint8Array.from(atob(spelled), (it) => it.charCodeAt(0));
    return new Response(new Blob([packed]).stream().pipeThrough(new DecompressionStream("gzip"))).arrayBuffer();
}

const script = URL.createObjectURL(new Blob([textIn("engine")], { type: "text/javascript" }));
const compiled = unpacked(textIn("module")).then((bytes) => WebAssembly.compile(bytes));

/** A function that asks the engine in a worker of its own. An earlier question is not waited for, and one that takes too long is ended
 * with its worker. */
function asker({ what, seconds }) {
    let worker, stop;

    /** Ends the worker, with this answer to what it was asked. */
    function end(answer) {
        const tell = stop;
        worker?.terminate();
        [worker, stop] = [undefined, undefined];
        tell?.(answer);
    }

    return async (question) => {
        const module = await compiled;
        if (stop) end({ status: "ended" });
        worker ??= new Worker(script);
        const asked = worker, line = `stopped: the ${what} had not ended after ${seconds} seconds`;
        let clock;
        const answer = await new Promise((answered) => {
            stop = answered;
            asked.onerror = ({ message }) => end({ status: "failed", line: `this browser cannot run it: ${message}` });
            asked.onmessage = ({ data: told }) => {
                if (!told.isBegun) return answered(told);
                clock = setTimeout(() => end({ status: "stopped", line }), seconds * 1000);
            };
            asked.postMessage({ module, ...question });
        });
        clearTimeout(clock);
        if (asked === worker) stop = undefined;
        return { line: "", text: new Uint8Array(), ...answer };
    };
}

const askRun = asker(RUN), askCheck = asker(CHECK);

/** The answer of a run. */
const render = (files, name, data, options) => askRun({ call: "render", files, name, data, options });

// ---- what was typed

const EMPTY = { files: [["template", ""]], data: "", schema: "", name: "", missingKey: "default", depth: 1000, steps: 10_000_000, printed: false };
const FIRST = { ...EMPTY, files: [["hello.tmpl", "Hello, {{.name}}!\n{{range $i, $it := .items}}{{$i}}. {{$it}}\n{{end}}"]],
    data: '{\n  "name": "Ada",\n  "items": ["a pen", "paper & ink"]\n}\n' };
let state = FIRST, current = 0, before, held, answer, findings = [];

/** What a link or the browser held, as far as it has the right form. */
function shaped(it) {
    const files = Array.isArray(it?.files) ? it.files.filter((file) => Array.isArray(file) && file.length === 2) : [];
    const shape = { ...EMPTY, files: files.length ? files.map((file) => file.map(String)) : EMPTY.files };
    for (const key of ["data", "schema", "name", "missingKey"]) shape[key] = String(it?.[key] ?? EMPTY[key]);
    for (const key of ["depth", "steps"]) shape[key] = Number(it?.[key]) || EMPTY[key];
    shape.printed = Boolean(it?.printed);
    return shape;
}

function keep() {
    try {
        localStorage.setItem(KEPT, JSON.stringify(state));
    } catch {
        try {
            localStorage.removeItem(KEPT); // what is too large is not kept
        } catch {} // this browser keeps nothing
    }
}

function kept() {
    try {
        const it = localStorage.getItem(KEPT);
        return it ? shaped(JSON.parse(it)) : undefined;
    } catch {
        return undefined;
    }
}

// ---- links

const piped = (bytes, through) => new Blob([bytes]).stream().pipeThrough(through);

async function linkOf(it) {
    const packed = await new Response(piped(encoder.encode(JSON.stringify(it)), new CompressionStream("deflate-raw"))).arrayBuffer();
    let spelled = "";
    for (const byte of new Uint8Array(packed)) spelled += String.fromCharCode(byte);
    return `#1${btoa(spelled).replaceAll("+", "-").replaceAll("/", "_").replaceAll("=", "")}`;
}

/** What a link stands for: none where it is not one of this page. */
async function linked(hash) {
    if (!hash.startsWith("#1")) return undefined;
    const spelled = atob(hash.slice(2).replaceAll("-", "+").replaceAll("_", "/"));
    const stream = piped(Uint8Array.from(spelled, (it) => it.charCodeAt(0)), new DecompressionStream("deflate-raw"));
    const reader = stream.pipeThrough(new TextDecoderStream("utf-8", { ignoreBOM: true })).getReader();
    let text = "";
    for (let part = await reader.read(); !part.done; part = await reader.read()) {
        text += part.value;
        if (text.length > LINKED) throw new RangeError("the link is too long");
    }
    return shaped(JSON.parse(text));
}

// ---- what is shown

const lineHeight = () => parseFloat(getComputedStyle(at("template")).lineHeight);
const padding = () => parseFloat(getComputedStyle(at("template")).paddingTop);
const baseOf = (path) => path.slice(path.lastIndexOf("/") + 1);

function showTabs() {
    const tabs = state.files.map(([path], number) => {
        const tab = document.createElement("button");
        Object.assign(tab, { type: "button", id: `tab-${number}`, textContent: path || "no name" });
        tab.tabIndex = number === current ? 0 : -1;
        tab.setAttribute("role", "tab");
        tab.setAttribute("aria-selected", number === current);
        tab.setAttribute("aria-controls", "panel");
        tab.onclick = () => select(number);
        return tab;
    });
    at("tabs").replaceChildren(...tabs);
    at("panel").setAttribute("aria-labelledby", `tab-${current}`);
    at("remove").hidden = state.files.length === 1;
    at("name").placeholder = baseOf(state.files[0][0]);
    at("names").replaceChildren(...state.files.map(([path]) => new Option("", baseOf(path))));
}

function showNumbers() {
    const count = at("template").value.split("\n").length;
    at("numbers").textContent = count > LINES ? "" : Array.from({ length: count }, (_, it) => it + 1).join("\n");
    follow();
}

/** Keeps numbers and mark beside the lines. */
function follow() {
    const { scrollTop } = at("template");
    at("numbers").scrollTop = scrollTop;
    const fault = faultOf(answer);
    at("mark").hidden = fault?.file !== current;
    if (fault) at("mark").style.top = `${padding() + (fault.line - 1) * lineHeight() - scrollTop}px`;
}

function showFile() {
    [at("path").value, at("template").value] = state.files[current];
    at("template").scrollTop = 0;
    showTabs();
    showNumbers();
}

function showState() {
    current = Math.min(current, state.files.length - 1);
    showFile();
    [at("data").value, at("schema").value, at("name").value, at("missing-key").value] = [state.data, state.schema, state.name, state.missingKey];
    [at("depth").value, at("steps").value] = [state.depth, state.steps];
    at(state.printed ? "as-set" : "as-text").checked = true;
    at("held").hidden = !held;
    at("data").hidden = Boolean(held);
    at("held-name").textContent = held ? `${held.name}, ${held.bytes.length.toLocaleString("en")} bytes` : "";
    at("back").hidden = !before;
}

/** The file and the line that an error line names. */
function faultOf(came) {
    for (const [file, [path]] of came?.line ? state.files.entries() : []) {
        const line = came.line.startsWith(`tmpl: ${path}:`) && parseInt(came.line.slice(`tmpl: ${path}:`.length), 10);
        if (line) return { file, line };
    }
    return undefined;
}

function toldOf({ status, text, took }) {
    const size = `${text.length.toLocaleString("en")} bytes`, rest = text.length > SHOWN ? " Only the first part is shown." : "";
    if (status === 0) return `${state.printed ? "Printed" : "Rendered"} ${size} in ${took.toFixed(1)} ms.${rest}`;
    return text.length ? `The ${size} before the fault are shown.` : "";
}

function showAnswer(came) {
    answer = came;
    const fault = faultOf(came), ofData = came.status === 5;
    at("text").textContent = decoder.decode(came.text.subarray(0, SHOWN));
    at("text").classList.remove("old");
    at("line").textContent = came.line;
    at("told").textContent = toldOf(came);
    at("go").hidden = !fault && !ofData;
    at("go").textContent = ofData ? "Go to the data" : `Go to line ${fault?.line}`;
    at("template").setAttribute("aria-invalid", fault?.file === current);
    at("data").setAttribute("aria-invalid", ofData);
    at("data").classList.toggle("wrong", ofData);
    markTabs();
    follow();
}

/** Marks the files in which a fault or an error is. */
function markTabs() {
    const wrong = new Set(findings.filter((it) => it.level === "error").map((it) => it.file)), fault = faultOf(answer);
    state.files.forEach(([path], number) => at(`tab-${number}`)?.classList.toggle("wrong", fault?.file === number || wrong.has(path)));
}

const counted = (count, what) => (count ? [`${count.toLocaleString("en")} ${what}${count === 1 ? "" : "s"}`] : []);

/** How many findings there are, and what it means where none is an error. */
function foundOf(isOfSchema) {
    const errors = findings.filter((it) => it.level === "error").length;
    const counts = [...counted(errors, "error"), ...counted(findings.length - errors, "warning")].join(", ");
    const more = findings.length > LISTED ? ` The first ${LISTED} are listed.` : "";
    if (errors) return `${counts}.${more}`;
    const none = isOfSchema ? "The template fails over no data of the schema, but by limits and stops." : "The template files have no errors.";
    return counts ? `${counts}. ${none}${more}` : none;
}

/** A finding as a button that goes to its place. */
function itemOf(finding) {
    const { file, line, column, level, text, note } = finding;
    const item = document.createElement("li"), button = document.createElement("button");
    Object.assign(button, { type: "button", className: level, onclick: () => goTo(finding) });
    button.textContent = `${file}:${line}:${column}: ${level}: ${text}${note ? `\n${note}` : ""}`;
    item.append(button);
    return item;
}

function showFindings(came, isOfSchema) {
    findings = came.findings ?? [];
    at("found").textContent = came.line || foundOf(isOfSchema);
    at("findings").replaceChildren(...findings.slice(0, LISTED).map(itemOf));
    markTabs();
}

// ---- what is done

let wait;

function optionsOf({ missingKey, depth, steps, printed }) {
    return { missingKey, depth, steps, printed };
}

async function renderAll() {
    const data = held ? held.bytes : state.data.trim() ? encoder.encode(state.data) : undefined;
    const came = await render(state.files, state.name || undefined, data, optionsOf(state));
    if (came.status !== "ended") showAnswer(came);
}

async function checkAll() {
    const { files, name, missingKey } = state, schema = state.schema.trim() ? encoder.encode(state.schema) : undefined;
    const came = await askCheck({ call: "check", files, name: name || undefined, schema, missingKey });
    if (came.status !== "ended") showFindings(came, Boolean(schema));
}

async function run() {
    at("text").classList.add("old");
    await Promise.all([renderAll(), checkAll()]);
}

/** Has what was typed run as soon as nobody types. */
function typed() {
    if (location.hash) history.replaceState(null, "", location.pathname + location.search);
    clearTimeout(wait);
    wait = setTimeout(() => {
        keep();
        run();
    }, PAUSE);
}

/** Takes data that are not typed: as if they were, or held beside if they are many. */
function takeData(name, bytes) {
    const isLarge = bytes.length > TYPED;
    held = isLarge ? { name, bytes } : undefined;
    state.data = isLarge ? "" : decoder.decode(bytes);
    showState();
}

function takeState(it, name) {
    [state, held, current] = [it, undefined, 0];
    takeData(name, encoder.encode(it.data));
}

/** Puts another state in the place of what is there, which can be gone back to. */
function replace(it, name) {
    before = { state, held };
    takeState(it, name);
    run();
}

function select(number) {
    current = number;
    showFile();
    at("template").setAttribute("aria-invalid", faultOf(answer)?.file === current);
    markTabs();
}

function add() {
    let number = state.files.length + 1;
    while (state.files.some(([path]) => path === `file${number}.tmpl`)) number++;
    state.files = [...state.files, [`file${number}.tmpl`, ""]];
    select(state.files.length - 1);
    at("path").select();
    at("path").focus();
    typed();
}

function remove() {
    state.files = state.files.filter((_, number) => number !== current);
    select(Math.max(0, current - 1));
    at(`tab-${current}`).focus();
    typed();
}

function go() {
    const fault = faultOf(answer);
    if (!fault) return at("data").focus();
    if (fault.file !== current) select(fault.file);
    const lines = at("template").value.split("\n"), begin = lines.slice(0, fault.line - 1).join("\n").length + (fault.line > 1 ? 1 : 0);
    at("template").focus();
    at("template").setSelectionRange(begin, begin + lines[fault.line - 1].length);
    at("template").scrollTop = Math.max(0, (fault.line - 4) * lineHeight());
    follow();
}

/** Where a line and a column, which counts characters, are in a text. */
function offsetOf(text, line, column) {
    const lines = text.split("\n"), above = lines.slice(0, line - 1).reduce((sum, it) => sum + it.length + 1, 0);
    return above + [...(lines[line - 1] ?? "")].slice(0, column - 1).join("").length;
}

/** Goes to the place of a finding, in a template file or in the schema. */
function goTo({ file, line, column }) {
    const number = state.files.findIndex(([path]) => path === file);
    if (number >= 0 && number !== current) select(number);
    const field = at(number >= 0 ? "template" : "schema"), begin = offsetOf(field.value, line, column);
    field.focus();
    field.setSelectionRange(begin, begin);
    field.scrollTop = Math.max(0, (line - 4) * lineHeight());
    follow();
}

/** Says of a button for a moment what came of it. */
function told(id, what) {
    const was = (at(id).dataset.says ??= at(id).textContent);
    at(id).textContent = what;
    setTimeout(() => (at(id).textContent = was), 2000);
}

async function copy(id, text) {
    try {
        await navigator.clipboard.writeText(text);
        told(id, "Copied");
    } catch {
        told(id, "Not allowed to copy");
    }
}

async function share() {
    if (held) return told("link", "The data is too large");
    const hash = await linkOf(state);
    history.replaceState(null, "", hash);
    await copy("link", location.href);
}

function save() {
    const link = Object.assign(document.createElement("a"), { download: "output", href: URL.createObjectURL(new Blob([answer?.text ?? ""])) });
    link.click();
    setTimeout(() => URL.revokeObjectURL(link.href), 10_000);
}

async function openTemplate([file]) {
    if (!file) return;
    state.files = state.files.map((it, number) => (number === current ? [file.name, ""] : it));
    state.files[current][1] = decoder.decode(await file.arrayBuffer());
    showFile();
    typed();
}

async function openSchema([file]) {
    if (!file) return;
    state.schema = decoder.decode(await file.arrayBuffer());
    showState();
    typed();
}

async function openData([file]) {
    if (!file) return;
    takeData(file.name, new Uint8Array(await file.arrayBuffer()));
    typed();
}

/** Has a file that is let fall on a field opened there. */
function dropped(event, open) {
    if (!event.dataTransfer.files.length) return;
    event.preventDefault();
    open(event.dataTransfer.files);
}

function pasted(event) {
    const text = event.clipboardData.getData("text/plain");
    if (text.length <= TYPED) return;
    event.preventDefault();
    takeData("pasted", encoder.encode(text));
    typed();
}

function moveAmongTabs(event) {
    const last = state.files.length - 1;
    const to = { ArrowLeft: current ? current - 1 : last, ArrowRight: current < last ? current + 1 : 0, Home: 0, End: last }[event.key];
    if (to === undefined) return;
    event.preventDefault();
    select(to);
    at(`tab-${to}`).focus();
}

// ---- the start

function listen() {
    const on = (id, kind, what) => at(id).addEventListener(kind, what);
    const field = (id, key, valueOf = (it) => it.value) => on(id, "input", () => {
        state[key] = valueOf(at(id));
        typed();
    });
    on("template", "input", () => {
        state.files[current] = [state.files[current][0], at("template").value];
        showNumbers();
        typed();
    });
    on("template", "scroll", follow);
    on("path", "input", () => {
        state.files[current] = [at("path").value, state.files[current][1]];
        showTabs();
        typed();
    });
    field("data", "data");
    field("schema", "schema");
    field("name", "name");
    field("missing-key", "missingKey");
    field("depth", "depth", (it) => it.valueAsNumber || EMPTY.depth);
    field("steps", "steps", (it) => it.valueAsNumber || EMPTY.steps);
    for (const id of ["as-text", "as-set"]) field(id, "printed", () => at("as-set").checked);
    on("tabs", "keydown", moveAmongTabs);
    on("add", "click", add);
    on("remove", "click", remove);
    on("go", "click", go);
    on("link", "click", share);
    on("save", "click", save);
    on("copy", "click", () => copy("copy", decoder.decode(answer?.text)));
    on("anew", "click", () => replace(structuredClone(EMPTY)));
    on("back", "click", () => {
        [state, held, before] = [before.state, before.held, undefined];
        showState();
        typed();
    });
    on("data", "paste", pasted);
    on("data", "drop", (event) => dropped(event, openData));
    on("schema", "drop", (event) => dropped(event, openSchema));
    on("template", "drop", (event) => dropped(event, openTemplate));
    on("let-go", "click", () => {
        held = undefined;
        showState();
        at("data").focus();
        typed();
    });
    const opened = [["open-template", "template-file", openTemplate], ["open-data", "data-file", openData], ["open-schema", "schema-file", openSchema]];
    for (const [button, input, read] of opened) {
        on(button, "click", () => at(input).click());
        on(input, "change", () => read(at(input).files));
    }
    document.addEventListener("keydown", (event) => {
        if (event.key === "Enter" && (event.ctrlKey || event.metaKey)) run();
    });
    window.addEventListener("hashchange", () => linked(location.hash).then((it) => it && replace(it, "from the link")).catch(() => {}));
}

function showExamples() {
    const examples = JSON.parse(textIn("examples"));
    at("example").append(...Object.keys(examples).map((it) => new Option(it)));
    at("example").addEventListener("change", ({ target }) => {
        if (target.value) replace(shaped(examples[target.value]));
    });
}

async function start() {
    listen();
    showExamples();
    takeState((await linked(location.hash).catch(() => undefined)) ?? kept() ?? FIRST, "from before");
    await run();
}

globalThis.tmpl = { render }; // for the browser's console, and for the tests
start().catch((error) => (at("line").textContent = `this browser cannot run it: ${error}`));
