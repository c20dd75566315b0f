// asked.mjs TMPL CALLS ..: makes each call of these files, which asked.py wrote, by the module and its binding in the folder TMPL, and
// twice by templates that are kept, and compares what comes.
import { readFileSync } from "node:fs";
import { pathToFileURL } from "node:url";

const SHOWN = 10; // failures that are told
const MODES = ["default", "invalid", "zero", "error"];
const [folder, ...paths] = process.argv.slice(2);
const { load, TemplateError } = await import(pathToFileURL(`${folder}/node.mjs`));
const engine = await load();

/** The calls of a file. */
function* callsOf(bytes) {
    let at = 0;
    const number = (size) => { at += size; return size === 8 ? bytes.readBigUInt64LE(at - 8) : bytes.readUIntLE(at - size, size); };
    const sized = () => { const size = number(4); at += size; return bytes.subarray(at - size, at); };
    while (at < bytes.length) {
        const [steps, depth, mode, printed] = [number(8), number(4), number(1), number(1)];
        at += 2;
        const files = Array.from({ length: number(4) }, () => [sized(), sized()]);
        const [name, data] = [sized(), sized()];
        const options = { steps: steps || 1_000_000_000, depth: depth || 1000, missingKey: MODES[mode], printed: printed === 1 };
        yield { files, name, data, options, wanted: { status: number(4), text: sized(), line: sized().toString().replace(/\n$/, "") } };
    }
}

/** What comes of a render. */
function cameOf(render) {
    try {
        return { status: 0, text: Buffer.from(render()), line: "" };
    } catch (error) {
        if (!(error instanceof TemplateError)) return { status: error.name, text: Buffer.from(""), line: error.message };
        return { status: error.status, text: Buffer.from(error.text), line: error.line };
    }
}

/** What comes of a call, and of two by templates that are kept, to which a file that is refused is not added. */
function* answersTo({ files, name, data, options }) {
    yield cameOf(() => engine.renderBytes(files, name, data, options));
    const kept = engine.templates();
    for (let time = 0, added = 0; time < 2; time++) {
        yield cameOf(() => {
            for (; added < files.length; added++) kept.add(...files[added]);
            return kept.renderBytes(name, data, options);
        });
    }
    kept.close();
}

const isAsWanted = (came, wanted) => came.status === wanted.status && came.text.equals(wanted.text) && came.line === wanted.line;
let passed = 0, failed = 0;
for (const path of paths) {
    let number = 0;
    for (const call of callsOf(readFileSync(path))) {
        const wrong = [...answersTo(call)].filter((it) => !isAsWanted(it, call.wanted));
        if (wrong.length && failed < SHOWN) console.log(`${path}: call ${number}`, wrong[0], "wanted", call.wanted);
        number++;
        wrong.length ? failed++ : passed++;
    }
}
console.log(`${passed} passed, ${failed} failed`);
process.exit(failed || !passed ? 1 : 0);
