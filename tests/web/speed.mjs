// speed.mjs ENGINE TEMPLATE DATA COUNT [kept]: renders so often by an engine of JavaScript, and tells the least and the middle time of one
// render in nanoseconds, as speed.c does: with the parse of the template and the read of the data each time, or once. With a COUNT of 0 it
// renders once and puts the text out. ENGINE is the folder of the binding with its module, or `handlebars`.
import { readFileSync } from "node:fs";
import { createRequire } from "node:module";
import { pathToFileURL } from "node:url";

const TIMES = 31;
const [name, template, file, count, how] = process.argv.slice(2);
const [text, data] = [readFileSync(template), readFileSync(file)];

/** What renders once, by tmpl. */
async function byTmpl() {
    const { load } = await import(pathToFileURL(`${name}/node.mjs`));
    const engine = await load(), kept = engine.templates({ m: text });
    return how ? () => kept.render("m", data) : () => engine.render({ m: text }, "m", data);
}

async function byHandlebars() {
    const handlebars = createRequire(import.meta.url)("/usr/share/nodejs/handlebars"); // where Debian's package has it
    const compiled = handlebars.compile(text.toString()), read = JSON.parse(data);
    return how ? () => compiled(read) : () => handlebars.compile(text.toString())(JSON.parse(data));
}

const render = await (name === "handlebars" ? byHandlebars : byTmpl)();
if (count === "0") {
    process.stdout.write(render());
} else {
    const times = Array.from({ length: TIMES }, () => {
        const start = process.hrtime.bigint();
        for (let time = 0; time < count; time++) render();
        return Number(process.hrtime.bigint() - start) / count;
    }).sort((one, other) => one - other);
    console.log(Math.round(times[0]), Math.round(times[TIMES >> 1]), render().length);
}
