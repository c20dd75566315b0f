// trap.mjs TMPL, by `node --stack-size=100`: a template that is nested deeper than that stack allows stops the module. That is told as what
// it is, and the next calls have another instance, with the templates that were kept.
import { pathToFileURL } from "node:url";

const { load, TrapError } = await import(pathToFileURL(`${process.argv[2]}/node.mjs`));
const engine = await load(), deep = `${"{{if 1}}".repeat(450)}x${"{{end}}".repeat(450)}`;
const kept = engine.templates({ a: "{{define `b`}}two {{.}}{{end}}one {{template `b` .}}" }), other = engine.templates({ c: deep });
let passed = 0, failed = 0;

function check(what, isRight) {
    if (!isRight) console.log(`FAILED ${what}`);
    isRight ? passed++ : failed++;
}

function isTrap(call) {
    try {
        call();
        return false;
    } catch (error) {
        return error instanceof TrapError && error.cause instanceof RangeError;
    }
}

for (let time = 0; time < 20; time++) {
    check("a render is stopped", isTrap(() => engine.render({ m: deep })));
    check("kept templates are there after it", kept.render("a", time) === `one two ${time}`);
    check("a render of kept templates is stopped", isTrap(() => other.render("c")));
    check("a file after it is added", (kept.add(`d${time}`, "three"), kept.render(`d${time}`) === "three"));
    check("the others are there", kept.render("a", [time]) === `one two [${time}]`);
    check("a render is as any other", engine.render({ m: "well" }) === "well");
}
kept.close();
check("what was freed is empty", kept.renderBytes("", undefined, { printed: true }).length === 0);
console.log(`${passed} passed, ${failed} failed`);
process.exit(failed || !passed ? 1 : 0);
