// stack.mjs TMPL: calls the binding in the folder TMPL at each of 400 depths of the host's stack, from one at which the module is not reached
// to one at which the call is made whole, one depth at a time. A call that the end of the stack stopped inside the module may leave its
// memory in any state, so no call may go to that instance again, and what is kept has to be there at the next call.
import { pathToFileURL } from "node:url";

const DEPTHS = 400;
let entered = 0, reused = 0;

/** An export that sees whether its instance is called after a call that did not return. */
function watched(state, call) {
    return (...words) => {
        if (state.isStopped) reused++;
        entered++;
        state.isStopped = true;
        const it = call(...words);
        state.isStopped = false;
        return it;
    };
}

const { Instance } = WebAssembly;
WebAssembly.Instance = class {
    constructor(module) {
        const state = { isStopped: false }, { exports } = new Instance(module);
        const calls = Object.entries(exports).map(([name, it]) => [name, typeof it === "function" ? watched(state, it) : it]);
        this.exports = Object.fromEntries(calls);
    }
};

const { load, TemplateError } = await import(pathToFileURL(`${process.argv[2]}/node.mjs`));
let passed = 0, failed = 0;

function check(what, isRight) {
    if (!isRight) console.log(`FAILED ${what}`);
    isRight ? passed++ : failed++;
}

/** Makes a call this many frames before the end of the stack, with as many words on it: whether it reached the module, and whether it ended. */
function outcomeAt(frames, words, call) {
    const before = entered;
    let left = frames, ended = false;
    (function down() {
        try {
            down();
        } catch {
            // that was the last frame
        }
        if (left-- !== 0) return;
        try {
            ((...more) => call(more))(...Array(words));
            ended = true;
        } catch (error) {
            ended = error instanceof TemplateError;
        }
    })();
    return { reached: entered !== before, ended };
}

/** The least frames with which a call comes to this. */
function leastFor(call, what) {
    let [low, high] = [0, 1];
    while (!outcomeAt(high, 0, call)[what]) [low, high] = [high, 2 * high];
    while (high - low > 1) {
        const middle = (low + high) >> 1;
        if (outcomeAt(middle, 0, call)[what]) high = middle;
        else low = middle;
    }
    return high;
}

const engine = await load(), kept = engine.templates({ a: "{{define `d`}}[{{.}}]{{end}}" });
const calls = {
    "a render of kept templates": (turn) => kept.render("d", turn),
    "a fault of kept templates": (turn) => kept.render("d", turn, { output: 1 }),
    "a file that is refused": (turn) => kept.add("b", `${turn}{{`),
    "a render": (turn) => engine.render({ m: "{{len .}}" }, "m", [turn]),
    "a check": (turn) => engine.check({ m: `${turn}{{` }),
};
for (const [name, call] of Object.entries(calls)) {
    for (let time = 0; time < 20; time++) outcomeAt(2000, 0, () => call(time)); // the host compiles what runs often
    const least = leastFor(() => call(0), "reached"), most = leastFor(() => call(0), "ended");
    let lost = 0;
    reused = 0;
    const depths = Math.max(DEPTHS, most - least + 20), first = Math.max(0, least - 10);
    for (let turn = 0; turn < depths; turn++) {
        for (let words = 0; words < 16; words += 4) {
            outcomeAt(first + turn, words, () => call(16 * turn + words));
            let text;
            try {
                text = kept.render("d", turn);
            } catch (error) {
                text = error;
            }
            if (text !== `[${turn}]` && !lost++) console.log(`${name}, depth ${turn}: ${text}`);
        }
    }
    check(`${name}: what is kept is there after each call at ${depths} depths, and not lost after ${lost}`, lost === 0);
    check(`${name}: no stopped instance is called again, and not ${reused} times`, reused === 0);
}
console.log(`${passed} passed, ${failed} failed`);
process.exit(failed || !passed ? 1 : 0);
