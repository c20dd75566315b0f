
// ---- a worker of the page: it renders or checks what it is asked for, by the binding before

let engine;

/** The line of what went wrong; its text is what was written before. */
function answerTo(error) {
    return { status: error.status ?? error.name, line: error.line ?? String(error), text: error.text ?? new Uint8Array() };
}

const calls = {
    render({ files, name, data, options }) {
        const began = performance.now(), text = engine.renderBytes(files, name, data, options);
        return { status: 0, line: "", text, took: performance.now() - began };
    },

    /** The findings over a schema, or where there is none, the errors of the files. */
    check({ files, name, schema, missingKey }) {
        const found = schema ? engine.checkSchema(files, schema, { name, missingKey }) : engine.check(files);
        const findings = found.map(({ file, line, column, level = "error", text, note }) => ({ file, line, column, level, text, note }));
        return { status: 0, line: "", text: new Uint8Array(), findings };
    },
};

async function answered({ module, call, ...asked }) {
    try {
        engine ??= await load(module);
        postMessage({ isBegun: true });
        return calls[call](asked);
    } catch (error) {
        return answerTo(error);
    }
}

onmessage = async (event) => {
    const answer = await answered(event.data);
    postMessage(answer, [answer.text.buffer]);
};
