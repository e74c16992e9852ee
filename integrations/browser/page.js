"use strict";

/** What runs in the worker: it opens an engine of the module that comes first, and then evaluates what comes. */
function serve() {
    let engine = null;
    onmessage = async ({ data }) => {
        try {
            if (!engine) {
                engine = await Exprlang.open(data);
                postMessage({ version: engine.version, untrusted: engine.untrusted });
            } else {
                postMessage({ found: engine.evaluate(data), memory: engine.memory });
            }
        } catch (fault) {
            postMessage({ fault: String(fault) });
        }
    };
}

const QUIET_MS = 150; // how long a text stays as it is before it runs
const PATIENCE_MS = 700; // how long a run takes before the page offers to stop it
const MOST_MEMORY = 256 * 1024 * 1024; // with more than this a new engine takes over

const at = (id) => document.getElementById(id);
const text = at("text"), record = at("record"), result = at("result");
let module = null; // the compiled module
let worker = null;
let untrusted = null; // the limits that the fields begin with
let hasFailed = false, isReady = false, isBusy = false;
let isStale = false; // whether the fields have changed since the engine got them
let quiet = 0, patience = 0; // timers; quiet is 0 if none waits

/** An element of a tag with a class, and with a text or children. */
function element(tag, name, ...children) {
    const made = document.createElement(tag);
    if (name) made.className = name;
    made.append(...children);
    return made;
}

/** The bytes of the module, which module.js has compressed and in base 64. */
async function moduleBytes() {
    const packed = Uint8Array.from(atob(EXPRLANG_MODULE), (character) => character.charCodeAt(0));
    const stream = new Blob([packed]).stream().pipeThrough(new DecompressionStream("gzip"));
    return new Response(stream).arrayBuffer();
}

/** Starts a worker with a new engine. Its source comes from this page, as a page in a file may start no other. */
function start() {
    if (worker) worker.terminate();
    isReady = isBusy = false;
    const source = URL.createObjectURL(
        new Blob([`"use strict";\n${Exprlang}\nExprlang.LIMITS = ${JSON.stringify(Exprlang.LIMITS)};\n(${serve})();`],
            { type: "text/javascript" }));
    worker = new Worker(source);
    worker.onmessage = ({ data }) => take(data);
    worker.onerror = (event) => {
        event.preventDefault();
        fail("This browser starts no worker here. Use Chrome 133, Edge 133, Firefox 134, or later.");
    };
    worker.postMessage(module);
}

/** Takes what the worker says. */
function take({ version, untrusted: limits, found, memory, fault }) {
    clearTimeout(patience);
    at("running").hidden = true;
    isBusy = false;
    if (version) {
        isReady = true;
        isStale = isStale || !untrusted;
        if (!untrusted) showLimits(limits);
        showVersion(version);
    } else if (fault && !isReady) {
        fail(`The engine doesn't start: ${fault}`);
        return;
    } else {
        show(found || faultOf(fault));
        if (fault || memory > MOST_MEMORY) start();
    }
    if (isReady && isStale && !quiet) ask();
}

/** Has the expression evaluated, or once the engine is free. */
function ask() {
    clearTimeout(quiet);
    quiet = 0;
    if (hasFailed) return;
    isStale = true;
    result.setAttribute("aria-busy", "true");
    if (!isReady || isBusy) return;
    const limits = readLimits();
    if (!limits) return;
    isStale = false;
    isBusy = true;
    patience = setTimeout(() => { at("running").hidden = false; }, PATIENCE_MS);
    worker.postMessage({
        text: text.value,
        record: record.value.trim() || "{}",
        limits,
        now: at("now").checked ? new Date() : null,
        fillsMissing: at("fills").checked,
    });
}

function askSoon() {
    if (hasFailed) return;
    isStale = true;
    result.setAttribute("aria-busy", "true");
    clearTimeout(quiet);
    quiet = setTimeout(ask, QUIET_MS);
}

function stop() {
    clearTimeout(patience);
    at("running").hidden = true;
    show({ outcome: "limit", word: "stopped", message: "You stopped the run." });
    start();
}

/** What a trap of the module means. */
function faultOf(fault) {
    const isStack = /stack|bounds/i.test(fault);
    return { outcome: "limit", word: isStack ? "out of stack" : "out of memory", message: fault };
}

function fail(why) {
    hasFailed = true;
    at("notice").textContent = why;
    at("notice").hidden = false;
    result.setAttribute("aria-busy", "false");
    result.replaceChildren(element("p", "verdict", "Nothing runs here"));
}

// --- what the page shows ---

function show(found) {
    const parts = [];
    result.className = `is-${found.outcome}`;
    if (found.outcome === "answer") {
        parts.push(element("p", "verdict", found.type), element("pre", "answer", found.shown));
        if (found.json !== null && found.json !== found.shown) {
            const details = element("details", "", element("summary", "", "As JSON"), element("pre", "json", found.json));
            parts.push(details);
        }
    } else {
        const part = { expression: "in the expression", record: "in the record", limits: "in the limits" }[found.where];
        const verdict = found.outcome === "limit" ? `Stopped: ${found.word}` : `Error: ${found.word}`;
        parts.push(element("p", "verdict", part ? `${verdict}, ${part}` : verdict));
        if (found.line) {
            parts.push(element("pre", "place", found.message));
            const button = element("button", "", `Go to line ${found.line}, column ${found.column}`);
            button.type = "button";
            button.onclick = () => goTo(found.byte);
            parts.push(button);
        } else {
            parts.push(element("p", "why", found.message));
        }
    }
    result.replaceChildren(...parts);
    text.setAttribute("aria-invalid", String(found.where === "expression"));
    record.setAttribute("aria-invalid", String(found.where === "record"));
    showAsks(found);
    result.setAttribute("aria-busy", String(isStale));
}

function showAsks({ names, functions, usesEnv }) {
    const list = (words) => words.flatMap((word) => [" ", element("code", "", word)]);
    const all = names && usesEnv ? [...names, "$env, the whole record"] : names;
    at("names").replaceChildren(...(all ? (all.length ? list(all) : ["none"]) : ["unknown until it compiles"]));
    at("functions").replaceChildren(...(functions ? (functions.length ? list(functions) : ["none"]) : ["unknown until it compiles"]));
}

/** Puts the cursor at a byte of the expression. */
function goTo(byte) {
    const before = new TextDecoder("utf-8", { ignoreBOM: true }).decode(new TextEncoder().encode(text.value).slice(0, byte));
    text.focus();
    text.setSelectionRange(before.length, Math.min(before.length + 1, text.value.length));
}

function showVersion(version) {
    const isProved = / proved$/.test(version);
    at("version").textContent = isProved
        ? `${version}: the engine's code is proved. What compiled it to WebAssembly is not.`
        : `${version}: nothing is proved of this build.`;
}

const LIMIT_LABELS = {
    nesting: "Nesting of the expression",
    patterns: "Weight of its patterns",
    steps: "Steps of a run",
    depth: "Depth of values",
    size: "Size of values",
};

function showLimits(limits) {
    untrusted = limits;
    for (const name of Exprlang.LIMITS) {
        const input = element("input", "");
        Object.assign(input, {
            id: `limit-${name}`, type: "number", min: 0, max: Number.MAX_SAFE_INTEGER, step: 1, required: true,
            value: limits[name], oninput: askSoon,
        });
        at("limits").append(element("label", "", LIMIT_LABELS[name], input));
    }
}

/** The limits of the fields, or null, which the fields say, if one is no limit. */
function readLimits() {
    const inputs = Exprlang.LIMITS.map((name) => at(`limit-${name}`));
    for (const input of inputs) input.setAttribute("aria-invalid", String(!input.validity.valid));
    const wrong = inputs.find((input) => !input.validity.valid);
    if (!wrong) return Object.fromEntries(Exprlang.LIMITS.map((name, which) => [name, inputs[which].valueAsNumber]));
    const label = LIMIT_LABELS[wrong.id.replace("limit-", "")];
    isStale = false;
    show({ outcome: "error", where: "limits", word: label, message: "A limit is a whole number, 0 or more." });
    return null;
}

function showExamples() {
    for (const { title, examples } of EXPRLANG_EXAMPLES) {
        const list = element("ul", "");
        for (const example of examples) {
            const button = element("button", "", element("code", "", example.text));
            button.type = "button";
            button.onclick = () => choose(example);
            list.append(element("li", "", button));
        }
        at("examples").append(element("details", "", element("summary", "", title), list));
    }
    const first = at("examples").querySelector("details");
    if (first) first.open = true;
}

function choose(example) {
    text.value = example.text;
    record.value = example.record;
    // the focus stays, so that the next example is a Tab away and a phone shows no keyboard
    document.querySelector(".input").scrollIntoView();
    ask();
}

async function main() {
    showExamples();
    for (const field of [text, record, at("fills"), at("now")]) field.addEventListener("input", askSoon);
    at("stop").onclick = stop;
    at("reset").onclick = () => {
        for (const name of Exprlang.LIMITS) at(`limit-${name}`).value = untrusted[name];
        ask();
    };
    if (!Exprlang.isSupported()) {
        fail("This browser has no WebAssembly memories of 64 bits. Use Chrome 133, Edge 133, Firefox 134, or later.");
        return;
    }
    try {
        module = await WebAssembly.compile(await moduleBytes());
        start();
    } catch (fault) {
        fail(`The engine doesn't load: ${fault}`);
    }
}

main();
