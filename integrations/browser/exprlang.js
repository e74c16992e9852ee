"use strict";

/**
 * The engine in a browser: a WebAssembly module with 64-bit memories, within the limits for untrusted strings.
 *
 *     const engine = await Exprlang.open(await WebAssembly.compile(bytes));
 *     const found = engine.evaluate({ text: "price * count > 100", record: '{"price": 60, "count": 2}' });
 *     found.outcome === "answer" && found.shown === "true"
 *
 * A call takes one string and one record of JSON, and returns plain data. It throws if the stack runs out, or the memory for
 * the strings themselves. Open another engine then.
 */
class Exprlang {
    /** Whether this browser has memories and tables of 64 bits, which the module needs. */
    static isSupported() {
        // a module with one such table and one such memory
        const module = [0, 97, 115, 109, 1, 0, 0, 0, 4, 4, 1, 112, 4, 0, 5, 3, 1, 4, 1];
        return typeof WebAssembly === "object" && WebAssembly.validate(new Uint8Array(module));
    }

    /** Opens an engine of a compiled module. */
    static async open(module) {
        const { exports } = await WebAssembly.instantiate(module, {});
        if (!exports.open()) throw new Error("out of memory");
        return new Exprlang(exports);
    }

    constructor(calls) {
        this.calls = calls;
        this.version = this.read(calls.version());
        /** The limits for untrusted strings, by name. */
        this.untrusted = Object.fromEntries(
            Exprlang.LIMITS.map((name, which) => [name, Number(calls.untrusted(which))]));
    }

    /** The bytes of memory that the engine has taken. It never gives any back. */
    get memory() {
        return this.calls.memory.buffer.byteLength;
    }

    /**
     * Compiles a string and runs it on a record.
     *
     * `limits` has the limits that differ from those for untrusted strings, `now` the Date that `now()` returns, and
     * `fillsMissing` says whether missing names are nil. In what it returns, `outcome` is one of these:
     *
     *   answer   `shown` is the answer as the language prints it, `type` its type, `json` the same as JSON, or null
     *   error    `word` is the kind of error, `message` says why, and `where` is "expression", "record" or "run".
     *            In an expression, `line`, `column` and `byte` say where, if a token is wrong; else `line` is 0
     *   limit    the same, where a limit stopped it
     *
     * `names`, `functions` and `usesEnv` say what the string asks for. They are null if it didn't compile.
     */
    evaluate({ text, record = "{}", limits = {}, now = null, fillsMissing = false }) {
        const { calls } = this;
        const asks = { names: null, functions: null, usesEnv: null };
        const all = { ...this.untrusted, ...limits };
        const ended = (where, status) => ({
            ...asks, where,
            outcome: calls.is_limit(status) ? "limit" : "error",
            word: this.read(calls.word_of(status)),
            message: this.read(calls.message()),
            line: where === "expression" ? Number(calls.line()) : 0,
            column: Number(calls.column()),
            byte: Number(calls.byte()),
        });
        let status = calls.set_limits(...Exprlang.LIMITS.map((name) => BigInt(all[name])));
        if (status) return ended("limits", status);
        status = calls.unset_now() || (now && calls.set_now(...Exprlang.secondsOf(now)));
        if (status) return ended("run", status);
        status = this.lend(text, calls.compile);
        if (status) return ended("expression", status);
        Object.assign(asks, {
            names: this.lines(calls.names()).filter((name) => name !== "#"),
            functions: this.lines(calls.functions()),
            usesEnv: Boolean(calls.uses_env()),
        });
        status = this.lend(record, calls.set_record);
        if (status) return ended("record", status);
        status = (fillsMissing && calls.fill_missing()) || calls.run();
        if (status) return ended("run", status);
        const found = { ...asks, outcome: "answer", type: this.read(calls.type()) };
        found.json = this.read(calls.json());
        found.shown = this.read(calls.shown());
        if (found.shown === null) throw new Error("out of memory");
        return found;
    }

    /** Hands a string to a call. */
    lend(text, call) {
        const bytes = new TextEncoder().encode(text);
        const at = this.calls.room(BigInt(bytes.length));
        if (!at) throw new Error("out of memory");
        new Uint8Array(this.calls.memory.buffer, Number(at), bytes.length).set(bytes);
        const status = call(at, BigInt(bytes.length));
        this.calls.release(at);
        return status;
    }

    /** The string that a call returned, or null for a null pointer. */
    read(at) {
        const bytes = new Uint8Array(this.calls.memory.buffer, Number(at), at ? Number(this.calls.length()) : 0);
        return at ? new TextDecoder("utf-8", { ignoreBOM: true }).decode(bytes) : null;
    }

    lines(at) {
        return this.read(at).split("\n").filter(Boolean);
    }

    /** The second since 1970 of a Date, and the nanoseconds past it. */
    static secondsOf(date) {
        const second = Math.floor(date.getTime() / 1000);
        return [BigInt(second), (date.getTime() - second * 1000) * 1e6];
    }
}

/** The names of the limits, in the order of the calls. */
Exprlang.LIMITS = ["nesting", "patterns", "steps", "depth", "size"];
