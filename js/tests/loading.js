// SPDX-FileCopyrightText: 2026 The etherparse_transport developers
// SPDX-License-Identifier: MIT OR Apache-2.0
// Tests the ways to load the module, and how that fails. It needs Node.js. A module in JavaScript loads one library. So each way is tried
// in a copy of the module, which another query in its address makes.
import { readFile, writeFile } from "node:fs/promises";

const folder = new URL("node_modules/etherparse_transport/", import.meta.url);
const file = new URL("etherparse_transport.wasm", folder);
let copies = 0;

/** A copy of the module that has loaded nothing. */
function another() {
    copies += 1;
    return import(new URL(`etherparse_transport.js?${copies}`, folder));
}

/** The error of a load, which has to contain this text. */
async function refused(load, text) {
    try {
        await load();
    } catch (error) {
        if (!String(error).includes(text)) throw new Error(`expected ${text}, found ${error}`);
        return error;
    }
    throw new Error(`expected ${text}, found no error`);
}

/** Whether a copy that was loaded from this source makes a call. */
async function works(source) {
    const copy = await another();
    await copy.load(source);
    if (copy.libraryVersion().split(".").length !== 3) throw new Error(`not loaded from ${source}`);
}

const bytes = await readFile(file);
await works(undefined);
await works(file);
await works(file.href);
await works("etherparse_transport.wasm");
await works(bytes);
await works(bytes.buffer.slice(bytes.byteOffset, bytes.byteOffset + bytes.byteLength));
await works(await WebAssembly.compile(bytes));
await works(new Response(bytes));

// Two loads at once load once, and a load that failed can be repeated.
const both = await another();
await Promise.all([both.load(), both.load()]);
const repeated = await another();
await refused(() => repeated.load("no_such_file.wasm"), "ENOENT");
await refused(() => repeated.load(Uint8Array.of(1, 2, 3, 4)), "CompileError");
await refused(() => repeated.load(new Response("", { status: 404 })), "404");
await refused(async () => repeated.libraryVersion(), "await load()");
await repeated.load();
repeated.libraryVersion();

// A library with another interface.
const text = await readFile(new URL("etherparse_transport.js", folder), "utf8");
const other = new URL("other.js", folder);
await writeFile(other, text.replace(/const INTERFACE = ".*";/, 'const INTERFACE = "9.9";'));
await refused(async () => (await import(other)).load(), "and this module needs version 9.9");

// A runtime without 64-bit memories, and one without WebAssembly.
const { validate } = WebAssembly;
WebAssembly.validate = () => false;
const early = await another();
const error = await refused(() => early.load(), "UnsupportedRuntimeError: this runtime has no 64-bit memories");
if (!(error instanceof early.UnsupportedRuntimeError)) throw new Error("another class of error");
WebAssembly.validate = validate;
const whole = globalThis.WebAssembly;
delete globalThis.WebAssembly;
const without = await another();
await refused(() => without.load(), "UnsupportedRuntimeError");
globalThis.WebAssembly = whole;
