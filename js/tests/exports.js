// SPDX-FileCopyrightText: 2026 The etherparse_transport developers
// SPDX-License-Identifier: MIT OR Apache-2.0
// Compares the exports of the module of WebAssembly with the calls of the library for C, and the exports of the module for JavaScript with
// its types. It needs Node.js.
import { readFile } from "node:fs/promises";
import * as library from "etherparse_transport";

const folder = new URL("node_modules/etherparse_transport/", import.meta.url);

function expectEqual(found, expected, what) {
    const [left, right] = [[...found].sort().join(), [...expected].sort().join()];
    if (left !== right) throw new Error(`${what}: expected ${right}, found ${left}`);
}

const module = await WebAssembly.compile(await readFile(new URL("etherparse_transport.wasm", folder)));
const calls = JSON.parse(await readFile(new URL("signatures.json", import.meta.url))).map(({ name }) => name);
expectEqual(WebAssembly.Module.imports(module), [], "imports of WebAssembly");
expectEqual(WebAssembly.Module.exports(module).map(({ name }) => name), ["__heap_base", "memory", ...calls], "exports of WebAssembly");

const types = await readFile(new URL("etherparse_transport.d.ts", folder), "utf8");
const declared = [...types.matchAll(/^export (?:function|class|enum) (\w+)/gm)].map(([, name]) => name);
expectEqual(Object.keys(library), declared, "exports of JavaScript and their types");
const undocumented = [...types.matchAll(/(.*)\nexport \w+ (\w+)/g)].filter(([, before]) => !before.endsWith("*/"));
expectEqual(undocumented.map(([, , name]) => name), [], "exports without a comment");
