// SPDX-FileCopyrightText: 2026 The etherparse_transport developers
// SPDX-License-Identifier: MIT OR Apache-2.0
// node node.js FILE ..: runs all tests in Node.js, with these files of records, and writes a report in JSON.
import { readFile } from "node:fs/promises";
import { runAll } from "./all.js";

async function read(name) {
    const { buffer, byteOffset, byteLength } = await readFile(new URL(name, import.meta.url));
    return buffer.slice(byteOffset, byteOffset + byteLength);
}

console.log(JSON.stringify(await runAll(read, process.argv.slice(2))));
