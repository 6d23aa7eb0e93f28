// SPDX-FileCopyrightText: 2026 The etherparse_transport developers
// SPDX-License-Identifier: MIT OR Apache-2.0
/** Runs all tests of the module for JavaScript, in Node.js and in a page. */
import { load, verdict } from "etherparse_transport";
import { TESTS } from "./api.js";
import { replay } from "./replay.js";

/**
 * Runs the tests, with the files of records that these names have. `read` returns the bytes of a file. Returns how many parts passed, what
 * failed, and how many calls were compared.
 */
export async function runAll(read, recordFiles) {
    const report = { passed: 0, compared: 0, faults: [] };
    const count = (name, fault) => (fault ? report.faults.push(`${name}: ${fault}`) : (report.passed += 1));
    try {
        verdict(new Uint8Array());
        count("a call before load", "no error");
    } catch (error) {
        count("a call before load", error.message.includes("await load()") ? "" : error);
    }
    await load();
    for (const [name, test] of Object.entries(TESTS)) {
        try {
            await test();
            count(name, "");
        } catch (error) {
            count(name, error.stack ?? error);
        }
    }
    const signatures = JSON.parse(new TextDecoder().decode(await read("signatures.json")));
    const times = Object.fromEntries(signatures.map(({ name }) => [name, 0]));
    for (const file of recordFiles) {
        const replayed = replay(await read(file), signatures);
        report.compared += replayed.agreed;
        count(file, replayed.faults.join("\n") || (replayed.agreed === 0 ? "no record" : ""));
        for (const [name, number] of Object.entries(replayed.times)) times[name] += number;
    }
    const never = Object.keys(times).filter((name) => times[name] === 0);
    count("each call is made", never.join(", "));
    return report;
}
