// SPDX-FileCopyrightText: 2026 The etherparse_transport developers
// SPDX-License-Identifier: MIT OR Apache-2.0
// node rows.js: measures functions of the module for JavaScript on the inputs of rows.c, and the call of WebAssembly in each of them.
// Writes a line for each row: its name, nanoseconds of the call alone, and of the function. A time is the least of many samples, with the
// loop's own time.
import { readFile } from "node:fs/promises";
import * as library from "etherparse_transport";

const SAMPLES = 40;
const CALLS = 2000;

await library.load();
const file = new URL(import.meta.resolve("etherparse_transport/etherparse_transport.wasm"));
const { instance } = await WebAssembly.instantiate(await readFile(file));
const { memory, ...calls } = instance.exports;
const base = memory.buffer.byteLength;
try {
    memory.grow(1n);
} catch {
    memory.grow(1);
}

/** Copies bytes to a place in the memory, and returns the address. */
function at(place, bytes) {
    new Uint8Array(memory.buffer).set(bytes, base + place);
    return BigInt(base + place);
}

const addresses = ["192.168.1.1", "192.168.1.2"].map(library.addressBytes);
const overIpv4 = Uint8Array.of(
    0x45, 0, 0, 31, 0, 7, 0, 0, 64, 17, 0, 0, 192, 168, 1, 1, 192, 168, 1, 2, 0, 21, 4, 210, 0, 11, 0xb3, 0x3a, 97, 98, 99,
);
const overIpv6 = Uint8Array.of(
    0x60, 0, 0, 0, 0, 8, 17, 64, 0x20, 1, 0x0d, 0xb8, 0, 0, 0, 0, 0, 0, 0, 0, 0, 0, 0, 1, 0x20, 1, 0x0d, 0xb8, 0, 0, 0, 0, 0, 0, 0, 0, 0, 0,
    0, 2, 0, 21, 4, 210, 0, 8, 0x9f, 0x82,
);
const segment = Uint8Array.of(
    0xc3, 0x50, 0, 0x50, 0, 0, 0, 1, 0, 0, 0, 0, 0x80, 0x10, 0xff, 0xf0, 0x37, 0x39, 0, 0, 1, 1, 8, 10, 0, 0, 0, 7, 0, 0, 0, 0,
);
const longMessage = Uint8Array.from({ length: 1480 }, (_, place) => [0, 1, 0, 2, 1480 >> 8, 1480 & 255][place] ?? 0);
const cutOff = overIpv4.subarray(0, 30);
const message = overIpv4.subarray(20);
const changed = Uint8Array.from(overIpv4);
const parts = { source: Uint8Array.of(203, 0, 113, 7), sourcePort: 40001 };

const [result, error] = [at(0, []), at(128, [])];
const [ipv4, ipv6, tcp, long] = [at(256, overIpv4), at(512, overIpv6), at(768, segment), at(1024, longMessage)];
const [source, destination] = [at(4096, addresses[0]), at(4100, addresses[1])];
const translation = at(4200, [203, 0, 113, 7, 0, 0, 0, 0, 40001 & 255, 40001 >> 8, 0, 0, 1, 0, 1, 0]);

/** Does not throw, since the time of a refusal is measured. */
function refused() {
    try {
        return library.verdict(cutOff);
    } catch (reason) {
        return reason;
    }
}

// Each row has the call of WebAssembly, and the function.
const ROWS = {
    "verdict, UDP over IPv4, 31 bytes": [() => calls.etherparse_packet_verdict(ipv4, 31n, result, error), () => library.verdict(overIpv4)],
    "verdict, UDP over IPv6, 48 bytes": [() => calls.etherparse_packet_verdict(ipv6, 48n, result, error), () => library.verdict(overIpv6)],
    "verdict, refused, 30 bytes": [() => calls.etherparse_packet_verdict(ipv4, 30n, result, error), refused],
    "readUdp, 11 bytes": [() => calls.etherparse_udp_packet_read(ipv4 + 20n, 11n, result, error), () => library.readUdp(message)],
    "readTcp, 32 bytes": [() => calls.etherparse_tcp_packet_read(tcp, 32n, result, error), () => library.readTcp(segment)],
    "udpChecksum, 1,480 bytes": [
        () => calls.etherparse_udp_checksum_ipv4(long, 1480n, source, destination, result, error),
        () => library.udpChecksum(longMessage, addresses[0], addresses[1]),
    ],
    "translate, UDP over IPv4, 31 bytes": [
        () => calls.etherparse_translate_ipv4(ipv4, 31n, translation, error), () => library.translate(changed, parts),
    ],
};

function measured(call) {
    let least = Infinity;
    for (let sample = 0; sample < SAMPLES; sample += 1) {
        const start = process.hrtime.bigint();
        for (let count = 0; count < CALLS; count += 1) call();
        least = Math.min(least, Number(process.hrtime.bigint() - start));
    }
    return (least / CALLS).toFixed(1);
}

for (const [name, pair] of Object.entries(ROWS)) console.log([name, ...pair.map(measured)].join("\t"));
