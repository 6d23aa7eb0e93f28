// SPDX-FileCopyrightText: 2026 The etherparse_transport developers
// SPDX-License-Identifier: MIT OR Apache-2.0
// Fails if Node.js has no 64-bit memories without a flag. The bytes are a module that has only such a memory.
process.exit(WebAssembly.validate(new Uint8Array([0, 0x61, 0x73, 0x6d, 1, 0, 0, 0, 5, 3, 1, 4, 0])) ? 0 : 1);
