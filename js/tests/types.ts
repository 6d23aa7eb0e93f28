// SPDX-FileCopyrightText: 2026 The etherparse_transport developers
// SPDX-License-Identifier: MIT OR Apache-2.0
// Uses the types of the module for JavaScript as a program does. It is compiled, and not run.
import {
    answerEcho, ChecksumChange, EtherparseError, load, readTcp, Status, Sum, tcpOptions, tcpOptionValues, TcpFlags, TcpOptionKind,
    translate, UnsupportedRuntimeError, verdict, VerdictKind, writeTcpHeader, writeTcpOptions,
} from "etherparse_transport";

export async function describe(packet: Uint8Array): Promise<string> {
    try {
        await load();
        const { transport, kind, expectedChecksum } = verdict(packet, { lax: true });
        const destination: string = transport.destination ?? "not known";
        const checksum: number | null = expectedChecksum;
        return `${transport.source} ${destination} ${VerdictKind[kind]} ${checksum} ${transport.payload.length}`;
    } catch (error) {
        if (error instanceof UnsupportedRuntimeError) return error.message;
        if (!(error instanceof EtherparseError)) throw error;
        const missing = BigInt(error.requiredLen) - BigInt(error.len);
        return error.status === Status.IP_PACKET_CUT_OFF ? `${missing} bytes are missing` : error.message;
    }
}

export function options(segment: Uint8Array): Uint8Array {
    const packet = readTcp(segment);
    const isSyn = (packet.flags & TcpFlags.SYN) !== 0;
    for (const { kind, value } of tcpOptions(packet.options)) console.log(kind, value, isSyn);
    const values: number[] = [...tcpOptionValues(packet.options)].flatMap((option) => option.values);
    const written = writeTcpOptions([{ kind: TcpOptionKind.NOOP }, { kind: TcpOptionKind.WINDOW_SCALE, values }]);
    return writeTcpHeader({ ...packet, options: written });
}

export function changed(packet: Uint8Array): number {
    translate(packet, { source: "192.0.2.1", destinationPort: 53, quoted: { destination: "192.0.2.2" } });
    const change = new ChecksumChange().replace(packet.subarray(0, 2), answerEcho(packet, { hopLimit: 1 }).subarray(0, 2));
    return change.reversed().apply(new Sum().add(packet).addAt(1, packet).checksum());
}

// @ts-expect-error: a packet is bytes
verdict("text");
// @ts-expect-error: results do not change
new Sum().value = 7;
