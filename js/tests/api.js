// SPDX-FileCopyrightText: 2026 The etherparse_transport developers
// SPDX-License-Identifier: MIT OR Apache-2.0
/**
 * Tests what the module for JavaScript adds to the calls: arguments, copies, memory, addresses, names of numbers. It runs in Node.js and in
 * a page. Each test is a function that throws if it fails.
 */
import * as library from "etherparse_transport";
import { isEqual } from "./replay.js";

const { Icmpv4Kind, Icmpv4RedirectCode, Icmpv4Type, Icmpv6UnreachableCode, Protocol, Status, Sum, TcpFlags, TcpOptionKind, VerdictKind } = library;

/** A UDP packet from 192.168.1.1 to 192.168.1.2 in an IP packet. */
const PACKET = Uint8Array.of(
    0x45, 0, 0, 31, 0, 7, 0, 0, 64, 17, 0, 0, 192, 168, 1, 1, 192, 168, 1, 2, 0, 21, 4, 210, 0, 11, 0xb3, 0x3a, 97, 98, 99,
);
const HEADER_LEN = 20;
const SOURCE = "192.168.1.1";
const DESTINATION = "192.168.1.2";

function expect(found, expected, what = "") {
    if (!isEqual(found, expected)) throw new Error(`${what} expected ${String(expected)}, found ${String(found)}`);
}

/** The error that a call throws. It has to be of this class. */
function thrown(call, kind) {
    try {
        call();
    } catch (error) {
        if (!(error instanceof kind)) throw new Error(`expected ${kind.name}, found ${error}`);
        return error;
    }
    throw new Error(`expected ${kind.name}, found no error`);
}

/** A packet with so many bytes of payload, and its length field 0, which means all bytes. */
function longMessage(length) {
    const message = new Uint8Array(length + 8).fill(7);
    message.set([0, 1, 0, 2, 0, 0, 0, 0]);
    return message;
}

/** Numbers of 32 bits from a seed (xorshift32). */
function* random(seed) {
    for (let state = seed; ; ) {
        state ^= state << 13;
        state ^= state >>> 17;
        state ^= state << 5;
        yield state >>> 0;
    }
}

export const TESTS = {
    verdict() {
        const found = library.verdict(PACKET);
        expect(found.kind, VerdictKind.RIGHT);
        expect([found.transport.source, found.transport.destination], [SOURCE, DESTINATION]);
        expect([found.headerProtocol, found.expectedChecksum], [Protocol.UDP, null]);
        expect(library.readUdp(found.transport.payload).payload, Uint8Array.of(97, 98, 99));
    },

    refusal() {
        const error = thrown(() => library.verdict(PACKET.subarray(0, 30)), library.EtherparseError);
        expect([error.status, error.requiredLen, error.len], [Status.IP_PACKET_CUT_OFF, 31, 30]);
        expect([error.message, error.name], ["IP Error: the header counts 31 bytes, and 30 are there.", "EtherparseError"]);
        expect(error instanceof Error, true);
        expect(library.verdict(PACKET.subarray(0, 30), { lax: true }).kind, VerdictKind.UNTESTED_CUT_OFF);
    },

    namesOfNumbers() {
        const { kind } = library.verdict(PACKET);
        expect([Status.LENGTH, Status[1], VerdictKind[kind], TcpFlags[2], Icmpv4Kind[0]], [1, "LENGTH", "RIGHT", "SYN", "UNKNOWN"]);
        expect([Icmpv4Type.ECHO_REQUEST, Icmpv4RedirectCode[1], Icmpv6UnreachableCode.PORT_UNREACHABLE], [8, "HOST", 4]);
        expect([Object.isFrozen(Status), Status[99]], [true, undefined]);
    },

    /** A result does not change with its argument, with a later call, or with another result, and the argument does not change with it. */
    copies() {
        const packet = Uint8Array.from(PACKET);
        const first = library.verdict(packet).transport;
        const udp = library.readUdp(first.payload);
        library.verdict(new Uint8Array(PACKET.length).fill(0x45), { lax: true });
        packet.fill(0);
        expect(first.payload, PACKET.subarray(HEADER_LEN));
        first.payload.fill(1);
        expect(udp.payload, PACKET.subarray(HEADER_LEN + 8));
        udp.payload.fill(2);
        expect(library.verdict(PACKET).kind, VerdictKind.RIGHT);
        expect(new Set([packet.buffer, first.payload.buffer, udp.payload.buffer]).size, 3);
        expect(udp.payload.buffer.byteLength, 3);
    },

    changesOnlyItsArgument() {
        const whole = Uint8Array.from(PACKET);
        const message = whole.subarray(HEADER_LEN);
        message[6] = 0;
        library.storeUdpChecksum(message, SOURCE, DESTINATION);
        expect(whole, PACKET);
        library.translate(whole, { source: "203.0.113.7", sourcePort: 40001 });
        expect([library.transport(whole).source, library.readUdp(message).sourcePort], ["203.0.113.7", 40001]);
        expect([library.verdict(whole).kind, whole.length], [VerdictKind.RIGHT, PACKET.length]);
        const short = whole.slice(0, 21);
        thrown(() => library.translate(short, { sourcePort: 1 }), library.EtherparseError);
        expect(short, whole.subarray(0, 21));
    },

    checksumOfAPacket() {
        const packet = Uint8Array.from(PACKET);
        packet.set([0x83, 0x70], 26);
        expect([library.isChecksumPartial(packet), library.isChecksumPartial(PACKET)], [true, false]);
        expect([library.storeChecksum(packet), packet], [0xb33a, PACKET]);
        const fragment = Uint8Array.from(PACKET);
        fragment[6] = 0x20;
        const { status, actual, message } = thrown(() => library.storeChecksum(fragment), library.EtherparseError);
        expect([status, actual], [Status.CHECKSUM_UNTESTED, VerdictKind.UNTESTED_FRAGMENT]);
        expect([message, fragment[6], library.isChecksumPartial(fragment)], ["Checksum Error: the packet is a fragment.", 0x20, false]);
        const { hopLimit, isLaterFragment } = library.transport(fragment);
        expect([hopLimit, isLaterFragment], [64, false]);
    },

    /** A packet is written of its message, and its flow is read. */
    writtenPacket() {
        const message = PACKET.slice(20);
        message.set([0, 0, 0, 0], 4);
        const ends = { source: "192.168.1.1", destination: Uint8Array.of(192, 168, 1, 2), protocol: library.Protocol.UDP };
        const packet = library.writePacket(message, ends);
        expect([packet.subarray(20), library.verdict(packet).kind], [PACKET.subarray(20), VerdictKind.RIGHT]);
        const { ends: { source, sourcePort, destinationPort }, quoted } = library.flow(packet);
        expect([source, sourcePort, destinationPort, quoted], ["192.168.1.1", 21, 1234, null]);
        const other = { ...ends, protocol: library.Protocol.ICMPV6 };
        const { status, actual } = thrown(() => library.writePacket(message, other), library.EtherparseError);
        expect([status, actual], [Status.PROTOCOL_UNKNOWN, 58]);
        thrown(() => library.writePacket(message, { ...ends, destination: "::1" }), TypeError);
        thrown(() => library.writePacket(message, { ...ends, hopLimit: 256 }), RangeError);
    },

    errorAboutAPacket() {
        const kind = Icmpv4Kind.TIME_EXCEEDED;
        const error = library.icmpv4ErrorAbout(PACKET, { kind }, "192.0.2.254");
        expect([error[20], library.verdict(error).kind, error.subarray(28)], [11, VerdictKind.RIGHT, PACKET]);
        const { status } = thrown(() => library.icmpv4ErrorAbout(error, { kind }, "192.0.2.254"), library.EtherparseError);
        expect(status, Status.ICMP_ERROR_ABOUT_ERROR);
    },

    hopLimitOfAPacket() {
        const packet = Uint8Array.from(PACKET);
        packet[8] = 2;
        library.storeIpv4HeaderChecksum(packet);
        library.lowerHopLimit(packet);
        expect([packet[8], library.checkIpv4Header(packet)], [1, VerdictKind.RIGHT]);
        const { status, actual, message } = thrown(() => library.lowerHopLimit(packet), library.EtherparseError);
        expect([status, actual, message], [Status.HOP_LIMIT_EXPIRED, 1, "Hop Limit Error: the hop limit is 1."]);
    },

    maximumSegmentSizeOfAPacket() {
        const packet = Uint8Array.of(
            0x45, 0, 0, 44, 0, 0, 0, 0, 64, 6, 0xf7, 0x78, 192, 168, 1, 1, 192, 168, 1, 2,
            0xc3, 0x50, 0, 80, 0, 0, 0, 1, 0, 0, 0, 0, 0x60, 2, 0x20, 0, 0x31, 0x31, 0, 0, 2, 4, 0x05, 0xb4,
        );
        expect([library.lowerMaximumSegmentSize(packet, 1360), packet[36], packet[37], packet[43]], [1460, 0x31, 0x95, 0x50]);
        expect(library.verdict(packet).kind, VerdictKind.RIGHT);
        thrown(() => library.lowerMaximumSegmentSize(packet), RangeError);
        packet[33] = 0x10;
        const { status, message } = thrown(() => library.lowerMaximumSegmentSize(packet, 1360), library.EtherparseError);
        expect([status, message], [Status.SEGMENT_SIZE_NO_SYN, "Maximum Segment Size Error: the segment is not a SYN."]);
    },

    packetFromFragments() {
        const address = [10, 0, 0, 1, 10, 0, 0, 2];
        const first = Uint8Array.of(0x45, 0, 0, 28, 0, 7, 0x20, 0, 64, 17, 0, 0, ...address, 0, 1, 0, 2, 0, 9, 0x73, 0xd6);
        const last = Uint8Array.of(0x45, 0, 0, 21, 0, 7, 0, 1, 64, 17, 0, 0, ...address, 0x78);
        const { protocol, identification, offset, moreFragments, payload } = library.readFragment(last);
        expect([protocol, identification, offset, moreFragments, ...payload], [17, 7, 8, false, 0x78]);
        const packet = library.reassemble([last, first]);
        expect([packet.length, packet[3], packet[6], packet[28], library.verdict(packet).kind], [29, 29, 0, 0x78, VerdictKind.RIGHT]);
        const { status, message } = thrown(() => library.reassemble([first]), library.EtherparseError);
        expect([status, message], [Status.REASSEMBLY_INCOMPLETE, "Reassembly Error: bytes of the payload are missing."]);
        thrown(() => library.reassemble([[1, 2]]), TypeError);
    },

    packetsBetweenIpv4AndIpv6() {
        const packet = Uint8Array.of(
            0x45, 0, 0, 31, 0, 7, 0, 0, 64, 17, 0xf7, 0x73, 192, 168, 1, 1, 192, 168, 1, 2, 0, 21, 4, 210, 0, 11, 0xb3, 0x3a, 97, 98, 99,
        );
        const prefixes = { source: "2001:db8:64::/96", destination: "2001:db8:64::/96" };
        const translated = library.ipv4ToIpv6(packet, prefixes);
        expect([translated.length, translated[0], translated[5], translated[7]], [51, 0x60, 11, 63]);
        expect([...translated.subarray(20, 24)], [192, 168, 1, 1]);
        expect(library.verdict(translated).kind, VerdictKind.RIGHT);
        const back = library.ipv6ToIpv4(translated, { ...prefixes, identification: 7 });
        expect([back.length, back[5], back[8], back[10], back[11]], [31, 7, 62, 0xf9, 0x73]);
        expect([...back.subarray(12)], [...packet.subarray(12)]);
        thrown(() => library.ipv4ToIpv6(packet, { ...prefixes, source: "10.0.0.0/8" }), TypeError);
        thrown(() => library.ipv4ToIpv6(packet, { ...prefixes, source: "2001:db8::" }), TypeError);
        const length = thrown(() => library.ipv4ToIpv6(packet, { ...prefixes, source: "2001:db8::/33" }), library.EtherparseError);
        expect([length.status, length.actual], [Status.PREFIX_LENGTH, 33]);
        const { status, message } = thrown(() => library.ipv6ToIpv4(packet, prefixes), library.EtherparseError);
        expect([status, message], [Status.SIIT_NO_HEADER, "Translation Error: the bytes do not begin with an IPv6 header."]);
    },

    fragmentsOverIpv4() {
        const packet = Uint8Array.of(
            0x45, 0, 0, 31, 0, 7, 0x20, 0, 64, 17, 0xd7, 0x73, 192, 168, 1, 1, 192, 168, 1, 2, 0, 21, 4, 210, 0, 11, 0xb3, 0x3a, 97, 98, 99,
        );
        const prefixes = { source: "2001:db8:64::/96", destination: "2001:db8:64::/96" };
        const translated = library.ipv4ToIpv6(packet, prefixes);
        expect([...translated.subarray(4, 8)], [0, 19, 44, 63]);
        expect([...translated.subarray(40)], [17, 0, 0, 1, 0, 0, 0, 7, 0, 21, 4, 210, 0, 11, 0x57, 0, 97, 98, 99]);
        packet.fill(0, 26, 28);
        const { status, message } = thrown(() => library.ipv4ToIpv6(packet, prefixes), library.EtherparseError);
        expect([status, message], [Status.SIIT_FRAGMENT_CHECKSUM, "Translation Error: a fragment of a UDP packet has no checksum."]);
    },

    fragmentsOverIpv6() {
        const address = [0x20, 1, 0x0d, 0xb8, 0, 0x64, 0, 0, 0, 0, 0, 0, 192, 168, 1];
        const message = [0, 21, 4, 210, 0, 24, 0x57, 0, 97, 98, 99, 100, 101, 102, 103, 104];
        const fragment = (protocol, offset) => Uint8Array.of(
            0x60, 0, 0, 0, 0, 24, 44, 63, ...address, 1, ...address, 2, protocol, 0, 0, offset, 0xab, 0xcd, 0x12, 0x34, ...message,
        );
        const prefixes = { source: "2001:db8:64::/96", destination: "2001:db8:64::/96", identification: 7 };
        // A first, a later and an atomic fragment. The bytes of the later one are copied.
        for (const [offset, flags, checksum] of [[1, [0x20, 0], [0xb3, 0x3a]], [16, [0, 2], [0x57, 0]], [0, [0, 0], [0xb3, 0x3a]]]) {
            const translated = library.ipv6ToIpv4(fragment(17, offset), prefixes);
            expect([...translated.subarray(2, 8)], [0, 36, 0x12, 0x34, ...flags]);
            expect([...translated.subarray(20)], [...message.slice(0, 6), ...checksum, ...message.slice(8)]);
        }
        const { status, message: text } = thrown(() => library.ipv6ToIpv4(fragment(58, 1), prefixes), library.EtherparseError);
        expect([status, text], [Status.SIIT_ICMP_FRAGMENT, "Translation Error: a fragment of an ICMP message is not translated."]);
    },

    /** The memory grows with its input, from call to call. */
    growth() {
        for (const length of [0, 60000, 65536, 65528, 1000000, 3, 5000001]) {
            const found = library.readUdp(longMessage(length));
            expect([found.payload.length, found.payload.every((byte) => byte === 7)], [length, true]);
        }
        const [sum, half] = [new Sum().add(longMessage(9000000)), 4000000];
        expect(new Sum().add(longMessage(9000000).subarray(0, half)).addAt(half, longMessage(9000000).subarray(half)), sum);
        expect(library.isReplyTo(longMessage(3000000), longMessage(17000000)), false);
        expect(library.verdict(PACKET).kind, VerdictKind.RIGHT);
    },

    argumentsOfOtherTypes() {
        const buffer = new ArrayBuffer(40);
        for (const other of [undefined, null, 7, "text", [69, 0], buffer, new Uint16Array(buffer), new DataView(buffer)]) {
            thrown(() => library.verdict(other), TypeError);
            thrown(() => library.storeIcmpv4Checksum(other), TypeError);
            thrown(() => library.tcpOptions(other), TypeError);
            thrown(() => library.isReplyTo(PACKET, other), TypeError);
            thrown(() => library.translate(other, { sourcePort: 1 }), TypeError);
            thrown(() => new Sum().add(other), TypeError);
        }
        thrown(() => library.addressText("192.0.2.1"), TypeError);
    },

    numbersOutOfRange() {
        for (const port of [-1, 65536, 1.5, NaN, "80", null, 1n]) thrown(() => library.writeUdpHeader({ sourcePort: port }), RangeError);
        thrown(() => library.answerEcho(PACKET, { hopLimit: 256 }), RangeError);
        thrown(() => library.translate(PACKET, { sourcePort: 65536 }), RangeError);
        thrown(() => library.writeTcpHeader({ sequenceNumber: 2 ** 32 }), RangeError);
        thrown(() => library.writeIcmpv4Header({ bytes4to7: new Uint8Array(3) }), RangeError);
        thrown(() => library.statusName(-1), RangeError);
        thrown(() => library.canonicalHeader(2 ** 32, PACKET), RangeError);
        thrown(() => new Sum(65536), RangeError);
        thrown(() => new Sum().addAt(-1, PACKET), RangeError);
        thrown(() => new Sum().addAt(2n ** 64n, PACKET), RangeError);
        thrown(() => library.errorText({ len: -1n }), RangeError);
        thrown(() => library.writeTcpOptions([{ kind: 5, values: new Array(9).fill(0) }]), RangeError);
    },

    missingFields() {
        expect(library.writeUdpHeader({ sourcePort: 1, destinationPort: 2, length: 8 }), Uint8Array.of(0, 1, 0, 2, 0, 8, 0, 0));
        expect(library.writeTcpHeader({ flags: TcpFlags.SYN }).length, 20);
        const echo = { kind: Icmpv4Kind.ECHO_REQUEST, id: 1, sequenceNumber: 2 };
        expect(library.writeIcmpv4Header(echo), Uint8Array.of(8, 0, 0, 0, 0, 1, 0, 2));
        expect(library.writeTcpOptions([{ kind: TcpOptionKind.NOOP }]), Uint8Array.of(1, 0, 0, 0));
    },

    /** A header that was read is written as it was, with its payload and its place ignored. */
    readAndWritten() {
        const udp = library.readUdp(PACKET.subarray(HEADER_LEN));
        expect(library.writeUdpHeader(udp), PACKET.subarray(HEADER_LEN, HEADER_LEN + 8));
        const header = library.writeTcpHeader({ sourcePort: 80, flags: TcpFlags.SYN, options: Uint8Array.of(2, 4, 5, 180) });
        expect(library.writeTcpHeader(library.readTcp(header)), header);
        expect([...library.tcpOptionValues(library.readTcp(header).options)], [{ kind: 2, values: [1460] }]);
    },

    /** A field can be a getter that makes other calls. They do not change what is written. */
    callsWithinACall() {
        const header = { sourcePort: 1, get destinationPort() { return library.readUdp(longMessage(100)).destinationPort; }, length: 8 };
        expect(library.writeUdpHeader(header), Uint8Array.of(0, 1, 0, 2, 0, 8, 0, 0));
        const message = library.writeTcpHeader({ windowSize: 3 });
        const other = library.writeTcpHeader({ windowSize: 9 });
        library.storeTcpHeader(message, { get windowSize() { return library.readTcp(other).windowSize; } });
        expect(library.readTcp(message).windowSize, 9);
    },

    /** Other calls between two options, and a change of the bytes, do not change the options. */
    optionsAreReadOneAfterAnother() {
        const options = Uint8Array.of(1, 28, 4, 0x80, 0x0a, 3, 3, 7, 0, 9, 9);
        const [raw, other] = [library.tcpOptions(options), library.tcpOptions(Uint8Array.of(2, 4, 5, 180))];
        options.fill(0);
        const found = [raw.next().value, other.next().value];
        library.verdict(PACKET);
        found.push(...raw, ...other);
        expect(found.map(({ kind }) => kind), [1, 2, 28, 3]);
        expect([found[2].value, found[3].value], [Uint8Array.of(0x80, 0x0a), Uint8Array.of(7)]);
        const cut = library.tcpOptionValues(Uint8Array.of(1, 2, 4, 5));
        expect(cut.next().value, { kind: 1, values: [] });
        expect(thrown(() => cut.next(), library.EtherparseError).status, Status.OPTION_CUT_OFF);
        expect(cut.next(), { done: true, value: undefined });
    },

    /** Lengths that a number does not represent exactly are BigInts. */
    numbersOf64Bits() {
        const text = library.errorText({ status: Status.IP_PACKET_CUT_OFF, requiredLen: 2n ** 64n - 1n, len: Number.MAX_SAFE_INTEGER });
        expect(text, "IP Error: the header counts 18446744073709551615 bytes, and 9007199254740991 are there.");
        expect(library.errorText({}).length > 0, true);
        const start = [0x60, 0, 0, 0, 0, 0, 0, 64, ...new Array(32).fill(1)];
        const jumbogram = Uint8Array.of(...start, 17, 0, 0xc2, 4, 0xff, 0xff, 0xff, 0xff, ...new Array(8).fill(0));
        const error = thrown(() => library.transport(jumbogram), library.EtherparseError);
        expect([error.status, error.requiredLen, error.len], [Status.IP_PACKET_CUT_OFF, 40 + 0xffffffff, 56]);
        expect(new Sum().addAt(2n ** 64n - 1n, Uint8Array.of(1)).value, 1);
        expect(new Sum().addAt(2 ** 53 - 1, Uint8Array.of(1)).value, 1);
    },

    addressesAsText() {
        const pairs = {
            "::": "0:0:0:0:0:0:0:0", "::1": "0:0:0:0:0:0:0:1", "1::": "1:0:0:0:0:0:0:0", "1:2:3:4:5:6:7:8": "1:2:3:4:5:6:7:8",
            "2001:db8::1:0:0:1": "2001:DB8:0:0:1:0:0:1", "1:0:2:3:4:5:6:7": "1:0:2:3:4:5:6:7", "::ffff:c000:201": "::ffff:192.0.2.1",
            "0:1::": "0:1:0:0::", "1:0:0:2::": "1:0:0:2:0:0:0:0", "1:2:3:4:5:6::": "1:2:3:4:5:6::", "::2:3:4:5:6:7": "0:0:2:3:4:5:6:7",
            "64:ff9b::c000:201": "64:ff9b::192.0.2.1", "192.0.2.1": "192.0.2.1", "0.0.0.0": "0.0.0.0", "255.255.255.255": "255.255.255.255",
        };
        for (const [text, other] of Object.entries(pairs)) expect(library.addressText(library.addressBytes(other)), text, other);
        expect(library.addressBytes("::1").length, 16);
        const same = Uint8Array.of(1, 2, 3, 4);
        expect([library.addressBytes(same), library.addressBytes(same) === same], [same, false]);
    },

    textsThatAreNoAddresses() {
        const texts = [
            "", "1.2.3", "1.2.3.4.5", "1.2.3.256", "01.2.3.4", "1.2.3.-4", "1.2.3.4 ", "1.2.3.", "0x1.2.3.4", ":", ":::", "1::2::3", "g::",
            "1:2:3:4:5:6:7", "1:2:3:4:5:6:7:8:9", "1:2:3:4:5:6:7:8::", "::1:2:3:4:5:6:7:8", "12345::", "::1%eth0", "[::1]", "::1.2.3",
            "1.2.3.4::", "1:2:3:4:5:6:7:1.2.3.4", "::1 ", ":1::", "::1:", "localhost",
        ];
        const others = [5, null, undefined, new Uint8Array(5), new Uint8Array(0), [1, 2, 3, 4], {}];
        for (const other of [...texts, ...others]) thrown(() => library.addressBytes(other), TypeError);
        thrown(() => library.checkUdp(PACKET.subarray(HEADER_LEN), SOURCE, "::1"), TypeError);
        thrown(() => library.checkIcmpv6(PACKET, SOURCE, DESTINATION), TypeError);
        thrown(() => library.translate(Uint8Array.from(PACKET), { source: SOURCE, destination: "::1" }), TypeError);
    },

    /** 10,000 addresses with runs of zeros, next to the texts that the runtime makes of them. */
    addressesOfTheRuntime() {
        const numbers = random(26);
        const next = (limit) => numbers.next().value % limit;
        for (let count = 0; count < 10000; count += 1) {
            const octets = Uint8Array.from({ length: next(2) === 0 ? 16 : 4 }, () => (next(3) === 0 ? next(256) : 0));
            const text = library.addressText(octets);
            const host = octets.length === 4 ? text : `[${text}]`;
            expect([new URL(`http://${host}/`).hostname, library.addressBytes(text)], [host, octets], text);
        }
    },

    translationWithoutAnAddress() {
        const ipv6 = Uint8Array.from({ length: 48 }, (_, place) => ({ 0: 0x60, 5: 8, 6: 17, 45: 8 })[place] ?? 0);
        library.translate(ipv6, { sourcePort: 7 });
        expect(library.readUdp(ipv6.subarray(40)).sourcePort, 7);
        const refused = (packet, parts) => thrown(() => library.translate(packet, parts), library.EtherparseError).status;
        expect(refused(new Uint8Array(), { sourcePort: 7 }), Status.IP_HEADER_CUT_OFF);
        expect(refused(ipv6, { source: SOURCE }), Status.IP_VERSION);
        thrown(() => library.translate(ipv6, { source: "::1", quoted: { source: SOURCE } }), TypeError);
    },

    async loadsOnce() {
        await library.load("this address is not read");
        expect(library.libraryVersion(), "@version");
    },
};
