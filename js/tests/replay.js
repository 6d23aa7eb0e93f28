// SPDX-FileCopyrightText: 2026 The etherparse_transport developers
// SPDX-License-Identifier: MIT OR Apache-2.0
/**
 * Repeats recorded calls of the library for C by the module for JavaScript, and compares what comes back: each number and each byte.
 *
 * It runs in Node.js and in a page. recorder.c makes the records, and signatures.json states what they contain.
 */
import * as library from "etherparse_transport";

const { ChecksumChange, EtherparseError, Status, Sum, VerdictKind } = library;

// ---- records

/** Reads numbers and bytes one after another. */
class Reader {
    constructor(buffer, place, end) {
        [this.view, this.bytes] = [new DataView(buffer), new Uint8Array(buffer)];
        [this.place, this.end] = [place, end];
    }

    number(width) {
        const at = this.place;
        this.place += width;
        if (width === 1) return this.view.getUint8(at);
        if (width === 2) return this.view.getUint16(at, true);
        if (width === 4) return this.view.getUint32(at, true);
        const number = this.view.getBigUint64(at, true);
        return number <= BigInt(Number.MAX_SAFE_INTEGER) ? Number(number) : number;
    }

    take(length) {
        this.place += length;
        return this.bytes.slice(this.place - length, this.place);
    }

    fields(layout) {
        return Object.fromEntries(layout.map(([name, kind]) => [name, this.field(kind)]));
    }

    /** A width, the fields of a struct, or an array as its width and its count. */
    field(kind) {
        if (typeof kind === "number") return this.number(kind);
        if (typeof kind[0] !== "number") return this.fields(kind);
        const [width, count] = kind;
        return Array.from({ length: count }, () => this.number(width));
    }
}

const PASSED = {
    number: (reader, width) => reader.number(width),
    pointed: (reader, width) => reader.number(width),
    array: (reader, count) => reader.take(count),
    bytes: (reader) => reader.take(reader.number(4)),
    struct: (reader, layout) => reader.fields(layout),
    value: (reader, layout) => reader.fields(layout),
    numbers: (reader, width) => Array.from({ length: reader.number(4) }, () => reader.number(width)),
    structs: (reader, layout) => Array.from({ length: reader.number(4) }, () => reader.fields(layout)),
};

const IF_ACCEPTED = { number: (reader, width) => reader.number(width), filled: (reader, layout) => reader.fields(layout) };

/** What came back of a call. What a refusal does not write is missing. */
function returnedBy(reader, signature, isAccepted) {
    const found = {};
    for (const [kind, name, layout] of signature.returned) {
        if (kind === "text" || kind === "changed") found[name] = reader.take(reader.number(4));
        else if (kind === "moved") found[name] = reader.number(layout);
        else if (kind === "error") found[name] = reader.number(1) === 1 ? reader.fields(layout) : undefined;
        else if (isAccepted) found[name] = kind === "written" ? reader.take(reader.number(4)) : IF_ACCEPTED[kind](reader, layout);
    }
    return found;
}

/** The recorded calls of a file, each with its name, what was passed, and what came back. */
export function* records(buffer, signatures) {
    const reader = new Reader(buffer, 0, buffer.byteLength);
    while (reader.place < reader.end) {
        const end = reader.number(4) + reader.place;
        const signature = signatures[reader.number(1)];
        const passed = Object.fromEntries(signature.passed.map(([kind, name, layout]) => [name, PASSED[kind](reader, layout)]));
        const result = reader.field(signature.result);
        const hasStatus = signature.returned.some(([kind]) => kind === "error");
        yield { name: signature.name, passed, result, hasStatus, returned: returnedBy(reader, signature, !hasStatus || result === 0) };
        if (reader.place !== end) throw new Error(`a record of ${signature.name} ends at another place`);
    }
}

// ---- forms of C

const snake = (name) => name.replace(/[A-Z]/g, (letter) => `_${letter.toLowerCase()}`);
const camel = (name) => name.replace(/_(\w)/g, (_, letter) => letter.toUpperCase());
const renamed = (fields, rename) => Object.fromEntries(Object.entries(fields).map(([name, value]) => [rename(name), value]));

/** Fails unless both are equal, also within objects. Arrays and bytes are compared by their elements. */
export function isEqual(left, right) {
    if (typeof left !== "object" || typeof right !== "object" || left === null || right === null) return left === right;
    if (left.length !== right.length) return false;
    const names = Object.keys(left);
    return names.length === Object.keys(right).length && names.every((name) => isEqual(left[name], right[name]));
}

function require(condition, what) {
    if (!condition) throw new Error(what);
}

/** The 16 bytes of an address in a struct, of its text. The text has to be the text that the runtime itself has for the address. */
function octets(version, text) {
    const host = new URL(version === 4 ? `http://${text}/` : `http://[${text}]/`).hostname;
    require(host === (version === 4 ? text : `[${text}]`), `${text} is ${host}`);
    if (version === 4) return [...text.split(".").map(Number), ...new Array(12).fill(0)];
    const [front, back] = text.split("::").map((part) => part.split(":").filter((group) => group !== ""));
    const zeros = back === undefined ? [] : new Array(8 - front.length - back.length).fill("0");
    return [...front, ...zeros, ...(back ?? [])].flatMap((group) => [parseInt(group, 16) >> 8, parseInt(group, 16) & 255]);
}

/** The struct of an IP transport. Its payload has to be the part of the packet that it names. */
function ipTransport(found, bytes) {
    const { version, protocol, payload, payloadOffset, source, destination } = found;
    requirePart(payload, bytes, payloadOffset);
    return {
        version,
        protocol,
        payload_offset: payloadOffset,
        payload_len: payload.length,
        is_fragment: Number(found.isFragment),
        is_cut_off: Number(found.isCutOff),
        has_destination: destination === null ? 0 : 1,
        source: octets(version, source),
        destination: destination === null ? new Array(16).fill(0) : octets(version, destination),
        is_length_missing: Number(found.isLengthMissing),
        is_later_fragment: Number(found.isLaterFragment),
        hop_limit: found.hopLimit,
        fragment_offset: found.fragmentOffset,
        identification: found.identification,
        dont_fragment: Number(found.dontFragment),
        traffic_class: found.trafficClass,
    };
}

/** The struct of a fragment. Its payload has to be the part of the packet that it names. */
function fragmentOf({ payload, payloadOffset, ...found }, bytes) {
    requirePart(payload, bytes, payloadOffset);
    return {
        version: found.version,
        protocol: found.protocol ?? 0,
        identification: found.identification,
        offset: found.offset,
        more_fragments: Number(found.moreFragments),
        source: octets(found.version, found.source),
        destination: octets(found.version, found.destination),
        payload_offset: payloadOffset,
        payload_len: payload.length,
    };
}

/** Bytes with these lengths, which are one after another. */
function partsOf(bytes, lens) {
    let place = 0;
    return lens.map((length) => bytes.subarray(place, (place += length)));
}

/** The struct of the ends of a flow, which is all 0 if there are none. */
function flowEnds(found) {
    const address = (text) => (text === null ? new Array(16).fill(0) : octets(found.version, text));
    return {
        version: found?.version ?? 0,
        protocol: found?.protocol ?? 0,
        is_fragment: Number(found?.isFragment ?? 0),
        is_later_fragment: Number(found?.isLaterFragment ?? 0),
        has_destination: Number((found?.destination ?? null) !== null),
        has_source_port: Number((found?.sourcePort ?? null) !== null),
        has_destination_port: Number((found?.destinationPort ?? null) !== null),
        source_port: found?.sourcePort ?? 0,
        destination_port: found?.destinationPort ?? 0,
        source: address(found?.source ?? null),
        destination: address(found?.destination ?? null),
    };
}

/** An IP packet that is written. The field of the header that IPv4 calls time to live is the hop limit of IPv6. */
function writtenPacket({ header, message }) {
    const { source, destination, time_to_live: timeToLive, protocol, hop_limit: hopLimit, next_header: nextHeader } = header;
    const ends = { source: Uint8Array.from(source), destination: library.addressText(Uint8Array.from(destination)) };
    return { buffer: library.writePacket(message, { ...ends, protocol: protocol ?? nextHeader, hopLimit: timeToLive ?? hopLimit }) };
}

function requirePart(part, bytes, offset) {
    require(isEqual(part, bytes.subarray(offset, offset + part.length)), "a part is not the bytes at its place");
    require(part.buffer !== bytes.buffer, "a result shares memory with an argument");
}

/** The struct of a message: its header, and where its payload is. */
function messageOf({ payload, payloadOffset, ...fields }, bytes, names, others = []) {
    requirePart(payload, bytes, payloadOffset);
    const header = Object.fromEntries(names.map((name) => [name, plain(fields[camel(name)])]));
    const rest = Object.fromEntries(others.map((name) => [name, fields[camel(name)]]));
    return { header, payload_offset: payloadOffset, payload_len: payload.length, ...rest };
}

const plain = (value) => (value instanceof Uint8Array ? [...value] : value);
const UDP = ["source_port", "destination_port", "length", "checksum"];
const TCP = [
    "sequence_number", "acknowledgment_number", "source_port", "destination_port", "flags", "window_size", "checksum", "urgent_pointer",
];
const ICMPV4 = [
    "kind", "originate_timestamp", "receive_timestamp", "transmit_timestamp", "checksum", "id", "sequence_number", "next_hop_mtu", "type",
    "code", "pointer", "bytes4to7",
];
const ICMPV6 = [
    "kind", "mtu", "pointer", "checksum", "id", "sequence_number", "router_lifetime", "cur_hop_limit", "flags", "type", "code", "bytes4to7",
];

function tcpPacket(bytes) {
    const { options, ...found } = library.readTcp(bytes);
    requirePart(options, bytes, 20);
    const { header, ...payload } = messageOf(found, bytes, TCP);
    return { packet: { header, options_offset: 20, options_len: options.length, ...payload } };
}

/** A prefix as a function that translates takes it. */
function prefixOf({ address, len }) {
    return `${library.addressText(Uint8Array.from(address))}/${len}`;
}

/** A header as a function that writes it takes it. */
function headerOf(header) {
    const { bytes4to7, ...fields } = renamed(header, camel);
    return bytes4to7 ? { ...fields, bytes4to7: Uint8Array.from(bytes4to7) } : fields;
}

/** The status of a test, and the error that it fills. */
function tested(kind) {
    if (kind === VerdictKind.RIGHT) return {};
    const result = { [VerdictKind.WRONG]: Status.CHECKSUM_WRONG, [VerdictKind.ABSENT]: Status.CHECKSUM_ABSENT }[kind];
    return { result, error: onlyStatus(result) };
}

function onlyStatus(status) {
    const names = [
        "layer", "len_source", "value_type", "data_offset", "option_kind", "option_size", "required_len", "len", "layer_start_offset",
        "actual", "max_allowed",
    ];
    return { status, ...Object.fromEntries(names.map((name) => [name, 0])) };
}

/** What a function makes of bytes that it changes. If it throws they have to be unchanged. */
function changed(bytes, change) {
    const copy = Uint8Array.from(bytes);
    try {
        change(copy);
    } catch (error) {
        require(isEqual(copy, bytes), "a refusal has changed the bytes");
        throw error;
    }
    return copy;
}

const versionNumber = (text) => text.split(".").reduce((number, part) => number * 256 + Number(part), 0);
const text = (value) => Uint8Array.from(value, (letter) => letter.charCodeAt(0));

/** The result and the text of a call that writes as much of a text as the buffer can hold. */
function textCall(value, { buffer_len: bufferLen }) {
    return { result: value.length, buffer: text(value).subarray(0, Math.max(0, bufferLen - 1)) };
}

/** The options of a call that reads one after another: the generator goes on if the call begins where the one before ended. */
function optionCalls(read, structOf) {
    let before = { place: -1 };
    return ({ options, place }, expected) => {
        const start = place < options.length ? place : options.length;
        const goesOn = before.place === place && isEqual(before.options, options);
        const generator = goesOn ? before.generator : read(options.subarray(start));
        before = { options, place: expected.returned.place, generator };
        const { done, value } = generator.next();
        if (done) return { result: Status.OPTIONS_END, error: onlyStatus(Status.OPTIONS_END), place: options.length };
        return { option: structOf(value, expected.returned.option, options), place: expected.returned.place };
    };
}

function rawOption({ kind, value }, expected, options) {
    requirePart(value, options, expected.value_offset);
    return { kind, value_offset: expected.value_offset, value_len: value.length };
}

function typedOption({ kind, values }) {
    return { kind, value_count: values.length, values: [...values, ...new Array(8 - values.length).fill(0)] };
}

function translation({ source, destination, ...parts }) {
    const found = { source: Uint8Array.from(source), destination: Uint8Array.from(destination) };
    const named = { ...found, sourcePort: parts.source_port, destinationPort: parts.destination_port };
    return Object.fromEntries(Object.entries(named).filter(([name]) => parts[`has_${snake(name)}`] !== 0));
}

function translated({ packet, translation: parts, quoted: own }) {
    const all = { ...translation(parts), ...(own === undefined ? {} : { quoted: translation(own) }) };
    return { packet: changed(packet, (copy) => library.translate(copy, all)) };
}

const isReply = (is) => (is ? {} : { result: Status.ECHO_NO_REPLY, error: onlyStatus(Status.ECHO_NO_REPLY) });

/** A reply, behind which the bytes of the request stay. */
function answered(packet, options) {
    const reply = library.answerEcho(packet, options);
    return { packet: Uint8Array.of(...reply, ...packet.subarray(reply.length)), reply_len: reply.length };
}

function quoted(packet, bytes, { returned: { offset } }) {
    requirePart(packet, bytes, offset);
    return { offset, len: packet.length };
}

// ---- the calls

/** The calls of a checksum: compute, store and test. Some are over addresses, which are passed as bytes and as texts. */
function checksumCalls(name, compute, store, test) {
    const asText = (address) => (address ? library.addressText(address) : undefined);
    return {
        [name.replace("*", "")]: ({ bytes, source, destination }) => ({ checksum: compute(bytes, source, destination) }),
        [name.replace("*", "_store")]: ({ bytes, source, destination }) => ({
            bytes: changed(bytes, (copy) => store(copy, asText(source), destination)),
        }),
        [name.replace("*", "_test")]: ({ bytes, source, destination }) => tested(test(bytes, source, asText(destination))),
    };
}

const { udpChecksum, storeUdpChecksum, checkUdp, tcpChecksum, storeTcpChecksum, checkTcp } = library;
const { icmpv4Checksum, storeIcmpv4Checksum, checkIcmpv4, icmpv6Checksum, storeIcmpv6Checksum, checkIcmpv6 } = library;
const { ipv4HeaderChecksum, storeIpv4HeaderChecksum, checkIpv4Header } = library;

/** What each call of the library for C is in JavaScript: of what was passed, what comes back in the forms of C. */
const CALLS = {
    version: () => ({ result: versionNumber(library.libraryVersion()) }),
    error_text: (passed) => textCall(library.errorText(renamed(passed.error, camel)), passed),
    status_name: (passed) => textCall(library.statusName(passed.status), passed),
    status_text: (passed) => textCall(library.statusText(passed.status), passed),
    verdict_name: (passed) => textCall(library.verdictName(passed.verdict), passed),
    transport_in_ip: ({ bytes }) => ({ transport: ipTransport(library.transport(bytes), bytes) }),
    transport_in_ip_lax: ({ bytes }) => ({ transport: ipTransport(library.transport(bytes, { lax: true }), bytes) }),
    ip_header_addresses: ({ bytes }) => {
        const { version, source, destination } = library.headerAddresses(bytes);
        return { addresses: { version, source: octets(version, source), destination: octets(version, destination) } };
    },
    flow: ({ bytes }) => {
        const { ends, quoted: about } = library.flow(bytes);
        return { flow: { ends: flowEnds(ends), quoted: flowEnds(about) } };
    },
    write_packet_ipv4: writtenPacket,
    write_packet_ipv6: writtenPacket,
    packet_verdict: ({ bytes }) => ipPacket(library.verdict(bytes), bytes),
    packet_verdict_lax: ({ bytes }) => ipPacket(library.verdict(bytes, { lax: true }), bytes),
    ...checksumCalls("ipv4_header_checksum*", ipv4HeaderChecksum, storeIpv4HeaderChecksum, checkIpv4Header),
    udp_packet_read: ({ bytes }) => ({ packet: messageOf(library.readUdp(bytes), bytes, UDP, ["payload_len_source"]) }),
    udp_packet_read_lax: ({ bytes }) => ({ packet: messageOf(library.readUdp(bytes, { lax: true }), bytes, UDP, ["payload_len_source"]) }),
    udp_header_write: ({ header }) => ({ buffer: library.writeUdpHeader(headerOf(header)) }),
    ...checksumCalls("udp_checksum*_ipv4", udpChecksum, storeUdpChecksum, checkUdp),
    ...checksumCalls("udp_checksum*_ipv6", udpChecksum, storeUdpChecksum, checkUdp),
    tcp_packet_read: ({ bytes }) => tcpPacket(bytes),
    tcp_header_write: ({ header, options }) => ({ buffer: library.writeTcpHeader({ ...headerOf(header), options }) }),
    tcp_header_store: ({ header, bytes }) => ({ bytes: changed(bytes, (copy) => library.storeTcpHeader(copy, headerOf(header))) }),
    ...checksumCalls("tcp_checksum*_ipv4", tcpChecksum, storeTcpChecksum, checkTcp),
    ...checksumCalls("tcp_checksum*_ipv6", tcpChecksum, storeTcpChecksum, checkTcp),
    tcp_option_next: optionCalls(library.tcpOptionValues, typedOption),
    tcp_raw_option_next: optionCalls(library.tcpOptions, rawOption),
    tcp_options_write: ({ options }) => {
        const listed = options.map(({ kind, value_count: count, values }) => ({ kind, values: values.slice(0, count) }));
        return { buffer: library.writeTcpOptions(listed) };
    },
    icmpv4_packet_read: ({ bytes }) => ({ packet: messageOf(library.readIcmpv4(bytes), bytes, ICMPV4) }),
    icmpv4_header_write: ({ header }) => ({ buffer: library.writeIcmpv4Header(headerOf(header)) }),
    ...checksumCalls("icmpv4_checksum*", icmpv4Checksum, storeIcmpv4Checksum, checkIcmpv4),
    icmpv6_packet_read: ({ bytes }) => ({ packet: messageOf(library.readIcmpv6(bytes), bytes, ICMPV6) }),
    icmpv6_header_write: ({ header }) => ({ buffer: library.writeIcmpv6Header(headerOf(header)) }),
    ...checksumCalls("icmpv6_checksum*", icmpv6Checksum, storeIcmpv6Checksum, checkIcmpv6),
    echo_answer: ({ packet, hop_limit: hopLimit }) => answered(packet, { hopLimit }),
    echo_answer_ipv4: ({ packet, source, time_to_live: hopLimit }) => answered(packet, { hopLimit, source }),
    echo_answer_ipv6: ({ packet, source, hop_limit: hopLimit }) => answered(packet, { hopLimit, source: library.addressText(source) }),
    echo_is_reply: ({ request, reply }) => isReply(library.isReplyTo(request, reply)),
    echo_is_reply_from_any: ({ request, reply }) => isReply(library.isReplyFromAny(request, reply)),
    packet_checksum_is_partial: ({ bytes }) => ({ is_partial: Number(library.isChecksumPartial(bytes)) }),
    packet_checksum_store: ({ packet }) => {
        let checksum;
        return { packet: changed(packet, (copy) => void (checksum = library.storeChecksum(copy))), checksum };
    },
    hop_limit_lower: ({ packet }) => ({ packet: changed(packet, (copy) => library.lowerHopLimit(copy)) }),
    maximum_segment_size_lower: ({ packet, most }) => {
        let size;
        return { packet: changed(packet, (copy) => void (size = library.lowerMaximumSegmentSize(copy, most))), size };
    },
    fragment_read: ({ bytes }) => ({ fragment: fragmentOf(library.readFragment(bytes), bytes) }),
    reassembly_packet: ({ packets, lens }) => ({ buffer: library.reassemble(partsOf(packets, lens)) }),
    ipv4_to_ipv6: ({ packet, source, destination }) =>
        ({ buffer: library.ipv4ToIpv6(packet, { source: prefixOf(source), destination: prefixOf(destination) }) }),
    ipv6_to_ipv4: ({ packet, source, destination, identification }) =>
        ({ buffer: library.ipv6ToIpv4(packet, { source: prefixOf(source), destination: prefixOf(destination), identification }) }),
    icmpv4_error_about: ({ packet, message, source, time_to_live: hopLimit }) =>
        ({ buffer: library.icmpv4ErrorAbout(packet, headerOf(message), source, { hopLimit }) }),
    icmpv6_error_about: ({ packet, message, source, hop_limit: hopLimit }) =>
        ({ buffer: library.icmpv6ErrorAbout(packet, headerOf(message), library.addressText(source), { hopLimit }) }),
    icmpv4_quoted_packet: ({ bytes }, expected) => quoted(library.quotedByIcmpv4(bytes), bytes, expected),
    icmpv6_quoted_packet: ({ bytes }, expected) => quoted(library.quotedByIcmpv6(bytes), bytes, expected),
    translate_ipv4: translated,
    translate_ipv6: translated,
    translate_ipv4_with_quoted: translated,
    translate_ipv6_with_quoted: translated,
    canonical_header: ({ protocol, bytes }) => ({ buffer: library.canonicalHeader(protocol, bytes) }),
    sum_new: () => ({ result: { ...new Sum() } }),
    sum_add: ({ sum, bytes }) => ({ result: { ...new Sum(sum.value).add(bytes) } }),
    sum_add_at: ({ sum, offset, bytes }) => ({ result: { ...new Sum(sum.value).addAt(offset, bytes) } }),
    sum_checksum: ({ sum }) => ({ result: new Sum(sum.value).checksum() }),
    sum_udp_checksum: ({ sum }) => ({ result: new Sum(sum.value).udpChecksum() }),
    checksum_change_new: () => ({ result: { ...new ChecksumChange() } }),
    checksum_change_replace: (passed) => ({ result: { ...new ChecksumChange(passed.change).replace(passed.old_bytes, passed.new_bytes) } }),
    checksum_change_reversed: ({ change }) => ({ result: { ...new ChecksumChange(change).reversed() } }),
    checksum_change_apply: ({ change, checksum }) => ({ result: new ChecksumChange(change).apply(checksum) }),
    checksum_change_apply_udp: ({ change, checksum }) => ({ result: new ChecksumChange(change).applyUdp(checksum) }),
};

function ipPacket({ transport, headerProtocol, kind, expectedChecksum }, bytes) {
    const rest = { header_protocol: headerProtocol ?? 0, verdict: kind, expected_checksum: expectedChecksum ?? 0 };
    return { packet: { transport: ipTransport(transport, bytes), ...rest } };
}

/** What the module returns for a recorded call, in the forms of C: its result, and what came back. */
function repeated(record) {
    const { passed, returned } = record;
    const unmoved = Object.fromEntries(["bytes", "packet"].filter((name) => name in returned).map((name) => [name, passed[name]]));
    try {
        const { result = 0, ...found } = CALLS[record.name.replace("etherparse_", "")](passed, record);
        return { result, returned: found };
    } catch (error) {
        if (!(error instanceof EtherparseError)) throw error;
        const { name, ...fields } = error;
        require(error.message === library.errorText(fields), "the text is not that of the error");
        // A fault in options ends the list.
        const moved = "place" in returned ? { place: passed.options.length } : {};
        return { result: error.status, returned: { ...unmoved, ...moved, error: renamed(fields, snake) } };
    }
}

/** Whether a repeated call agrees with its record. */
function agrees(record) {
    // JavaScript has no room that can be too small, and no lengths that count too many bytes.
    if (record.hasStatus && [Status.REASSEMBLY_ROOM, Status.REASSEMBLY_LENGTHS].includes(record.result)) return true;
    const { result, returned } = repeated(record);
    // JavaScript has no buffer that can be too small. What is written then has the length that the refusal states.
    if (record.hasStatus && record.result === Status.BUFFER_TOO_SMALL) {
        return result === 0 && (record.returned.error === undefined || returned.buffer.length === record.returned.error.required_len);
    }
    // Without an error the library for C states only the status.
    const expected = Object.fromEntries(Object.entries(record.returned).filter(([, value]) => value !== undefined));
    if (record.hasStatus && expected.error === undefined) delete returned.error;
    return isEqual(result, record.result) && isEqual(returned, expected);
}

/** Repeats each recorded call of a file. Returns how many agree, the first that do not, and how often each call was made. */
export function replay(buffer, signatures) {
    const [faults, times] = [[], Object.fromEntries(signatures.map(({ name }) => [name, 0]))];
    let agreed = 0;
    for (const record of records(buffer, signatures)) {
        times[record.name] += 1;
        let fault = "";
        try {
            if (!agrees(record)) fault = `found ${shown(repeated(record))}`;
        } catch (error) {
            fault = String(error.stack ?? error);
        }
        if (fault === "") agreed += 1;
        else if (faults.push(`${record.name}: ${shown(record)}: ${fault}`) === 20) break;
    }
    return { agreed, faults, times };
}

const shown = (value) => JSON.stringify(value, (_, part) => (typeof part === "bigint" ? `${part}n` : plain(part))).slice(0, 2000);
