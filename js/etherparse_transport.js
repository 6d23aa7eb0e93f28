// SPDX-FileCopyrightText: 2026 The etherparse_transport developers
// SPDX-License-Identifier: MIT OR Apache-2.0
/**
 * Reads, writes and tests UDP, TCP, ICMPv4 and ICMPv6 in IP packets, answers echo requests, and translates addresses.
 *
 *     import { load, verdict, VerdictKind } from "etherparse_transport";
 *
 *     await load();
 *     const found = verdict(packet);
 *     console.log(found.transport.source, found.transport.destination, VerdictKind[found.kind]);
 *
 * Call `load` once before every other function. A packet is an IP packet in a `Uint8Array`. It begins at the IP header: remove the header
 * of Ethernet before. A message is the transport in the packet, header and payload: `found.transport.payload`.
 *
 * A refusal is an `EtherparseError`. An argument of another type is a `TypeError`, and a number outside its range is a `RangeError`.
 * Results are copies: they share no memory with an argument or with another result. Only the functions whose comments state it change an
 * argument.
 *
 * An address is a text, such as "192.0.2.1" or "2001:db8::1". Arguments can also be the bytes of an address, 4 or 16 in a `Uint8Array`.
 */

// ---- numbers

/** Makes a frozen object of numbers by their names, and of names by their numbers: Status.LENGTH is 1, and Status[1] is "LENGTH". */
function numbers(byName) {
    const names = Object.entries(byName).map(([name, number]) => [number, name]);
    return Object.freeze({ ...byName, ...Object.fromEntries(names) });
}

// @numbers

// ---- the module of WebAssembly

/** The part of the library's version that has to match. */
const INTERFACE = "@interface";

/** A module with a 64-bit memory, and nothing else. */
const ONLY_MEMORY64 = new Uint8Array([0, 0x61, 0x73, 0x6d, 1, 0, 0, 0, 5, 3, 1, 4, 0]);

/** The module of Node.js that reads files. A bundler for pages must not look for it, so it is not named where it is imported. */
const NODE_FILES = "node:fs/promises";

const PAGE_LEN = 65536;
// Places in the memory, in bytes from the first byte that the module itself does not use.
const ERROR_PLACE = 0;
const RESULT_PLACE = 128;
const SECOND_PLACE = 256;
const STRUCT_PLACE = 384;
const SOURCE_PLACE = 512;
const DESTINATION_PLACE = 528;
const TEXT_PLACE = 576;
const BUFFER_PLACE = 896;
const INPUT_PLACE = 2176;
const TEXT_LEN = BigInt(BUFFER_PLACE - TEXT_PLACE);
const BUFFER_LEN = BigInt(INPUT_PLACE - BUFFER_PLACE);

/** The functions of the module, the first byte of its memory that it does not use, and how its memory grows. `load` sets them. */
let calls, base, grow;
/** All bytes of the memory, and a view of the numbers in it. Both are made again after the memory has grown. */
let bytes, view;
/** Addresses in the memory, as the module takes them. `load` sets them. */
let error, result, second, struct, sourceAddress, destinationAddress, textAddress, bufferAddress, input;
/** What `load` returns while it loads and afterwards. */
let loading;

/** The runtime has no WebAssembly, or no 64-bit memories in it (Memory64 of WebAssembly 3.0). `load` rejects with this error. */
export class UnsupportedRuntimeError extends Error {
    constructor() {
        super("this runtime has no 64-bit memories of WebAssembly: use Chrome 133, Firefox 134, Node.js 24, or later versions");
        this.name = "UnsupportedRuntimeError";
    }
}

/**
 * Loads the module of WebAssembly. Every other function needs it, and throws an `Error` before. Further calls have no effect.
 *
 * @param {string | URL | Response | ArrayBuffer | Uint8Array | WebAssembly.Module} [source]  the file etherparse_transport.wasm: its
 *     address, its bytes, or the compiled module. By default it is the file next to this module.
 * @returns {Promise<void>}
 * @throws {UnsupportedRuntimeError} if the runtime has no 64-bit memories
 * @throws {Error} if the file cannot be read or compiled, or if it has another interface than this module
 */
export function load(source = new URL("./etherparse_transport.wasm", import.meta.url)) {
    loading ??= start(source).catch((reason) => {
        loading = undefined;
        throw reason;
    });
    return loading;
}

/** Compiles the module, and sets what every call needs. */
async function start(source) {
    if (typeof WebAssembly !== "object" || !WebAssembly.validate(ONLY_MEMORY64)) throw new UnsupportedRuntimeError();
    const module = source instanceof WebAssembly.Module ? source : await WebAssembly.compile(await bytesOf(source));
    const { exports } = await WebAssembly.instantiate(module, {});
    const version = versionText(exports.etherparse_version());
    if (!version.startsWith(`${INTERFACE}.`)) {
        throw new Error(`the library has version ${version}, and this module needs version ${INTERFACE}`);
    }
    base = exports.memory.buffer.byteLength;
    grow = growth(exports.memory);
    setViews(exports.memory.buffer);
    const addressOf = (place) => BigInt(base + place);
    [error, result, second, struct] = [ERROR_PLACE, RESULT_PLACE, SECOND_PLACE, STRUCT_PLACE].map(addressOf);
    [sourceAddress, destinationAddress] = [SOURCE_PLACE, DESTINATION_PLACE].map(addressOf);
    [textAddress, bufferAddress, input] = [TEXT_PLACE, BUFFER_PLACE, INPUT_PLACE].map(addressOf);
    calls = exports;
}

/** The bytes of the file: of an address, or of what `fetch` returned. */
async function bytesOf(source) {
    if (source instanceof ArrayBuffer || ArrayBuffer.isView(source)) return source;
    if (typeof source === "string" || source instanceof URL) {
        const url = new URL(source, import.meta.url);
        if (url.protocol === "file:" && typeof process === "object") {
            const { readFile } = await import(/* webpackIgnore: true */ /* @vite-ignore */ NODE_FILES);
            return readFile(url);
        }
        return bytesOf(await fetch(url));
    }
    if (!source.ok) throw new Error(`the module of WebAssembly cannot be read: ${source.status} ${source.url}`);
    return source.arrayBuffer();
}

/** Lets the memory grow by a page, and returns the function that lets it grow further. Early runtimes take a number, not a BigInt. */
function growth(memory) {
    let pages = BigInt;
    try {
        memory.grow(1n);
    } catch (reason) {
        if (!(reason instanceof TypeError)) throw reason;
        pages = Number;
        memory.grow(1);
    }
    return (count) => {
        memory.grow(pages(count));
        setViews(memory.buffer);
    };
}

function setViews(buffer) {
    bytes = new Uint8Array(buffer);
    view = new DataView(buffer);
}

/** Makes room for this many bytes of input. Every call that passes bytes begins with it, so it also finds a call before `load`. */
function makeRoom(length) {
    if (!calls) throw new Error("the library is not loaded: await load() first");
    const missing = base + INPUT_PLACE + length - bytes.length;
    if (missing > 0) grow(Math.ceil(missing / PAGE_LEN));
}

function versionText(number) {
    return `${number >>> 16}.${(number >>> 8) & 255}.${number & 255}`;
}

/**
 * Returns the version of the library, such as "0.5.0".
 *
 * @returns {string}
 */
export function libraryVersion() {
    makeRoom(0);
    return versionText(calls.etherparse_version());
}

// ---- arguments and results

/** A `Uint8Array`, also from another realm, such as a frame of a page. */
function isBytes(value) {
    if (value instanceof Uint8Array) return true;
    return ArrayBuffer.isView(value) && Object.prototype.toString.call(value) === "[object Uint8Array]";
}

function requireBytes(value, name) {
    if (!isBytes(value)) throw new TypeError(`${name} is not a Uint8Array`);
    return value;
}

/** Copies the bytes of an argument into the memory, behind `offset` bytes of input, and returns their number as the module takes it. */
function setInput(value, name, offset = 0) {
    requireBytes(value, name);
    makeRoom(offset + value.length);
    bytes.set(value, base + INPUT_PLACE + offset);
    return BigInt(value.length);
}

/** A copy of a part of the input. */
function inputPart(offset, length) {
    return bytes.slice(base + INPUT_PLACE + offset, base + INPUT_PLACE + offset + length);
}

/** Adds the payload, which is a part of the input, and more fields to a header. Adding them takes less time than a new object. */
function withPayload(header, payloadOffset, payloadLen, more) {
    header.payload = inputPart(payloadOffset, payloadLen);
    header.payloadOffset = payloadOffset;
    return Object.assign(header, more);
}

/** Copies the input back over the argument that it came from, after a call that changes its packet. */
function putBack(value) {
    value.set(bytes.subarray(base + INPUT_PLACE, base + INPUT_PLACE + value.length));
}

/** A field of a struct. A missing field is 0. */
function integer(value, max, name) {
    if (value === undefined) return 0;
    if (!Number.isInteger(value) || value < 0 || value > max) throw new RangeError(`${name} is not a whole number from 0 to ${max}`);
    return value;
}

/** The same of 64 bits, which can be a BigInt. */
function size(value, name) {
    const isFit = value === undefined || Number.isSafeInteger(value) || typeof value === "bigint";
    const number = isFit ? BigInt(value ?? 0) : -1n;
    if (number !== BigInt.asUintN(64, number)) throw new RangeError(`${name} is not a whole number from 0 to 2^64 - 1`);
    return number;
}

/** The bytes of a field that is an array. A missing field is zeros. */
function byteArray(value, length, name) {
    if (value === undefined) return new Uint8Array(length);
    if (requireBytes(value, name).length !== length) throw new RangeError(`${name} has not ${length} bytes`);
    return value;
}

/** A number of 64 bits in the memory: a BigInt only if a number would not be exact. */
function getSize(place) {
    const high = view.getUint32(place + 4, true);
    return high < 0x200000 ? high * 0x100000000 + view.getUint32(place, true) : view.getBigUint64(place, true);
}

/** The 16 bits that a call returns. */
function unsigned16(number) {
    return number & 0xffff;
}

// @structs

/**
 * Why a call refused its input. `message` is the library's text. A field that the status does not use is 0. The page of the library for C
 * lists the fields of each status.
 *
 * @property {Status} status  the reason
 * @property {Layer | 0} layer  the layer whose length was wrong
 * @property {LenSource | 0} lenSource  the source of `len`
 * @property {ValueType | 0} valueType  which value was too big
 * @property {number} dataOffset  the data offset of a TCP header that was read, in words of four bytes
 * @property {number} optionKind  the kind of a TCP option
 * @property {number} optionSize  the length byte of a TCP option
 * @property {number | bigint} requiredLen  the length that would have been accepted, in bytes
 * @property {number | bigint} len  the actual length, in bytes
 * @property {number | bigint} layerStartOffset  the start of the layer, in bytes from the first byte that was passed
 * @property {number | bigint} actual  the value that was too big, or that is unknown
 * @property {number | bigint} maxAllowed  the largest value that is allowed
 */
export class EtherparseError extends Error {
    constructor(message, fields) {
        super(message);
        Object.assign(this, fields);
        this.name = "EtherparseError";
    }
}

/** Makes a call that reads the bytes of an argument into a result. */
function read(call, value, name) {
    const length = setInput(value, name);
    check(calls[call](input, length, result, error));
}

/** The text that a call of the library wrote. */
function takeText(length) {
    return String.fromCharCode(...bytes.subarray(base + TEXT_PLACE, base + TEXT_PLACE + Number(length)));
}

/** Throws what the library refused. */
function refuse() {
    const text = takeText(calls.etherparse_error_text(error, textAddress, TEXT_LEN));
    throw new EtherparseError(text, getError(base + ERROR_PLACE));
}

/** Throws if a call did not return status 0. */
function check(status) {
    if (status !== 0) refuse();
}

/**
 * Returns the text of an error, also of one that no call returns. A missing field is 0. The texts may change in later versions.
 *
 * @param {ErrorFields} fields
 * @returns {string}
 */
export function errorText(fields) {
    makeRoom(0);
    setError(base + ERROR_PLACE, fields);
    return takeText(calls.etherparse_error_text(error, textAddress, TEXT_LEN));
}

/**
 * @typedef {object} ErrorFields  The fields of an `EtherparseError`. A missing field is 0.
 * @property {number} [status]
 * @property {number} [layer]
 * @property {number} [lenSource]
 * @property {number} [valueType]
 * @property {number} [dataOffset]
 * @property {number} [optionKind]
 * @property {number} [optionSize]
 * @property {number | bigint} [requiredLen]
 * @property {number | bigint} [len]
 * @property {number | bigint} [layerStartOffset]
 * @property {number | bigint} [actual]
 * @property {number | bigint} [maxAllowed]
 */

/** The text that a call writes for a number. */
function textOf(call, number, name) {
    const checked = integer(number, 0xffffffff, name);
    return takeText(calls[call](checked, textAddress, TEXT_LEN));
}

/**
 * Returns the name of a status in the library for C, such as "ETHERPARSE_STATUS_LENGTH", and "unknown status" for another number.
 *
 * @param {number} status
 * @returns {string}
 */
export function statusName(status) {
    makeRoom(0);
    return textOf("etherparse_status_name", status, "status");
}

/**
 * Returns what a status means in a few words, such as "the checksum is wrong". `message` of an `EtherparseError` says more.
 *
 * @param {number} status
 * @returns {string}
 */
export function statusText(status) {
    makeRoom(0);
    return textOf("etherparse_status_text", status, "status");
}

/**
 * Returns the name of a verdict in the library for C, such as "ETHERPARSE_VERDICT_RIGHT", and "unknown verdict" for another number.
 *
 * @param {number} kind
 * @returns {string}
 */
export function verdictName(kind) {
    makeRoom(0);
    return textOf("etherparse_verdict_name", kind, "kind");
}

// ---- addresses

const IPV4_LEN = 4;
const IPV6_LEN = 16;

/** The bytes of an IPv4 address, from four decimal numbers without leading zeros. */
function ipv4Bytes(text) {
    const parts = text.split(".");
    const isAddress = parts.length === IPV4_LEN && parts.every((part) => /^(0|[1-9]\d{0,2})$/.test(part) && Number(part) < 256);
    return isAddress ? parts.map(Number) : undefined;
}

/** The bytes of groups of an IPv6 address, of which the last can be an IPv4 address. */
function groupBytes(text, isLast) {
    const groups = text === "" ? [] : text.split(":");
    const found = [];
    for (const [place, group] of groups.entries()) {
        const ipv4 = isLast && place === groups.length - 1 ? ipv4Bytes(group) : undefined;
        if (!ipv4 && !/^[\da-f]{1,4}$/i.test(group)) return undefined;
        const number = parseInt(group, 16);
        found.push(...(ipv4 ?? [number >> 8, number & 255]));
    }
    return found;
}

/** The bytes of an IPv6 address (RFC 4291, section 2.2). `::` stands for one or more groups of zeros. */
function ipv6Bytes(text) {
    const [front, back, ...more] = text.split("::");
    const isWhole = back === undefined;
    const first = groupBytes(front, isWhole);
    const last = isWhole ? [] : groupBytes(back, true);
    if (!first || !last || more.length > 0) return undefined;
    const zeros = IPV6_LEN - first.length - last.length;
    if (isWhole ? zeros !== 0 : zeros < 2) return undefined;
    return [...first, ...new Array(zeros).fill(0), ...last];
}

/**
 * Returns the bytes of an address, 4 or 16. The text of an IPv6 address has a form of RFC 4291, section 2.2, without a zone.
 *
 * @param {string | Uint8Array} address
 * @returns {Uint8Array}
 * @throws {TypeError} if it is no address
 */
export function addressBytes(address) {
    if (isBytes(address) && (address.length === IPV4_LEN || address.length === IPV6_LEN)) return new Uint8Array(address);
    const found = typeof address === "string" ? ipv4Bytes(address) ?? ipv6Bytes(address) : undefined;
    if (!found) throw new TypeError(`not an IPv4 or IPv6 address: ${String(address)}`);
    return Uint8Array.from(found);
}

/** The place and the length of the first of the longest runs of at least two zeros. */
function longestZeros(groups) {
    let [longest, place, length] = [{ place: 0, length: 1 }, 0, 0];
    for (const [next, group] of groups.entries()) {
        if (length === 0) place = next;
        length = group === 0 ? length + 1 : 0;
        if (length > longest.length) longest = { place, length };
    }
    return longest.length > 1 ? longest : undefined;
}

/**
 * Returns the text of an address, of IPv6 in the form of RFC 5952, section 4.
 *
 * @param {Uint8Array} address  its bytes, 4 or 16
 * @returns {string}
 * @throws {TypeError} if there are not 4 or 16 bytes
 */
export function addressText(address) {
    const octets = addressBytes(requireBytes(address, "address"));
    if (octets.length === IPV4_LEN) return octets.join(".");
    const groups = Array.from({ length: IPV6_LEN / 2 }, (_, place) => octets[place * 2] * 256 + octets[place * 2 + 1]);
    const zeros = longestZeros(groups);
    const texts = (part) => part.map((group) => group.toString(16)).join(":");
    if (!zeros) return texts(groups);
    return `${texts(groups.slice(0, zeros.place))}::${texts(groups.slice(zeros.place + zeros.length))}`;
}

/** The text of an address in a struct of 16 bytes. */
function addressOf(version, octets) {
    return addressText(version === 4 ? octets.subarray(0, IPV4_LEN) : octets);
}

/** Copies two addresses of one version into the memory, and returns their length. */
function setAddresses(source, destination) {
    const [from, to] = [addressBytes(source), addressBytes(destination)];
    if (from.length !== to.length) throw new TypeError("the addresses are not of one version of IP");
    makeRoom(0);
    bytes.set(from, base + SOURCE_PLACE);
    bytes.set(to, base + DESTINATION_PLACE);
    return from.length;
}

/** Makes the call for the version of two addresses, over them and a message, and returns its status. `more` follows the addresses. */
function callOverAddresses({ ipv4, ipv6 }, message, source, destination, ...more) {
    const name = setAddresses(source, destination) === IPV4_LEN ? ipv4 : ipv6;
    if (!name) throw new TypeError("the addresses are not of IPv6");
    const length = setInput(message, "message");
    return calls[name](input, length, sourceAddress, destinationAddress, ...more, error);
}

// ---- IP

/**
 * @typedef {object} Transport  What an IP packet carries. The addresses are those that the checksum covers: a source route or a routing
 *     header changes the destination, and a home address the source. So they can differ from the addresses in the IP header.
 * @property {4 | 6} version
 * @property {number} protocol  `Protocol`, or the number of another protocol in IP
 * @property {Uint8Array} payload  the message, without the padding after a packet that states its length
 * @property {number} payloadOffset  the place of the payload in the packet, in bytes
 * @property {boolean} isFragment  whether the payload is only a part of the packet's payload
 * @property {boolean} isCutOff  whether the IP header counts more bytes than there are
 * @property {boolean} isLengthMissing  whether the IP header states no length and all bytes are counted
 * @property {boolean} isLaterFragment  whether the fragment offset is above 0, so that no transport header begins the payload
 * @property {number} hopLimit  the hops that are left: the time to live of IPv4, or the hop limit of IPv6
 * @property {number} fragmentOffset  the place of the payload in the payload of the whole packet, in bytes
 * @property {number} identification  what the fragments of a packet share. It is 0 over IPv6 without a fragment header.
 * @property {boolean} dontFragment  whether the flag "don't fragment" of IPv4 is set. It is false over IPv6.
 * @property {number} trafficClass  the type of service of IPv4, or the traffic class of IPv6
 * @property {string} source
 * @property {string | null} destination  `null` if it is not known, as with some IPv6 routing headers
 */

/**
 * @typedef {object} HeaderAddresses  The addresses of an IP header itself.
 * @property {4 | 6} version
 * @property {string} source
 * @property {string} destination
 */

/**
 * @typedef {object} Verdict  A packet, and the verdict on its checksum.
 * @property {Transport} transport
 * @property {Protocol | null} headerProtocol  the protocol whose functions read the payload. It is `null` for a fragment, for another
 *     protocol, and for ICMP of the other version of IP.
 * @property {VerdictKind} kind
 * @property {number | null} expectedChecksum  the right checksum if `kind` is `WRONG` or `PARTIAL`, otherwise `null`
 */

/**
 * @typedef {object} Lax  How strict a function is.
 * @property {boolean} [lax]  whether a packet that is cut off, or that states no length, is accepted too. By default it is not.
 */

/** Of the input and a struct that describes it. */
function transportOf(found) {
    const { version, protocol, payloadOffset } = found;
    return {
        version,
        protocol,
        payload: inputPart(payloadOffset, found.payloadLen),
        payloadOffset,
        isFragment: found.isFragment !== 0,
        isCutOff: found.isCutOff !== 0,
        isLengthMissing: found.isLengthMissing !== 0,
        isLaterFragment: found.isLaterFragment !== 0,
        hopLimit: found.hopLimit,
        fragmentOffset: found.fragmentOffset,
        identification: found.identification,
        dontFragment: found.dontFragment !== 0,
        trafficClass: found.trafficClass,
        source: addressOf(version, found.source),
        destination: found.hasDestination === 0 ? null : addressOf(version, found.destination),
    };
}

/**
 * Finds the transport in an IP packet, after its options and extension headers. No checksum is tested.
 *
 * @param {Uint8Array} packet
 * @param {Lax} [options]
 * @returns {Transport}
 * @throws {EtherparseError} if the packet is refused
 */
export function transport(packet, { lax = false } = {}) {
    read(lax ? "etherparse_transport_in_ip_lax" : "etherparse_transport_in_ip", packet, "packet");
    return transportOf(getIpTransport(base + RESULT_PLACE));
}

/**
 * Finds the transport in an IP packet, and tests its checksum. With `lax`, the checksum of a packet that is cut off is not tested.
 *
 * @param {Uint8Array} packet
 * @param {Lax} [options]
 * @returns {Verdict}
 * @throws {EtherparseError} if the packet or the header of its transport is refused
 */
export function verdict(packet, { lax = false } = {}) {
    read(lax ? "etherparse_packet_verdict_lax" : "etherparse_packet_verdict", packet, "packet");
    const found = getIpPacket(base + RESULT_PLACE);
    const hasExpected = found.verdict === VerdictKind.WRONG || found.verdict === VerdictKind.PARTIAL;
    return {
        transport: transportOf(found.transport),
        headerProtocol: found.headerProtocol || null,
        kind: found.verdict,
        expectedChecksum: hasExpected ? found.expectedChecksum : null,
    };
}

/**
 * Returns the addresses of the IP header at the front of a packet, which may be cut off after that header.
 *
 * @param {Uint8Array} packet
 * @returns {HeaderAddresses}
 * @throws {EtherparseError} if there is no IP header
 */
export function headerAddresses(packet) {
    read("etherparse_ip_header_addresses", packet, "packet");
    const { version, source, destination } = getIpAddresses(base + RESULT_PLACE);
    return { version, source: addressOf(version, source), destination: addressOf(version, destination) };
}

/**
 * @typedef {object} FlowEnds  The ends of a flow, as one of its packets names them. The addresses are as in `Transport`. The identifier of
 *     an ICMP query is `sourcePort` in a request, and `destinationPort` in a reply.
 * @property {4 | 6} version
 * @property {number} protocol  `Protocol`, or the number of another protocol in IP
 * @property {boolean} isFragment  whether the payload is only a part of the packet's payload
 * @property {boolean} isLaterFragment  whether the fragment offset is above 0, so that no port is known
 * @property {string} source
 * @property {string | null} destination  `null` if it is not known
 * @property {number | null} sourcePort  `null` if the packet does not contain it
 * @property {number | null} destinationPort  `null` if the packet does not contain it
 */

/**
 * @typedef {object} PacketFlow  The flow that a packet belongs to.
 * @property {FlowEnds} ends  of the packet itself
 * @property {FlowEnds | null} quoted  of the packet that an ICMP error quotes, which went in the other direction
 */

/** The ends that a struct describes. */
function endsOf(found) {
    const { version, protocol } = found;
    return {
        version,
        protocol,
        isFragment: found.isFragment !== 0,
        isLaterFragment: found.isLaterFragment !== 0,
        source: addressOf(version, found.source),
        destination: found.hasDestination === 0 ? null : addressOf(version, found.destination),
        sourcePort: found.hasSourcePort === 0 ? null : found.sourcePort,
        destinationPort: found.hasDestinationPort === 0 ? null : found.destinationPort,
    };
}

/**
 * Returns the flow that an IP packet belongs to: its addresses, its protocol, and its ports or the identifier of an ICMP query; and the
 * same of the packet that an ICMP error quotes. The packet may be cut off or state no length. No checksum is tested.
 *
 * @param {Uint8Array} packet
 * @returns {PacketFlow}
 * @throws {EtherparseError} if the IP headers of the packet are refused
 */
export function flow(packet) {
    read("etherparse_flow", packet, "packet");
    const { ends, quoted } = getPacketFlow(base + RESULT_PLACE);
    return { ends: endsOf(ends), quoted: quoted.version === 0 ? null : endsOf(quoted) };
}

/**
 * @typedef {object} Fragment  A fragment of an IP packet. All fragments of one packet share the version, the addresses, the identification,
 *     and over IPv4 the protocol.
 * @property {4 | 6} version
 * @property {string} source  in the IP header
 * @property {string} destination  in the IP header
 * @property {number | null} protocol  in the IPv4 header. `null` over IPv6, where the fragments of one packet may differ in it.
 * @property {number} identification
 * @property {number} offset  the place of the payload in the payload of the whole packet, in bytes
 * @property {boolean} moreFragments
 * @property {Uint8Array} payload  without padding
 * @property {number} payloadOffset  the place of the payload in the packet, in bytes
 */

/**
 * Reads the fragment in an IP packet. If an IPv6 packet has several fragment headers, the first is read.
 *
 * @param {Uint8Array} packet
 * @returns {Fragment}
 * @throws {EtherparseError} if the packet is refused, cut off or whole, or if its first fragment over IPv6 ends within the transport header
 */
export function readFragment(packet) {
    read("etherparse_fragment_read", packet, "packet");
    const found = getFragment(base + RESULT_PLACE);
    const { version, identification, offset, payloadOffset } = found;
    return {
        version,
        source: addressOf(version, found.source),
        destination: addressOf(version, found.destination),
        protocol: version === 4 ? found.protocol : null,
        identification,
        offset,
        moreFragments: found.moreFragments !== 0,
        payload: inputPart(payloadOffset, found.payloadLen),
        payloadOffset,
    };
}

/** Enough room to put any packet together, and the longest packet that is put together, in bytes. */
const REASSEMBLY_ROOM_LEN = 65791;
const REASSEMBLY_PACKET_LEN = 65575;

/** The number of bytes of a length. */
const SIZE_LEN = 8;

/**
 * Returns the packet that is put together from its fragments: IP packets, in any order and possibly repeated.
 *
 * @param {Uint8Array[]} fragments
 * @returns {Uint8Array}
 * @throws {EtherparseError} with the status `REASSEMBLY_INCOMPLETE` if bytes of the payload are missing. Also if a packet is not a fragment,
 *     if a fragment belongs to another packet or does not agree with another fragment, or if the whole packet has no room for its headers.
 */
export function reassemble(fragments) {
    for (const fragment of fragments) requireBytes(fragment, "fragment");
    const total = fragments.reduce((sum, { length }) => sum + length, 0);
    const packets = fragments.length * SIZE_LEN;
    const room = packets + total;
    const buffer = room + REASSEMBLY_ROOM_LEN;
    // The memory begins with the lengths, so that they are aligned.
    makeRoom(buffer + REASSEMBLY_PACKET_LEN);
    let place = packets;
    fragments.forEach((fragment, index) => {
        view.setBigUint64(base + INPUT_PLACE + index * SIZE_LEN, BigInt(fragment.length), true);
        bytes.set(fragment, base + INPUT_PLACE + place);
        place += fragment.length;
    });
    const at = (offset) => input + BigInt(offset);
    const [roomLength, bufferLength] = [REASSEMBLY_ROOM_LEN, REASSEMBLY_PACKET_LEN].map(BigInt);
    check(calls.etherparse_reassembly_packet(
        at(packets), BigInt(total), input, BigInt(fragments.length), at(room), roomLength, at(buffer), bufferLength, result, error,
    ));
    return inputPart(buffer, getSize(base + RESULT_PLACE));
}

/** The longest IP header that a call writes, that of IPv6, in bytes. */
const IP_HEADER_LEN = 40;

/**
 * @typedef {object} PacketOptions  What an IP header has that its message does not determine. The addresses are of one version of IP.
 * @property {string | Uint8Array} source
 * @property {string | Uint8Array} destination
 * @property {Protocol} protocol  of the message
 * @property {number} [hopLimit]  which is the time to live of IPv4. By default it is 64.
 */

/**
 * Returns the IP packet with a message, which is a transport header and its payload. The checksums, the lengths of the IP header, and the
 * length field of UDP are computed, whatever the message contains there.
 *
 * @param {Uint8Array} message
 * @param {PacketOptions} options
 * @returns {Uint8Array}
 * @throws {EtherparseError} if the header of the message is refused, if the packet is too long, or if the version of IP does not have the
 *     protocol
 */
export function writePacket(message, { source, destination, protocol, hopLimit = DEFAULT_HOP_LIMIT }) {
    const [from, to] = [source, destination].map(addressBytes);
    if (from.length !== to.length) throw new TypeError("the addresses are not of one version of IP");
    const isIpv4 = from.length === IPV4_LEN;
    const length = setInput(message, "message");
    const room = message.length + IP_HEADER_LEN;
    makeRoom(message.length + room);
    if (isIpv4) setIpv4Header(base + STRUCT_PLACE, { source: from, destination: to, timeToLive: hopLimit, protocol });
    else setIpv6Header(base + STRUCT_PLACE, { source: from, destination: to, hopLimit, nextHeader: protocol });
    const call = isIpv4 ? calls.etherparse_write_packet_ipv4 : calls.etherparse_write_packet_ipv6;
    check(call(struct, input, length, input + length, BigInt(room), result, error));
    return inputPart(message.length, getSize(base + RESULT_PLACE));
}

/** The checksum that a call wrote. */
function takeChecksum() {
    return view.getUint16(base + RESULT_PLACE, true);
}

/**
 * Returns whether the checksum of UDP, TCP or ICMPv6 in an IP packet is partial: the sum of only the pseudo header. A host leaves the rest
 * to its network card. The payload is not read. A fragment and any other protocol have no partial checksum.
 *
 * @param {Uint8Array} packet
 * @returns {boolean}
 * @throws {EtherparseError} if the packet or the header of its transport is refused
 */
export function isChecksumPartial(packet) {
    read("etherparse_packet_checksum_is_partial", packet, "packet");
    return view.getUint32(base + RESULT_PLACE, true) !== 0;
}

/**
 * Stores the right checksum of UDP, TCP or ICMP in an IP packet, and returns it. No other byte changes. A UDP packet over IPv4 without a
 * checksum gets a checksum.
 *
 * @param {Uint8Array} packet  changes, unless it is refused
 * @returns {number}
 * @throws {EtherparseError} if the packet or the header of its transport is refused. `CHECKSUM_UNTESTED` means that the checksum is not
 *     tested: the field `actual` of the error is the verdict.
 */
export function storeChecksum(packet) {
    const length = setInput(packet, "packet");
    check(calls.etherparse_packet_checksum_store(input, length, result, error));
    putBack(packet);
    return takeChecksum();
}

/**
 * Lowers the time to live or hop limit of an IP packet by one, as a router does. The checksum of an IPv4 header is updated: a right checksum
 * stays right, and a wrong checksum stays wrong. No other byte changes.
 *
 * @param {Uint8Array} packet  changes, unless it is refused
 * @returns {void}
 * @throws {EtherparseError} if the IP header is refused, or if the hop limit is 0 or 1 (`HOP_LIMIT_EXPIRED`)
 */
export function lowerHopLimit(packet) {
    const length = setInput(packet, "packet");
    check(calls.etherparse_hop_limit_lower(input, length, error));
    putBack(packet);
}

/**
 * Lowers the maximum segment size of a SYN to at most `most`, as a router in front of a tunnel does, and returns the old size. If it is at
 * most `most`, the packet is unchanged. The checksum of TCP is updated: a right checksum stays right, and a wrong checksum stays wrong. No
 * other byte changes. A partial checksum becomes wrong.
 *
 * @param {Uint8Array} packet  changes, unless it is refused
 * @param {number} most
 * @returns {number}
 * @throws {EtherparseError} if the IP headers or the TCP header are refused, if the packet is not a SYN, or if no maximum segment size can
 *     be read from its options
 */
export function lowerMaximumSegmentSize(packet, most) {
    const length = setInput(packet, "packet");
    check(calls.etherparse_maximum_segment_size_lower(input, length, integer(most ?? null, 0xffff, "most"), result, error));
    putBack(packet);
    return takeChecksum();
}

/** What the test of a checksum found. Every other status is a refusal. */
function tested(status) {
    switch (status) {
        case 0: return VerdictKind.RIGHT;
        case Status.CHECKSUM_WRONG: return VerdictKind.WRONG;
        case Status.CHECKSUM_ABSENT: return VerdictKind.ABSENT;
        default: return refuse();
    }
}

/**
 * Computes the checksum of the IPv4 header at the front of a packet (RFC 791, section 3.1), whatever its checksum field contains.
 *
 * @param {Uint8Array} packet
 * @returns {number}
 * @throws {EtherparseError} if there is no IPv4 header
 */
export function ipv4HeaderChecksum(packet) {
    read("etherparse_ipv4_header_checksum", packet, "packet");
    return takeChecksum();
}

/**
 * Stores the checksum of the IPv4 header at the front of a packet in its bytes 10 and 11. No other byte changes.
 *
 * @param {Uint8Array} packet  changes, unless it is refused
 * @returns {void}
 * @throws {EtherparseError} if there is no IPv4 header
 */
export function storeIpv4HeaderChecksum(packet) {
    const length = setInput(packet, "packet");
    check(calls.etherparse_ipv4_header_checksum_store(input, length, error));
    putBack(packet);
}

/**
 * Tests the checksum of the IPv4 header at the front of a packet, which `verdict` does not test: `RIGHT` or `WRONG`.
 *
 * @param {Uint8Array} packet
 * @returns {VerdictKind}
 * @throws {EtherparseError} if there is no IPv4 header
 */
export function checkIpv4Header(packet) {
    const length = setInput(packet, "packet");
    return tested(calls.etherparse_ipv4_header_checksum_test(input, length, error));
}

// ---- UDP (RFC 768)

/**
 * @typedef {object} UdpHeader  A UDP header to write. A missing field is 0.
 * @property {number} [sourcePort]  bytes 0 and 1
 * @property {number} [destinationPort]  bytes 2 and 3
 * @property {number} [length]  bytes 4 and 5: the length of header and payload, in bytes
 * @property {number} [checksum]  bytes 6 and 7; 0 means no checksum
 */

/**
 * @typedef {object} UdpPacket  A UDP packet that was read.
 * @property {number} sourcePort
 * @property {number} destinationPort
 * @property {number} length  the length field: the length of header and payload, in bytes
 * @property {number} checksum  0 means that there is none
 * @property {Uint8Array} payload
 * @property {number} payloadOffset  the place of the payload in the message, in bytes
 * @property {LenSource} payloadLenSource  the source of the length of the payload
 */

/**
 * Reads the UDP packet at the front of a message: the bytes that its length field counts, or all bytes if that field is 0.
 *
 * With `lax` a length field that cannot be true is accepted too, and the packet consists of all bytes.
 *
 * @param {Uint8Array} message
 * @param {Lax} [options]
 * @returns {UdpPacket}
 * @throws {EtherparseError} if the packet is refused
 */
export function readUdp(message, { lax = false } = {}) {
    read(lax ? "etherparse_udp_packet_read_lax" : "etherparse_udp_packet_read", message, "message");
    const { header, payloadOffset, payloadLen, payloadLenSource } = getUdpPacket(base + RESULT_PLACE);
    return withPayload(header, payloadOffset, payloadLen, { payloadLenSource });
}

/** A copy of what a call wrote to the buffer. */
function takeWritten() {
    return bytes.slice(base + BUFFER_PLACE, base + BUFFER_PLACE + getSize(base + RESULT_PLACE));
}

/**
 * Returns the 8 bytes of a UDP header.
 *
 * @param {UdpHeader} header
 * @returns {Uint8Array}
 */
export function writeUdpHeader(header) {
    makeRoom(0);
    setUdpHeader(base + STRUCT_PLACE, header);
    check(calls.etherparse_udp_header_write(struct, bufferAddress, BUFFER_LEN, result, error));
    return takeWritten();
}

/**
 * Computes the checksum of the UDP packet at the front of a message, whatever its checksum field contains. It is never 0.
 *
 * @param {Uint8Array} message
 * @param {string | Uint8Array} source
 * @param {string | Uint8Array} destination
 * @returns {number}
 * @throws {EtherparseError} if the packet is refused, or longer than the pseudo header can count
 */
export function udpChecksum(message, source, destination) {
    const names = { ipv4: "etherparse_udp_checksum_ipv4", ipv6: "etherparse_udp_checksum_ipv6" };
    check(callOverAddresses(names, message, source, destination, result));
    return takeChecksum();
}

/**
 * Stores the checksum of the UDP packet at the front of a message in its bytes 6 and 7. No other byte changes.
 *
 * @param {Uint8Array} message  changes, unless it is refused
 * @param {string | Uint8Array} source
 * @param {string | Uint8Array} destination
 * @returns {void}
 * @throws {EtherparseError} if the packet is refused, or longer than the pseudo header can count
 */
export function storeUdpChecksum(message, source, destination) {
    const names = { ipv4: "etherparse_udp_checksum_store_ipv4", ipv6: "etherparse_udp_checksum_store_ipv6" };
    check(callOverAddresses(names, message, source, destination));
    putBack(message);
}

/**
 * Tests the checksum of the UDP packet at the front of a message: `RIGHT`, `WRONG`, or `ABSENT` if the packet has none.
 *
 * A receiver over IPv6 discards a packet without a checksum, except in some tunnels. Hence `verdict` calls it `WRONG`.
 *
 * @param {Uint8Array} message
 * @param {string | Uint8Array} source
 * @param {string | Uint8Array} destination
 * @returns {VerdictKind}
 * @throws {EtherparseError} if the packet is refused, or longer than the pseudo header can count
 */
export function checkUdp(message, source, destination) {
    const names = { ipv4: "etherparse_udp_checksum_test_ipv4", ipv6: "etherparse_udp_checksum_test_ipv6" };
    return tested(callOverAddresses(names, message, source, destination));
}

// ---- TCP (RFC 9293, section 3.1)

/**
 * @typedef {object} TcpHeader  A TCP header to write. A missing field is 0. The data offset is computed from the options.
 * @property {number} [sourcePort]  bytes 0 and 1
 * @property {number} [destinationPort]  bytes 2 and 3
 * @property {number} [sequenceNumber]  bytes 4 to 7
 * @property {number} [acknowledgmentNumber]  bytes 8 to 11
 * @property {number} [flags]  `TcpFlags`
 * @property {number} [windowSize]  bytes 14 and 15
 * @property {number} [checksum]  bytes 16 and 17
 * @property {number} [urgentPointer]  bytes 18 and 19
 * @property {Uint8Array} [options]  at most 40 bytes, padded with zeros to whole words of four bytes. `storeTcpHeader` ignores them.
 */

/**
 * @typedef {object} TcpPacket  A TCP packet that was read.
 * @property {number} sourcePort
 * @property {number} destinationPort
 * @property {number} sequenceNumber
 * @property {number} acknowledgmentNumber
 * @property {number} flags  `TcpFlags`
 * @property {number} windowSize
 * @property {number} checksum
 * @property {number} urgentPointer
 * @property {Uint8Array} options  the bytes of the options, which `tcpOptions` and `tcpOptionValues` read
 * @property {Uint8Array} payload
 * @property {number} payloadOffset  the place of the payload in the message, in bytes
 */

/**
 * @typedef {object} TcpOption  A TCP option, known or not.
 * @property {number} kind  the first byte of the option, such as a `TcpOptionKind`
 * @property {Uint8Array} value  the bytes after the kind and the length
 */

/**
 * @typedef {object} TcpOptionValues  A TCP option of a known kind.
 * @property {TcpOptionKind} kind
 * @property {number[]} [values]  its values: the segment size, the shift count, the left and right edge of each block, the timestamp and
 *     its echo reply. The other kinds have none.
 */

/**
 * Reads the TCP packet that a message is. Its options are not read.
 *
 * @param {Uint8Array} message
 * @returns {TcpPacket}
 * @throws {EtherparseError} if the packet is refused
 */
export function readTcp(message) {
    read("etherparse_tcp_packet_read", message, "message");
    const { header, optionsOffset, optionsLen, payloadOffset, payloadLen } = getTcpPacket(base + RESULT_PLACE);
    return withPayload(header, payloadOffset, payloadLen, { options: inputPart(optionsOffset, optionsLen) });
}

/**
 * Returns the bytes of a TCP header, 20 to 60.
 *
 * @param {TcpHeader} header
 * @returns {Uint8Array}
 * @throws {EtherparseError} if there are more than 40 bytes of options, or unknown flags
 */
export function writeTcpHeader(header) {
    makeRoom(0);
    setTcpHeader(base + STRUCT_PLACE, header);
    const length = setInput(header.options ?? new Uint8Array(), "options");
    check(calls.etherparse_tcp_header_write(struct, input, length, bufferAddress, BUFFER_LEN, result, error));
    return takeWritten();
}

/**
 * Replaces the header of the TCP packet that a message is. Options, data offset and payload stay. The three reserved bits are cleared.
 *
 * @param {Uint8Array} message  changes, unless it is refused
 * @param {TcpHeader} header
 * @returns {void}
 * @throws {EtherparseError} if the packet is refused, or if flags are unknown
 */
export function storeTcpHeader(message, header) {
    makeRoom(0);
    setTcpHeader(base + STRUCT_PLACE, header);
    const length = setInput(message, "message");
    check(calls.etherparse_tcp_header_store(struct, input, length, error));
    putBack(message);
}

/**
 * Computes the checksum of the TCP packet that a message is, whatever its checksum field contains.
 *
 * @param {Uint8Array} message
 * @param {string | Uint8Array} source
 * @param {string | Uint8Array} destination
 * @returns {number}
 * @throws {EtherparseError} if the packet is refused, or longer than the pseudo header can count
 */
export function tcpChecksum(message, source, destination) {
    const names = { ipv4: "etherparse_tcp_checksum_ipv4", ipv6: "etherparse_tcp_checksum_ipv6" };
    check(callOverAddresses(names, message, source, destination, result));
    return takeChecksum();
}

/**
 * Stores the checksum of the TCP packet that a message is in its bytes 16 and 17. No other byte changes.
 *
 * @param {Uint8Array} message  changes, unless it is refused
 * @param {string | Uint8Array} source
 * @param {string | Uint8Array} destination
 * @returns {void}
 * @throws {EtherparseError} if the packet is refused, or longer than the pseudo header can count
 */
export function storeTcpChecksum(message, source, destination) {
    const names = { ipv4: "etherparse_tcp_checksum_store_ipv4", ipv6: "etherparse_tcp_checksum_store_ipv6" };
    check(callOverAddresses(names, message, source, destination));
    putBack(message);
}

/**
 * Tests the checksum of the TCP packet that a message is: `RIGHT` or `WRONG`.
 *
 * @param {Uint8Array} message
 * @param {string | Uint8Array} source
 * @param {string | Uint8Array} destination
 * @returns {VerdictKind}
 * @throws {EtherparseError} if the packet is refused, or longer than the pseudo header can count
 */
export function checkTcp(message, source, destination) {
    const names = { ipv4: "etherparse_tcp_checksum_test_ipv4", ipv6: "etherparse_tcp_checksum_test_ipv6" };
    return tested(callOverAddresses(names, message, source, destination));
}

/** A copy of the options, which stays while they are read. */
function copyOfOptions(options) {
    return new Uint8Array(requireBytes(options, "options"));
}

/** Reads the options one after another by a call that moves a place. `take` makes an option of what the call wrote. */
function* eachOption(options, name, take) {
    for (let place = 0; ; ) {
        const length = setInput(options, "options");
        view.setBigUint64(base + SECOND_PLACE, BigInt(place), true);
        const status = calls[name](input, length, second, result, error);
        if (status === Status.OPTIONS_END) return;
        check(status);
        place = getSize(base + SECOND_PLACE);
        yield take();
    }
}

/**
 * Reads the options in these bytes, known or not, in their order, up to the end of the list or of the bytes.
 *
 * @param {Uint8Array} options
 * @returns {Generator<TcpOption, void>}
 * @throws {EtherparseError} at an option that is cut off, or whose length byte is below 2. Nothing follows it.
 */
export function tcpOptions(options) {
    return eachOption(copyOfOptions(options), "etherparse_tcp_raw_option_next", () => {
        const { kind, valueOffset, valueLen } = getTcpRawOption(base + RESULT_PLACE);
        return { kind, value: inputPart(valueOffset, valueLen) };
    });
}

/**
 * Reads the values of the options in these bytes, in their order, up to the end of the list or of the bytes.
 *
 * @param {Uint8Array} options
 * @returns {Generator<Required<TcpOptionValues>, void>}
 * @throws {EtherparseError} at an option of an unknown kind, with a wrong length byte, or that is cut off. Nothing follows it.
 */
export function tcpOptionValues(options) {
    return eachOption(copyOfOptions(options), "etherparse_tcp_option_next", () => {
        const { kind, valueCount, values } = getTcpOption(base + RESULT_PLACE);
        return { kind, values: values.slice(0, valueCount) };
    });
}

const MAX_VALUES = 8;

/** An option as the struct has it. */
function optionStruct({ kind, values = [] }) {
    if (values.length > MAX_VALUES) throw new RangeError(`a TCP option has at most ${MAX_VALUES} values`);
    return { kind, valueCount: values.length, values: [...values, ...new Array(MAX_VALUES - values.length).fill(0)] };
}

/**
 * Returns the bytes of some TCP options, padded with zeros to whole words of four bytes.
 *
 * @param {Iterable<TcpOptionValues>} options
 * @returns {Uint8Array}
 * @throws {EtherparseError} if a kind is unknown, if a kind cannot have these values, or if the options need more than 40 bytes
 */
export function writeTcpOptions(options) {
    const structs = Array.from(options, optionStruct);
    makeRoom(structs.length * TCP_OPTION_LEN);
    for (const [place, option] of structs.entries()) setTcpOption(base + INPUT_PLACE + place * TCP_OPTION_LEN, option);
    check(calls.etherparse_tcp_options_write(input, BigInt(structs.length), bufferAddress, BUFFER_LEN, result, error));
    return takeWritten();
}

// ---- ICMPv4 (RFC 792)

/**
 * @typedef {object} Icmpv4Header  An ICMPv4 header to write. It is made from `kind`, `code`, `checksum` and the fields of the kind. Other
 *     fields are ignored. A missing field is 0.
 * @property {Icmpv4Kind} [kind]
 * @property {number} [type]  of `UNKNOWN`
 * @property {number} [code]  by the numbers of the RFC of the kind
 * @property {number} [checksum]  bytes 2 and 3
 * @property {number} [id]  of echo and timestamp messages
 * @property {number} [sequenceNumber]  of echo and timestamp messages
 * @property {number} [originateTimestamp]  of timestamp messages
 * @property {number} [receiveTimestamp]  of timestamp messages
 * @property {number} [transmitTimestamp]  of timestamp messages
 * @property {number} [nextHopMtu]  of an unreachable destination with code 4, in bytes (RFC 1191, section 4)
 * @property {number} [pointer]  of a parameter problem with code 0
 * @property {Uint8Array} [bytes4to7]  of `UNKNOWN`, and of a redirect message the gateway's address
 */

/**
 * @typedef {object} Icmpv4Packet  An ICMPv4 message that was read. A field that its kind does not have is 0, except `type`, `code`,
 *     `checksum` and `bytes4to7`.
 * @property {Icmpv4Kind} kind
 * @property {number} type
 * @property {number} code
 * @property {number} checksum
 * @property {number} id
 * @property {number} sequenceNumber
 * @property {number} originateTimestamp
 * @property {number} receiveTimestamp
 * @property {number} transmitTimestamp
 * @property {number} nextHopMtu  in bytes
 * @property {number} pointer
 * @property {Uint8Array} bytes4to7
 * @property {Uint8Array} payload
 * @property {number} payloadOffset  the place of the payload in the message, in bytes
 */

/**
 * Reads the ICMPv4 packet that a message is.
 *
 * @param {Uint8Array} message
 * @returns {Icmpv4Packet}
 * @throws {EtherparseError} if the message is refused
 */
export function readIcmpv4(message) {
    read("etherparse_icmpv4_packet_read", message, "message");
    const { header, payloadOffset, payloadLen } = getIcmpv4Packet(base + RESULT_PLACE);
    return withPayload(header, payloadOffset, payloadLen);
}

/**
 * Returns the bytes of an ICMPv4 header, 20 of a timestamp message and otherwise 8.
 *
 * @param {Icmpv4Header} header
 * @returns {Uint8Array}
 * @throws {EtherparseError} if the kind is unknown, or does not have this code
 */
export function writeIcmpv4Header(header) {
    makeRoom(0);
    setIcmpv4Header(base + STRUCT_PLACE, header);
    check(calls.etherparse_icmpv4_header_write(struct, bufferAddress, BUFFER_LEN, result, error));
    return takeWritten();
}

/** An ICMP error about a packet, by a call whose header is already set. */
function errorAbout(call, packet, source, hopLimit) {
    const limit = integer(hopLimit, 255, "hopLimit");
    bytes.set(source, base + SOURCE_PLACE);
    check(calls[call](input, BigInt(packet.length), struct, sourceAddress, limit, bufferAddress, BUFFER_LEN, result, error));
    return takeWritten();
}

/**
 * Returns the ICMPv4 error about a packet: an IPv4 packet from a source to the source of the packet, of at most 576 bytes. It quotes the
 * packet from its first byte on.
 *
 * @param {Uint8Array} packet
 * @param {Icmpv4Header} header  its checksum is not used
 * @param {string} source
 * @param {{hopLimit?: number}} [options]
 * @returns {Uint8Array}
 * @throws {EtherparseError} if the header is no error, or if there is no error about the packet, for example about a later fragment
 */
export function icmpv4ErrorAbout(packet, header, source, { hopLimit = DEFAULT_HOP_LIMIT } = {}) {
    const from = addressBytes(source);
    if (from.length !== IPV4_LEN) throw new TypeError("the source is no IPv4 address");
    setInput(packet, "packet");
    setIcmpv4Header(base + STRUCT_PLACE, header);
    return errorAbout("etherparse_icmpv4_error_about", packet, from, hopLimit);
}

/**
 * Returns the ICMPv6 error about a packet, as `icmpv4ErrorAbout`, of at most 1280 bytes.
 *
 * @param {Uint8Array} packet
 * @param {Icmpv6Header} header  its checksum is not used
 * @param {string} source
 * @param {{hopLimit?: number}} [options]
 * @returns {Uint8Array}
 * @throws {EtherparseError} if the header is no error, or if there is no error about the packet
 */
export function icmpv6ErrorAbout(packet, header, source, { hopLimit = DEFAULT_HOP_LIMIT } = {}) {
    const from = addressBytes(source);
    if (from.length === IPV4_LEN) throw new TypeError("the source is no IPv6 address");
    setInput(packet, "packet");
    setIcmpv6Header(base + STRUCT_PLACE, header);
    return errorAbout("etherparse_icmpv6_error_about", packet, from, hopLimit);
}

/**
 * Computes the checksum of the ICMPv4 packet that a message is, whatever its checksum field contains.
 *
 * @param {Uint8Array} message
 * @returns {number}
 * @throws {EtherparseError} if the message is refused
 */
export function icmpv4Checksum(message) {
    read("etherparse_icmpv4_checksum", message, "message");
    return takeChecksum();
}

/**
 * Stores the checksum of the ICMPv4 packet that a message is in its bytes 2 and 3. No other byte changes.
 *
 * @param {Uint8Array} message  changes, unless it is refused
 * @returns {void}
 * @throws {EtherparseError} if the message is refused
 */
export function storeIcmpv4Checksum(message) {
    const length = setInput(message, "message");
    check(calls.etherparse_icmpv4_checksum_store(input, length, error));
    putBack(message);
}

/**
 * Tests the checksum of the ICMPv4 packet that a message is: `RIGHT` or `WRONG`.
 *
 * @param {Uint8Array} message
 * @returns {VerdictKind}
 * @throws {EtherparseError} if the message is refused
 */
export function checkIcmpv4(message) {
    const length = setInput(message, "message");
    return tested(calls.etherparse_icmpv4_checksum_test(input, length, error));
}

// ---- ICMPv6 (RFC 4443; RFC 4861)

/**
 * @typedef {object} Icmpv6Header  An ICMPv6 header to write. It is made from `kind`, `code`, `checksum` and the fields of the kind. Other
 *     fields and other flags are ignored. A missing field is 0.
 * @property {Icmpv6Kind} [kind]
 * @property {number} [type]  of `UNKNOWN`
 * @property {number} [code]  by the numbers of the RFC of the kind
 * @property {number} [checksum]  bytes 2 and 3
 * @property {number} [id]  of echo messages
 * @property {number} [sequenceNumber]  of echo messages
 * @property {number} [mtu]  of a packet that was too big, in bytes
 * @property {number} [pointer]  of a parameter problem
 * @property {number} [routerLifetime]  of a router advertisement, in seconds
 * @property {number} [curHopLimit]  of a router advertisement
 * @property {number} [flags]  `RouterFlags` of a router advertisement, `NeighborFlags` of a neighbor advertisement
 * @property {Uint8Array} [bytes4to7]  of `UNKNOWN`
 */

/**
 * @typedef {object} Icmpv6Packet  An ICMPv6 message that was read. A field that its kind does not have is 0, except `type`, `code`,
 *     `checksum` and `bytes4to7`.
 * @property {Icmpv6Kind} kind
 * @property {number} type
 * @property {number} code
 * @property {number} checksum
 * @property {number} id
 * @property {number} sequenceNumber
 * @property {number} mtu  in bytes
 * @property {number} pointer
 * @property {number} routerLifetime  in seconds
 * @property {number} curHopLimit
 * @property {number} flags  `RouterFlags` of a router advertisement, `NeighborFlags` of a neighbor advertisement
 * @property {Uint8Array} bytes4to7
 * @property {Uint8Array} payload
 * @property {number} payloadOffset  the place of the payload in the message, in bytes
 */

/**
 * Reads the ICMPv6 packet that a message is.
 *
 * @param {Uint8Array} message
 * @returns {Icmpv6Packet}
 * @throws {EtherparseError} if the message is refused
 */
export function readIcmpv6(message) {
    read("etherparse_icmpv6_packet_read", message, "message");
    const { header, payloadOffset, payloadLen } = getIcmpv6Packet(base + RESULT_PLACE);
    return withPayload(header, payloadOffset, payloadLen);
}

/**
 * Returns the 8 bytes of an ICMPv6 header.
 *
 * @param {Icmpv6Header} header
 * @returns {Uint8Array}
 * @throws {EtherparseError} if the kind is unknown, or does not have this code
 */
export function writeIcmpv6Header(header) {
    makeRoom(0);
    setIcmpv6Header(base + STRUCT_PLACE, header);
    check(calls.etherparse_icmpv6_header_write(struct, bufferAddress, BUFFER_LEN, result, error));
    return takeWritten();
}

/**
 * Computes the checksum of the ICMPv6 packet that a message is (RFC 4443, section 2.3), whatever its checksum field contains.
 *
 * @param {Uint8Array} message
 * @param {string | Uint8Array} source  of IPv6
 * @param {string | Uint8Array} destination  of IPv6
 * @returns {number}
 * @throws {EtherparseError} if the message is refused
 */
export function icmpv6Checksum(message, source, destination) {
    check(callOverAddresses({ ipv6: "etherparse_icmpv6_checksum" }, message, source, destination, result));
    return takeChecksum();
}

/**
 * Stores the checksum of the ICMPv6 packet that a message is in its bytes 2 and 3. No other byte changes.
 *
 * @param {Uint8Array} message  changes, unless it is refused
 * @param {string | Uint8Array} source  of IPv6
 * @param {string | Uint8Array} destination  of IPv6
 * @returns {void}
 * @throws {EtherparseError} if the message is refused
 */
export function storeIcmpv6Checksum(message, source, destination) {
    check(callOverAddresses({ ipv6: "etherparse_icmpv6_checksum_store" }, message, source, destination));
    putBack(message);
}

/**
 * Tests the checksum of the ICMPv6 packet that a message is: `RIGHT` or `WRONG`.
 *
 * @param {Uint8Array} message
 * @param {string | Uint8Array} source  of IPv6
 * @param {string | Uint8Array} destination  of IPv6
 * @returns {VerdictKind}
 * @throws {EtherparseError} if the message is refused
 */
export function checkIcmpv6(message, source, destination) {
    return tested(callOverAddresses({ ipv6: "etherparse_icmpv6_checksum_test" }, message, source, destination));
}

// ---- the packet that an ICMP error is about (RFC 792; RFC 4443, section 3)

/** The packet in a message, which a call finds. */
function quotedBy(name, message) {
    const length = setInput(message, "message");
    check(calls[name](input, length, second, result, error));
    return inputPart(getSize(base + SECOND_PLACE), getSize(base + RESULT_PLACE));
}

/**
 * Returns the packet that an ICMPv4 error is about, as far as the message contains it. Pass it to `transport` with `lax`.
 *
 * @param {Uint8Array} message
 * @returns {Uint8Array}
 * @throws {EtherparseError} if the message is refused. `NO_ICMP_ERROR` means that it is not an error.
 */
export function quotedByIcmpv4(message) {
    return quotedBy("etherparse_icmpv4_quoted_packet", message);
}

/**
 * Returns the packet that an ICMPv6 error is about, as far as the message contains it. Pass it to `transport` with `lax`.
 *
 * @param {Uint8Array} message
 * @returns {Uint8Array}
 * @throws {EtherparseError} if the message is refused. `NO_ICMP_ERROR` means that it is not an error.
 */
export function quotedByIcmpv6(message) {
    return quotedBy("etherparse_icmpv6_quoted_packet", message);
}

// ---- the reply to an echo request (RFC 792; RFC 4443, section 4.2)

const DEFAULT_HOP_LIMIT = 64;

/**
 * @typedef {object} EchoOptions  What a reply has that its request does not determine.
 * @property {number} [hopLimit]  of the reply, which is the time to live of IPv4. By default it is 64.
 * @property {string | Uint8Array} [source]  the source of the reply. By default it is the destination of the request. For a request to a
 *     multicast or broadcast address, pass an address of the host.
 */

/**
 * Returns the reply to the echo request in an IP packet, without the bytes after the packet.
 *
 * @param {Uint8Array} packet
 * @param {EchoOptions} [options]
 * @returns {Uint8Array}
 * @throws {EtherparseError} if the packet is refused. `ECHO_NO_REQUEST` also means that it has another version of IP than `source`.
 */
export function answerEcho(packet, { hopLimit = DEFAULT_HOP_LIMIT, source } = {}) {
    const limit = integer(hopLimit, 255, "hopLimit");
    const from = source === undefined ? undefined : addressBytes(source);
    const length = setInput(packet, "packet");
    if (from === undefined) {
        check(calls.etherparse_echo_answer(input, length, limit, result, error));
    } else {
        const call = from.length === IPV4_LEN ? calls.etherparse_echo_answer_ipv4 : calls.etherparse_echo_answer_ipv6;
        bytes.set(from, base + SOURCE_PLACE);
        check(call(input, length, sourceAddress, limit, result, error));
    }
    return inputPart(0, getSize(base + RESULT_PLACE));
}

/**
 * Returns whether the second packet is the reply to the echo request in the first packet. It is not if one of the packets is refused. Bytes
 * after a packet are ignored. The checksums of the request are not tested.
 *
 * @param {Uint8Array} request
 * @param {Uint8Array} reply
 * @returns {boolean}
 */
export function isReplyTo(request, reply) {
    return isReply("etherparse_echo_is_reply", request, reply);
}

/**
 * Returns whether the second packet is the reply to the echo request in the first packet, from the address of any host, otherwise as
 * `isReplyTo`. A host that answers a request to an anycast address replies from its own address.
 *
 * @param {Uint8Array} request
 * @param {Uint8Array} reply
 * @returns {boolean}
 */
export function isReplyFromAny(request, reply) {
    return isReply("etherparse_echo_is_reply_from_any", request, reply);
}

/** Whether the test of a reply, a call of this name, returns that it is one. */
function isReply(name, request, reply) {
    const requestLen = setInput(request, "request");
    const replyLen = setInput(reply, "reply", request.length);
    const status = calls[name](input, requestLen, input + requestLen, replyLen, error);
    if (status !== Status.ECHO_NO_REPLY) check(status);
    return status === 0;
}

// ---- the translation of addresses (RFC 3022; RFC 5508)

/**
 * @typedef {object} Translation  What is replaced. A missing part stays.
 * @property {string | Uint8Array} [source]  the new source address
 * @property {string | Uint8Array} [destination]  the new destination address
 * @property {number} [sourcePort]  the new source port of UDP and TCP, and identifier of an ICMP request
 * @property {number} [destinationPort]  the new destination port of UDP and TCP, and identifier of an ICMP reply
 * @property {Translation} [quoted]  what is replaced in the packet that an ICMP error is about, which went in the other direction (RFC 5508,
 *     section 4). By default the other parts are replaced there, with source and destination exchanged.
 */

/** The length of the addresses, or, without an address, of the addresses of the packet. */
function addressLen(addresses, packet) {
    const lengths = new Set(addresses.filter((address) => address !== undefined).map((address) => address.length));
    if (lengths.size > 1) throw new TypeError("the addresses are not of one version of IP");
    const [length] = lengths;
    return length ?? (packet[0] >> 4 === 6 ? IPV6_LEN : IPV4_LEN);
}

/** Whether a part is replaced, as the struct has it. */
function flag(part) {
    return part === undefined ? 0 : 1;
}

/**
 * Translates an IP packet, as an address translator does: replaces addresses, and ports or the identifier of an ICMP query.
 *
 * The checksums are updated by what is replaced, so a receiver accepts the packet if it accepted it before. The packet that an ICMP error
 * is about is translated with source and destination exchanged. In a later fragment only the addresses are replaced.
 *
 * @param {Uint8Array} packet  changes, unless it is refused
 * @param {Translation} parts
 * @returns {void}
 * @throws {EtherparseError} if the packet is refused. `IP_VERSION` also means that it has another version of IP than the addresses.
 */
export function translate(packet, { quoted, ...parts }) {
    const replaced = [parts, ...(quoted === undefined ? [] : [quoted])].map(translationOf);
    const addresses = replaced.flatMap(({ source, destination }) => [source, destination]);
    const isIpv4 = addressLen(addresses, requireBytes(packet, "packet")) === IPV4_LEN;
    makeRoom(0);
    const setTranslation = isIpv4 ? setIpv4Translation : setIpv6Translation;
    replaced.forEach((translation, place) => setTranslation(base + [STRUCT_PLACE, SECOND_PLACE][place], translation));
    const length = setInput(packet, "packet");
    const name = isIpv4 ? "etherparse_translate_ipv4" : "etherparse_translate_ipv6";
    if (quoted === undefined) check(calls[name](input, length, struct, error));
    else check(calls[`${name}_with_quoted`](input, length, struct, second, error));
    putBack(packet);
}

/** The parts of a translation as the struct has them. */
function translationOf({ source, destination, sourcePort, destinationPort }) {
    const [from, to] = [source, destination].map((address) => (address === undefined ? undefined : addressBytes(address)));
    return {
        source: from, destination: to, sourcePort, destinationPort,
        hasSource: flag(from), hasDestination: flag(to), hasSourcePort: flag(sourcePort), hasDestinationPort: flag(destinationPort),
    };
}

// ---- packets between IPv4 and IPv6 (RFC 7915)

/**
 * @typedef {object} Prefixes  The prefixes of the addresses (RFC 6052), such as "64:ff9b::/96".
 * @property {string} source
 * @property {string} destination
 */

/** A prefix as the struct has it. */
function prefixOf(prefix) {
    const [address, len, ...more] = String(prefix).split("/");
    const octets = addressBytes(address);
    if (octets.length === IPV4_LEN || !/^\d{1,3}$/.test(len ?? "") || more.length > 0) throw new TypeError(`${prefix} is no prefix`);
    return { address: octets, len: integer(Number(len), 128, "the length of a prefix") };
}

/** The packet that a call writes behind its packet. It is at most 28 bytes longer, or an ICMP error of at most 1280 bytes. */
function betweenVersions(call, packet, { source, destination }, ...more) {
    const prefixes = [source, destination].map(prefixOf);
    const length = setInput(packet, "packet");
    const room = packet.length + Number(BUFFER_LEN);
    makeRoom(packet.length + room);
    prefixes.forEach((prefix, place) => setPrefix64(base + [STRUCT_PLACE, SECOND_PLACE][place], prefix));
    check(calls[call](input, length, struct, second, ...more, input + length, BigInt(room), result, error));
    return inputPart(packet.length, getSize(base + RESULT_PLACE));
}

/**
 * Returns the IPv6 packet for an IPv4 packet, with IPv4 addresses behind these prefixes. UDP, TCP and ICMP echo messages are translated,
 * and ICMP errors with the packet that they quote. A message of another protocol is copied. A receiver accepts the message of the
 * translated packet if it accepts the message of the packet.
 *
 * @param {Uint8Array} packet
 * @param {Prefixes} prefixes
 * @returns {Uint8Array}
 * @throws {EtherparseError} if a prefix or the packet is refused, such as a fragment of an ICMP message
 */
export function ipv4ToIpv6(packet, prefixes) {
    return betweenVersions("etherparse_ipv4_to_ipv6", packet, prefixes);
}

/**
 * Returns the IPv4 packet for an IPv6 packet, as `ipv4ToIpv6`, with this identification. A fragment becomes a fragment with the
 * identification of its fragment header.
 *
 * @param {Uint8Array} packet
 * @param {Prefixes & {identification?: number}} options
 * @returns {Uint8Array}
 * @throws {EtherparseError} if a prefix or the packet is refused, such as a fragment of an ICMPv6 message
 */
export function ipv6ToIpv4(packet, { identification = 0, ...prefixes }) {
    return betweenVersions("etherparse_ipv6_to_ipv4", packet, prefixes, integer(identification, 0xffff, "identification"));
}

// ---- canonical headers

/**
 * Returns the header at the front of a message with all reserved bits cleared, at most 60 bytes. The checksum is copied, so it may be wrong
 * if a bit was cleared. The length field of UDP is ignored.
 *
 * @param {Protocol} protocol
 * @param {Uint8Array} message
 * @returns {Uint8Array}
 * @throws {EtherparseError} if the protocol is unknown, or the message is refused
 */
export function canonicalHeader(protocol, message) {
    const number = integer(protocol, 0xffffffff, "protocol");
    const length = setInput(message, "message");
    check(calls.etherparse_canonical_header(number, input, length, bufferAddress, BUFFER_LEN, result, error));
    return takeWritten();
}

// ---- the Internet checksum (RFC 1071)

/**
 * A running one's complement sum of 16 bit words. A sum does not change: `add` and `addAt` return another sum.
 *
 * @property {number} value  0 only if all bytes are zeros
 */
export class Sum {
    /** @param {number} [value]  By default it is the sum of no bytes. */
    constructor(value) {
        makeRoom(0);
        this.value = value === undefined ? unsigned16(calls.etherparse_sum_new()) : integer(value, 0xffff, "value");
        Object.freeze(this);
    }

    /**
     * Adds the words of these bytes. An odd last byte is the high half of a word, so only the last of several parts may be odd.
     *
     * @param {Uint8Array} part
     * @returns {Sum}
     */
    add(part) {
        const length = setInput(part, "part");
        return new Sum(unsigned16(calls.etherparse_sum_add(this.value, input, length)));
    }

    /**
     * Adds the words of these bytes to a sum that already covers `offset` bytes. So the parts of a packet may have any lengths: begin with
     * offset 0, and add the length of each part to it. Only whether the offset is even or odd matters.
     *
     * @param {number | bigint} offset
     * @param {Uint8Array} part
     * @returns {Sum}
     */
    addAt(offset, part) {
        const covered = size(offset, "offset");
        const length = setInput(part, "part");
        return new Sum(unsigned16(calls.etherparse_sum_add_at(this.value, covered, input, length)));
    }

    /**
     * Returns the checksum of what was added, as TCP, ICMP and the IPv4 header store it. It is 0 if the bytes contain a right checksum.
     *
     * @returns {number}
     */
    checksum() {
        return unsigned16(calls.etherparse_sum_checksum(this.value));
    }

    /**
     * Returns the checksum of what was added, as UDP stores it: 65535 instead of 0.
     *
     * @returns {number}
     */
    udpChecksum() {
        return unsigned16(calls.etherparse_sum_udp_checksum(this.value));
    }
}

// ---- the update of a checksum (RFC 1624)

/**
 * A change of the bytes that a checksum covers: some bytes are replaced by others. A change does not change: `replace` and `reversed`
 * return another change.
 *
 * @property {number} removed  the one's complement sum of the bytes that are replaced
 * @property {number} added  the one's complement sum of the new bytes
 */
export class ChecksumChange {
    /** @param {{ removed: number, added: number }} [sums]  By default the change replaces nothing. */
    constructor(sums) {
        makeRoom(0);
        if (sums === undefined) calls.etherparse_checksum_change_new(result);
        else setChecksumChange(base + RESULT_PLACE, sums);
        Object.assign(this, getChecksumChange(base + RESULT_PLACE));
        Object.freeze(this);
    }

    /**
     * Also replaces the old bytes by the new bytes. They begin at an even offset in what the checksum covers, and both lengths are even or
     * both are odd, which the library cannot check. The lengths may differ, as the lengths of IPv6 and IPv4 pseudo headers do.
     *
     * @param {Uint8Array} oldBytes
     * @param {Uint8Array} newBytes
     * @returns {ChecksumChange}
     */
    replace(oldBytes, newBytes) {
        const oldLen = setInput(oldBytes, "oldBytes");
        const newLen = setInput(newBytes, "newBytes", oldBytes.length);
        setChecksumChange(base + STRUCT_PLACE, this);
        calls.etherparse_checksum_change_replace(result, struct, input, oldLen, input + oldLen, newLen);
        return new ChecksumChange(getChecksumChange(base + RESULT_PLACE));
    }

    /**
     * Returns the change that restores the old bytes, as a translator does in the packets of the other direction.
     *
     * @returns {ChecksumChange}
     */
    reversed() {
        setChecksumChange(base + STRUCT_PLACE, this);
        calls.etherparse_checksum_change_reversed(result, struct);
        return new ChecksumChange(getChecksumChange(base + RESULT_PLACE));
    }

    /**
     * Returns the checksum of the changed packet, from the checksum of the packet before, as TCP, ICMP and the IPv4 header store it (RFC
     * 1624, section 3, equation 3). A right checksum becomes the right checksum, except that it is 0 and should be 65535 if all bytes that
     * it covers become zeros. A wrong checksum stays wrong, except that 0 becomes right if all these bytes were zeros. With a pseudo header
     * neither can happen.
     *
     * @param {number} checksum
     * @returns {number}
     */
    apply(checksum) {
        const before = integer(checksum, 0xffff, "checksum");
        setChecksumChange(base + STRUCT_PLACE, this);
        return unsigned16(calls.etherparse_checksum_change_apply(struct, before));
    }

    /**
     * Returns the same as UDP stores it: 0, which means no checksum, stays 0, and no other checksum becomes 0. A right checksum becomes the
     * right checksum, and a wrong checksum stays wrong.
     *
     * @param {number} checksum
     * @returns {number}
     */
    applyUdp(checksum) {
        const before = integer(checksum, 0xffff, "checksum");
        setChecksumChange(base + STRUCT_PLACE, this);
        return unsigned16(calls.etherparse_checksum_change_apply_udp(struct, before));
    }
}
