// Reads a capture with the proved reader (report_page.wasm), and answers the page. It runs as a worker, so that the page never waits.
"use strict";

/** How much of a file is read at once, in bytes. A longer record is read whole. */
const CHUNK_LEN = 4 << 20;
/** How many parts of a file are read ahead. */
const CHUNKS_AHEAD = 2;
/** The longest record that is read whole, in bytes. */
const MAX_CHUNK_LEN = 512 << 20;
/** The room of a packet, as in the program (MAX_PACKET_LEN). A longer packet is not read. */
const PACKET_LEN = 524288;
/** The longest head of a piece, in bytes. */
const HEAD_LEN = 1 << 20;
/** The longest text, in bytes (MAX_TEXT_LEN). */
const TEXT_LEN = 16384;
/** How many rows the reader fills at once. */
const ROWS = 4096;
/** The most packets that the page keeps. */
const MAX_PACKETS = 16_000_000;
/** The rows and fields of the tables that the page shows. */
const SHOWN = 100;
/** The most intervals of a timeline. */
const MAX_INTERVALS = 256;

// The structs of the reader: where their fields are, in bytes.
const ROW = { size: 112, end: 0, time: 8, event: 40, verdict: 64, protocol: 65, version: 66, hasDestination: 67, hasFlow: 68,
    sourcePort: 70, destinationPort: 72, source: 74, destination: 90, inTunnel: 106 };
const TIME = { size: 32 };
const EVENT = { size: 24, time: 0, hasTime: 12, len: 16 };
/** Each count has its number of packets, and then its number of bytes. */
const COUNTS = { size: 112, total: 0, udp: 16, tcp: 32, icmp: 48, other: 64, wrong: 80, refused: 96 };
const TIMELINE = { size: 272, start: 0, width: 16, count: 32, older: 40, untimed: 152, hasStart: 264 };
const END = { size: 40, count: 0, offset: 8, requiredLen: 16, len: 24, status: 32, isPcapng: 36 };
const LINE = { size: 48, number: 0, first: 8, isAbsolute: 40, isVerbose: 41, opensUdpTunnels: 42 };
const CHOICE = { size: 22, host: 0, version: 16, hasPort: 17, port: 18, opensUdpTunnels: 20 };
/** What report_page_chooses returns for a packet that is chosen. */
const CHOSEN = 1;
const Status = { FULL: 0, END: 1, CUT_OFF: 2, REFUSED: 3, BEGINNING_REFUSED: 4, FAILED: 5 };
/** The length of the header of a classic capture, which is its head. */
const CLASSIC_HEAD_LEN = 24;

// ---- the module

let calls, memory, bytes, words, view;
/** Places in the memory. The piece is the last, since it grows. */
const place = {};

function setViews() {
    bytes = new Uint8Array(memory.buffer);
    words = new Uint32Array(memory.buffer);
    view = new DataView(memory.buffer);
}

/** Lets the memory reach this length. Early runtimes take a number, not a BigInt. */
function growTo(len) {
    const pages = Math.ceil((len - memory.buffer.byteLength) / 65536);
    if (pages <= 0) return;
    try {
        memory.grow(BigInt(pages));
    } catch (reason) {
        if (!(reason instanceof TypeError)) throw reason;
        memory.grow(pages);
    }
    setViews();
}

async function load(module) {
    const { instance } = await WebAssembly.instantiate(module, {});
    calls = instance.exports;
    memory = calls.memory;
    let next = Math.ceil(memory.buffer.byteLength / 65536) * 65536;
    const sizes = { rows: ROWS * ROW.size, end: 64, line: 64, cut: 64, choice: 64, timeline: TIMELINE.size,
        intervals: MAX_INTERVALS * COUNTS.size, text: TEXT_LEN, buffer: PACKET_LEN, head: HEAD_LEN, piece: 0 };
    for (const [name, size] of Object.entries(sizes)) {
        place[name] = next;
        next += Math.ceil(size / 64) * 64;
    }
    growTo(next + HEAD_LEN + CHUNK_LEN);
    setViews();
}

const number64 = (at) => view.getUint32(at + 4, true) * 0x100000000 + view.getUint32(at, true);
/** A time has 96 bits: three words, the lowest first. */
const timeAt = (at) => [0, 1, 2].map((word) => words[at / 4 + word]);
/** The number of nanoseconds from a time to the time at this place. It is exact below 2^53. */
const nanosecondsTo = (first, at) =>
    (words[at / 4 + 2] - first[2]) * 2 ** 64 + (words[at / 4 + 1] - first[1]) * 2 ** 32 + (words[at / 4] - first[0]);

/** A time as the number of nanoseconds since 1970. The reader counts from 2^63 seconds before 1970. */
const nanosecondsSince1970 = (time) => time.reduceRight((number, word) => (number << 32n) + BigInt(word), 0n) - (10n ** 9n << 63n);

/** The text that a call wrote: it returned this length. */
function takeText(len) {
    const text = Number(len);
    return text > TEXT_LEN ? "(a text that is too long)" : new TextDecoder().decode(bytes.slice(place.text, place.text + text));
}

// ---- what is kept of a capture

/** The numbers that are kept of each packet. The event, as the timeline counts it, has several words. */
const COLUMNS = { start: Float64Array, size: Uint32Array, head: Uint32Array, time: Float64Array, len: Uint32Array, verdict: Uint8Array,
    protocol: Uint8Array, source: Uint32Array, destination: Uint32Array, sourcePort: Uint16Array, destinationPort: Uint16Array,
    conversation: Uint32Array, inTunnel: Uint8Array, event: Uint32Array };
const EVENT_WORDS = EVENT.size / 4;

/** Numbers keys in the order in which they first come, from 1 on. A key has a fixed number of words. */
class KeyNumbers {
    constructor(width) {
        this.width = width;
        this.count = 0;
        /** The key that is looked for. */
        this.key = new Uint32Array(width);
        this.keys = new Uint32Array(width * 512);
        /** Each slot has the number of a key, or 0. They are a power of two, and half of them stay free. */
        this.slots = new Uint32Array(1024);
        // They are random, so that no capture can be prepared whose keys share their slots.
        this.factors = crypto.getRandomValues(new Uint32Array(width)).map((factor) => factor | 1);
    }

    /** The number of `key`, which is numbered if it is new. */
    numberOfKey() {
        for (let slot = this.slotOf(this.key, 0); ; slot = (slot + 1) & (this.slots.length - 1)) {
            const number = this.slots[slot];
            if (number === 0) return this.add(slot);
            if (this.isKey(number)) return number;
        }
    }

    /** The slot at which the search for the key at this place begins. */
    slotOf(keys, at) {
        const { factors, width } = this;
        let hash = 0;
        for (let word = 0; word < width; word += 1) {
            const mixed = Math.imul(keys[at + word] ^ hash, factors[word]);
            hash = mixed ^ mixed >>> 15;
        }
        return hash & (this.slots.length - 1);
    }

    /** Whether the key with this number is `key`. */
    isKey(number) {
        const { key, keys, width } = this;
        const at = (number - 1) * width;
        for (let word = 0; word < width; word += 1) if (keys[at + word] !== key[word]) return false;
        return true;
    }

    /** Numbers `key`, which is new and whose search ended at this slot. */
    add(slot) {
        if (2 * this.count >= this.slots.length) {
            this.grow();
            return this.numberOfKey();
        }
        this.keys.set(this.key, this.count * this.width);
        this.count += 1;
        this.slots[slot] = this.count;
        return this.count;
    }

    grow() {
        const { keys, slots, width } = this;
        this.keys = new Uint32Array(2 * keys.length);
        this.keys.set(keys);
        this.slots = new Uint32Array(2 * slots.length);
        for (let number = 1; number <= this.count; number += 1) {
            let slot = this.slotOf(keys, (number - 1) * width);
            while (this.slots[slot] !== 0) slot = (slot + 1) & (this.slots.length - 1);
            this.slots[slot] = number;
        }
    }

    memory() {
        return this.keys.byteLength + this.slots.byteLength;
    }
}

let capture;

class Capture {
    constructor(name, source, options) {
        this.name = name;
        this.source = source;
        this.options = options;
        this.count = 0;
        this.room = 0;
        this.values = {};
        this.grow();
        this.heads = [new Uint8Array(0)];
        this.head = 0;
        this.offset = 0;
        this.first = undefined;
        this.firstAt = -1;
        this.addresses = [""];
        this.addressKeys = new KeyNumbers(5);
        this.conversations = [null];
        this.conversationKeys = new KeyNumbers(4);
        this.verdicts = new Map();
        this.protocols = new Map();
        this.status = Status.FULL;
        this.error = "";
        /** Whether packets follow that were not read. */
        this.isShort = false;
        this.facts = "";
    }

    memory() {
        const columns = Object.values(this.values).reduce((sum, column) => sum + column.byteLength, 0);
        const keys = this.addressKeys.memory() + this.conversationKeys.memory();
        return columns + keys + memory.buffer.byteLength + (this.addresses.length + this.conversations.length) * 120;
    }

    /** The number of the address at this place. The bytes after an IPv4 address are 0. */
    addressAt(version, at) {
        const { key } = this.addressKeys;
        key[0] = version;
        for (let word = 0; word < 4; word += 1) key[word + 1] = view.getUint32(at + 4 * word);
        const id = this.addressKeys.numberOfKey();
        if (id === this.addresses.length) this.addresses.push(addressText(version, bytes.subarray(at, at + 16)));
        return id;
    }

    /** The number of the conversation between two ends, whichever of them is the source. */
    conversationOf(protocol, source, sourcePort, destination, destinationPort) {
        const isForward = source < destination || (source === destination && sourcePort <= destinationPort);
        const { key } = this.conversationKeys;
        key[0] = protocol;
        key[1] = isForward ? source : destination;
        key[2] = isForward ? destination : source;
        key[3] = isForward ? sourcePort << 16 | destinationPort : destinationPort << 16 | sourcePort;
        const id = this.conversationKeys.numberOfKey();
        if (id === this.conversations.length) {
            this.conversations.push({ protocol, ends: [key[1], key[3] >>> 16, key[2], key[3] & 0xffff] });
        }
        return id;
    }

    /** Nanoseconds from the first packet with a time to the packet of the row at this place, for ranges. NaN if its time is not known. */
    nanosecondsTo(at) {
        if (bytes[at + ROW.event + EVENT.hasTime] === 0) return NaN;
        const timePlace = at + ROW.event + EVENT.time;
        if (this.first === undefined) {
            this.first = { raw: bytes.slice(at + ROW.time, at + ROW.time + TIME.size), time: timeAt(timePlace) };
            this.firstAt = this.count;
        }
        return nanosecondsTo(this.first.time, timePlace);
    }

    /** Keeps the row at this place. Its packet begins after `start` bytes of the file, and has `size` bytes there. */
    keep(at, start, size) {
        const row = this.count;
        if (row >= this.room) this.grow();
        const { values } = this;
        const [version, protocol] = [bytes[at + ROW.version], bytes[at + ROW.protocol]];
        const source = version ? this.addressAt(version, at + ROW.source) : 0;
        const destination = bytes[at + ROW.hasDestination] ? this.addressAt(version, at + ROW.destination) : 0;
        const sourcePort = view.getUint16(at + ROW.sourcePort, true);
        const destinationPort = view.getUint16(at + ROW.destinationPort, true);
        const hasFlow = bytes[at + ROW.hasFlow] !== 0;
        values.start[row] = start;
        values.size[row] = size;
        values.head[row] = this.head;
        values.time[row] = this.nanosecondsTo(at);
        values.len[row] = number64(at + ROW.event + EVENT.len);
        for (let word = 0; word < EVENT_WORDS; word += 1) values.event[row * EVENT_WORDS + word] = words[(at + ROW.event) / 4 + word];
        values.verdict[row] = bytes[at + ROW.verdict];
        values.protocol[row] = protocol;
        values.source[row] = source;
        values.destination[row] = destination;
        values.sourcePort[row] = sourcePort;
        values.destinationPort[row] = destinationPort;
        values.inTunnel[row] = bytes[at + ROW.inTunnel];
        values.conversation[row] = hasFlow ? this.conversationOf(protocol, source, sourcePort, destination, destinationPort) : 0;
        this.count += 1;
    }

    grow() {
        this.room = Math.min(MAX_PACKETS, Math.max(65536, this.room * 2));
        for (const [field, Type] of Object.entries(COLUMNS)) {
            const grown = new Type(this.room * (field === "event" ? EVENT_WORDS : 1));
            if (this.values[field]) grown.set(this.values[field]);
            this.values[field] = grown;
        }
    }
}

function addressText(version, address) {
    if (version === 4) return address.subarray(0, 4).join(".");
    const groups = Array.from({ length: 8 }, (_, group) => (address[2 * group] << 8 | address[2 * group + 1]).toString(16));
    const zeros = [...groups.join(" ").matchAll(/\b0( 0)+\b/g)].map((match) => match[0]);
    const longest = zeros.reduce((best, found) => (found.length > best.length ? found : best), "");
    if (!longest) return groups.join(":");
    const [front, ...back] = groups.join(" ").split(longest);
    return `${front.trim().replaceAll(" ", ":")}::${back.join(longest).trim().replaceAll(" ", ":")}`;
}

/** The IP version and the bytes of an address. `undefined` if the text is not an address. */
function addressIn(text) {
    if (/^(0|[1-9]\d{0,2})(\.(0|[1-9]\d{0,2})){3}$/.test(text)) {
        const octets = text.split(".").map(Number);
        return octets.every((octet) => octet < 256) ? { version: 4, octets } : undefined;
    }
    if (!/^[0-9a-f:.]+$/i.test(text) || !URL.canParse(`http://[${text}]/`)) return undefined;
    // A URL has its address in groups of hex digits, without a dot.
    const [front, back] = new URL(`http://[${text}]/`).hostname.slice(1, -1).split("::").map((part) => (part ? part.split(":") : []));
    const groups = [...front, ...new Array(8 - front.length - (back ?? []).length).fill("0"), ...(back ?? [])].map((group) => parseInt(group, 16));
    return { version: 6, octets: groups.flatMap((group) => [group >> 8, group & 0xff]) };
}

/** An address as the page shows it. `undefined` if the text is not an address. */
function address({ text }) {
    const found = addressIn(text);
    return found && addressText(found.version, Uint8Array.from(found.octets));
}

// ---- reading

let isStopped = false;

/** The parts of a file, one after the other. The next parts are read while the page works on one. */
class Chunks {
    constructor(source) {
        this.source = source;
        this.end = 0;
        this.ahead = [];
        for (let chunk = 0; chunk < CHUNKS_AHEAD; chunk += 1) this.readAhead();
    }

    readAhead() {
        if (this.end >= this.source.size) return;
        const start = this.end;
        this.end = Math.min(start + CHUNK_LEN, this.source.size);
        const chunk = this.source.slice(start, this.end).arrayBuffer();
        // Only the part that is taken fails.
        chunk.catch(() => {});
        this.ahead.push(chunk);
    }

    /** The next part, or `undefined` at the end of the file. */
    async next() {
        const chunk = await this.ahead.shift();
        this.readAhead();
        return chunk && new Uint8Array(chunk);
    }
}

/**
 * Puts these unused bytes, and those that follow them in the file, to the place of the piece, behind the room for a head. They are at least
 * `len` bytes, unless the file ends. Returns how many they are.
 */
async function readChunk(chunks, unused, len) {
    const parts = [unused];
    let chunkLen = unused.length;
    while (chunkLen < len) {
        const part = await chunks.next();
        if (part === undefined) break;
        parts.push(part);
        chunkLen += part.length;
    }
    growTo(place.piece + HEAD_LEN + chunkLen);
    let at = place.piece + HEAD_LEN;
    for (const part of parts) {
        bytes.set(part, at);
        at += part.length;
    }
    return chunkLen;
}

/** Puts a head before the bytes at this place, and returns where the piece begins. */
function putHead(at, head) {
    bytes.set(head, at - head.length);
    return at - head.length;
}

/** A call that reads a piece. Every call of this kind takes the buffer for a packet after it. */
function read(call, at, len, ...others) {
    return calls[call](BigInt(at), BigInt(len), BigInt(place.buffer), BigInt(PACKET_LEN), ...others);
}

function textOf(call, at, len, ...others) {
    return takeText(read(call, at, len, ...others, BigInt(place.text), BigInt(TEXT_LEN)));
}

function fillRows(at, len, rows) {
    read("report_page_rows", at, len, udpTunnels(), BigInt(place.rows), BigInt(rows), BigInt(place.end));
    return {
        count: number64(place.end + END.count),
        offset: number64(place.end + END.offset),
        requiredLen: number64(place.end + END.requiredLen),
        status: view.getUint32(place.end + END.status, true),
        isPcapng: view.getUint32(place.end + END.isPcapng, true) === 1,
    };
}

const udpTunnels = () => (capture.options.udpTunnels ? 1 : 0);

/** The head of the next piece, after the first `len` bytes of a piece. */
function headAfter(at, len, isPcapng) {
    if (!isPcapng) return bytes.slice(at, at + CLASSIC_HEAD_LEN);
    const head = Number(calls.report_page_head(BigInt(at), BigInt(len), BigInt(place.head), BigInt(HEAD_LEN)));
    if (head === 0) throw new Error("the interfaces of a section need more memory than the page has for them");
    return bytes.slice(place.head, place.head + head);
}

const isSame = (one, other) => one.length === other.length && one.every((byte, at) => byte === other[at]);

/** Keeps the rows that were filled. The bytes after the head are at `at`, and begin after `offset` bytes of the file. */
function keepRows(head, at, offset, count) {
    let start = 0;
    for (let row = 0; row < count && capture.count < MAX_PACKETS; row += 1) {
        const rowAt = place.rows + row * ROW.size;
        const size = number64(rowAt + ROW.end) - head.length - start;
        capture.keep(rowAt, offset + start, size);
        nameRow(bytes[rowAt + ROW.verdict], bytes[rowAt + ROW.protocol], head, at + start, size);
        start += size;
    }
    return start;
}

/** Asks for the names of a verdict and a protocol, if they are new: those of the packet at this place. */
function nameRow(verdict, protocol, head, at, size) {
    if (capture.verdicts.has(verdict) && capture.protocols.has(protocol)) return;
    const pieceAt = putHead(at, head);
    const [verdictWord, protocolWord] = textOf("report_page_words", pieceAt, head.length + size, udpTunnels()).split("\n");
    capture.verdicts.set(verdict, verdictWord);
    capture.protocols.set(protocol, protocolWord);
}

/** The text of the error that refuses what is at this place, which begins after `offset` bytes of the file. */
function refusalText(head, at, offset, chunkEnd) {
    const pieceAt = putHead(at, head);
    view.setBigUint64(place.cut, BigInt(head.length), true);
    view.setBigUint64(place.cut + 8, BigInt(offset), true);
    return textOf("report_page_refusal", pieceAt, chunkEnd - pieceAt, BigInt(place.cut));
}

/** The text of the error for a record or block that the file ends in. */
function cutOffText(requiredLen) {
    const numbers = [capture.count + 1, capture.offset, requiredLen, capture.source.size - capture.offset];
    numbers.forEach((number, field) => view.setBigUint64(place.cut + 8 * field, BigInt(number), true));
    return takeText(calls.report_page_cut_off(BigInt(place.cut), BigInt(place.text), BigInt(TEXT_LEN)));
}

/** Reads the pieces in a chunk. Returns the length of the next chunk, or 0 after the last one. */
function readPieces(chunkLen, isLast) {
    const chunkEnd = place.piece + HEAD_LEN + chunkLen;
    let at = place.piece + HEAD_LEN;
    let most = ROWS;
    for (;;) {
        const head = capture.heads[capture.head];
        const pieceAt = putHead(at, head);
        const end = fillRows(pieceAt, chunkEnd - pieceAt, most);
        if (end.status === Status.BEGINNING_REFUSED) return endWith(refusalText(head, at, capture.offset, chunkEnd));
        const nextHead = headAfter(pieceAt, end.offset, end.isPcapng);
        const isNewHead = !isSame(nextHead, head);
        if (isNewHead && end.count > 1) {
            // Every row needs the head at its start. So the rows are read again, up to where the head changes.
            most = end.count >> 1;
            continue;
        }
        most = Math.min(ROWS, most * 2);
        const kept = keepRows(head, at, capture.offset, end.count);
        if (end.status === Status.REFUSED) {
            // Interfaces that are described before the last row count too.
            const lastHead = kept === 0 ? head : headAfter(pieceAt, head.length + kept, end.isPcapng);
            return endWith(refusalText(lastHead, at + kept, capture.offset + kept, chunkEnd));
        }
        if (isNewHead) capture.head = capture.heads.push(nextHead) - 1;
        at += end.offset - head.length;
        capture.offset += end.offset - head.length;
        if (capture.count >= MAX_PACKETS) return endEarly(`The page keeps ${MAX_PACKETS.toLocaleString("en")} packets, and reads no more.`);
        if (end.status === Status.FULL) continue;
        return afterPiece(end, isLast);
    }
}

/** What follows a piece with no further packet. */
function afterPiece(end, isLast) {
    if (end.status === Status.FAILED) return endWith("Reading failed.");
    if (end.status === Status.END) return isLast ? endWith("") : CHUNK_LEN;
    const isCutOff = isLast || capture.offset + end.requiredLen > capture.source.size;
    if (isCutOff) return endWith(cutOffText(end.requiredLen));
    if (end.requiredLen > MAX_CHUNK_LEN) return endEarly(`A record of ${end.requiredLen} bytes is longer than the page reads.`);
    return Math.max(CHUNK_LEN, end.requiredLen);
}

function endWith(error) {
    capture.error = error;
    return 0;
}

function endEarly(error) {
    capture.isShort = true;
    return endWith(error);
}

/** The facts of the capture: of the head after the packets. */
function takeFacts() {
    const head = capture.heads[capture.head];
    if (head.length === 0) return "";
    growTo(place.piece + HEAD_LEN);
    const pieceAt = putHead(place.piece + HEAD_LEN, head);
    return textOf("report_page_facts", pieceAt, head.length);
}

async function readCapture() {
    const chunks = new Chunks(capture.source);
    let unused = new Uint8Array(0);
    let told = 0;
    let len = CHUNK_LEN;
    while (len > 0 && !isStopped) {
        const start = capture.offset;
        const chunkLen = await readChunk(chunks, unused, len);
        len = readPieces(chunkLen, start + chunkLen >= capture.source.size);
        const at = place.piece + HEAD_LEN;
        unused = bytes.slice(at + capture.offset - start, at + chunkLen);
        if (performance.now() - told > 100) {
            told = performance.now();
            postMessage({ kind: "progress", read: capture.offset, size: capture.source.size, count: capture.count, memory: capture.memory() });
        }
    }
    if (isStopped && len > 0) endEarly("Reading was stopped. The numbers are those of the packets before.");
    capture.facts = takeFacts();
}

/** The command that decompresses a file. `undefined` if the file is not compressed. */
async function decompressorOf(file) {
    const start = new Uint8Array(await file.slice(0, 4).arrayBuffer());
    if (start[0] === 0x1f && start[1] === 0x8b) return "gzip";
    if (start[0] === 0x28 && start[1] === 0xb5 && start[2] === 0x2f && start[3] === 0xfd) return "zstd";
    return undefined;
}

/** The bytes of a compressed file, without compression, or the file itself. */
async function sourceOf(file, decompressor) {
    if (decompressor === undefined) return file;
    let stream;
    try {
        stream = new DecompressionStream(decompressor);
    } catch {
        throw new Error("This browser can't decompress the file. Decompress it, and open the result.");
    }
    let read = 0;
    const counted = new TransformStream({
        transform(chunk, controller) {
            if (isStopped) controller.error(new Error("Reading was stopped while the file was decompressed."));
            read += chunk.length;
            postMessage({ kind: "progress", read, size: file.size, count: 0, memory: 0 });
            controller.enqueue(chunk);
        },
    });
    return new Response(file.stream().pipeThrough(counted).pipeThrough(stream)).blob();
}

async function open({ file, options }) {
    isStopped = false;
    const decompressor = await decompressorOf(file);
    capture = new Capture(file.name, await sourceOf(file, decompressor), options);
    try {
        await readCapture();
        // Room for the events of all packets, for the timeline.
        growTo(place.piece + capture.count * EVENT.size);
    } catch (reason) {
        capture.error = String(reason.message ?? reason);
    }
    const named = (names) => Object.fromEntries(names);
    return {
        name: file.name, size: file.size, count: capture.count, facts: capture.facts, error: capture.error, memory: capture.memory(),
        verdicts: named(capture.verdicts), protocols: named(capture.protocols), series: seriesWords(),
        firstTime: capture.first && nanosecondsSince1970(capture.first.time), decompressor, options, isShort: capture.isShort,
    };
}

// ---- what is shown

let selection = new Uint32Array(0);

/** The condition that a filter sets on everything except the host, the port and the time: a function of a row. */
function basicCondition(filter) {
    const { verdict, protocol, source, destination, conversation } = capture.values;
    const verdicts = filter.verdicts && new Set(filter.verdicts);
    const ends = filter.between && new Set(filter.between.map((host) => capture.addresses.indexOf(host)));
    return (row) =>
        (!verdicts || verdicts.has(verdict[row])) &&
        (filter.protocol === undefined || protocol[row] === filter.protocol) &&
        (!ends || (ends.has(source[row]) && ends.has(destination[row]))) &&
        (!filter.conversation || conversation[row] === filter.conversation.id);
}

/** The conditions that a host and a port set on the addresses and ports of a row, and whether the packet can match them in another way. */
function endConditions({ host, port }) {
    const { protocol, source, destination, sourcePort, destinationPort, conversation, inTunnel } = capture.values;
    const named = (...names) => new Set([...capture.protocols].filter(([, name]) => names.includes(name)).map(([group]) => group));
    const [errors, portless] = [named("ICMPv4", "ICMPv6"), named("ICMPv4", "ICMPv6", "UDP", "TCP")];
    const id = host ? capture.addresses.indexOf(host) : 0;
    return {
        hasHost: (row) => !host || source[row] === id || destination[row] === id,
        hasPort: (row) => port === undefined || (conversation[row] !== 0 && (sourcePort[row] === port || destinationPort[row] === port)),
        // An ICMP error quotes a packet, and tunnels have ends. A packet has ports without a conversation if its destination is not known.
        canHaveHost: (row) => inTunnel[row] !== 0 || errors.has(protocol[row]),
        canHavePort: (row) => conversation[row] === 0 && portless.has(protocol[row]),
    };
}

/** Puts the host and the port of a filter where the reader expects them. */
function putChoice({ host, port }) {
    bytes.fill(0, place.choice, place.choice + CHOICE.size);
    const found = host && addressIn(host);
    if (found) {
        bytes.set(found.octets, place.choice + CHOICE.host);
        bytes[place.choice + CHOICE.version] = found.version;
    }
    if (port !== undefined) {
        bytes[place.choice + CHOICE.hasPort] = 1;
        view.setUint16(place.choice + CHOICE.port, port, true);
    }
    bytes[place.choice + CHOICE.opensUdpTunnels] = udpTunnels();
}

/** The condition that a filter sets, without the range of times: a function of a row. The reader decides what the page keeps too little of. */
async function conditionOf(filter) {
    const isBasic = basicCondition(filter);
    const { hasHost, hasPort, canHaveHost, canHavePort } = endConditions(filter);
    const asked = [];
    for (let row = 0; row < capture.count; row += 1) {
        if (!isBasic(row) || (hasHost(row) && hasPort(row))) continue;
        if ((hasHost(row) || canHaveHost(row)) && (hasPort(row) || canHavePort(row))) asked.push(row);
    }
    const isChosen = new Uint8Array(asked.length ? capture.count : 0);
    putChoice(filter);
    await visitRecords(asked, (row, record) => {
        const [pieceAt, len] = putPiece(row, record);
        if (read("report_page_chooses", pieceAt, len, BigInt(place.choice)) === CHOSEN) isChosen[row] = 1;
    });
    return (row) => isBasic(row) && ((hasHost(row) && hasPort(row)) || isChosen[row] === 1);
}

/** Calls `visit` with each of these rows, which are in the order of the file, and with the bytes of its record or block. */
async function visitRecords(rows, visit) {
    const { source, values: { start, size } } = capture;
    const endOf = (at) => start[rows[at]] + size[rows[at]];
    for (let at = 0; at < rows.length;) {
        const from = start[rows[at]];
        let next = at + 1;
        while (next < rows.length && endOf(next) - from <= CHUNK_LEN) next += 1;
        const chunk = new Uint8Array(await source.slice(from, endOf(next - 1)).arrayBuffer());
        for (; at < next; at += 1) visit(rows[at], chunk.subarray(start[rows[at]] - from, endOf(at) - from));
    }
}

/** Makes a piece of the head of a row and the bytes of its record or block. Returns where the piece begins, and its length. */
function putPiece(row, record) {
    const head = capture.heads[capture.values.head[row]];
    growTo(place.piece + HEAD_LEN + record.length);
    bytes.set(record, place.piece + HEAD_LEN);
    return [putHead(place.piece + HEAD_LEN, head), head.length + record.length];
}

/** The condition that the range of times of a filter sets, in seconds: a function of a row. */
function timeCondition(filter) {
    const { time } = capture.values;
    const [from, to] = [filter.from ?? -Infinity, filter.to ?? Infinity].map((seconds) => Math.round(seconds * 1e9));
    const hasRange = filter.from !== undefined || filter.to !== undefined;
    return (row) => !hasRange || (time[row] >= from && time[row] < to);
}

/** How many packets a filter selects. */
async function count({ filter }) {
    const [isMet, isInRange] = [await conditionOf(filter), timeCondition(filter)];
    let total = 0;
    for (let row = 0; row < capture.count; row += 1) if (isMet(row) && isInRange(row)) total += 1;
    return total;
}

/** The counts at this place, each by its name. */
function countsAt(at) {
    const { size, ...places } = COUNTS;
    const countAt = (place) => ({ packets: number64(place), bytes: number64(place + 8) });
    return Object.fromEntries(Object.entries(places).map(([name, start]) => [name, countAt(at + start)]));
}

/** The timeline of these packets, as the reader counts it. Its start is in nanoseconds since the first packet with a time. */
function timelineOf(rows) {
    const { event } = capture.values;
    growTo(place.piece + rows.length * EVENT.size);
    let to = place.piece / 4;
    for (const row of rows) {
        for (let word = 0; word < EVENT_WORDS; word += 1) words[to + word] = event[row * EVENT_WORDS + word];
        to += EVENT_WORDS;
    }
    calls.report_page_timeline(BigInt(place.piece), BigInt(rows.length), BigInt(place.timeline), BigInt(place.intervals));
    const hasStart = number64(place.timeline + TIMELINE.hasStart) === 1;
    const count = number64(place.timeline + TIMELINE.count);
    return {
        start: hasStart ? nanosecondsTo(capture.first.time, place.timeline + TIMELINE.start) : 0,
        width: nanosecondsTo([0, 0, 0], place.timeline + TIMELINE.width),
        intervals: Array.from({ length: count }, (_, at) => countsAt(place.intervals + at * COUNTS.size)),
        older: countsAt(place.timeline + TIMELINE.older),
        untimed: countsAt(place.timeline + TIMELINE.untimed),
    };
}

/** The words for the counts of a timeline. */
function seriesWords() {
    const [udp, tcp, icmp, other, wrong, refused] = takeText(calls.report_page_series(BigInt(place.text), BigInt(TEXT_LEN))).split("\n");
    return { udp, tcp, icmp, other, wrong, refused };
}

class Counts {
    constructor(length) {
        this.packets = new Float64Array(length);
        this.bytes = new Float64Array(length);
    }
    add(place, len) {
        this.packets[place] += 1;
        this.bytes[place] += len;
    }
    /** The places with packets, from the greatest number on. */
    ranked(field, from, most) {
        const places = [];
        for (let at = from; at < this.packets.length; at += 1) if (this.packets[at] > 0) places.push(at);
        const values = this[field] ?? this.packets;
        return places.sort((one, other) => values[other] - values[one] || one - other).slice(0, most);
    }
}

const GROUPS = 256;

async function show({ filter, sorts }) {
    const { count } = capture;
    const { len, verdict, protocol, source, destination, conversation } = capture.values;
    const [isMet, isInRange] = [await conditionOf(filter), timeCondition(filter)];
    const [verdicts, protocols, conversations] = [new Counts(GROUPS), new Counts(GROUPS), new Counts(capture.conversations.length)];
    const endpoints = new Counts(capture.addresses.length);
    const [met, chosen] = [new Uint32Array(count), new Uint32Array(count)];
    let [metCount, total, totalBytes] = [0, 0, 0];
    for (let row = 0; row < count; row += 1) {
        if (!isMet(row)) continue;
        met[metCount] = row;
        metCount += 1;
        if (!isInRange(row)) continue;
        chosen[total] = row;
        total += 1;
        totalBytes += len[row];
        verdicts.add(verdict[row], len[row]);
        protocols.add(protocol[row], len[row]);
        if (conversation[row]) conversations.add(conversation[row], len[row]);
        if (source[row]) endpoints.add(source[row], len[row]);
        if (destination[row] && destination[row] !== source[row]) endpoints.add(destination[row], len[row]);
    }
    selection = chosen.slice(0, total);
    const tableOf = (counts, field, from, rowOf) =>
        counts.ranked(field, from, SHOWN).map((at) => ({ ...rowOf(at), packets: counts.packets[at], bytes: counts.bytes[at] }));
    const end = (address, port) => (capture.addresses[address].includes(":") ? `[${capture.addresses[address]}]:${port}` : `${capture.addresses[address]}:${port}`);
    return {
        total, totalBytes, all: count,
        verdicts: tableOf(verdicts, "packets", 0, (at) => ({ group: at })),
        protocols: tableOf(protocols, sorts.protocols, 0, (at) => ({ group: at, name: capture.protocols.get(at) })),
        conversations: tableOf(conversations, sorts.conversations, 1, (at) => {
            const { protocol: number, ends } = capture.conversations[at];
            return { id: at, protocol: number, hosts: [capture.addresses[ends[0]], capture.addresses[ends[2]]], ports: [ends[1], ends[3]],
                name: `${capture.protocols.get(number)} ${end(ends[0], ends[1])} <> ${end(ends[2], ends[3])}` };
        }),
        endpoints: tableOf(endpoints, sorts.endpoints, 1, (at) => ({ host: capture.addresses[at], name: capture.addresses[at] })),
        conversationCount: conversations.packets.reduce((sum, packets) => sum + (packets > 0), 0),
        endpointCount: endpoints.packets.reduce((sum, packets) => sum + (packets > 0), 0),
        timeline: timelineOf(met.subarray(0, metCount)),
    };
}

/** The line of a packet, from the bytes of its record or block. */
function lineOf(row, record, options) {
    const [pieceAt, len] = putPiece(row, record);
    bytes.fill(0, place.line, place.line + LINE.size);
    view.setBigUint64(place.line + LINE.number, BigInt(row + 1), true);
    if (capture.first && row > capture.firstAt) bytes.set(capture.first.raw, place.line + LINE.first);
    bytes[place.line + LINE.isAbsolute] = options.absolute ? 1 : 0;
    bytes[place.line + LINE.isVerbose] = options.verbose ? 1 : 0;
    bytes[place.line + LINE.opensUdpTunnels] = udpTunnels();
    return textOf("report_page_line", pieceAt, len, BigInt(place.line));
}

/** The lines of the chosen packets from one place in their list to another. */
async function lines({ from, to, options }) {
    const found = [];
    await visitRecords(selection.subarray(from, to), (row, record) => {
        found.push({ line: lineOf(row, record, options), verdict: capture.values.verdict[row], number: row + 1 });
    });
    return found;
}

/** A file with the lines of all chosen packets. */
async function linesFile({ options }) {
    const saved = capture;
    const parts = [];
    let part = "";
    await visitRecords(selection, (row, record) => {
        if (capture !== saved) throw new Error("another capture was opened.");
        part += lineOf(row, record, options);
        if (part.length < CHUNK_LEN) return;
        parts.push(new Blob([part]));
        part = "";
    });
    return new Blob([...parts, part], { type: "text/plain" });
}

// ---- messages

const answers = { load: ({ module }) => load(module), open, show, lines, linesFile, count, address, stop: () => { isStopped = true; } };

async function answer(data) {
    try {
        postMessage({ id: data.id, answer: await answers[data.kind](data) });
    } catch (reason) {
        postMessage({ id: data.id, failure: String(reason.message ?? reason) });
    }
}

/** What needs no turn: `stop`, and a file of lines, which can take long. */
const AT_ONCE = ["stop", "linesFile"];
/** Other questions are answered one after the other, since they change the capture or what is chosen of it. */
let last = Promise.resolve();
onmessage = ({ data }) => {
    if (AT_ONCE.includes(data.kind)) answer(data);
    else last = last.then(() => answer(data));
};
