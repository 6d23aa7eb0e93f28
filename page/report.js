// The page: what is shown, and what is chosen. The worker reads the capture and counts.
"use strict";

const find = (id) => document.getElementById(id);
const thousands = new Intl.NumberFormat("en");
const SVG = "http://www.w3.org/2000/svg";
const LINE_HEIGHT = 20;
/** Browsers limit the height of an element. A longer list is scrolled by parts of this height. */
const MAX_HEIGHT = 8_000_000;
const CHART = { width: 1000, height: 180 };
const COLOURS = 11;
/** A module with a 64-bit memory, and nothing else. */
const ONLY_MEMORY64 = new Uint8Array([0, 0x61, 0x73, 0x6d, 1, 0, 0, 0, 5, 3, 1, 4, 0]);

// ---- the worker

let worker;
const waiting = new Map();
let lastId = 0;

function ask(kind, more = {}, transfer = []) {
    lastId += 1;
    const id = lastId;
    return new Promise((resolve, reject) => {
        waiting.set(id, { resolve, reject });
        worker.postMessage({ kind, id, ...more }, transfer);
    });
}

function heard({ data }) {
    if (data.kind === "progress") return showProgress(data);
    const { resolve, reject } = waiting.get(data.id);
    waiting.delete(data.id);
    if (data.failure === undefined) resolve(data.answer);
    else reject(new Error(data.failure));
}

async function startWorker() {
    if (typeof WebAssembly !== "object" || !WebAssembly.validate(ONLY_MEMORY64)) {
        throw new Error("This browser has no 64-bit memories of WebAssembly. Use Chrome 133, Firefox 134, or a later version.");
    }
    const url = URL.createObjectURL(new Blob([find("worker").textContent], { type: "text/javascript" }));
    worker = new Worker(url);
    worker.onmessage = heard;
    const module = Uint8Array.from(atob(find("module").textContent), (character) => character.charCodeAt(0));
    await ask("load", { module }, [module.buffer]);
}

// ---- the state

/** The capture that is shown, the filter on its packets, and what the worker counted with this filter. */
const state = { capture: undefined, filter: {}, shown: undefined };
/** The verdicts of the packets that the option `--wrong` of the program selects. */
const FAULTS = ["wrong", "refused"];
const sorts = { protocols: "packets", conversations: "packets", endpoints: "packets" };
const orders = { protocols: "descending", conversations: "descending", endpoints: "descending" };

function element(tag, properties = {}, ...children) {
    const made = Object.assign(document.createElement(tag), properties);
    made.append(...children);
    return made;
}

function sizeText(size) {
    if (size < 1000) return `${size} bytes`;
    const rounded = Number(size.toPrecision(3));
    const power = Math.min(4, Math.floor(Math.log10(rounded) / 3));
    return `${(rounded / 1000 ** power).toPrecision(3)} ${["", "kB", "MB", "GB", "TB"][power]}`;
}

const secondsText = (seconds) => `${Number(seconds.toFixed(9))} s`;

function showError(text) {
    find("error").textContent = text;
    find("error").hidden = text === "";
}

function showProgress({ read, size, count, memory }) {
    find("progress").value = size ? read / size : 1;
    const kept = memory ? `, ${sizeText(memory)} of memory` : "";
    find("progress-text").textContent = `${sizeText(read)} of ${sizeText(size)}, ${thousands.format(count)} packets${kept}`;
}

let opening = 0;

async function open(file) {
    opening += 1;
    const turn = opening;
    if (document.body.dataset.state === "reading") ask("stop");
    showError("");
    find("report").hidden = true;
    find("reading").hidden = false;
    showProgress({ read: 0, size: file.size, count: 0, memory: 0 });
    document.body.dataset.state = "reading";
    try {
        const capture = await ask("open", { file, options: { udpTunnels: find("udp-tunnels").checked } });
        if (turn !== opening) return;
        state.capture = capture;
        await showCapture();
    } catch (reason) {
        if (turn === opening) showError(reason.message);
    }
    if (turn !== opening) return;
    find("reading").hidden = true;
    document.body.dataset.state = "ready";
}

async function showCapture() {
    showError(state.capture.error);
    if (state.capture.count === 0 && state.capture.facts === "") return;
    document.title = `${state.capture.name}: capture report`;
    find("capture-title").textContent = state.capture.name;
    find("capture-text").textContent =
        `${sizeText(state.capture.size)}, ${thousands.format(state.capture.count)} packets. The page uses about ${sizeText(state.capture.memory)} of memory.`;
    find("facts").textContent = state.capture.facts;
    fillChoices("protocol", state.capture.protocols);
    fillChoices("verdict", state.capture.verdicts);
    const faults = groupsNamed(state.capture.verdicts, FAULTS);
    if (faults.length > 1) find("verdict").append(element("option", { value: String(faults), textContent: FAULTS.join(" or ") }));
    find("timeline-section").hidden = state.capture.firstTime === undefined;
    find("report").hidden = false;
    state.filter = {};
    await update();
}

function fillChoices(id, names) {
    const options = Object.entries(names).map(([group, name]) => element("option", { value: group, textContent: name }));
    find(id).replaceChildren(element("option", { value: "", textContent: "any" }), ...options);
}

/** The numbers of these names. */
function groupsNamed(names, wanted) {
    return Object.entries(names).filter(([, name]) => wanted.includes(name)).map(([group]) => Number(group));
}

/** Counts and shows the packets of the filter. */
async function update() {
    hideCommand();
    state.shown = await ask("show", { filter: state.filter, sorts });
    showFilter();
    showVerdicts();
    showTimeline();
    for (const name of Object.keys(sorts)) showTable(name);
    startLines();
}

// ---- the filter

function choose(changes) {
    state.filter = Object.fromEntries(Object.entries({ ...state.filter, ...changes }).filter(([, value]) => value !== undefined && value !== ""));
    return update();
}

function showFilter() {
    find("host").value = state.filter.host ?? "";
    find("port").value = state.filter.port ?? "";
    find("protocol").value = state.filter.protocol ?? "";
    find("verdict").value = String(state.filter.verdicts ?? "");
    find("from").value = state.filter.from ?? "";
    find("to").value = state.filter.to ?? "";
    const conversation = state.filter.conversation ? ` Conversation: ${state.filter.conversation.name}.` : "";
    find("filter-text").textContent =
        `${thousands.format(state.shown.total)} of ${thousands.format(state.shown.all)} packets, ${sizeText(state.shown.totalBytes)}.${conversation}`;
}

function numberIn(id) {
    const text = find(id).value.trim();
    const number = Number(text);
    find(id).setCustomValidity(text !== "" && !Number.isFinite(number) ? "This is not a number." : "");
    return text === "" ? undefined : number;
}

function portIn(id) {
    const port = numberIn(id);
    if (port !== undefined && !(Number.isInteger(port) && port >= 0 && port <= 65535)) find(id).setCustomValidity("A port is a number from 0 to 65535.");
    return port;
}

/** The address in a field, as the page shows addresses. */
async function addressIn(id) {
    const text = find(id).value.trim();
    const address = text === "" ? undefined : await ask("address", { text });
    find(id).setCustomValidity(text !== "" && address === undefined ? "This is not an IPv4 or IPv6 address." : "");
    return address;
}

find("filter").addEventListener("submit", async (event) => {
    event.preventDefault();
    const groups = (id) => (find(id).value === "" ? undefined : find(id).value.split(",").map(Number));
    const ends = { host: await addressIn("host"), port: portIn("port") };
    const times = { from: numberIn("from"), to: numberIn("to") };
    if (find("filter").reportValidity()) choose({ protocol: groups("protocol")?.[0], verdicts: groups("verdict"), ...ends, ...times });
});
for (const id of ["host", "port", "from", "to"]) find(id).addEventListener("input", () => find(id).setCustomValidity(""));
find("reset").addEventListener("click", () => {
    state.filter = {};
    update();
});

// ---- verdicts

const colour = (group) => `var(--g${group % COLOURS})`;

function showVerdicts() {
    const counts = new Map(state.shown.verdicts.map(({ group, packets }) => [group, packets]));
    const tiles = Object.entries(state.capture.verdicts).map(([key, name]) => {
        const group = Number(key);
        const isChosen = state.filter.verdicts?.includes(group) ?? false;
        const tile = element("button", { type: "button", className: "tile" },
            element("strong", { textContent: thousands.format(counts.get(group) ?? 0) }), element("span", { textContent: name }));
        tile.style.borderLeftColor = colour(group);
        tile.dataset.verdict = name;
        tile.setAttribute("aria-pressed", isChosen);
        tile.addEventListener("click", () => choose({ verdicts: isChosen ? undefined : [group] }));
        return tile;
    });
    find("verdicts").replaceChildren(...tiles);
}

// ---- the timeline

function svg(tag, attributes) {
    const made = document.createElementNS(SVG, tag);
    for (const [name, value] of Object.entries(attributes)) made.setAttribute(name, value);
    return made;
}

/** The parts that the heights are split into, from below. Packets without a fault are neither wrong nor refused. */
const SERIES = { verdicts: ["faultless", "wrong", "refused"], protocols: ["udp", "tcp", "icmp", "other"] };
const FAULTLESS_COLOUR = 3;
const SECOND = 1e9;

/** The number of packets or bytes of one part, for some counts of the reader. */
function measured(counts, name, measure) {
    return name === "faultless" ? counts.total[measure] - counts.wrong[measure] - counts.refused[measure] : counts[name][measure];
}

function showTimeline() {
    const { intervals } = state.shown.timeline;
    const [measure, split] = [find("measure").value, find("split").value];
    const words = { ...state.capture.series, faultless: state.capture.series.other };
    const series = SERIES[split].filter((name) => intervals.some((counts) => measured(counts, name, "packets") > 0));
    // A fault has the colour of its tile.
    const colourOf = (name) => {
        if (split === "protocols") return colour(series.indexOf(name));
        return colour(groupsNamed(state.capture.verdicts, [words[name]])[0] ?? FAULTLESS_COLOUR);
    };
    const greatest = Math.max(1, ...intervals.map((counts) => counts.total[measure]));
    const step = CHART.width / Math.max(1, intervals.length);
    const below = intervals.map(() => 0);
    const paths = series.map((name) => {
        let path = "";
        intervals.forEach((counts, at) => {
            const value = measured(counts, name, measure);
            if (value === 0) return;
            const height = Math.max(0.5, value / greatest * (CHART.height - 6));
            path += `M${(at * step).toFixed(2)} ${(CHART.height - below[at]).toFixed(2)}h${Math.max(0.6, step - 0.4).toFixed(2)}v${(-height).toFixed(2)}h${(-Math.max(0.6, step - 0.4)).toFixed(2)}z`;
            below[at] += height;
        });
        const drawn = svg("path", { d: path });
        drawn.style.fill = colourOf(name);
        return drawn;
    });
    find("timeline").replaceChildren(...paths, svg("rect", { class: "range", y: 0, height: CHART.height }), handle("from"), handle("to"));
    find("legend").replaceChildren(...series.map((name) => {
        const key = element("span", { className: "key" });
        key.style.background = colourOf(name);
        return element("span", {}, key, words[name]);
    }));
    placeRange(state.filter.from, state.filter.to);
}

function handle(side) {
    const made = svg("rect", { class: "handle", id: `range-${side}`, width: 6, y: 0, height: CHART.height, tabindex: 0, role: "slider",
        "aria-label": side === "from" ? "Start of the range" : "End of the range", "aria-orientation": "horizontal" });
    made.addEventListener("keydown", (event) => moveHandle(event, side));
    return made;
}

/** The time in seconds so many widths after the start of the chart, and back. */
const timeAfter = (widths) => (state.shown.timeline.start + widths * state.shown.timeline.width) / SECOND;
const widthsTo = (seconds) => (seconds * SECOND - state.shown.timeline.start) / state.shown.timeline.width;
const startOfTime = () => timeAfter(0);
/** Without packets the chart is one interval wide. */
const endOfTime = () => timeAfter(Math.max(1, state.shown.timeline.intervals.length));
const roundedTime = (seconds) => timeAfter(Math.round(widthsTo(seconds)));
const widthInSeconds = () => state.shown.timeline.width / SECOND;

/** How many packets are in no interval. */
function apartText() {
    const { older, untimed } = state.shown.timeline;
    const parts = [[older, "older"], [untimed, "without a time"]].filter(([counts]) => counts.total.packets > 0);
    if (parts.length === 0) return "";
    return `; not in the chart: ${parts.map(([counts, words]) => `${thousands.format(counts.total.packets)} ${words}`).join(", ")}`;
}

function placeRange(from = startOfTime(), to = endOfTime()) {
    const placeOf = (seconds) => (seconds - startOfTime()) / (endOfTime() - startOfTime()) * CHART.width;
    const [left, right] = [placeOf(from), placeOf(to)];
    const range = find("timeline").querySelector(".range");
    range.style.display = from === startOfTime() && to === endOfTime() ? "none" : "";
    range.setAttribute("x", left);
    range.setAttribute("width", Math.max(0, right - left));
    find("range-from").setAttribute("x", Math.min(CHART.width - 6, Math.max(0, left - 3)));
    find("range-to").setAttribute("x", Math.min(CHART.width - 6, Math.max(0, right - 3)));
    for (const [side, value] of [["from", from], ["to", to]]) {
        const slider = find(`range-${side}`);
        slider.setAttribute("aria-valuemin", startOfTime());
        slider.setAttribute("aria-valuemax", endOfTime());
        slider.setAttribute("aria-valuenow", value);
        slider.setAttribute("aria-valuetext", secondsText(value));
    }
    find("range-text").textContent =
        `${secondsText(from)} to ${secondsText(to)} after the first packet, intervals of ${secondsText(widthInSeconds())}${apartText()}`;
}

async function moveHandle(event, side) {
    const steps = { ArrowLeft: -1, ArrowDown: -1, ArrowRight: 1, ArrowUp: 1, PageDown: -10, PageUp: 10 };
    const [from, to] = [state.filter.from ?? startOfTime(), state.filter.to ?? endOfTime()];
    const width = widthInSeconds();
    let value = side === "from" ? from : to;
    if (event.key in steps) value += steps[event.key] * width;
    else if (event.key === "Home") value = startOfTime();
    else if (event.key === "End") value = endOfTime();
    else if (event.key === "Escape") return wholeRange();
    else return;
    event.preventDefault();
    value = roundedTime(value);
    const least = side === "from" ? startOfTime() : roundedTime(from + width);
    const greatest = side === "from" ? roundedTime(to - width) : endOfTime();
    value = Math.max(least, Math.min(greatest, value));
    await choose(side === "from" ? { from: value, to } : { from, to: value });
    find(`range-${side}`).focus();
}

const wholeRange = () => choose({ from: undefined, to: undefined });

let drawn;
const timeAt = (event) => {
    const box = find("timeline").getBoundingClientRect();
    const part = Math.max(0, Math.min(1, (event.clientX - box.left) / box.width));
    return startOfTime() + part * (endOfTime() - startOfTime());
};
find("timeline").addEventListener("pointerdown", (event) => {
    drawn = timeAt(event);
    find("timeline").setPointerCapture(event.pointerId);
});
find("timeline").addEventListener("pointermove", (event) => {
    if (drawn !== undefined) placeRange(Math.min(drawn, timeAt(event)), Math.max(drawn, timeAt(event)));
});
find("timeline").addEventListener("pointerup", (event) => {
    if (drawn === undefined) return;
    const [low, high] = [Math.min(drawn, timeAt(event)), Math.max(drawn, timeAt(event))].map(widthsTo);
    drawn = undefined;
    choose({ from: timeAfter(Math.floor(low)), to: timeAfter(Math.max(Math.floor(low) + 1, Math.ceil(high))) });
});
find("timeline").addEventListener("pointercancel", () => { drawn = undefined; });
find("whole-range").addEventListener("click", wholeRange);
find("measure").addEventListener("change", showTimeline);
find("split").addEventListener("change", showTimeline);

// ---- tables

const FILTERS = {
    protocols: (row) => ({ protocol: state.filter.protocol === row.group ? undefined : row.group }),
    conversations: (row) => ({ conversation: isChosen.conversations(row) ? undefined : row }),
    endpoints: (row) => ({ host: state.filter.host === row.host ? undefined : row.host }),
};
const isChosen = {
    protocols: (row) => state.filter.protocol === row.group,
    conversations: (row) => state.filter.conversation?.id === row.id,
    endpoints: (row) => state.filter.host === row.host,
};

function showTable(name) {
    const field = sorts[name];
    const rows = state.shown[name];
    if (field === "name") rows.sort((one, other) => one.name.localeCompare(other.name, "en", { numeric: true }));
    else rows.sort((one, other) => other[field] - one[field]);
    if (orders[name] === "ascending") rows.reverse();
    const greatest = { packets: Math.max(1, ...rows.map((row) => row.packets)), bytes: Math.max(1, ...rows.map((row) => row.bytes)) };
    const body = element("tbody", {}, ...rows.map((row) => {
        const button = element("button", { type: "button", textContent: row.name });
        button.setAttribute("aria-pressed", isChosen[name](row));
        button.addEventListener("click", () => choose(FILTERS[name](row)));
        const cells = ["packets", "bytes"].map((one) => {
            const bar = element("div", { className: "bar" });
            bar.style.width = `${row[one] / greatest[one] * 100}%`;
            return element("td", { className: "number" }, bar, element("span", { textContent: thousands.format(row[one]) }));
        });
        return element("tr", { className: isChosen[name](row) ? "chosen" : "" }, element("th", { scope: "row" }, button), ...cells);
    }));
    const heads = [["name", "Name"], ["packets", "Packets"], ["bytes", "Bytes"]].map(([one, title]) => {
        const button = element("button", { type: "button", textContent: title });
        button.addEventListener("click", () => sortBy(name, one));
        const head = element("th", { scope: "col" }, button);
        if (one === field) head.setAttribute("aria-sort", orders[name]);
        return head;
    });
    const focus = document.activeElement?.closest?.(`#${name} th button`)?.textContent;
    find(name).replaceChildren(element("thead", {}, element("tr", {}, ...heads)), body);
    if (focus) [...find(name).querySelectorAll("th button")].find((button) => button.textContent === focus)?.focus();
    const count = { conversations: state.shown.conversationCount, endpoints: state.shown.endpointCount }[name];
    if (count > rows.length) body.append(element("tr", {}, element("td", { colSpan: 3, textContent: `${thousands.format(count - rows.length)} more` })));
}

async function sortBy(name, field) {
    orders[name] = sorts[name] === field && orders[name] === "descending" ? "ascending" : "descending";
    if (field === "name" && sorts[name] !== "name") orders[name] = "ascending";
    sorts[name] = field;
    state.shown = await ask("show", { filter: state.filter, sorts });
    showTable(name);
}

// ---- lines

let active = 0;
let drawing = 0;
const list = find("packets");
const rowsInView = () => Math.max(1, Math.floor(list.clientHeight / LINE_HEIGHT));
const lineOptions = () => ({ absolute: find("absolute").checked, verbose: find("verbose").checked });
const spacerHeight = () => Math.min(MAX_HEIGHT, state.shown.total * LINE_HEIGHT);

function startLines() {
    active = 0;
    find("spacer").style.height = `${spacerHeight()}px`;
    list.scrollTop = 0;
    find("packets-text").textContent = `${thousands.format(state.shown.total)} packets`;
    drawLines();
}

/** The first packet in view. A list above the greatest height is scrolled in proportion. */
function firstInView() {
    const room = spacerHeight() - list.clientHeight;
    if (room <= 0) return 0;
    return Math.round(Math.min(1, list.scrollTop / room) * Math.max(0, state.shown.total - rowsInView()));
}

async function drawLines() {
    drawing += 1;
    const turn = drawing;
    const from = firstInView();
    const lines = await ask("lines", { from, to: Math.min(state.shown.total, from + rowsInView() + 1), options: lineOptions() });
    if (turn !== drawing) return;
    const wrong = groupsNamed(state.capture.verdicts, FAULTS);
    find("lines").replaceChildren(...lines.map(({ line, verdict, number }, at) => {
        const made = element("div", { className: wrong.includes(verdict) ? "packet wrong" : "packet", textContent: line.replace(/\n$/, ""), id: `packet-${number}` });
        made.setAttribute("role", "option");
        made.setAttribute("aria-posinset", from + at + 1);
        made.setAttribute("aria-setsize", state.shown.total);
        made.setAttribute("aria-selected", from + at === active);
        return made;
    }));
    find("lines").style.top = `${list.scrollTop}px`;
    const chosen = find("lines").querySelector('[aria-selected="true"]');
    if (chosen) list.setAttribute("aria-activedescendant", chosen.id);
    else list.removeAttribute("aria-activedescendant");
    list.dataset.drawn = String(turn);
}

function moveTo(row) {
    active = Math.max(0, Math.min(state.shown.total - 1, row));
    const [from, rows] = [firstInView(), rowsInView()];
    let top = from;
    if (active < from) top = active;
    else if (active >= from + rows) top = active - rows + 1;
    if (top !== from) list.scrollTop = top / Math.max(1, state.shown.total - rows) * (spacerHeight() - list.clientHeight);
    drawLines();
}

list.addEventListener("scroll", () => requestAnimationFrame(drawLines));
list.addEventListener("keydown", (event) => {
    const rows = rowsInView();
    const moves = { ArrowDown: active + 1, ArrowUp: active - 1, PageDown: active + rows, PageUp: active - rows, Home: 0, End: state.shown.total - 1 };
    if (!(event.key in moves)) return;
    event.preventDefault();
    moveTo(moves[event.key]);
});
list.addEventListener("click", (event) => {
    const chosen = event.target.closest(".packet");
    if (chosen) moveTo(Number(chosen.getAttribute("aria-posinset")) - 1);
});
for (const id of ["absolute", "verbose"]) {
    find(id).addEventListener("change", () => {
        hideCommand();
        drawLines();
    });
}
new ResizeObserver(() => { if (state.shown) drawLines(); }).observe(list);

// ---- the command line

/** A word as a POSIX shell reads it. Control characters are written as octal numbers. */
function quoted(word) {
    const isControl = /[\0-\x1f\x7f]/g;
    const inQuotes = (text) => `'${text.replaceAll("'", "'\\''")}'`;
    if (/^[\w:,./-]+$/.test(word)) return word;
    if (word.search(isControl) < 0) return inQuotes(word);
    const octal = (character) => `\\${character.charCodeAt(0).toString(8).padStart(3, "0")}`;
    return `"$(printf ${inQuotes(word.replace(/[\\%]/g, "$&$&").replace(isControl, octal))})"`;
}

/**
 * The time this many seconds after the first packet, as the program reads it (RFC 3339, in UTC). `undefined` if no number or no first time is
 * known, the number of nanoseconds is not exact, or the year does not have four digits.
 */
function timeText(seconds) {
    const { firstTime } = state.capture;
    const offset = Math.round(seconds * SECOND);
    if (firstTime === undefined || !Number.isSafeInteger(offset)) return undefined;
    const time = firstTime + BigInt(offset);
    const second = BigInt(SECOND);
    const fraction = (time % second + second) % second;
    const date = new Date(Number((time - fraction) / (second / 1000n)));
    const year = date.getUTCFullYear();
    if (!(year >= 0 && year <= 9999)) return undefined;
    return `${date.toISOString().slice(0, 19)}.${String(fraction).padStart(9, "0")}Z`;
}

/**
 * The options of the program for the filter, and the filter that they stand for. It selects further packets if the program has no option
 * for a part of the filter. These parts are named.
 */
function optionsOf({ host, port, protocol, verdicts, conversation, from, to }) {
    const faults = groupsNamed(state.capture.verdicts, FAULTS);
    const isWrong = verdicts?.every((group) => faults.includes(group)) ?? false;
    const times = [timeText(from), timeText(to)];
    // Several ports or protocols would select the packets of each of them. The greater port of a conversation is more often its own.
    const kept = {
        host, verdicts: isWrong ? faults : undefined, between: conversation?.hosts,
        port: port ?? (conversation && Math.max(...conversation.ports)), protocol: protocol ?? conversation?.protocol,
        from: times[0] && from, to: times[1] && to,
    };
    const words = isWrong ? ["--wrong"] : [];
    if (host) words.push("--host", host);
    for (const end of new Set(kept.between)) words.push("--source", end, "--destination", end);
    if (kept.port !== undefined) words.push("--port", String(kept.port));
    if (kept.protocol !== undefined) words.push("--protocol", state.capture.protocols[kept.protocol].toLowerCase().replaceAll(" ", "-"));
    if (times[0]) words.push("--from", times[0]);
    if (times[1]) words.push("--to", times[1]);
    const isWithoutText = kept.from !== from || kept.to !== to;
    const parts = [verdicts && "these checksums", conversation && "one conversation", isWithoutText && "this range of time"];
    return { words, kept, parts: parts.filter(Boolean) };
}

/** The command that writes the lines, in the folder of the file. */
function commandOf(words) {
    const { name, decompressor, options } = state.capture;
    const flags = [find("absolute").checked && "--absolute", find("verbose").checked && "--verbose", options.udpTunnels && "--tunnels"];
    const program = ["capture_report", "--packets", ...flags.filter(Boolean), ...words].map(quoted).join(" ");
    const file = quoted(name.startsWith("-") ? `./${name}` : name);
    return decompressor ? `${decompressor} -dc ${file} | ${program}` : `${program} ${file}`;
}

/** Copies the text of a field. Without the API for the clipboard, as on a page without HTTPS, the browser copies what is selected. */
async function copyField(field) {
    try {
        await navigator.clipboard.writeText(field.value);
        return true;
    } catch {
        field.focus();
        field.select();
        return document.execCommand("copy");
    }
}

function hideCommand() {
    find("command").hidden = true;
    find("command-text").textContent = "";
}

async function copyCommand() {
    const { words, kept, parts } = optionsOf(state.filter);
    const { shown } = state;
    find("command").value = commandOf(words);
    find("command").hidden = false;
    const isCopied = await copyField(find("command"));
    if (isCopied) find("copy-command").focus();
    const others = await ask("count", { filter: kept }) - shown.total;
    if (shown !== state.shown) return;
    const more = [];
    if (others > 0) more.push(`It also writes ${thousands.format(others)} other lines, since the program has no option for ${parts.join(" or ")}.`);
    if (state.capture.isShort) more.push("It also reads the packets that this page did not read.");
    const done = isCopied ? "Copied." : "Copy the selected command with Ctrl+C or Command+C.";
    find("command-text").textContent = [done, more.length ? more.join(" ") : "It writes exactly the lines of this list."].join(" ");
}

find("copy-command").addEventListener("click", copyCommand);

// ---- the lines as a file

let isSaving = false;

async function saveLines() {
    if (isSaving) return;
    isSaving = true;
    find("command-text").textContent = "Saving the lines.";
    try {
        const file = await ask("linesFile", { options: lineOptions() });
        const link = element("a", { href: URL.createObjectURL(file), download: `${state.capture.name}.txt` });
        link.click();
        setTimeout(() => URL.revokeObjectURL(link.href), 60_000);
        find("command-text").textContent = `The lines were passed to the browser to save: ${sizeText(file.size)}.`;
    } catch (reason) {
        find("command-text").textContent = `The lines can't be saved: ${reason.message}`;
    }
    isSaving = false;
}

find("save-lines").addEventListener("click", saveLines);

// ---- opening

find("file").addEventListener("change", () => {
    const [file] = find("file").files;
    if (file) open(file);
    find("file").value = "";
});
find("stop").addEventListener("click", () => ask("stop"));
for (const kind of ["dragenter", "dragover"]) {
    addEventListener(kind, (event) => {
        event.preventDefault();
        document.body.classList.add("over");
    });
}
for (const kind of ["dragleave", "drop"]) addEventListener(kind, () => document.body.classList.remove("over"));
addEventListener("drop", (event) => {
    event.preventDefault();
    const [file] = event.dataTransfer.files;
    if (file) open(file);
});

/** What the tests call. */
globalThis.captureReport = { ask, find, open, sorts, state };

startWorker().then(() => { document.body.dataset.state = "ready"; }, (reason) => showError(reason.message));
