#!/usr/bin/env python3
# SPDX-FileCopyrightText: 2026 The etherparse_transport developers
# SPDX-License-Identifier: MIT OR Apache-2.0
"""page.py PAGE [FOLDER]: tests the page of the report in Chromium and Firefox, without a window.

PAGE is the file capture_report.html. Screenshots go to FOLDER. A browser that is missing is left out, which a line says. What the page
shows has to be what the program writes: the stored run of crates/capture_report, and a run of the program on each further capture if `rt ci`
left the program. The chart has to have the numbers of the timeline that the program writes as JSON. The page is opened as a file, and from
a plain web server. The last line is 'N passed, N failed'.
"""
import base64
import contextlib
import gzip
import json
import os
import pathlib
import random
import re
import shutil
import socket
import struct
import subprocess
import sys
import tempfile

sys.path.insert(0, str(pathlib.Path(__file__).resolve().parent.parent))
from programs.browser import ARROW_RIGHT, CONTROL, END, ENTER, Chromium, Firefox, free_port, until
from programs.build import ETHERNET, IPV4, START, block, capture, capture_parts, frame, ipv4, ipv6, section_header, udp
from programs.kinds import every_kind
from programs.program import TOP, Program, Tally

MUTANTS = 60
PROGRAM = Program("capture_report")
STORED = TOP / "crates" / "capture_report"
# The page as its scripts see it. Firefox shows another view of it to a test.
PAGE = "const { ask, find, open, sorts, state } = (window.wrappedJSObject ?? window).captureReport;\n"
FAULTS = "document.body.dataset.faults = ''; for (const kind of ['error', 'unhandledrejection']) " \
    "addEventListener(kind, (event) => { document.body.dataset.faults += `${event.message ?? event.reason}\\n`; });"
OPEN = """const [name, text, done] = arguments;
const bytes = Uint8Array.from(atob(text), (character) => character.charCodeAt(0));
open(new File([bytes], name)).then(() => done(document.getElementById("error").textContent), (reason) => done("fault: " + reason));"""
LINES = """const done = arguments[1];
ask("show", { filter: state.filter, sorts }).then(({ total }) => ask("lines", { from: 0, to: total, options: arguments[0] }))
    .then((lines) => done(lines.map(({ line }) => line).join("")), (reason) => done("fault: " + reason));"""
# How many packets a range selects that is one interval of the chart, for each interval.
RANGES = """const done = arguments[0];
const { start, width, intervals } = state.shown.timeline;
const secondsTo = (at) => (start + at * width) / 1e9;
const ranges = Array.from({ length: intervals.length }, (_, at) => ({ from: secondsTo(at), to: secondsTo(at + 1) }));
Promise.all(ranges.map((filter) => ask("count", { filter }))).then(done, (reason) => done("fault: " + reason));"""
SET = "find(arguments[0]).value = arguments[1]; find(arguments[0]).dispatchEvent(new Event('change'));"
FILL = """for (const field of find("filter").querySelectorAll("input, select")) {
    const text = arguments[0][field.id];
    if (field.tagName === "SELECT") field.value = text === undefined ? "" : [...field.options].find((option) => option.textContent === text).value;
    else field.value = text ?? "";
}"""
# What a page with this policy may not do.
FETCH = """const done = arguments[0];
(window.wrappedJSObject ?? window).fetch("other").then(() => done("answered"), () => done("refused"));"""
# The fields of a filter, the options of its command, the numbers of its packets in the stored capture, and how many others the command has.
FILTERS = (
    ({}, [], range(1, 71), 0),
    ({"host": "198.51.100.7"}, ["--host", "198.51.100.7"], (12, 13, 14), 0),
    ({"host": "2001:DB8:0::7"}, ["--host", "2001:db8::7"], (22, 23), 0),
    ({"host": "192.0.2.99"}, ["--host", "192.0.2.99"], (), 0),
    ({"port": "33434"}, ["--port", "33434"], (14, 23), 0),
    ({"port": "80"}, ["--port", "80"], (6, 7, 8, 9, 22, 35, 49, 50, 59, 69), 0),
    ({"host": "2001:db8::1", "port": "53", "protocol": "UDP"}, ["--host", "2001:db8::1", "--port", "53", "--protocol", "udp"],
     (4, 5, 31, 32, 36, 47, 70), 0),
    ({"protocol": "no next header"}, ["--protocol", "no-next-header"], (38,), 0),
    ({"verdict": "wrong or refused"}, ["--wrong"], (2, 5, 7, 11, 20, 39, 40, 41, *range(43, 54), 66, 67), 0),
    ({"verdict": "wrong", "port": "80"}, ["--wrong", "--port", "80"], (7,), 2),
    ({"verdict": "none"}, [], (3,), 69),
    ({"from": "0.0001", "to": "0.0003", "host": "192.0.2.1"},
     ["--host", "192.0.2.1", "--from", "2020-09-13T12:26:40.000100000Z", "--to", "2020-09-13T12:26:40.000300000Z"], (2, 3), 0),
    ({"from": "-0.5", "to": "0.0001"}, ["--from", "2020-09-13T12:26:39.500000000Z", "--to", "2020-09-13T12:26:40.000100000Z"], (1,), 0),
)


def two_sections():
    """A pcapng file: interfaces that are described between packets, with names, in two byte orders and sections."""
    packet = frame(ETHERNET, ipv4(17, udp(IPV4, bytes(20))))
    parts = []
    for order in "<>":
        parts.append(section_header(order))
        for interface in range(3):
            name = struct.pack(order + "HH", 2, 5) + b"veth%d" % interface + bytes(3) + bytes(4)
            parts.append(block(1, struct.pack(order + "HHI", ETHERNET, 0, 0) + name, order))
            for number in (interface, 0, 0, 0):
                ticks = START * 1_000_000 + len(parts)
                fields = struct.pack(order + "IIIII", number, ticks >> 32, ticks & 0xFFFFFFFF, len(packet), len(packet))
                parts.append(block(6, fields + packet, order))
    return b"".join(parts)


def many_ends():
    """A capture of 1,400 conversations, each with an address of its own. The first 40 have several packets, each another number of them."""
    frames = []
    for number in range(1400):
        if number % 2:
            packet, client, server = ipv4, bytes([10, 0, number >> 8, number & 0xFF]), bytes([10, 1, 0, 1])
        else:
            packet, client, server = ipv6, bytes.fromhex("20010DB8") + struct.pack(">QI", 0, number), bytes.fromhex("20010DB8") + bytes(11) + b"\xff"
        request = packet(17, udp((client, server), b"", source=1024 + number), addresses=(client, server))
        reply = packet(17, udp((server, client), bytes(number), source=53, destination=1024 + number), addresses=(server, client))
        frames += [frame(ETHERNET, request)] + [frame(ETHERNET, reply)] * max(0, 40 - number)
    return capture(ETHERNET, frames)


class Page:
    """The page in a browser."""

    def __init__(self, browser, tally):
        self.browser, self.tally = browser, tally

    def expect(self, what, found, stated):
        self.tally.expect(f"{self.browser.name}: {what}", found, stated)

    def start(self, address):
        self.browser.open(address)
        self.browser.run(FAULTS)
        self.wait("document.body.dataset.state === 'ready'")

    def wait(self, condition):
        until(lambda: self.browser.run(f"{PAGE}return Boolean({condition})") or None)

    def value(self, expression):
        return self.browser.run(f"{PAGE}return {expression}")

    def open(self, data, name="capture"):
        """Opens a capture, and returns the text of the error that the page shows."""
        return self.browser.run_async(PAGE + OPEN, name, base64.b64encode(data).decode())

    def lines(self, **options):
        return self.browser.run_async(PAGE + LINES, options)

    def check_faults(self, what):
        faults = self.value("document.body.dataset.faults").split() + self.browser.faults()
        self.expect(f"no error in the console {what}", faults, [])

    def screenshot(self, folder, name):
        if folder:
            self.browser.screenshot(folder / f"{self.browser.name.lower()}_{name}.png")


def stored_lines(name):
    """The lines of the packets of a capture in the stored run."""
    parts = (STORED / "stdout").read_text().split("\n\n")
    return next(part.split("\n", 1)[1] + "\n" for part in parts if part.startswith(f"==> {name} <=="))


def program_timeline(data, *options):
    """The member `timeline` of the summary that the program writes. None if there is no program, or it writes no summary."""
    if PROGRAM.is_stale():
        return None
    lines = PROGRAM.run(data, "--json", "--summary", *options).stdout.splitlines()
    return json.loads(lines[-1])["timeline"] if lines else None


def nanoseconds_of(timeline, name):
    return timeline[f"{name}_seconds"] * 10**9 + timeline[f"{name}_nanoseconds"]


def check_timeline(page, what, data, *options):
    """The chart has the numbers of the program's timeline with these options."""
    whole, stated = program_timeline(data), program_timeline(data, *options)
    if stated is None:
        return
    shown = json.loads(page.value("JSON.stringify(state.shown.timeline)"))
    start = 0 if stated["start"] is None else nanoseconds_of(stated, "start") - nanoseconds_of(whole, "start")
    page.expect(f"{what}: start of the timeline", shown["start"], start)
    page.expect(f"{what}: width of the intervals", shown["width"], nanoseconds_of(stated, "interval"))
    found = [{**counts.pop("total"), **counts} for counts in (*shown["intervals"], shown["older"], shown["untimed"])]
    page.expect(f"{what}: counts of the timeline", found, [*stated["intervals"], stated["older"], stated["untimed"]])
    names = (("older", "older"), ("untimed", "without a time"))
    apart = [f"{stated[name]['packets']} {words}" for name, words in names if stated[name]["packets"]]
    text = page.value("find('range-text').textContent.split('; not in the chart: ')[1] ?? ''")
    page.expect(f"{what}: packets that are not in the chart", text, ", ".join(apart))


def check_chart(page):
    """What the chart draws: a path and a word for each part that has packets, with the heights of its numbers."""
    for split, names in (("protocols", ["UDP", "TCP", "ICMP", "other"]), ("verdicts", ["other", "wrong", "refused"])):
        for measure in ("bytes", "packets"):
            for field, value in (("split", split), ("measure", measure)):
                page.browser.run(PAGE + SET, field, value)
            page.expect(f"{split}: words", page.value("[...find('legend').children].map((part) => part.textContent)"), names)
            tops = page.value("[...find('timeline').querySelectorAll('path')].map((path) => path.getBBox()).map(({ y }) => y)")
            page.expect(f"{split}, {measure}: paths", len(tops), len(names))
            # The highest interval fills the chart, except for a margin of 6.
            page.expect(f"{split}, {measure}: height", abs(min(tops) - 6) < 2, True)


def check_stored(page, folder):
    data = {"-": (STORED / "stdin").read_bytes(), "every_row.pcapng": (STORED / "data" / "every_row.pcapng").read_bytes()}
    for name, capture in data.items():
        page.expect(f"{name}: error", page.open(capture, name), "")
        page.expect(f"{name}: lines", page.lines(), stored_lines(name))
        check_timeline(page, name, capture)
        check_chart(page)
        totals = page.value("[...state.shown.timeline.intervals].map((counts) => counts.total.packets)")
        page.expect(f"{name}: packets in the range of each interval", page.browser.run_async(PAGE + RANGES), totals)
    page.screenshot(folder, "every_row")
    page.expect("the compressed capture", (page.open(gzip.compress(data["-"])), page.lines()), ("", stored_lines("-")))
    page.check_faults("after the stored captures")


def program_lines(data, *arguments):
    """The lines and the error of the program. None if there is no program."""
    if PROGRAM.is_stale():
        return None
    done = PROGRAM.run(data, "--lines", *arguments) if "--lines" in arguments else PROGRAM.run(data, *arguments)
    front = done.stdout.decode(errors="replace").split("\n\n")[0]
    error = done.stderr.decode(errors="replace").removeprefix("capture_report: ").rstrip("\n")
    return front + "\n" if front else "", error


def check_captures(page):
    frames, _ = every_kind(ETHERNET)
    captures = {"classic": b"".join(capture_parts(ETHERNET, frames)), "big-endian": b"".join(capture_parts(ETHERNET, frames, ">")),
                "nanoseconds": b"".join(capture_parts(ETHERNET, frames, "<", True)), "two sections": two_sections()}
    for name, data in captures.items():
        error = page.open(data, name)
        page.expect(f"{name}: error", error, "")
        page.expect(f"{name}: number of lines", page.lines().count("\n"), len(frames) if name != "two sections" else 24)
        stated = program_lines(data)
        if stated:
            page.expect(f"{name}: lines", page.lines(), stated[0])
        check_timeline(page, name, data)
    page.check_faults("after the built captures")
    return captures


def check_many_ends(page):
    """The tables of a capture with more addresses and conversations than the page has room for at first."""
    data = many_ends()
    page.expect("many ends: error", page.open(data, "many ends"), "")
    shown = json.loads(page.value("JSON.stringify(state.shown)"))
    page.expect("many ends: conversations", shown["conversationCount"], 1400)
    page.expect("many ends: endpoints", shown["endpointCount"], 1402)
    if PROGRAM.is_stale():
        return
    stated = json.loads(PROGRAM.run(data, "--json", "--summary", "--top", "40").stdout)
    found = [(set(zip(row["hosts"], row["ports"])), row["packets"], row["bytes"]) for row in shown["conversations"][:40]]
    page.expect("many ends: busiest conversations", found, [
        ({(row["source"], row["source_port"]), (row["destination"], row["destination_port"])}, row["packets"], row["bytes"])
        for row in stated["busiest_conversations"]])
    found = [(row["host"], row["packets"], row["bytes"]) for row in shown["endpoints"][:40]]
    page.expect("many ends: endpoints with the most packets", found, [(row["address"], row["packets"], row["bytes"]) for row in stated["endpoints"]])


def check_mutants(page, captures):
    chance = random.Random(1)
    seeds = [captures["classic"][:2000], captures["two sections"]]
    for number in range(MUTANTS):
        data = bytearray(seeds[number % len(seeds)])
        for _ in range(chance.choice((0, 1, 3))):
            data[chance.randrange(len(data))] = chance.randrange(256)
        data = bytes(data[:chance.randrange(len(data) + 1)])
        error = page.open(data, f"mutant {number}")
        page.expect(f"mutant {number} is answered", error.startswith("fault"), False)
        stated = program_lines(data)
        if stated:
            page.expect(f"mutant {number}: error", error, stated[1])
        if not page.value("find('report').hidden"):
            check_timeline(page, f"mutant {number}", data)
    page.check_faults("after mutants")


def filtered(page, fields):
    """Fills the form of the filter, and presses its button."""
    page.browser.run(PAGE + FILL, fields)
    page.browser.click("#filter [type=submit]")
    page.wait("document.getElementById('filter-text').textContent !== ''")


def copied(page):
    """Presses the button for the command. Returns the command, what the page says of it, and what the clipboard then contains."""
    page.browser.click("#copy-command")
    page.wait("find('command-text').textContent")
    command, text = page.value("find('command').value"), page.value("find('command-text').textContent")
    page.browser.run(PAGE + "find('host').value = '';")
    page.browser.press("#host", CONTROL + "v")
    return command, text, page.value("find('host').value")


def words_of(command):
    """The words that a shell passes to the program."""
    done = subprocess.run(["sh", "-c", f"capture_report() {{ printf '%s\\n' \"$@\"; }}\n{command}"], capture_output=True, text=True)
    return done.stdout.splitlines()


def written_by(command, name, data):
    """What the command writes in a folder with the file. None if there is no program."""
    if PROGRAM.is_stale():
        return None
    with tempfile.TemporaryDirectory() as folder:
        pathlib.Path(folder, name).write_bytes(data)
        path = {"PATH": f"{PROGRAM.path.parent}:{os.environ['PATH']}"}
        return subprocess.run(["sh", "-c", command], cwd=folder, env={**os.environ, **path}, capture_output=True, text=True).stdout


def check_commands(page, folder):
    """The command that the page copies for a filter writes the lines that are shown."""
    data, name = (STORED / "stdin").read_bytes(), "it's 100% a capture.pcap"
    page.open(data, name)
    for fields, options, numbers, others in FILTERS:
        filtered(page, fields)
        page.wait(f"state.shown.total === {len(numbers)}")
        lines = page.lines()
        page.expect(f"{fields}: packets", [int(line.split()[0]) for line in lines.splitlines()], list(numbers))
        command, text, pasted = copied(page)
        page.expect(f"{fields}: command", words_of(command), ["--packets", *options, name])
        page.expect(f"{fields}: clipboard", pasted, command)
        page.expect(f"{fields}: other lines", int("".join(re.findall(r"writes (\d+) other lines", text)) or 0), others)
        stated = written_by(command, name, data)
        if stated is not None:
            found = stated.splitlines(keepends=True)
            page.expect(f"{fields}: lines", "".join(line for line in found if others == 0 or int(line.split()[0]) in numbers), lines)
            page.expect(f"{fields}: number of lines", len(found), len(numbers) + others)
        if options and "--wrong" not in options and "from" not in fields:
            check_timeline(page, fields, data, *options)
    page.screenshot(folder, "command")


def check_command_forms(page):
    """The other words of a command, the keys, and a browser without the API for the clipboard."""
    data = (STORED / "stdin").read_bytes()
    page.open(gzip.compress(data), "-capture.pcap.gz")
    for checkbox in ("absolute", "verbose"):
        page.browser.click(f"#{checkbox}")
    page.browser.press("#copy-command", ENTER)
    page.wait("find('command-text').textContent")
    page.expect("the command for a compressed capture", page.value("find('command').value"),
                "gzip -dc ./-capture.pcap.gz | capture_report --packets --absolute --verbose")
    page.expect("the focus stays on the button", page.value("document.activeElement.id"), "copy-command")
    for checkbox in ("absolute", "verbose"):
        page.browser.click(f"#{checkbox}")
    page.expect("another choice hides the command", page.value("find('command').hidden"), True)

    page.open(data, "capture.pcap")
    page.browser.click("#conversations tbody button")
    page.wait("state.filter.conversation")
    command, text, _ = copied(page)
    page.expect("the command for a conversation", words_of(command), [
        "--packets", "--source", "192.0.2.1", "--destination", "192.0.2.1", "--source", "192.0.2.2", "--destination", "192.0.2.2",
        "--port", "49152", "--protocol", "udp", "capture.pcap"])
    page.expect("the lines for a conversation", "exactly" in text, True)
    stated = written_by(command, "capture.pcap", data)
    if stated is not None:
        page.expect("what the command for a conversation writes", stated, page.lines())

    page.browser.click("#save-lines")
    page.expect("the saved lines", page.browser.downloaded("capture.pcap.txt").decode(), page.lines())

    page.browser.run("Object.defineProperty((window.wrappedJSObject ?? window).navigator, 'clipboard', { value: undefined });")
    filtered(page, {"port": "80"})
    page.wait("state.filter.port === 80")
    command, text, pasted = copied(page)
    page.expect("the clipboard without its API", (pasted, text.split(".")[0]), (command, "Copied"))
    filtered(page, {"host": "192.0.2"})
    page.wait("find('host').validity.customError")
    page.check_faults("after commands")


@contextlib.contextmanager
def served(folder):
    """A plain web server for a folder: its address, and a call that returns its log."""
    port = free_port()
    words = [sys.executable, "-m", "http.server", str(port), "--bind", "127.0.0.1", "--directory", str(folder)]
    with tempfile.TemporaryFile() as log, subprocess.Popen(words, stdout=subprocess.DEVNULL, stderr=log) as server:
        def is_ready():
            with contextlib.suppress(OSError), socket.create_connection(("127.0.0.1", port), timeout=5):
                return True

        def text():
            log.seek(0)
            return log.read().decode()
        try:
            until(is_ready)
            yield f"http://127.0.0.1:{port}", text
        finally:
            server.kill()


def check_server(page, path):
    """From a web server the page shows the same, and requests nothing else."""
    with tempfile.TemporaryDirectory() as folder:
        shutil.copy(path, pathlib.Path(folder, path.name))
        with served(folder) as (address, log):
            page.start(f"{address}/{path.name}")
            check_stored(page, None)
            page.expect("a request is refused", page.browser.run_async(FETCH), "refused")
            page.expect("requests to the server", re.findall(r'"(\S+ \S+) HTTP/', log()), [f"GET /{path.name}"])


def show_all(page, button="reset"):
    page.browser.click(f"#{button}")
    page.wait("state.shown.total === state.shown.all")


def check_range(page, what, everything):
    """A range was selected: fewer packets are shown, and all of them again after `Whole time`."""
    page.wait("state.shown.total < state.shown.all")
    page.expect(f"a range by {what} selects packets", 0 < page.value("state.shown.total") < everything, True)
    show_all(page, "whole-range")


def check_view(page, folder):
    """Clicks and keys."""
    frames = every_kind(ETHERNET)[0] * 20
    page.open(b"".join(capture_parts(ETHERNET, frames)), "view")
    everything = page.value("state.shown.total")
    page.expect("packets", everything, len(frames))

    page.browser.click('[data-verdict="wrong"]')
    page.wait("state.shown.total < state.shown.all")
    page.expect("the wrong packets after a click", page.value("state.shown.verdicts[0].packets"), page.value("state.shown.total"))
    page.screenshot(folder, "wrong")
    show_all(page)

    page.browser.press("#range-from", ARROW_RIGHT)
    check_range(page, "keys", everything)
    left, top, width, height = page.value("(({ x, y, width, height }) => [x, y, width, height])(find('timeline').getBoundingClientRect())")
    page.browser.drag((left + width / 4, top + height / 2), (left + width / 2, top + height / 2))
    page.wait("state.shown.total < state.shown.all")
    page.screenshot(folder, "range")
    check_range(page, "the mouse", everything)

    page.browser.click("#endpoints tbody button")
    page.wait("state.filter.host && find('host').value === state.filter.host")
    page.expect("the packets of an endpoint", 0 < page.value("state.shown.total") <= everything, True)
    show_all(page)
    page.browser.click("#protocols thead th:last-child button")
    page.wait("document.querySelector('#protocols [aria-sort]')?.textContent === 'Bytes'")

    page.browser.press("#packets", END)
    page.wait("document.querySelector('#lines [aria-selected=true]')?.getAttribute('aria-posinset') === String(state.shown.total)")
    page.expect("the last packet", page.value("document.querySelector('#lines [aria-selected=true]').textContent.split(' ')[0]"), str(everything))
    page.screenshot(folder, "last")
    page.check_faults("after clicks and keys")


def check_browser(kind, path, folder, tally):
    missing = kind.missing()
    if missing:
        print(f"{' and '.join(missing)} is missing, and the tests in {kind.name} are left out")
        return
    with kind() as browser:
        page = Page(browser, tally)
        page.start(path.resolve().as_uri())
        check_stored(page, folder)
        check_mutants(page, check_captures(page))
        check_many_ends(page)
        check_view(page, folder)
        check_commands(page, folder)
        check_command_forms(page)
        check_server(page, path)


def main():
    path = pathlib.Path(sys.argv[1])
    folder = pathlib.Path(sys.argv[2]) if len(sys.argv) > 2 else None
    tally = Tally()
    for kind in (Chromium, Firefox):
        try:
            check_browser(kind, path, folder, tally)
        except (OSError, RuntimeError) as reason:
            tally.expect(f"{kind.name}: the tests end", repr(reason), None)
    print(f"{tally.passed} passed, {tally.failed} failed")
    return 1 if tally.failed or not tally.passed else 0


if __name__ == "__main__":
    sys.exit(main())
