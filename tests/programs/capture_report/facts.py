"""Tests of what the summary shows of the file: its form, its interfaces and its texts."""
import json
import re
import shutil
import struct
import subprocess

from ..build import IPV4, RAW, block, capture, interface_description, ipv4, option, pcapng, section_header, udp
from .report import is_fact, run


def facts_of(text):
    """What the capture is, as the first lines of a summary show it: the type of the file, its byte order, and the snap length and the
    resolution of each interface, in nanoseconds. A classic capture has one interface."""
    lines = [line for line in text.decode().splitlines() if is_fact(line)]
    form, order = re.match(r"file type (\S+), byte order ([a-z]+)-endian", lines[0]).groups()
    found = [re.search(r", snap length (\d+), time resolution 10\^-(\d+) s$", line) for line in lines]
    return form, order, [(int(row.group(1)), 10 ** (9 - int(row.group(2)))) for row in found if row]


def check_facts(tally):
    """What a capture is, in text and in JSON, and as capinfos says it, if it is installed."""
    packet = ipv4(17, udp(IPV4, b"abc"))
    rows = [(f"{form.__name__}, {order}, nanoseconds {nanoseconds}", form(RAW, [packet], order, nanoseconds),
             (name, "little" if order == "<" else "big", [(262144, 1 if nanoseconds else 1000)]))
            for form, name in ((capture, "classic"), (pcapng, "pcapng")) for order in "<>" for nanoseconds in (False, True)]
    two = section_header() + interface_description(RAW) + block(1, struct.pack("<HHIHHII", 147, 0, 96, 9, 1, 9, 0))
    for name, data, wanted in rows + [("two interfaces", two, ("pcapng", "little", [(262144, 1000), (96, 1)]))]:
        tally.expect(f"facts: {name}", facts_of(run(data, "--summary").stdout), wanted)
        tally.expect(f"facts as members: {name}", facts_in(json.loads(run(data, "--summary", "--json").stdout)), wanted)
        if shutil.which("capinfos"):
            tally.expect(f"facts by capinfos: {name}", facts_by_capinfos(data), wanted)


def facts_in(summary):
    """The same facts, by the members of a summary."""
    rows = [(row["snap_length"], 10 ** (9 - int(re.fullmatch(r"10\^-(\d+) s", row["time_resolution"]).group(1))))
            for row in summary.get("interfaces", [summary])]
    return summary["file_type"], summary["byte_order"].removesuffix("-endian"), rows


def facts_by_capinfos(data):
    """The same facts, as capinfos says them. It doesn't say the byte order, which is that of the first bytes."""
    said = subprocess.run(["capinfos", "-"], input=data, capture_output=True, check=False).stdout.decode()
    form = "pcapng" if re.search(r"^File type: .*pcapng", said, re.M) else "classic"
    order = "little" if data[0] in (0xD4, 0x4D) or data[8:10] == b"\x4D\x3C" else "big"
    rows = re.findall(r"Capture length = (\d+)\n +Time precision = \w+ \((\d+)\)", said)
    return form, order, [(int(length), 10 ** (9 - int(digits))) for length, digits in rows]


def section_with(options, order="<"):
    return block(0x0A0D0D0A, struct.pack(order + "IHHq", 0x1A2B3C4D, 1, 0, -1) + options, order)


def interface_with(options, order="<"):
    return block(1, struct.pack(order + "HHI", RAW, 0, 262144) + options, order)


def packet_with(options, order="<"):
    packet = ipv4(17, udp(IPV4, b"abc"))
    captured = packet + b"\0" * (-len(packet) % 4)
    return block(6, struct.pack(order + "IIIII", 0, 0, 0, len(packet), len(packet)) + captured + options, order)


def with_texts(order):
    """A pcapng file with the texts that capinfos shows too, of three interfaces, and with three packets."""
    texts = lambda *values: b"".join(option(code, value.encode(), order) for code, value in values)
    return b"".join((
        section_with(texts((4, "dumpcap \u00e9"), (2, "a processor"), (1, "the first comment"), (3, "Linux 6.1")), order),
        interface_with(option(9, b"\x09", order) + texts((2, "eth0"), (1, "to the router"), (3, "Uplink, 1 Gbit/s"), (0, "")), order),
        interface_with(b"", order), interface_with(texts((2, "lo")), order),
        packet_with(b"", order), packet_with(texts((1, "look here"), (0, "")), order),
        packet_with(option(2, bytes(4), order) + texts((1, "and here")), order)))


# The texts of that file, and the lines of a summary that show texts.
TEXTS = [("application", "dumpcap \u00e9"), ("operating system", "Linux 6.1"), ("hardware", "a processor"),
         ("comment", "the first comment"), ("packets with a comment", "2"), ("interface 0 name", "eth0"), ("interface 0 description", "Uplink, 1 Gbit/s"),
         ("interface 0 comment", "to the router"), ("interface 2 name", "lo")]
TEXT = re.compile("(application|operating system|hardware|comment|packets with a comment|interface [0-9]+ (?:name|description|comment)) (.*)")


def texts_of(text):
    """The texts of a file, as the lines of a summary show them, each after its label."""
    return [found.groups() for found in map(TEXT.fullmatch, text.decode().split("\n")) if found]


def texts_in(summary):
    """The same texts, by the members of a summary."""
    rows = [(label, summary.get(label.replace(" ", "_"))) for label in ("application", "operating system", "hardware", "comment")]
    rows.append(("packets with a comment", summary.get("packets_with_comment") and str(summary["packets_with_comment"])))
    rows += [(f"interface {number} {label}", row.get(label)) for number, row in enumerate(summary["interfaces"])
             for label in ("name", "description", "comment")]
    return [row for row in rows if row[1] is not None]


def texts_by_capinfos(data):
    """The same texts, as capinfos shows them, without the number of packets with a comment."""
    said = subprocess.run(["capinfos", "-"], input=data, capture_output=True, check=False).stdout.decode()
    rows = [(label, re.search(rf"^Capture {word}: +(.*)$", said, re.M)) for label, word in (
        ("application", "application"), ("operating system", "oper-sys"), ("hardware", "hardware"), ("comment", "comment"))]
    for number, part in enumerate(said.split("Interface #")[1:]):
        rows += [(f"interface {number} {word.lower()}", re.search(rf"^ +{word} = (.*)$", part, re.M))
                 for word in ("Name", "Description", "Comment")]
    return [(label, found.group(1)) for label, found in rows if found]


def check_texts(tally):
    """The texts of a pcapng file, in text and in JSON, and as capinfos and tshark show them, if they are installed."""
    for order in "<>":
        data = with_texts(order)
        tally.expect(f"texts, {order}", texts_of(run(data, "--summary").stdout), TEXTS)
        tally.expect(f"texts as members, {order}", texts_in(json.loads(run(data, "--summary", "--json").stdout)), TEXTS)
        if shutil.which("capinfos"):
            shown = [row for row in TEXTS if row[0] != "packets with a comment"]
            tally.expect(f"texts by capinfos, {order}", texts_by_capinfos(data), shown)
        if tshark := shutil.which("tshark"):
            theirs = subprocess.run([tshark, "-r", "-", "-Y", "frame.comment"], input=data, capture_output=True, timeout=120)
            tally.expect(f"packets with a comment by tshark, {order}", len(theirs.stdout.splitlines()), 2)
    for name, value, wanted in [("control characters", b"a\x1b[31m\n\x7f\xc2\x9b", "a\\x1B[31m\\x0A\\x7F\\x9B"),
                                ("no UTF-8", b"\xe9t\\\xe9", "\\xE9t\\x5C\\xE9"), ("128 bytes", b"a" * 128, "a" * 128), ("129 bytes", b"a" * 129, "a" * 128 + "..."),
                                ("a character at the limit", b"a" * 127 + "\u00e9".encode(), "a" * 127 + "..."), ("no byte", b"", None)]:
        data = section_with(b"") + interface_with(option(2, value))
        lines = [("interface 0 name", wanted)] if wanted else []
        tally.expect(f"name with {name}", texts_of(run(data, "--summary").stdout), lines)
        tally.expect(f"name with {name} as a member", texts_in(json.loads(run(data, "--summary", "--json").stdout)), lines)
    data = b"".join(section_with(option(4, letter)) + interface_with(option(2, letter)) for letter in (b"a", b"b"))
    tally.expect("texts of the last section", texts_of(run(data, "--summary").stdout), [("application", "b"), ("interface 0 name", "b")])
    data = section_with(b"") + b"".join(interface_with(option(2, str(number).encode())) for number in range(40))
    wanted = [(f"interface {number} name", str(number)) for number in range(32)]
    tally.expect("texts of the first interfaces", texts_of(run(data, "--summary").stdout), wanted)


def statistics_of(number, counts, order="<"):
    """The statistics of an interface, with these numbers by the codes of their options."""
    return block(5, struct.pack(order + "III", number, 1, 2) + b"".join(option(code, struct.pack(order + "Q", count), order) for code, count in counts), order)


def check_statistics(tally):
    """The newest statistics of each interface, in text and in JSON. Capinfos shows how many statistics each interface has."""
    labels = {4: "received", 5: "dropped", 7: "dropped by the operating system"}
    for order in "<>":
        file = section_with(b"", order) + interface_with(b"", order) * 3
        blocks = [(0, [(4, 10), (5, 1), (7, 2)]), (2, [(5, 2 ** 32)]), (3, [(5, 9)]), (0, [(7, 3), (6, 8), (4, 1000)])]
        file += b"".join(statistics_of(number, counts, order) for number, counts in blocks) + block(5, bytes(8), order)
        newest = {0: [(4, 1000), (7, 3)], 2: [(5, 2 ** 32)]}
        lines = [line for line in run(file, "--summary").stdout.decode().splitlines() if re.match("interface [0-9]+ packets ", line)]
        wanted = [f"interface {number} packets {labels[code]} {count}" for number, counts in newest.items() for code, count in counts]
        tally.expect(f"statistics, {order}", lines, wanted)
        rows = json.loads(run(file, "--summary", "--json").stdout)["interfaces"]
        found = [{name: row[name] for name in row if name.startswith("packets_")} for row in rows]
        wanted = [{"packets_" + labels[code].replace(" the", "").replace(" ", "_"): count for code, count in newest.get(number, [])} for number in range(3)]
        tally.expect(f"statistics as members, {order}", found, wanted)
