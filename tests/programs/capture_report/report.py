"""How the program is run, and how the lines and tables of its report are read."""
import datetime
import re

from ..program import Program

PROGRAM = Program("capture_report")
run = PROGRAM.run

# A part of a line, and the verdict that it shows.
VERDICTS = [
    ("; checksum right", "right"),
    ("; checksum wrong,", "wrong"),
    ("; checksum none", "none"),
    ("a fragment", "fragment"),
    ("not looked at: cut off", "cut"),
    ("no length stated", "length"),
    ("the final destination is not known", "destination"),
    ("bytes, more than", "long"),
    ("refused:", "refused"),
]


def verdict_of(line):
    return next((name for part, name in VERDICTS if part in line), line if ";" in line else "other")


def lines_of(text):
    return text.decode().splitlines()


# The interface of a packet in a line, if the interface has no name. A line has no interface if its section has only one.
INTERFACE = r"(?:interface \d+ )?"

# The length of its frame in a line.
LENGTH = r"length (?:\d+(?:, \d+ captured)?|unknown): "

# The hop limit in a line with -v.
HOP_LIMIT = re.compile(r", (time to live|hop limit) (\d+)(?=; |$)")


# The fields of a fragment in a line.
FRAGMENT = re.compile(r", fragment, identification ([0-9A-F]{4}|[0-9A-F]{8}), offset (\d+)(, more)?(?=; |, time to live |, hop limit |$)")


def fragment_text(flags):
    """What a line says of a fragment over IPv4 that is built with these flags and this offset."""
    more = ", more" if flags & 0x2000 else ""
    return f", fragment, identification 0001, offset {(flags & 0x1FFF) * 8}{more}" if flags & 0x3FFF else ""


def parts_of(line):
    """The number of a line, its time, the length of its frame, and the rest."""
    return re.fullmatch(rf"(\d+) (\S+) {INTERFACE}({LENGTH})(.*)", line).groups()


def length_text(entry):
    """The length of a frame as its line has it. An entry is a frame, or a frame and the length that it had."""
    data, length = entry if isinstance(entry, tuple) else (entry, len(entry))
    return f"length {length}: " if len(data) == length else f"length {length}, {len(data)} captured: "


def ends_of(line):
    """The address and the port of source and destination, as far as a line has them."""
    return ends_in(re.match(rf"\d+ \S+ {INTERFACE}{LENGTH}(\S+) > ([^ ;]+)", line))


def quoted_ends_of(line):
    """The same of the packet that an ICMP error quotes, as far as a line shows one."""
    return ends_in(re.search(r" for (\S+) > (\S+) ", line))


def ends_in(found):
    """The address and the port of two ends that were found as texts."""
    ends = []
    for text in found.groups() if found else ():
        with_port = re.fullmatch(r"\[(.+)\]:(\d+)", text) or re.fullmatch(r"([\d.]+|unknown):(\d+)", text)
        ends.append((with_port.group(1), int(with_port.group(2))) if with_port else (text, None))
    return ends


def date_and_time(seconds, fraction):
    """A time as RFC 3339 writes it, or as seconds where datetime, whose years are from 1 to 9999, has no date."""
    try:
        return (datetime.datetime(1970, 1, 1) + datetime.timedelta(seconds=seconds)).strftime("%Y-%m-%dT%H:%M:%S").rjust(19, "0") + f".{fraction}Z"
    except OverflowError:
        return f"{seconds}.{fraction}"


def is_fact(line):
    """Whether a line of the summary shows what the capture is."""
    return line.startswith(("file type ", "interface "))


def without_facts(done):
    """What a run wrote, without the lines that show what the capture is."""
    return "".join(line for line in done.stdout.decode().splitlines(keepends=True) if not is_fact(line))


def totals_of(text):
    """The lines before the tables, except those that show what the capture is."""
    return [line for line in text.decode().split("\n\n")[0].splitlines() if not is_fact(line)]


def with_underscores(word):
    """A word of a table as JSON has it."""
    return word.replace(" ", "_")


def table_of(text, title):
    """The rows of a table of the summary: the name of each as JSON has it, and its numbers."""
    rows = re.search(rf"^{title} +packets\b.*\n((?:.+\n)*)", text, re.M)
    found = [re.fullmatch(r"(.*?)((?: {2,}\d+)+)", row) for row in rows.group(1).splitlines()] if rows else []
    return {with_underscores(row.group(1)): [int(number) for number in row.group(2).split()] for row in found}


def last_table(report, title):
    """The lines of the last table with this title, if the summary has one."""
    tables = [table for table in report.decode().split("\n\n") if table.startswith(title)]
    return tables[-1].splitlines() if tables else []


def rows_of_conversations(report):
    """The rows of conversations in a summary, each with single spaces, and the last row of the table."""
    table = last_table(report, "busiest conversations")
    return [" ".join(row.split()) for row in table[1:] if row.startswith(("UDP ", "TCP "))], table[-1]


def rows_of_endpoints(report):
    """The rows of endpoints in a summary: the address, the packets and the bytes of each."""
    rows = [row.split() for row in last_table(report, "busiest endpoints")[1:] if not row.startswith("packets ")]
    return [(address, int(packets), int(length)) for address, packets, length in rows]
