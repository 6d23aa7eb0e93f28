"""Tests of the summary: its sums, its totals and its conversations."""
import collections
import ipaddress
import random
import re
import struct

from ..build import (ETHERNET, IPV4, IPV6, RAW, START, block, capture, frame, interface_description, ipv4, ipv6, packet_block, section_header,
                     tcp, udp)
from ..kinds import every_kind
from .report import date_and_time, rows_of_conversations, rows_of_endpoints, run, table_of, totals_of


def check_sums(tally):
    """The summary's rows add up to the number of packets."""
    frames, verdicts = every_kind(ETHERNET)
    text = run(capture(ETHERNET, frames), "--summary").stdout.decode()
    tables = [table.splitlines() for table in text.strip().split("\n\n")]
    packets = int(re.search(r"^packets (\d+)", text, re.M).group(1))
    tally.expect("packets of the summary", packets, len(frames))
    for table in tables[1:4]:
        column = table[0].index("packets") + len("packets")
        tally.expect(table[0].split()[0], sum(int(row[:column].split()[-1]) for row in table[1:]), packets)
    counts = collections.Counter(verdicts)
    rows = {" ".join(row.split()[:-1]): int(row.split()[-1]) for row in tables[3][1:]}
    tally.expect("right, wrong, none, refused", [rows[name] for name in ("right", "wrong", "none", "refused")],
                 [counts[name] for name in ("right", "wrong", "none", "refused")])
    text = run(capture(ETHERNET, [frame(ETHERNET, ipv4(17, udp(IPV4, b"")))]), "--summary").stdout.decode()
    found = [(title, table_of(text, title)) for title in ("protocol", "checksum", "refused")]
    tally.expect("rows of one packet", found, [("protocol", {"UDP": [1, 42]}), ("checksum", {"right": [1]}), ("refused", {})])


def check_top(tally):
    """As many of the busiest conversations as are asked for, and all where there are fewer."""
    packet = [frame(ETHERNET, ipv4(17, udp(IPV4, b"", source=1000 + number))) for number in range(20) for _ in range(1 + number % 7)]
    data = capture(ETHERNET, packet + every_kind(ETHERNET)[0])

    def conversations(*arguments):
        rows, last = rows_of_conversations(run(data, "--summary", *arguments).stdout)
        return rows, last.split()[:3]

    every, last = conversations("--top", "1000")
    tally.expect("--top 1000", (len(every), last), (26, ["packets", "without", "ports"]))
    for top in (0, 1, 9, 10, 11, 26):
        tally.expect(f"--top {top}", conversations("--top", str(top)), (every[:top], last))
    tally.expect("without --top", conversations(), (every[:10], last))


def end_text(end):
    address, port = end
    text = str(ipaddress.ip_address(address))
    return f"[{text}]:{port}" if len(address) == 16 else f"{text}:{port}"


def times_text(times, length):
    """The columns of times in a row: the least time, the time from it to the greatest, and the bits per second in this time. All times are
    microseconds of one second."""
    first, last = min(times), max(times)
    rate = f" {length * 8 * 10 ** 6 // (last - first)}" if last > first else ""
    return f"{date_and_time(START, f'{first:06}')} 00:00:00.{last - first:06}{rate}"


def rows_of_packets(packets):
    """The rows of the conversations of packets, each with its protocol, both ends, its length and its time: by a dictionary whose keys are
    the sets of both ends. Sorting keeps those that are as busy in the order in which they are first seen."""
    counts = {}
    for protocol, source, destination, length, time in packets:
        first, there, back, times = counts.setdefault((protocol, frozenset((source, destination))), ((source, destination), [0, 0], [0, 0], []))
        direction = there if (source, destination) == first else back
        direction[0] += 1
        direction[1] += length
        times.append(time)
    rows = [(protocol, *row) for (protocol, _), row in counts.items()]
    rows.sort(key=lambda row: (-row[2][0] - row[3][0], -row[2][1] - row[3][1]))
    return [f"{protocol} {end_text(first[0])} <> {end_text(first[1])} {there[0] + back[0]} {there[1] + back[1]} {there[0]} {there[1]}"
            f" {back[0]} {back[1]} {times_text(times, there[1] + back[1])}" for protocol, first, there, back, times in rows]


def endpoints_of(packets):
    """The endpoints of packets: by a dictionary whose keys are addresses. A packet from an address to itself counts once."""
    counts = collections.Counter()
    for _, source, destination, length, _ in packets:
        for address in {source[0], destination[0]}:
            counts[address, "packets"] += 1
            counts[address, "bytes"] += length
    rows = [(address, counts[address, "packets"], counts[address, "bytes"]) for address, column in counts if column == "packets"]
    rows.sort(key=lambda row: (-row[1], -row[2], len(row[0]), row[0]))
    return [(str(ipaddress.ip_address(address)), *numbers) for address, *numbers in rows]


def check_conversations(tally):
    """Packets between a few ends, of both protocols, not in the order of their times: each is counted in its direction of the row of its
    conversation. Where source and destination of all are exchanged, the same rows are named by the other direction."""
    numbers = random.Random(1)
    four = [(bytes([192, 0, 2, number]), port) for number in (1, 2, 10) for port in (53, 49152, 1)]
    six = [(IPV6[0][:15] + bytes([number]), port) for number in (1, 2, 255) for port in (53, 1)]
    packets = []
    for _ in range(600):
        ends = numbers.choice((four, six))
        packets.append((numbers.choice(("UDP", "TCP")), numbers.choice(ends), numbers.choice(ends), numbers.randrange(5)))

    def frame_of(protocol, source, destination, length):
        addresses = (source[0], destination[0])
        packet = udp(addresses, bytes(length), source[1], destination[1]) if protocol == "UDP" else tcp(addresses, bytes(length))
        number = 17 if protocol == "UDP" else 6
        ports = struct.pack(">HH", source[1], destination[1])
        return frame(ETHERNET, (ipv4 if len(source[0]) == 4 else ipv6)(number, ports + packet[4:], addresses=addresses))

    for name, sent in (("as sent", packets), ("exchanged", [(protocol, to, source, length) for protocol, source, to, length in packets])):
        frames = [frame_of(*packet) for packet in sent]
        times = [numbers.randrange(10 ** 6) for _ in sent]
        counted = [(*packet[:3], len(data), time) for packet, data, time in zip(sent, frames, times)]
        stated = rows_of_packets(counted)
        blocks = b"".join(packet_block(0, START * 10 ** 6 + time, data, len(data)) for data, time in zip(frames, times))
        report = run(section_header() + interface_description(ETHERNET) + blocks, "--summary", "--top", "1000").stdout
        rows, _ = rows_of_conversations(report)
        tally.expect(f"conversations, {name}", rows, stated)
        tally.expect(f"endpoints, {name}", rows_of_endpoints(report), endpoints_of(counted))


def check_totals(tally):
    """What stands before the tables: packets, bytes and conversations; the earliest and the latest packet, whatever their order; the rates."""
    frames, _ = every_kind(ETHERNET)
    packets, length = len(frames), sum(entry[1] if isinstance(entry, tuple) else len(entry) for entry in frames)
    for nanoseconds in (False, True):
        last, zeros = (packets - 1) * 100, "000" if nanoseconds else ""
        wanted = [f"packets {packets}, bytes {length}, bytes a packet {length // packets}", "conversations 6",
                  f"first packet {date_and_time(START, '000000' + zeros)}",
                  f"last packet {date_and_time(START, f'{last:06}' + zeros)}",
                  f"duration 00:00:00.{last:06}{zeros}, packets a second {packets * 10 ** 6 // last}, bits a second {length * 8 * 10 ** 6 // last}"]
        tally.expect(f"totals, nanoseconds {nanoseconds}", totals_of(run(capture(ETHERNET, frames, "<", nanoseconds), "--summary").stdout), wanted)
    packet = ipv4(17, udp(IPV4, b""))
    for times, choice, wanted in [
        ((5, 3, 9, 4), (), ["packets 4, bytes 112, bytes a packet 28", "conversations 1",
                            "first packet 1970-01-01T00:00:00.000003Z", "last packet 1970-01-01T00:00:00.000009Z",
                            "duration 00:00:00.000006, packets a second 666666, bits a second 149333333"]),
        ((7,), (), ["packets 1, bytes 28, bytes a packet 28", "conversations 1",
                    "first packet 1970-01-01T00:00:00.000007Z", "last packet 1970-01-01T00:00:00.000007Z", "duration 00:00:00.000000"]),
        ((7, 8), ("--port", "1"), ["packets 0, bytes 0", "conversations 0"]),
    ]:
        blocks = b"".join(block(6, struct.pack("<IIIII", 0, 0, time, len(packet), len(packet)) + packet) for time in times)
        data = section_header() + interface_description(RAW) + blocks
        tally.expect(f"totals, times {times}", totals_of(run(data, "--summary", *choice).stdout), wanted)
    data = section_header() + interface_description(RAW) + block(3, struct.pack("<I", len(packet)) + packet)
    wanted = ["packets 1, bytes 28, bytes a packet 28", "conversations 1"]
    tally.expect("totals without a time", totals_of(run(data, "--summary").stdout), wanted)
