"""Tests of the timeline in JSON."""
import itertools
import json
import random
import struct

from ..build import RAW, block, interface_description, packet_block, section_header
from ..kinds import transports
from .members import numbers_of
from .report import lines_of, run

# The members of an interval by the names of protocols. Packets of all other protocols are in the member `other`.
MEMBERS = {"UDP": "udp", "TCP": "tcp", "ICMPv4": "icmp", "ICMPv6": "icmp"}
INTERVALS = 256
# The greatest number of intervals of a fixed width.
FIXED_INTERVALS = 65_536


def count_of(packets):
    return {"packets": len(packets), "bytes": sum(packet.get("length", 0) for packet in packets)}


def counts_of(packets):
    """The object of an interval, from the objects of its packets."""
    by_name = {name: [packet for packet in packets if MEMBERS.get(packet.get("protocol_name"), "other") == name]
               for name in ("udp", "tcp", "icmp", "other")}
    by_name["wrong"] = [packet for packet in packets if packet.get("checksum") == "wrong"]
    by_name["refused"] = [packet for packet in packets if "refused" in packet]
    return count_of(packets) | {name: count_of(some) for name, some in by_name.items()}


def width_for(span):
    """The least number that is 1, 2 or 5 times a power of ten, and with which the intervals reach a time so long after the start."""
    widths = (step * 10 ** power for power in itertools.count() for step in (1, 2, 5))
    return next(width for width in widths if span < INTERVALS * width)


def timeline_of(packets, fixed=None):
    """The timeline of these packets without the text of its start, from their objects. The width of its intervals may be fixed."""
    timed = [(packet["seconds"] * 10 ** 9 + packet["nanoseconds"], packet) for packet in packets if packet["time"] is not None]
    start = timed[0][0] if timed else None
    since = [(time - start, packet) for time, packet in timed]
    end = fixed * FIXED_INTERVALS if fixed else max((offset for offset, _ in since), default=0) + 1
    span = max((offset for offset, _ in since if offset < end), default=-1)
    width = fixed or width_for(max(span, 0))
    intervals = [[] for _ in range(span // width + 1)]
    for offset, packet in since:
        if 0 <= offset < end:
            intervals[offset // width].append(packet)
    numbers = {} if start is None else dict(zip(("start_seconds", "start_nanoseconds"), divmod(start, 10 ** 9)))
    return numbers | {
        "interval_seconds": width // 10 ** 9, "interval_nanoseconds": width % 10 ** 9, "intervals": [counts_of(some) for some in intervals],
        "older": counts_of([packet for offset, packet in since if offset < 0]),
        "later": counts_of([packet for offset, packet in since if offset >= end]),
        "untimed": counts_of([packet for packet in packets if packet["time"] is None])}


def capture_at(times, packets):
    """A pcapng file of raw IP with a packet at each of these times in microseconds. A packet without a time is in a simple packet block."""
    blocks = [section_header(), interface_description(RAW)]
    for time, packet in zip(times, packets):
        simple = block(3, struct.pack("<I", len(packet)) + packet)
        blocks.append(simple if time is None else packet_block(0, time, packet, len(packet)))
    return b"".join(blocks)


def seconds_text(nanoseconds):
    """The shortest text of a number of seconds."""
    return f"{nanoseconds // 10 ** 9}.{nanoseconds % 10 ** 9:09}".rstrip("0").rstrip(".")


def expect_timeline(tally, name, data, *options, fixed=None):
    """The timeline in the summary of a capture is the timeline of its packets."""
    *packets, summary = map(json.loads, lines_of(run(data, "--json", *options).stdout))
    found = summary["timeline"]
    start = found.pop("start")
    stated = {} if start is None else numbers_of(start, ("start_seconds", "start_nanoseconds"))
    wanted = timeline_of(packets, fixed)
    tally.expect(f"timeline, {name}: start", stated, {member: found[member] for member in stated})
    tally.expect(f"timeline, {name}", found, wanted)
    tally.expect(f"timeline, {name}: order", list(found), list(wanted))
    apart = (found[member] for member in ("older", "later", "untimed"))
    tally.expect(f"timeline, {name}: sum", sum(counts["packets"] for counts in (*found["intervals"], *apart)), summary["packets"])


def check_interval(tally):
    """The timeline with a fixed width, of packets at random times, some of them older, later, or without a time."""
    chance = random.Random(2)
    kinds = [packet for _, packet in transports()]
    base = 1_600_000_000_000_000
    for width in (1, 999, 1000, 3_000, 10 ** 6, 123_456_789, 10 ** 9, 60 * 10 ** 9, 3_600_000_000_001, 10 ** 18):
        for span in (1, 100, 1_000):
            microseconds = max(1, min(width * span // 1000, base // 2))
            times = [None if not chance.randrange(10) else base + chance.randrange(-microseconds // 4, microseconds) for _ in range(60)]
            times = [base, *times, min(base + width * FIXED_INTERVALS // 1000 + 1, 2 ** 63)]
            data = capture_at(times, [chance.choice(kinds) for _ in times])
            expect_timeline(tally, f"{span} intervals of {width} nanoseconds", data, "--interval", seconds_text(width), fixed=width)
    last = [base, base + 3 * FIXED_INTERVALS - 1, base + 3 * FIXED_INTERVALS]
    expect_timeline(tally, "the last interval", capture_at(last, kinds), "--interval", "0.000003", fixed=3000)
    for text, width in (("1", 10 ** 9), ("01.50", 1_500_000_000), ("0.000000001", 1), ("1000000000.000000000", 10 ** 18)):
        expect_timeline(tally, f"--interval {text}", capture_at([base, base + 1], kinds), f"--interval={text}", fixed=width)


def check_timeline(tally):
    """The timeline in JSON is the one that the objects of the packets give."""
    chance = random.Random(1)
    kinds = [packet for _, packet in transports()]
    base = 1_600_000_000_000_000
    spans = [0, 1, 255, 256, 1_000, 12_799, 12_800, 10 ** 6, 59 * 10 ** 6, 3600 * 10 ** 6, 86_400 * 10 ** 6, base]
    rows = [(f"{span} microseconds", [base + chance.randrange(-span // 4, span + 1) for _ in range(200)]) for span in spans]
    rows += [("in order", range(base, base + 200)), ("no times", [None] * 20), ("no packets", []),
             ("some times", [chance.choice((None, base, base + 7, base - 1)) for _ in range(100)])]
    for name, times in rows:
        expect_timeline(tally, name, capture_at(times, [chance.choice(kinds) for _ in times]))
