"""Tests of the table of the timeline."""
import random
import struct

from ..build import IPV4, RAW, START, block, capture, interface_description, ipv4, packet_block, section_header, udp
from .report import run
from .timeline import FIXED_INTERVALS, seconds_text, width_for

# Packets of each kind that a row counts, by the column of their kind.
KINDS = {None: ipv4(17, udp(IPV4, b"abc")), "wrong": ipv4(17, udp(IPV4, b"abcdef", change=1)), "refused": ipv4(17, b"1234")}
MICROSECOND = 1000


def counts_of(kinds):
    """The numbers of a row: packets, bytes, packets with a wrong checksum, and refused packets."""
    return len(kinds), sum(len(KINDS[kind]) for kind in kinds), kinds.count("wrong"), kinds.count("refused")


def row_of(name, kinds, bar=""):
    packets, length, wrong, refused = counts_of(kinds)
    return f"{name:<25} {packets:>11} {length:>17} {wrong:>11} {refused:>11}{bar}"


def row_width(last):
    """The width of a row, given the latest time after the first packet. At most 20 rows have the least number of intervals."""
    width = width_for(last)
    return width * next(size for size in (1, 2, 5, 10, 20) if last // width // size < 20)


def rows_of(offsets, fixed):
    """The rows of packets, given their times after the first packet in nanoseconds, and the fixed width of a row if there is one."""
    width = fixed or row_width(max(time for time, _ in offsets))
    rows = {place * width: [] for place in range(max(time for time, _ in offsets) // width + 1)}
    for time, kind in offsets:
        rows[time // width * width].append(kind)
    most = max(map(len, rows.values()))
    for begin, kinds in rows.items():
        seconds = f"{begin // 10 ** 9}.{begin % 10 ** 9:09}"
        yield row_of(f"{seconds:>25}", kinds, f" {'#' * -(-40 * len(kinds) // most)}" if kinds else "")


def table(packets, fixed=None):
    """The table of packets, each with its time in nanoseconds or None, and its kind. The width of its rows may be fixed."""
    times = [time for time, _ in packets if time is not None]
    end = times[0] + fixed * FIXED_INTERVALS if times and fixed else float("inf")
    apart = {"older packets": [kind for time, kind in packets if time is not None and time < times[0]],
             "later packets": [kind for time, kind in packets if time is not None and time >= end],
             "packets without a time": [kind for time, kind in packets if time is None]}
    rows = rows_of([(time - times[0], kind) for time, kind in packets if time is not None and times[0] <= time < end], fixed) if times else ()
    head = f"{'timeline, seconds':<25} {'packets':>11} {'bytes':>17} {'wrong':>11} {'refused':>11}"
    return "\n".join([head, *rows, *(row_of(name, kinds) for name, kinds in apart.items() if kinds)]) + "\n"


def block_of(time, kind):
    """The block of a packet, which has no time if it is a simple packet block."""
    data = KINDS[kind]
    return block(3, struct.pack("<I", len(data)) + data) if time is None else packet_block(0, time // MICROSECOND, data, len(data))


def check_timeline_table(tally):
    """Packets of all kinds within a span of time, not in the order of their times, some of them without a time."""
    numbers = random.Random(1)
    for span in (1, 2, 20, 255, 256, 300, 1000, 10 ** 6, 3600 * 10 ** 6, 86_400 * 10 ** 6, 10 ** 15):
        for count in (1, 2, 40, 1000):
            times = [(START * 10 ** 6 + numbers.randrange(span)) * MICROSECOND if numbers.randrange(20) else None for _ in range(count)]
            packets = [(time, numbers.choice(list(KINDS))) for time in times]
            data = section_header() + interface_description(RAW) + b"".join(block_of(*packet) for packet in packets)
            summary = run(data, "--summary").stdout.decode()
            tally.expect(f"{count} packets in {span} microseconds", run(data, "--summary", "--timeline").stdout.decode(), f"{summary}\n{table(packets)}")
    for width, span in ((1000, 20), (1000, 300), (7_500, 4000), (10 ** 6, 10 ** 8), (10 ** 9, 3600 * 10 ** 6), (250_000_000, 10 ** 11), (10 ** 18, 10 ** 15)):
        times = [(START * 10 ** 6 + numbers.randrange(span)) * MICROSECOND if numbers.randrange(20) else None for _ in range(100)]
        packets = [(time, numbers.choice(list(KINDS))) for time in times]
        data = section_header() + interface_description(RAW) + b"".join(block_of(*packet) for packet in packets)
        summary = run(data, "--summary").stdout.decode()
        for options in ((), ("--timeline",)):
            found = run(data, "--summary", "--interval", seconds_text(width), *options).stdout.decode()
            tally.expect(f"rows of {width} nanoseconds, {span} microseconds", found, f"{summary}\n{table(packets, width)}")
    none = capture(RAW, [])
    tally.expect("intervals of no packets", run(none, "--summary", "--interval", "1").stdout, run(none, "--summary").stdout)
    tally.expect("a timeline of no packets", run(none, "--summary", "--timeline").stdout, run(none, "--summary").stdout)
    one = capture(RAW, [KINDS[None]])
    tally.expect("a timeline in JSON", run(one, "--json", "--timeline").stdout, run(one, "--json").stdout)
