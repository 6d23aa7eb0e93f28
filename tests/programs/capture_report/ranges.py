"""Tests of the options that choose packets by their times."""
import datetime
import json
import random
import struct

from ..build import IPV4, RAW, block, ipv4, option, section_header, udp
from .report import lines_of, parts_of, run, verdict_of

# A packet whose checksum is right, and a packet whose checksum is wrong.
PACKETS = (ipv4(17, udp(IPV4, b"abc")), ipv4(17, udp(IPV4, b"abc", change=1)))

# A record with more bytes than the program keeps.
LONG = bytes(524_289)

SECOND = 10 ** 9


def classic_capture(numbers):
    """A classic capture of random times: its header, and the time of each record in nanoseconds with the record."""
    order, exponent = numbers.choice("<>"), numbers.choice((6, 9))
    header = struct.pack(order + "IHHIIII", 0xA1B23C4D if exponent == 9 else 0xA1B2C3D4, 2, 4, 0, 0, 262144, RAW)
    start, parts = numbers.choice((0, 951_782_398, 1_600_000_000, 2 ** 32 - 5)), [(None, header)]
    for place in range(numbers.randrange(1, 12)):
        seconds, data = start + numbers.randrange(5), LONG if place == 3 else numbers.choice(PACKETS)
        # A malformed record can state more than a second.
        fraction = numbers.choice((0, 1, 10 ** exponent - 1, numbers.randrange(10 ** exponent), numbers.randrange(2 ** 32)))
        time = seconds * SECOND + fraction * 10 ** (9 - exponent)
        parts.append((time, struct.pack(order + "IIII", seconds, fraction, len(data), len(data)) + data))
    return parts


def pcapng_file(numbers):
    """The same of a pcapng file. Its interface has a random resolution and a random offset, and the time of a simple packet block is unknown."""
    unit = numbers.choice((6, 9, 3, 12, 0x80 | 10, 0x80 | 32))
    units = 2 ** (unit & 0x7F) if unit & 0x80 else 10 ** unit
    offset = numbers.choice((0, 0, 1_600_000_000, -62_135_596_800, -1))
    description = struct.pack("<HHI", RAW, 0, 262144) + option(9, bytes([unit])) + option(14, struct.pack("<q", offset)) + option(0, b"")
    parts = [(None, section_header()), (None, block(1, description))]
    start = numbers.choice((0, 86_400, 1_600_000_000)) if units < 10 ** 12 else 0
    for _ in range(numbers.randrange(1, 12)):
        data, time = numbers.choice(PACKETS), (start + numbers.randrange(5)) * units + numbers.choice((0, 1, units - 1, numbers.randrange(units)))
        body = struct.pack("<IIIII", 0, time >> 32, time & 0xFFFFFFFF, len(data), len(data)) + data
        parts.append(((offset * units + time) * SECOND // units, block(6, body)))
        if not numbers.randrange(4):
            parts.append(("unknown", block(3, struct.pack("<I", len(data)) + data)))
    return parts


def time_text(numbers, nanoseconds):
    """A time as RFC 3339 writes it, with a random offset, separator and number of digits."""
    minutes = numbers.choice((0, 0, 1, -1, 60, -330, 1439, -1439))
    try:
        local = datetime.datetime(1970, 1, 1) + datetime.timedelta(seconds=nanoseconds // SECOND, minutes=minutes)
    except OverflowError:
        return time_text(numbers, nanoseconds)
    digits = f"{nanoseconds % SECOND:09}"
    digits = digits.rstrip("0").ljust(numbers.randrange(10), "0") if numbers.randrange(2) else digits
    zone = numbers.choice(("Z", "z", "+00:00", "-00:00")) if not minutes else f"{'-' if minutes < 0 else '+'}{abs(minutes) // 60:02}:{abs(minutes) % 60:02}"
    date, time = local.isoformat().split("T")[0].rjust(10, "0"), local.strftime("%H:%M:%S")
    return f"{date}{numbers.choice('Tt ')}{time}{'.' * bool(digits)}{digits}{zone}"


def random_range(numbers, times):
    """The ends of a range, each a time of a packet or a time near it, or None."""
    near = [time + numbers.choice((0, 0, 1, -1, SECOND)) for time in times if time != "unknown"] or [0]
    return tuple(None if not numbers.randrange(3) else numbers.choice(near) for _ in range(2))


def is_within(time, first, last):
    """Whether a time is in a range of which each end can be missing."""
    if first is None and last is None:
        return True
    return time != "unknown" and (first is None or first <= time) and (last is None or time < last)


def check_ranges(tally):
    """Packets that are chosen by their times: their lines, the summary, and what -w writes of them."""
    numbers = random.Random(3339)
    for number in range(120):
        parts = numbers.choice((classic_capture, pcapng_file))(numbers)
        data = b"".join(part for _, part in parts)
        times = [time for time, _ in parts if time is not None]
        first, last = random_range(numbers, times)
        arguments = [word for name, time in (("--from", first), ("--to", last)) if time is not None for word in (name, time_text(numbers, time))]
        chosen = [is_within(time, first, last) for time in times]
        lines = [line for line, among in zip(lines_of(run(data, "--packets").stdout), chosen) if among]
        done = run(data, "--packets", *arguments)
        tally.expect(f"{number}, {arguments}: lines", (done.returncode, lines_of(done.stdout), done.stderr), (0, lines, b""))
        faults = [line for line in lines if verdict_of(line) == "wrong"]
        done = run(data, "--wrong", "--packets", "--check", *arguments)
        tally.expect(f"{number}, {arguments}: faults", (done.returncode, lines_of(done.stdout)), (4 if faults else 0, faults))
        tally.expect(f"{number}, {arguments}: -c 2", lines_of(run(data, "--packets", "-c", "2", *arguments).stdout), lines[:2])
        summary = json.loads(run(data, "--summary", "--json", *arguments).stdout)
        tally.expect(f"{number}, {arguments}: packets", summary["packets"], len(lines))
        among, wanted = iter(chosen), b""
        for time, part in parts:
            wanted += part if time is None or next(among) else b""
        done = run(data, "-w", "-", *arguments)
        tally.expect(f"{number}, {arguments}: -w", (done.returncode, done.stdout == wanted), (0, True))


def check_shown_times(tally):
    """A time that --absolute shows chooses its packet as --from, and not as --to if the time is exact."""
    numbers = random.Random(5339)
    for _ in range(20):
        data = b"".join(part for _, part in classic_capture(numbers))
        for line in lines_of(run(data, "--packets", "--absolute").stdout):
            number, time = parts_of(line)[:2]
            shown = [[parts_of(each)[0] for each in lines_of(run(data, "--packets", name, time).stdout)] for name in ("--from", "--to")]
            tally.expect(f"packet {number} at {time}", [number in each for each in shown], [True, False])
