"""Tests of dates and times."""
import itertools
import json
import struct

from ..build import ETHERNET, IPV4, RAW, START, block, capture, interface_description, ipv4, pcapng, section_header, udp
from ..kinds import every_kind
from .members import is_within
from .report import date_and_time, lines_of, run


def check_dates(tally):
    """With --absolute a line has the date and time of its packet, and is otherwise the same."""
    frames, _ = every_kind(ETHERNET)
    for nanoseconds in (False, True):
        for form in (capture, pcapng):
            data = form(ETHERNET, frames, "<", nanoseconds)
            lines = [line.split(" ", 2) for line in lines_of(run(data, "--packets").stdout)]
            wanted = [" ".join((number, date_and_time(START, time.split(".")[1]), rest)) for number, time, rest in lines]
            tally.expect(f"--absolute, {form.__name__}, nanoseconds {nanoseconds}", lines_of(run(data, "--packets", "--absolute").stdout), wanted)
    packet = ipv4(17, udp(IPV4, b"abc"))
    rest = "length 31: 192.0.2.1:49152 > 192.0.2.2:53 UDP length 11, payload 3; checksum right"
    for offset in (0, 1, -1, 3600, -3600 * 24 * 365, -62_135_596_800, 253_402_300_799, 253_402_300_800, 2 ** 63 - 1):
        options = struct.pack("<HHqHH", 14, 8, offset, 0, 0)
        head = section_header() + block(1, struct.pack("<HHI", RAW, 0, 262144) + options)
        units = 1_709_164_800_000_001 if -1_000_000 < offset < 1_000_000 else 1
        data = head + block(6, struct.pack("<IIIII", 0, units >> 32, units & 0xFFFFFFFF, len(packet), len(packet)) + packet)
        tally.expect(f"--absolute, if_tsoffset {offset}", lines_of(run(data, "--packets", "--absolute").stdout),
                     [f"1 {date_and_time(units // 1_000_000 + offset, f'{units % 1_000_000:06}')} {rest}"])
    data = section_header() + interface_description(RAW) + block(3, struct.pack("<I", len(packet)) + packet)
    tally.expect("--absolute, a simple packet block", lines_of(run(data, "--packets", "--absolute").stdout), [f"1 - {rest}"])


def check_times_as_numbers(tally):
    """The seconds of a packet in JSON are rounded down, whatever --absolute says, and are left out of a packet without a time."""
    packet = ipv4(17, udp(IPV4, b"abc"))
    for offset, units in itertools.product((0, -1, -3600 * 24 * 365, -62_135_596_800, 253_402_300_799, 2 ** 40), (0, 1, 999_999, 1_700_000_000_123_456)):
        options = struct.pack("<HHqHH", 14, 8, offset, 0, 0)
        head = section_header() + block(1, struct.pack("<HHI", RAW, 0, 262144) + options)
        data = head + block(6, struct.pack("<IIIII", 0, units >> 32, units & 0xFFFFFFFF, len(packet), len(packet)) + packet)
        found = [json.loads(lines_of(run(data, "--json", *more).stdout)[0]) for more in ((), ("--absolute",))]
        wanted = {"seconds": offset + units // 10 ** 6, "nanoseconds": units % 10 ** 6 * 1000}
        tally.expect(f"if_tsoffset {offset}, {units} microseconds", [is_within(wanted, each) for each in found], [True] * 2)
    data = section_header() + interface_description(RAW) + block(3, struct.pack("<I", len(packet)) + packet)
    found = json.loads(run(data, "--packets", "--json").stdout)
    tally.expect("a simple packet block has no time as numbers", [name in found for name in ("time", "seconds", "nanoseconds")], [True, False, False])
