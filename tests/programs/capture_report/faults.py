"""Tests of captures that are cut off, malformed or too long."""
import itertools
import struct

from ..build import (
    ETHERNET, IPV4, OTHER_LINK, RAW, block, capture, capture_parts, frame, interface_description, ipv4, pcapng, pcapng_parts,
    section_header, udp
)
from ..kinds import every_kind
from .report import length_text, lines_of, parts_of, run, verdict_of
from .streams import check_streams


def check_cuts(tally):
    """A capture of either form cut after any number of bytes: the packets before the cut have their lines, and the place is named. The
    parts before the first packet are the header alone, or two blocks."""
    frames = [frame(ETHERNET, ipv4(17, udp(IPV4, bytes(length)))) for length in (0, 5, 18)]
    for name, parts, before in [("capture", capture_parts(ETHERNET, frames), 1), ("pcapng file", pcapng_parts(ETHERNET, frames), 2)]:
        parts = list(parts)
        whole = b"".join(parts)
        lines = lines_of(run(whole, "--packets").stdout)
        ends = list(itertools.accumulate(map(len, parts)))
        found, stated = [], []
        for length in range(len(whole) + 1):
            done = run(whole[:length], "--packets")
            count = sum(end <= length for end in ends)
            status = 2 if count == 0 else 0 if length in ends else 1
            place = f"{ends[count - 1] if count else length}"
            found.append((length, done.returncode, lines_of(done.stdout), status == 0 or place in done.stderr.decode()))
            stated.append((length, status, lines[:max(count - before, 0)], True))
        tally.expect(f"a {name} cut after any number of bytes", found, stated)


def check_faults(tally):
    """Files that are no capture, or not one of the form that is read; arguments; input and output that fail."""
    small = capture(ETHERNET, [frame(ETHERNET, ipv4(17, udp(IPV4, b"")))])
    for name, data, status, words in [
        ("another magic number", b"\x01\x02\x03\x04" + small[4:], 2, "01020304"),
        ("no bytes", b"", 2, "0"),
        ("a version below 2.4", small[:6] + b"\3" + small[7:], 1, "2.3"),
        ("the modified form", b"\x34\xCD\xB2\xA1" + small[4:], 1, "modified"),
        ("a pcapng file of version 2", section_header(major=2), 1, "version"),
        ("a pcapng file without a byte order", section_header().replace(b"\x1A", b"\x1B"), 2, "0x4d3c2b1b"),
        ("a section header block of 16 bytes", b"\x0A\x0D\x0D\x0A\x10\0\0\0\x4D\x3C\x2B\x1A\x10\0\0\0", 2, "needs at least 28"),
        ("a pcapng file cut within its first block", section_header()[:-1], 2, "27"),
    ]:
        done = run(data)
        tally.expect(name, (done.returncode, done.stdout, words in done.stderr.decode()), (status, b"", True))
    check_blocks(tally)
    long_frame = frame(ETHERNET, ipv4(17, bytes(600_000 - 34), total=65535))
    for form in (capture, pcapng):
        done = run(form(ETHERNET, [long_frame, frame(ETHERNET, ipv4(17, udp(IPV4, b"")))]), "--packets")
        found = [(verdict_of(line), parts_of(line)[2]) for line in lines_of(done.stdout)]
        length = length_text(long_frame) if form is capture else "length unknown: "
        wanted = (0, [("long", length), ("right", "length 42: ")])
        tally.expect(f"a packet that is too long, {form.__name__}", (done.returncode, found), wanted)
    frames, verdicts = every_kind(ETHERNET)
    everything = capture(ETHERNET, frames)
    wrong = sum(verdict in ("wrong", "refused") for verdict in verdicts)
    lines = lines_of(run(everything, "--packets").stdout)
    tally.expect("--wrong", lines_of(run(everything, "--wrong", "--packets").stdout),
                 [line for line in lines if verdict_of(line) in ("wrong", "refused")])
    tally.expect("how many are wrong", len(lines_of(run(everything, "--wrong", "--packets").stdout)), wrong)
    both = run(everything).stdout.decode()
    summary = run(everything, "--summary").stdout.decode()
    tally.expect("lines and summary", both.endswith(summary) and both.startswith(lines[0]) and len(summary) > 0, True)
    done = run(b"", "--bogus")
    tally.expect("an unknown argument", (done.returncode, done.stdout, "--bogus" in done.stderr.decode()), (2, b"", True))
    done = run(b"", "--help")
    wanted = ("--summary", "Exit status: 0 ", "as -c requests; 1 ", "141 the reader ", "gzip -dc ")
    tally.expect("--help", (done.returncode, [text in done.stdout.decode() for text in wanted], done.stderr), (0, [True] * len(wanted), b""))
    check_streams(tally, everything)


def check_blocks(tally):
    """Pcapng files that have no classic form: two interfaces, one with a link type that is not read; a simple packet block; two sections; a
    block that can't be read."""
    packet = ipv4(17, udp(IPV4, b"abc"))
    fields = [(0, 0, 0, len(packet), len(packet)), (1, 0, 1, len(packet), len(packet))]
    of_first, of_second = (struct.pack("<IIIII", *numbers) + packet for numbers in fields)
    begin = section_header() + interface_description(RAW)
    line = "length 31: 192.0.2.1:49152 > 192.0.2.2:53 UDP length 11, payload 3; checksum right"
    unread = "length 31: link type 147"
    for name, data, status, lines in [
        ("an interface whose link type is not read",
         begin + interface_description(OTHER_LINK) + block(6, of_first) + block(6, of_second), 0,
         [f"1 00:00:00.000000 interface 0 {line}", f"2 00:00:00.000001 interface 1 {unread}"]),
        ("a simple packet block", begin + block(3, struct.pack("<I", len(packet)) + packet), 0, [f"1 - {line}"]),
        ("two sections of different orders", begin + block(6, of_first) + pcapng(RAW, [packet], ">"), 0,
         [f"1 00:00:00.000000 {line}", f"2 444444:26:40.000000 {line}"]),
        ("a packet of an interface that is not there", begin + block(6, of_first) + block(6, of_second), 1, [f"1 00:00:00.000000 {line}"]),
    ]:
        done = run(data, "--packets")
        tally.expect(name, (done.returncode, lines_of(done.stdout), bool(done.stderr)), (status, lines, status != 0))
