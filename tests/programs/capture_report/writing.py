"""Tests of the option -w, which writes packets as a capture."""
import itertools
import os
import pathlib
import shutil
import struct
import subprocess
import tempfile

from ..build import IPV4, OTHER_LINK, RAW, block, interface_description, ipv4, pcapng_parts, udp
from .report import PROGRAM, lines_of, parts_of, run

# Options that select packets.
SELECTIONS = [
    (),
    ("--protocol", "tcp"),
    ("--port", "53", "--host", "192.0.2.1"),
    ("--wrong",),
    ("--wrong", "--protocol", "udp"),
    ("-c", "5"),
    ("--protocol", "icmp", "-c", "3"),
    ("--wrong", "-c", "30"),
    ("--port", "1"),
]


def records_of(data):
    """The header and the records of a classic capture in little-endian order."""
    parts, place = [data[:24]], 24
    while place < len(data):
        length = 16 + struct.unpack_from("<I", data, place + 8)[0]
        parts.append(data[place:place + length])
        place += length
    return parts


def check_writing(tally):
    """With -w the packets that have a line are a capture of the same form, whose lines differ only in numbers and times."""
    header, *records = records_of((PROGRAM.crate / "stdin").read_bytes())
    data = header + b"".join(records)
    for selection in SELECTIONS:
        lines = lines_of(run(data, "--packets", *selection).stdout)
        done = run(data, "-w", "-", *selection)
        wanted = header + b"".join(records[int(parts_of(line)[0]) - 1] for line in lines)
        tally.expect(f"-w - {selection}", (done.returncode, done.stdout == wanted), (0, True))
        again = lines_of(run(done.stdout, "--packets").stdout)
        tally.expect(f"-w - {selection}, read again", [parts_of(line)[2:] for line in again], [parts_of(line)[2:] for line in lines])
    check_written_files(tally, data)
    check_kept_files(tally, data)
    check_written_blocks(tally)
    check_written_errors(tally, data)
    found = []
    ends = list(itertools.accumulate(map(len, [header] + records)))
    for length in range(ends[4] + 1):
        done = run(data[:length], "-w", "-")
        end = max((end for end in ends if end <= length), default=0)
        status = 2 if length < 24 else 0 if length in ends else 1
        found.append((done.returncode, done.stdout) == (status, data[:end]))
    tally.expect("-w of a capture cut after any number of bytes", found, [True] * len(found))


def counts_text(read, written=None):
    """The line about the packets after -w. All of them are written if only one number is given."""
    return f"capture_report: {read} packets read, {read if written is None else written} written\n"


def check_written_errors(tally, data):
    """If standard error can't be written, -w has written all packets, and its status is that of a failure, as after a report."""
    cut = data[:-1]
    whole, most = run(data, "-w", "-").stdout, run(cut, "-w", "-").stdout
    reader, ended = os.pipe()
    os.close(reader)
    with open("/dev/full", "wb") as full:
        for name, errors, status in (("full", full, 3), ("without a reader", ended, 141), ("closed", None, 3)):
            for form, read, wanted in (("a whole capture", data, whole), ("a cut capture", cut, most)):
                done = PROGRAM.with_errors_to(errors, read, "-w", "-")
                tally.expect(f"-w of {form}, standard error {name}", (done.returncode, done.stdout == wanted), (status, True))
            with tempfile.TemporaryDirectory() as room:
                done = PROGRAM.with_errors_to(errors, data, "-w", "new.pcap", "-", cwd=room)
                written = (pathlib.Path(room) / "new.pcap").read_bytes()
                tally.expect(f"-w FILE of standard input, standard error {name}", (done.returncode, written == whole), (status, True))
            for arguments in (("-w", "-", "missing.pcap"), ("-w", ".", "-"), ("missing.pcap",), ("--bogus",)):
                done = PROGRAM.with_errors_to(errors, data, *arguments)
                tally.expect(f"{arguments}, standard error {name}", done.returncode, status)
            done = PROGRAM.with_errors_to(errors, cut, "--packets")
            tally.expect(f"a report of a cut capture, standard error {name}", (done.returncode, done.stdout), (status, run(cut, "--packets").stdout))
    os.close(ended)


def check_written_blocks(tally):
    """With -w all blocks of a pcapng file are written, in either byte order, except the blocks of packets that have no line."""
    frames = [ipv4(17, udp(IPV4, b"abc")), ipv4(6, b""), ipv4(17, udp(IPV4, b"abcd"))]
    for order in "<", ">":
        comment = block(6, struct.pack(order + "IIIII", 1, 0, 2, 4, 4) + b"abcd" + struct.pack(order + "HH5s3xHH", 1, 5, b"hello", 0, 0), order)
        section, interface, *packets = pcapng_parts(RAW, frames, order)
        second = interface_description(OTHER_LINK, order)
        statistics = block(5, struct.pack(order + "III", 0, 0, 0), order)
        simple = block(3, struct.pack(order + "I", len(frames[0])) + frames[0], order)
        parts = [(section, False), (interface, False), (second, False), (statistics, False), (packets[0], True), (comment, False), (packets[1], False),
                 (statistics, False), (packets[2], True), (section, False), (interface, False), (simple, True), (block(0xBAD, struct.pack(order + "I", 32473), order), False)]
        others = {section, interface, second, statistics, parts[-1][0]}
        data = b"".join(part for part, _ in parts)
        for selection, written in [((), None), (("--protocol", "udp"), True), (("--port", "1"), False)]:
            wanted = b"".join(part for part, is_udp in parts if written is None or part in others or (written and is_udp))
            done = run(data, "-w", "-", *selection)
            tally.expect(f"-w - {selection} of a pcapng file, {order}", (done.returncode, done.stdout), (0, wanted))
        cut = [data[:length] for length in range(4, len(section) + len(interface) + 1)]
        statuses = [run(first, "-w", "-").returncode for first in cut]
        tally.expect(f"-w - of a pcapng file cut after any number of bytes, {order}", statuses, [run(first).returncode for first in cut])
        if tshark := shutil.which("tshark"):
            theirs = subprocess.run([tshark, "-r", "-", "-Y", "udp"], input=run(data, "-w", "-", "--protocol", "udp").stdout, capture_output=True, timeout=120)
            tally.expect("tshark reads written blocks", (theirs.returncode, len(theirs.stdout.splitlines())), (0, 3))


def check_written_files(tally, data):
    """The file of -w, and what is refused with it."""
    with tempfile.TemporaryDirectory() as room:
        room = pathlib.Path(room)
        (room / "all.pcap").write_bytes(data)
        os.link(room / "all.pcap", room / "link.pcap")
        done = run(b"", "-w", "tcp.pcap", "--protocol", "tcp", "all.pcap", cwd=room)
        stated = run(data, "-w", "-", "--protocol", "tcp")
        tally.expect("-w FILE", (done.returncode, done.stdout, (room / "tcp.pcap").read_bytes()), (0, b"", stated.stdout))
        tally.expect("-w FILE: standard error", done.stderr.decode(), counts_text(70, 10))
        (room / "cut.pcap").write_bytes(data[:-1])
        done = run(b"", "-w", "most.pcap", "cut.pcap", cwd=room)
        errors = run(b"", "--packets", "cut.pcap", cwd=room).stderr.decode() + counts_text(69)
        tally.expect("-w FILE of a cut capture", (done.returncode, done.stderr.decode(), (room / "most.pcap").read_bytes()),
                     (1, errors, run(data[:-1], "-w", "-").stdout))
        if tshark := shutil.which("tshark"):
            theirs = subprocess.run([tshark, "-r", room / "tcp.pcap"], capture_output=True, text=True, timeout=120)
            tally.expect("tshark reads a written file", (theirs.returncode, len(theirs.stdout.splitlines())), (0, 10))
        for arguments, status in [
            (("-w", "all.pcap", "all.pcap"), 2),
            (("-w", "./all.pcap", "all.pcap"), 2),
            (("-w", "link.pcap", "-r", "all.pcap"), 2),
            (("-w", "new.pcap", "all.pcap", "link.pcap"), 2),
            *(((*words, "-w", "new.pcap", "all.pcap"), 2)
              for words in (["--packets"], ["--summary"], ["--json"], ["--absolute"], ["--check"], ["--top", "3"])),
            (("-w", "new.pcap", "missing.pcap"), 3),
            (("-w", ".", "all.pcap"), 3),
            (("-w", "missing/new.pcap", "all.pcap"), 3),
            (("-w", "/dev/full", "all.pcap"), 3),
        ]:
            done = run(b"", *arguments, cwd=room)
            tally.expect(f"{arguments}", (done.returncode, done.stdout, bool(done.stderr)), (status, b"", True))
        tally.expect("a capture that is refused as output", ((room / "all.pcap").read_bytes() == data, (room / "new.pcap").exists()), (True, False))


def check_kept_files(tally, data):
    """The file of -w stays as it is if it is the capture, also as standard input, or if the start of the capture is refused."""
    with tempfile.TemporaryDirectory() as room:
        room = pathlib.Path(room)
        capture, link, good = room / "all.pcap", room / "link.pcap", room / "good.pcap"
        capture.write_bytes(data)
        os.link(capture, link)
        good.write_bytes(data)
        for name in capture, link:
            with open(capture, "rb") as standard_input:
                done = subprocess.run([PROGRAM.path, "-w", name], stdin=standard_input, capture_output=True, timeout=60)
            tally.expect(f"-w {name.name} < all.pcap", (done.returncode, done.stdout, bool(done.stderr), capture.read_bytes() == data), (2, b"", True, True))
        broken = {"empty": b"", "short": data[:23], "other magic number": b"\x00" * 24, "other version": data[:4] + b"\x09\x00" + data[6:]}
        for kind, start in broken.items():
            (room / "broken").write_bytes(start)
            for name in "good.pcap", "new.pcap":
                done = run(b"", "-w", name, "broken", cwd=room)
                tally.expect(f"-w {name} of a capture whose start is refused: {kind}", done.returncode, run(start).returncode)
        tally.expect("files after refused captures", (good.read_bytes() == data, (room / "new.pcap").exists()), (True, False))
