"""Tests of the comments in the line and in the object of a packet."""
import json
import shutil
import struct
import subprocess

from ..build import IPV4, RAW, block, capture, interface_description, ipv4, option, section_header, udp
from .report import lines_of, run

PACKET = ipv4(17, udp(IPV4, b"abc"))
CAPTURED = PACKET + bytes(-len(PACKET) % 4)


def packet_with(*comments, order="<"):
    """A packet with these comments, in an enhanced packet block. Other options are before and after the comments."""
    options = option(2, bytes(4), order) + b"".join(option(1, comment, order) for comment in comments) + option(4, bytes(8), order)
    return block(6, struct.pack(order + "IIIII", 0, 0, 0, len(PACKET), len(PACKET)) + CAPTURED + options, order)


def obsolete_packet_with(comment):
    """A packet with a comment in an obsolete packet block."""
    return block(2, struct.pack("<HHIIII", 0, 0, 0, 0, len(PACKET), len(PACKET)) + CAPTURED + option(1, comment))


SIMPLE = block(3, struct.pack("<I", len(PACKET)) + CAPTURED)
# Blocks with a packet, the comments of the packet, how a line and an object show them, and the number of comments that they leave out.
ROWS = [
    (packet_with(), [], [], 0),
    (packet_with(b"lost here"), [b"lost here"], ["lost here"], 0),
    # A packet without a comment does not have the comment of the packet before it.
    (packet_with(), [], [], 0), (packet_with(b"one", b"two"), [b"one", b"two"], ["one", "two"], 0), (SIMPLE, [], [], 0),
    (packet_with(b""), [b""], [""], 0), (obsolete_packet_with(b"old"), [b"old"], ["old"], 0),
    (packet_with(b"a\nb\x1b[0m", b"\xff\\"), [b"a\nb\x1b[0m", b"\xff\\"], ["a\\x0Ab\\x1B[0m", "\\xFF\\x5C"], 0),
    (packet_with(b"n" * 130), [b"n" * 130], ["n" * 128 + "..."], 0),
    (packet_with(*b"1 2 3 4".split()), b"1 2 3 4".split(), ["1", "2", "3", "4"], 0),
    (packet_with(*b"1 2 3 4 5 6".split()), b"1 2 3 4 5 6".split(), ["1", "2", "3", "4"], 2),
]
DATA = section_header() + interface_description(RAW) + b"".join(part for part, *_ in ROWS)


def check_comments(tally):
    """The comments of each packet, in its line if the line is verbose, and in its object."""
    shown = ["".join(f'; comment "{text}"' for text in texts) + (f"; more comments {more}" if more else "") for _, _, texts, more in ROWS]
    ends = [line.partition("checksum right")[2] for line in lines_of(run(DATA, "--packets", "-v").stdout)]
    tally.expect("comments in lines", ends, shown)
    ends = [line.partition("checksum right")[2] for line in lines_of(run(DATA, "--packets").stdout)]
    tally.expect("no comments in short lines", ends, [""] * len(ROWS))
    objects = [json.loads(line) for line in lines_of(run(DATA, "--packets", "--json").stdout)]
    found = [(members.get("comments"), members.get("more_comments")) for members in objects]
    tally.expect("comments in objects", found, [(texts or None, more or None) for _, _, texts, more in ROWS])
    summary = json.loads(run(DATA, "--summary", "--json").stdout)
    tally.expect("packets with a comment", summary["packets_with_comment"], sum(bool(comments) for _, comments, *_ in ROWS))
    big = section_header(">") + interface_description(RAW, ">") + packet_with(b"big", order=">")
    tally.expect("a big-endian comment", json.loads(run(big, "--packets", "--json").stdout)["comments"], ["big"])
    tally.expect("no comment in a classic capture", "comments" in json.loads(run(capture(RAW, [PACKET]), "--packets", "--json").stdout), False)


def check_comments_against_tshark(tally):
    """Tshark's comments of each packet that has a comment in UTF-8."""
    tshark = shutil.which("tshark")
    if tshark is None:
        return
    options = ("-T", "fields", "-e", "frame.comment", "-E", "aggregator=/s")
    done = subprocess.run([tshark, "-r", "-", *options], input=DATA, capture_output=True, check=False)
    theirs = done.stdout.split(b"\n")[:-1]
    for place, ((_, comments, *_), line) in enumerate(zip(ROWS, theirs, strict=True), 1):
        if all(comment.isalnum() for comment in comments):
            tally.expect(f"tshark's comments of packet {place}", line.split(), comments)
    done = subprocess.run([tshark, "-r", "-", "-Y", "frame.comment"], input=DATA, capture_output=True, check=False)
    numbers = [int(line.split()[0]) for line in done.stdout.splitlines()]
    tally.expect("tshark's packets with a comment", numbers, [place for place, (_, comments, *_) in enumerate(ROWS, 1) if comments])
