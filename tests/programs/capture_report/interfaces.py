"""Tests of the interface in the line and in the object of a packet."""
import json
import shutil
import struct
import subprocess

from ..build import IPV4, RAW, block, capture, ipv4, option, pcapng, section_header, udp
from .report import lines_of, parts_of, run

PACKET = ipv4(17, udp(IPV4, b"abc"))


def interface(*names, order="<"):
    """The description of an interface with these options `if_name`."""
    return block(1, struct.pack(order + "HHI", RAW, 0, 262144) + b"".join(option(2, name, order) for name in names), order)


def packet_of(number, order="<"):
    """A packet of the interface with this number, in an enhanced packet block."""
    return block(6, struct.pack(order + "IIIII", number, 0, 0, len(PACKET), len(PACKET)) + PACKET, order)


def obsolete_packet_of(number):
    """The same packet in an obsolete packet block, which also states that one packet was dropped."""
    return block(2, struct.pack("<HHIIII", number, 1, 0, 0, len(PACKET), len(PACKET)) + PACKET)


SIMPLE = block(3, struct.pack("<I", len(PACKET)) + PACKET)
# A file of three sections. Each part that contains a packet has the number of its interface, the name that the file states, and the form in
# which a line shows it, or no form if the line shows no interface.
PARTS = [
    (section_header(), None), (interface(b"eth0"), None),
    # The second interface of the section is not known yet.
    (packet_of(0), (0, b"eth0", None)),
    (interface(), None), (interface(b"two words"), None), (interface(b"a\nb\x1B[0m"), None), (interface(b"\xFF\\", b"second"), None),
    (interface(b"n" * 130), None), (interface(b""), None),
    (packet_of(0), (0, b"eth0", "eth0")), (packet_of(1), (1, b"", "interface 1")), (packet_of(2), (2, b"two words", "two words")),
    (packet_of(3), (3, b"a\nb\x1B[0m", "a\\x0Ab\\x1B[0m")), (packet_of(4), (4, b"\xFF\\", "\\xFF\\x5C")), (packet_of(5), (5, b"n" * 130, "n" * 128 + "...")),
    (packet_of(6), (6, b"", "interface 6")), (obsolete_packet_of(2), (2, b"two words", "two words")), (SIMPLE, (0, b"eth0", "eth0")),
    # In the next section other interfaces have these numbers, and only one is described before its first packet.
    (section_header(">"), None), (interface(order=">"), None), (packet_of(0, ">"), (0, b"", None)),
    (interface(b"lo", order=">"), None), (packet_of(1, ">"), (1, b"lo", "lo")), (packet_of(0, ">"), (0, b"", "interface 0")),
    # The names of the first 32 interfaces of a section are kept.
    (section_header(), None), *[(interface(b"if%d" % number), None) for number in range(33)],
    (packet_of(31), (31, b"if31", "if31")), (packet_of(32), (32, b"if32", "interface 32")),
]
DATA = b"".join(part for part, _ in PARTS)
ROWS = [row for _, row in PARTS if row]


# Whether each of these packets has no time.
WITHOUT_TIME = [part == SIMPLE for part, row in PARTS if row]


def check_interfaces(tally):
    """The interface of each packet of a section with several interfaces, in its line and in its object."""
    length, rest = f"length {len(PACKET)}: ", "192.0.2.1:49152 > 192.0.2.2:53 UDP length 11, payload 3; checksum right"
    shown = ["" if text is None else text + " " for _, _, text in ROWS]
    times = ["-" if without else "00:00:00.000000" for without in WITHOUT_TIME]
    wanted = [f"{number} {time} {text}{length}{rest}" for number, (time, text) in enumerate(zip(times, shown), 1)]
    tally.expect("interfaces in lines", lines_of(run(DATA, "--packets").stdout), wanted)
    objects = [json.loads(line) for line in lines_of(run(DATA, "--packets", "--json").stdout)]
    found = [(members.get("interface"), members.get("interface_name")) for members in objects]
    wanted = [(None, None) if text is None else (number, None if text.startswith("interface ") else text) for number, _, text in ROWS]
    tally.expect("interfaces in objects", found, wanted)
    for form in (capture, pcapng):
        data = form(RAW, [PACKET])
        tally.expect(f"no interface: {form.__name__}", parts_of(*lines_of(run(data, "--packets").stdout))[2:], (length, rest))
        tally.expect(f"no member: {form.__name__}", "interface" in json.loads(run(data, "--packets", "--json").stdout), False)


def check_interfaces_against_tshark(tally):
    """Tshark's number of the interface of each packet, and its name in the first section. For the interfaces of a later section tshark 4.0
    shows the names of the interfaces with the same numbers in the first section."""
    tshark = shutil.which("tshark")
    if tshark is None:
        return
    fields = ("frame.section_number", "frame.interface_id", "frame.interface_name")
    options = [word for field in fields for word in ("-e", field)]
    done = subprocess.run([tshark, "-r", "-", "-T", "fields", *options], input=DATA, capture_output=True, check=False)
    theirs = [line.split(b"\t") for line in done.stdout.split(b"\n")[:-1]]
    for place, ((number, name, _), (section, other, its_name)) in enumerate(zip(ROWS, theirs, strict=True), 1):
        tally.expect(f"tshark's interface of packet {place}", int(other), number)
        if section == b"1" and name.isalnum():
            tally.expect(f"tshark's name of the interface of packet {place}", its_name, name)
