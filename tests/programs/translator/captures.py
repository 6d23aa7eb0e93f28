"""A model of the translation of a capture, and the captures and replacements of the tests."""
import collections
import struct

from .. import build, kinds
from ..program import TOP
from .model import CHECKSUM_AT, ICMPV4, TCP, UDP, Packet, Refused, Table, number_at, translated


# The size of the buffer of the program. A packet does not fit in it if more bytes of it were captured, or if its block is longer.
BUFFER_LEN = 524_288


class Capture:
    """A capture in either format: its parts in their order. A part is bytes that stay, or a frame with its link type. The link type is None
    if the packet does not fit in the buffer."""

    def __init__(self, data):
        self.parts = []
        if data[:4] == bytes.fromhex("0A0D0D0A"):
            self.read_pcapng(data)
        else:
            self.read_classic(data)

    def frames(self):
        return [part for part in self.parts if isinstance(part, tuple)]

    def read_classic(self, data):
        order = "<" if data[:4] in (bytes.fromhex("D4C3B2A1"), bytes.fromhex("4D3CB2A1")) else ">"
        link = struct.unpack(order + "I", data[20:24])[0] & 0xFFFF
        self.parts.append(data[:24])
        at = 24
        while at + 16 <= len(data):
            captured = struct.unpack(order + "I", data[at + 8:at + 12])[0]
            if at + 16 + captured > len(data):
                break
            fits = captured <= BUFFER_LEN
            self.parts += [data[at:at + 16], (link if fits else None, order, data[at + 16:at + 16 + captured])]
            at += 16 + captured
        self.parts.append(data[at:])

    def read_pcapng(self, data):
        at, order, links = 0, ">", []
        while at + 12 <= len(data):
            if data[at:at + 4] == bytes.fromhex("0A0D0D0A"):
                order, links = ("<" if data[at + 8] == 0x4D else ">"), []
            kind, total = struct.unpack(order + "II", data[at:at + 8])
            if at + total > len(data):
                break
            block = data[at:at + total]
            if kind == 1:
                links.append(struct.unpack(order + "HHI", block[8:16])[0::2])
            self.add_block(kind, block, order, links)
            at += total
        self.parts.append(data[at:])

    def add_block(self, kind, block, order, links):
        if kind not in (2, 3, 6):
            self.parts.append(block)
            return
        if len(block) > BUFFER_LEN:
            self.parts.append((None, order, block))
            return
        if kind == 3:
            start, interface = 12, 0
            captured = struct.unpack(order + "I", block[8:12])[0]
            captured = min(captured, links[0][1] or captured)
        else:
            start, captured = 28, struct.unpack(order + "I", block[20:24])[0]
            interface = struct.unpack(order + ("I" if kind == 6 else "H"), block[8:12 if kind == 6 else 10])[0]
        self.parts += [block[:start], (links[interface][0], order, block[start:start + captured]), block[start + captured:]]


def short_at(data, place):
    return struct.unpack(">H", data[place:place + 2])[0] if place + 2 <= len(data) else None


def packet_place(link, frame):
    """Where the IP packet of a frame begins, and the end of the bytes that may belong to it, for the frames that are built here."""
    if link is None:
        raise Refused("the packet is too long")
    cut = Refused("the link header is cut off")
    if link in (build.RAW, build.LOOPBACK, build.OPENBSD, build.PPP, build.PPP_HDLC, build.FRAME_RELAY, build.PPP_OVER_ETHERNET,
                build.PFLOG, build.IPNET, build.NFLOG):
        start = {build.RAW: 0, build.PPP_OVER_ETHERNET: 8, build.PFLOG: 64, build.IPNET: 24, build.NFLOG: 28}.get(link, 4)
        if len(frame) < start:
            raise cut
        ends = {build.PPP_OVER_ETHERNET: lambda: session_end(frame, 0), build.NFLOG: lambda: attribute_end(frame, start - 4)}
        return start, ends.get(link, lambda: len(frame))()
    start, ether_type_at = {build.ETHERNET: (14, 12), build.COOKED: (16, 14), build.COOKED2: (20, 0), build.CISCO_HDLC: (4, 2),
                            build.IEEE80211: (34, 32), build.RADIOTAP: (46, 44), build.PRISM: (178, 176), build.AVS: (98, 96),
                            build.PPI: (42, 40), build.INFINIBAND: (44, 40), build.PKTAP: (122, 120)}.get(link, (None, None))
    if start is None:
        raise Refused("the link type is not read")
    ether_type = short_at(frame, ether_type_at)
    while ether_type in (0x8100, 0x88A8, 0x9100):
        start += 4
        ether_type = short_at(frame, start - 2)
    if len(frame) < start:
        raise cut
    if ether_type == 0x8864:
        return start + 8, session_end(frame, start)
    if ether_type == 0x8847:
        while not frame[start + 2] & 1:
            start += 4
        return start + 4, len(frame)
    if ether_type not in (0x0800, 0x86DD):
        raise Refused("no IP packet")
    return start, len(frame)


def session_end(frame, start):
    """The end of the payload after the PPPoE header at this place."""
    if short_at(frame, start + 4) < 2:
        raise Refused("no IP packet")
    return min(start + 6 + short_at(frame, start + 4), len(frame))


def attribute_end(frame, start):
    """The end of the NFLOG attribute at this place, in the byte order in which its type is 9."""
    order = "<" if frame[start + 2] == 9 else ">"
    return min(start + struct.unpack(order + "H", frame[start:start + 2])[0], len(frame))


def model(data, table):
    """What the program has to write for a capture, and its counts: of translated packets and of others by IP version, and by reason."""
    counts, written = collections.Counter(), []
    for part in Capture(data).parts:
        if isinstance(part, tuple):
            part, outcome = translated_frame(*part, table)
            counts[outcome] += 1
        written.append(part)
    return b"".join(written), counts


def translated_frame(link, order, frame, table):
    try:
        start, end = packet_place(link, frame)
        packet = translated(frame[start:end], table)
    except Refused as refused:
        return frame, str(refused)
    outcome = "translated" if packet != frame[start:end] else "without"
    return frame[:start] + packet + frame[end:], f"IPv{packet[0] >> 4} {outcome}"


HOSTS = ("192.0.2.0/24=10.1.2.0/24", "2001:db8::/32=fd00::/32")
TABLES = {
    "sources": Table(source=HOSTS),
    "destinations": Table(destination=HOSTS),
    "both sides": Table(source=HOSTS, destination=(*HOSTS, "198.51.100.0/24=203.0.113.0/24")),
    "both sides alike": Table(source=(*HOSTS, "198.51.100.7=203.0.113.9"), destination=(*HOSTS, "198.51.100.7=203.0.113.9")),
    "longer prefixes": Table(source=("192.0.0.0/8=172.16.3.0/24", "::/0=2001:db8:7::/48"), destination=("0.0.0.0/0=10.0.0.0/7",)),
    "one host": Table(source=("192.0.2.1=192.0.2.77", "2001:db8::1=2001:db8::4d"), destination=("192.0.2.0/31=10.0.0.0/31",)),
    "ports": Table(source=("192.0.2.0/24=10.1.2.0/24",), source_port=("49152=1", "49153=65535"), destination_port=("53=5353", "80=8080")),
    "the first match": Table(source=("192.0.2.2=10.0.0.2", "192.0.2.0/24=10.0.1.0/24", "192.0.2.1=10.0.2.1"), source_port=("1=2", "49152=3", "49152=4")),
    "both sides by one option": Table(both=HOSTS, source=("198.51.100.7=203.0.113.9",), destination=("192.0.2.1=10.9.9.9",)),
    "nothing": Table(source=("203.0.113.0/24=10.0.0.0/24",), source_port=("7=8",)),
    "only a source port": Table(source_port=("49152=1",)),
    "only a destination port": Table(destination_port=("53=5353",)),
    "only a source network of IPv6": Table(source=("2001:db8::/32=fd00::/32",)),
    "only a destination network of IPv6": Table(destination=("2001:db8::/32=fd00::/32",)),
}


def captures():
    """Captures by name: those of the repository, and those of every link type, form, byte order and resolution."""
    for path in sorted((TOP / "c_library" / "examples" / "data").glob("*.pcap")) + [TOP / "crates" / "capture_report" / "stdin"]:
        yield str(path.relative_to(TOP)), path.read_bytes()
    for link in build.LINKS:
        for order in "<>":
            frames, _ = kinds.every_kind(link, order)
            for parts in (build.capture_parts, build.pcapng_parts):
                yield f"{parts.__name__}, link type {link}, {order}", b"".join(parts(link, frames, order, link == build.RAW))
    yield "mixed pcapng", mixed_pcapng()


def options_block(order, kind, body, comment):
    """A block whose body ends in options: a comment, a code that is not known, and the end."""
    text = struct.pack(order + "HH", 1, len(comment)) + comment + bytes(-len(comment) % 4)
    return build.block(kind, body + text + struct.pack(order + "HH4sHH", 2988, 4, b"\1\2\3\4", 0, 0), order)


def mixed_pcapng():
    """Two sections of different byte orders, with packets of the three kinds, options, other blocks, and a link type that is not read."""
    data = bytes(range(21))
    packets = [build.ipv4(UDP, build.udp(build.IPV4, data)), build.ipv6(TCP, build.tcp(build.IPV6, data))]
    blocks = []
    for order in "<>":
        blocks += [options_block(order, 0x0A0D0D0A, struct.pack(order + "IHHq", 0x1A2B3C4D, 1, 0, -1), b"a section"),
                   options_block(order, 1, struct.pack(order + "HHI", build.ETHERNET, 0, 70), b"the first interface"),
                   build.interface_description(build.OTHER_LINK, order), build.interface_description(build.RAW, order),
                   build.block(4, bytes(8), order), build.block(0x0BAD, b"10.0.0.1 192.0.2.1", order)]
        for packet in packets:
            frame = build.frame(build.ETHERNET, packet)
            blocks += [options_block(order, 6, struct.pack(order + "IIIII", 0, 1, 2, len(frame), 99) + frame + bytes(-len(frame) % 4), b"x"),
                       build.block(3, struct.pack(order + "I", len(frame)) + frame[:70], order),
                       build.block(2, struct.pack(order + "HHIIII", 2, 3, 1, 2, len(packet), 99) + packet, order),
                       build.block(6, struct.pack(order + "IIIII", 1, 1, 2, len(packet), 99) + packet, order),
                       build.block(5, bytes(12), order)]
    return b"".join(blocks)


def is_right(data):
    """Whether the checksums of an IP packet are right: of IPv4, and of a whole message. None where there is none to test."""
    try:
        packet = Packet(data)
    except Refused:
        return None
    of_header = packet.version == 6 or build.ones_complement_sum(data[:(data[0] & 15) * 4]) == 0xFFFF
    known = packet.protocol in (UDP, TCP) or packet.is_icmp()
    if not known or packet.end > len(data) or len(packet.message) < max(8, CHECKSUM_AT[packet.protocol] + 2):
        return of_header, None
    if packet.has_source_route or packet.is_part or packet.protocol == UDP and number_at(packet.message, 6) == 0:
        return of_header, None
    addresses = data[12:20] if packet.version == 4 else data[8:40]
    half = len(addresses) // 2
    covered = b"" if packet.protocol == ICMPV4 else build.pseudo_header((addresses[:half], addresses[half:]), packet.protocol, len(packet.message))
    return of_header, build.ones_complement_sum(covered + packet.message) == 0xFFFF


def verdicts(data):
    """The verdicts on the checksums of all packets of a capture."""
    found = []
    for link, _, frame in Capture(data).frames():
        try:
            start, end = packet_place(link, frame)
            found.append(is_right(frame[start:end]))
        except Refused:
            found.append(None)
    return found
