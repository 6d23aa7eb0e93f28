"""Builds packets, frames and captures, by the words of the RFCs and of the file formats. This code shares nothing with the programs."""
import os
import struct

ETHERNET, RAW, LOOPBACK, OPENBSD, COOKED, COOKED2 = 1, 101, 0, 108, 113, 276
PPP, PPP_HDLC, CISCO_HDLC, IEEE80211, FRAME_RELAY, RADIOTAP = 9, 50, 104, 105, 107, 127
PPP_OVER_ETHERNET, PFLOG, PRISM, AVS, PPI, IPNET, NFLOG, INFINIBAND, PKTAP = 51, 117, 119, 163, 192, 226, 239, 242, 258
LINKS = (ETHERNET, COOKED, COOKED2, RAW, LOOPBACK, OPENBSD, PPP, PPP_HDLC, CISCO_HDLC, IEEE80211, FRAME_RELAY, RADIOTAP,
         PPP_OVER_ETHERNET, PFLOG, PRISM, AVS, PPI, IPNET, NFLOG, INFINIBAND, PKTAP)

# One that is not read: for private use.
OTHER_LINK = 147

# The source and destination of packets.
IPV4 = (bytes([192, 0, 2, 1]), bytes([192, 0, 2, 2]))
IPV6 = (bytes.fromhex("20010db8000000000000000000000001"), bytes.fromhex("20010db8000000000000000000000002"))


def ones_complement_sum(data):
    """The sum of RFC 1071, one word after another."""
    if len(data) % 2:
        data += b"\0"
    total = 0
    for high, low in zip(data[::2], data[1::2]):
        total += high << 8 | low
        total = (total & 0xFFFF) + (total >> 16)
    return total


def checksum(data):
    return ~ones_complement_sum(data) & 0xFFFF


def pseudo_header(addresses, protocol, length):
    source, destination = addresses
    if len(source) == 4:
        return source + destination + struct.pack(">BBH", 0, protocol, length)
    return source + destination + struct.pack(">IHBB", length, 0, 0, protocol)


def with_checksum(packet, place, over, change=0):
    """The packet with its checksum at this place, taken over what is given and the packet; changed by this to make it wrong."""
    packet = packet[:place] + b"\0\0" + packet[place + 2:]
    right = checksum(over + packet)
    return packet[:place] + struct.pack(">H", (right + change) & 0xFFFF) + packet[place + 2:]


def udp(addresses, payload, source=49152, destination=53, length=None, change=0, stored=None):
    length = 8 + len(payload) if length is None else length
    packet = struct.pack(">HHHH", source, destination, length, 0) + payload
    if stored is not None:
        return packet[:6] + struct.pack(">H", stored) + packet[8:]
    return with_checksum(packet, 6, pseudo_header(addresses, 17, len(packet)), change)


def tcp(addresses, payload=b"", flags=0x002, options=b"", offset=None, change=0, urgent=0, sequence=1000, acknowledgment=0):
    options += b"\0" * (-len(options) % 4)
    offset = 5 + len(options) // 4 if offset is None else offset
    packet = struct.pack(">HHIIHHHH", 49153, 80, sequence, acknowledgment, offset << 12 | flags, 64240, 0, urgent) + options + payload
    return with_checksum(packet, 16, pseudo_header(addresses, 6, len(packet)), change)


def icmpv4(kind, code, rest, payload=b"", change=0):
    return with_checksum(bytes([kind, code, 0, 0]) + rest + payload, 2, b"", change)


def icmpv6(kind, code, rest, payload=b"", change=0):
    packet = bytes([kind, code, 0, 0]) + rest + payload
    return with_checksum(packet, 2, pseudo_header(IPV6, 58, len(packet)), change)


def ipv4(protocol, payload, version=4, words=5, total=None, flags=0x4000, addresses=IPV4):
    total = 20 + len(payload) if total is None else total
    header = struct.pack(">BBHHHBBH", version << 4 | words, 0, total, 1, flags, 64, protocol, 0) + b"".join(addresses)
    return with_checksum(header, 10, b"") + payload


def ipv6(protocol, payload, length=None, addresses=IPV6):
    length = len(payload) if length is None else length
    return struct.pack(">IHBB", 0x60000000, length, protocol, 64) + b"".join(addresses) + payload


def gre(payload, bits=0, fields=b"", protocol_type=None):
    """A payload after a GRE header with these first bits and the optional fields that they state."""
    return struct.pack(">HH", bits, ether_type(payload) if protocol_type is None else protocol_type) + fields + payload


def vxlan(inner, network=42, flags=8, reserved=0):
    """A UDP payload: a frame after a VXLAN header of this network (RFC 7348, section 5)."""
    return struct.pack(">BHBI", flags, reserved, reserved & 0xFF, network << 8 | reserved & 0xFF) + inner


def geneve(inner, network=42, protocol_type=0x6558, options=b"", version=0, words=None, bits=0):
    """A UDP payload: a frame or a packet after a Geneve header of this network (RFC 8926, section 3.4)."""
    words = len(options) // 4 if words is None else words
    return struct.pack(">BBHI", version << 6 | words, bits, protocol_type, network << 8) + options + inner


MAC = bytes.fromhex("020000000002020000000001")


def arp(operation, hardware=1, protocol=0x0800, sizes=(6, 4)):
    """An ARP packet from 192.0.2.1 about 192.0.2.2, with this hardware type, protocol type and these lengths of addresses."""
    return struct.pack(">HHBBH", hardware, protocol, *sizes, operation) + MAC[6:] + IPV4[0] + bytes(6) + IPV4[1]


def ether_type(packet):
    return 0x86DD if packet[:1] and packet[0] >> 4 == 6 else 0x0800


def frame(link, packet, tags=(), number=None, order="<"):
    """The packet behind the header of a link."""
    number = ether_type(packet) if number is None else number
    tagged = b"".join(struct.pack(">HH", 0, following) for following in (*tags[1:], number)) if tags else b""
    first = tags[0] if tags else number
    if link == ETHERNET:
        return MAC + struct.pack(">H", first) + tagged + packet
    if link == COOKED:
        return struct.pack(">HHH8sH", 0, 1, 6, MAC[6:], first) + tagged + packet
    if link == COOKED2:
        return struct.pack(">HHIHBB8s", first, 0, 1, 1, 0, 6, MAC[6:]) + tagged + packet
    if link == CISCO_HDLC:
        return struct.pack(">BBH", 0x0F, 0, first) + tagged + packet
    if link == INFINIBAND:
        # The destination's group is that of IPv4 broadcast (RFC 4391, section 4).
        group = bytes.fromhex("FF12401BFFFF000000000000FFFFFFFF")
        sender = bytes.fromhex("FE80000000000000") + MAC[6:] + bytes(2)
        return struct.pack(">IHBB", 0x60000000, 4 + len(packet), 27, 1) + sender + group + struct.pack(">HH", first, 0) + tagged + packet
    if link == PKTAP:
        first = struct.pack("<III24sIIIII20sIHHI20s", 108, 1, ETHERNET, b"en0", 2, 0, 14, 0, 77, b"curl", 0, 6, 0, 0, b"")
        return first + frame(ETHERNET, packet, tags, number)
    if link in (IEEE80211, RADIOTAP, PRISM, AVS, PPI):
        item = struct.pack("<IHHI", 0x00010044, 0, 4, 0)
        before = {RADIOTAP: bytes.fromhex("00000C000200000000000000"), PRISM: struct.pack("<II16s", 0x44, 144, b"wlan0") + item * 10,
                  AVS: struct.pack(">II56x", 0x80211001, 64), PPI: struct.pack("<BBHI", 0, 0, 8, IEEE80211)}.get(link, b"")
        quality_of_service = struct.pack("<HH", 0x0188, 0) + MAC + MAC[6:] + struct.pack("<HH", 0x10, 0)
        return before + quality_of_service + bytes.fromhex("AAAA03000000") + struct.pack(">H", first) + tagged + packet
    is_v6 = number == 0x86DD
    if link in (PPP, PPP_HDLC):
        return struct.pack(">HH", 0xFF03, 0x0057 if is_v6 else 0x0021) + packet
    if link == PPP_OVER_ETHERNET:
        return struct.pack(">BBHHH", 0x11, 0, 1, len(packet) + 2, 0x0057 if is_v6 else 0x0021) + packet
    if link == PFLOG:
        names = struct.pack(">16s16s", b"em0", b"")
        return struct.pack(">BBBB", 61, 24 if is_v6 else 2, 0, 0) + names + struct.pack(">IIIiIiB3x", 1, 0, 0, 0, 0, 0, 1) + packet
    if link == IPNET:
        return struct.pack(">BBHIIIII", 1, 26 if is_v6 else 2, 1, len(packet), 1, 0, 0, 0) + packet
    if link == NFLOG:
        attributes = [(1, bytes.fromhex("08000300")), (10, b"in: \0"), (9, packet)]
        padded = [struct.pack(order + "HH", 4 + len(value), kind) + value + bytes(-len(value) % 4) for kind, value in attributes]
        return struct.pack(">BBH", 10 if is_v6 else 2, 0, 5) + b"".join(padded)
    if link == FRAME_RELAY:
        return struct.pack(">HBB", 0x1841, 0x03, 0x8E if is_v6 else 0xCC) + packet
    family = 30 if is_v6 else 2
    if link == LOOPBACK:
        return struct.pack(order + "I", family) + packet
    if link == OPENBSD:
        return struct.pack(">I", family) + packet
    return packet


START = 1_600_000_000


def timed(frames, nanoseconds):
    """Each frame with the length that it had on its link, and its fraction of a second: a packet each tenth of a millisecond."""
    for number, entry in enumerate(frames):
        data, length = entry if isinstance(entry, tuple) else (entry, len(entry))
        yield data, length, number * (100_000 if nanoseconds else 100)


def capture_parts(link, frames, order="<", nanoseconds=False):
    """The header of a classic capture, and a record of each frame. An entry is a frame, or a frame and the length that it had."""
    yield struct.pack(order + "IHHIIII", 0xA1B23C4D if nanoseconds else 0xA1B2C3D4, 2, 4, 0, 0, 262144, link)
    for data, length, fraction in timed(frames, nanoseconds):
        yield struct.pack(order + "IIII", START, fraction, len(data), length) + data


def block(kind, body, order="<"):
    """A block of a pcapng file."""
    body += b"\0" * (-len(body) % 4)
    total = struct.pack(order + "I", 12 + len(body))
    return struct.pack(order + "I", kind) + total + body + total


def section_header(order="<", major=1):
    return block(0x0A0D0D0A, struct.pack(order + "IHHq", 0x1A2B3C4D, major, 0, -1), order)


def interface_description(link, order="<", nanoseconds=False):
    """The description of an interface. Without the option `if_tsresol` its times are in microseconds."""
    options = struct.pack(order + "HHB3xHH", 9, 1, 9, 0, 0) if nanoseconds else b""
    return block(1, struct.pack(order + "HHI", link, 0, 262144) + options, order)


def pcapng_parts(link, frames, order="<", nanoseconds=False):
    """The blocks of a pcapng file: those of a section and of an interface, and an enhanced packet block of each frame."""
    yield section_header(order)
    yield interface_description(link, order, nanoseconds)
    for data, length, fraction in timed(frames, nanoseconds):
        units = START * (1_000_000_000 if nanoseconds else 1_000_000) + fraction
        yield block(6, struct.pack(order + "IIIII", 0, units >> 32, units & 0xFFFFFFFF, len(data), length) + data, order)


def packet_block(interface, time, data, length):
    """An enhanced packet block of an interface, at a time in its units."""
    return block(6, struct.pack("<IIIII", interface, time >> 32, time & 0xFFFFFFFF, len(data), length) + data)


def option(code, value, order="<"):
    """An option of a block of a pcapng file."""
    return struct.pack(order + "HH", code, len(value)) + value + b"\0" * (-len(value) % 4)


def capture(*arguments):
    return b"".join(capture_parts(*arguments))


def pcapng(*arguments):
    return b"".join(pcapng_parts(*arguments))


def write_long_capture(path):
    """Writes a capture of more than 100 MB. Its frames are zeros, which take no room on the disk."""
    with open(path, "wb") as file:
        file.write(capture(ETHERNET, []))
        for _ in range(1600):
            file.write(struct.pack("<IIII", START, 0, 65536, 65536))
            file.seek(65536, os.SEEK_CUR)
        file.truncate()
