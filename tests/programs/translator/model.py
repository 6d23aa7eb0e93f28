"""A model of the translation of an IP packet, which shares nothing with the program.

It replaces addresses and ports, and computes each checksum anew by equation 3 of RFC 1624.
"""
import ipaddress
import struct

UDP, TCP, ICMPV4, ICMPV6 = 17, 6, 1, 58
CHECKSUM_AT = {UDP: 6, TCP: 16, ICMPV4: 2, ICMPV6: 2}
NEEDED_LEN = 8
QUERIES = {4: (0, 8, 13, 14, 15, 16, 17, 18), 6: (128, 129)}
REDIRECT = 5
# Extension headers of IPv6 that are skipped if they have no other address, and the option that has one.
HOP_BY_HOP_OPTIONS, ROUTING, FRAGMENT, DESTINATION_OPTIONS, HOME_ADDRESS = 0, 43, 44, 60, 0xC9
SKIPPED = (HOP_BY_HOP_OPTIONS, ROUTING, FRAGMENT, DESTINATION_OPTIONS)
# Protocols and extension headers whose packets are not translated, since they cover or contain addresses.
COVERED = {4: (33, 51, 58, 112, 136, 139), 6: (0, 1, 33, 43, 44, 51, 60, 89, 103, 112, 135, 136, 139, 140)}

# The extension headers that only IPv6 has.
ONLY_IPV6 = (0, 43, 44, 60, 135, 140)


class Table:
    """The replacements of the arguments of a run."""

    def __init__(self, **options):
        self.arguments = []
        self.networks = {"source": [], "destination": []}
        self.ports = {"source": [], "destination": []}
        for option, values in options.items():
            for value in values:
                self.arguments += ["--" + option.replace("_", "-"), value]
        # The values of `--both` come after those of the options for one side.
        for option, values in sorted(options.items(), key=lambda pair: pair[0] == "both"):
            sides = ("source", "destination") if option == "both" else (option.split("_")[0],)
            for side in sides:
                for old, new in (value.split("=") for value in values):
                    if option.endswith("_port"):
                        self.ports[side].append((int(old), int(new)))
                    else:
                        self.networks[side].append((ipaddress.ip_network(old), ipaddress.ip_network(new)))

    def address(self, side, octets):
        """The new address, or None where no replacement applies."""
        address = ipaddress.ip_address(octets)
        for old, new in self.networks[side]:
            if address in old:
                kept = "".join(f"{octet:08b}" for octet in octets)[new.prefixlen:]
                prefix = f"{int(new.network_address):0{8 * len(octets)}b}"[:new.prefixlen]
                return int(prefix + kept, 2).to_bytes(len(octets), "big")
        return None

    def merges(self):
        """Whether two addresses can become one: a new network is smaller than the old one, or new networks of others overlap."""
        pairs = self.networks["source"] + self.networks["destination"]
        return any(old.prefixlen < new.prefixlen for old, new in pairs) or any(
            one != other and one[1].version == other[1].version and one[1].overlaps(other[1]) for one in pairs for other in pairs)

    def port(self, side, number):
        return next((new for old, new in self.ports[side] if old == number), None)

    def translation(self, source, destination, ports):
        """New source and destination, and new ports."""
        return (self.address("source", source), self.address("destination", destination),
                ports and self.port("source", ports[0]), ports and self.port("destination", ports[1]))


class Refused(Exception):
    """Why a packet is not translated, as the program words it."""


def has_source_route(options):
    while options and options[0] != 0:
        if options[0] in (131, 137):
            return True
        length = 1 if options[0] == 1 else options[1] if len(options) > 1 else 0
        if not (options[0] == 1 or 2 <= length <= len(options)):
            return False
        options = options[length:]
    return False


def adds_address(protocol, header):
    """Whether an extension header has another address of the packet: segments left, or a home address."""
    if protocol == ROUTING:
        return header[3] != 0
    options = header[2:] if protocol == DESTINATION_OPTIONS else b""
    while options:
        if options[0] == HOME_ADDRESS:
            return True
        options = options[1 if options[0] == 0 else 2 + options[1] if len(options) > 1 else 1:]
    return False


class Packet:
    """An IP packet with its message: the bytes after its header and the skipped extension headers, as far as they are there."""

    def __init__(self, data):
        self.data, self.version = data, data[0] >> 4 if data else 0
        if len(data) < {4: 20, 6: 40}.get(self.version, len(data) + 1):
            raise Refused("the IP headers are refused or cut off")
        self.start = (data[0] & 15) * 4 if self.version == 4 else 40
        if self.version == 4:
            self.read_ipv4()
        else:
            self.read_ipv6()
        self.message = data[self.start:self.end]

    def read_ipv4(self):
        header_len, total = self.start, struct.unpack(">H", self.data[2:4])[0]
        if header_len < 20 or header_len > len(self.data) or 0 < total < header_len:
            raise Refused("the IP headers are refused or cut off")
        self.has_source_route = has_source_route(self.data[20:header_len])
        self.protocol, self.addresses = self.data[9], (self.data[12:16], self.data[16:20])
        self.is_later, self.is_part = number_at(self.data, 6) & 0x1FFF > 0, number_at(self.data, 6) & 0x3FFF > 0
        self.end = total or len(self.data)

    def read_ipv6(self):
        self.has_source_route = self.is_later = self.is_part = False
        self.protocol, self.addresses = self.data[6], (self.data[8:24], self.data[24:40])
        length = struct.unpack(">H", self.data[4:6])[0]
        self.end = 40 + length if length or self.protocol == 59 else len(self.data)
        while self.protocol in SKIPPED and not self.is_later:
            rest = self.data[self.start:self.end]
            header = rest[:8 if self.protocol == FRAGMENT or len(rest) < 8 else 8 + 8 * rest[1]]
            if len(rest) < 8 or len(header) < 8 or self.protocol != FRAGMENT and len(header) < 8 + 8 * rest[1]:
                raise Refused("the IP headers are refused or cut off")
            if adds_address(self.protocol, header):
                return
            if self.protocol == FRAGMENT:
                self.is_later, self.is_part = number_at(header, 2) >> 3 > 0, number_at(header, 2) & 0xFFF9 > 0
            self.start, self.protocol = self.start + len(header), header[0]

    def ports(self):
        protocol, data, is_later = self.protocol, self.message, self.is_later
        while self.version == 6 and protocol in (0, 43, 44, 60) and not is_later:
            length = 8 if protocol == 44 else 8 + 8 * data[1]
            is_later = protocol == 44 and number_at(data, 2) >> 3 > 0
            protocol, data = data[0], data[length:]
        return struct.unpack(">HH", data[:4]) if protocol in (UDP, TCP) and not is_later and len(data) >= 4 else None

    def is_icmp(self):
        return self.protocol == (ICMPV4 if self.version == 4 else ICMPV6)

    def is_query(self):
        return self.message[0] in QUERIES[self.version]

    def quoted(self):
        """What an ICMP error quotes, or None."""
        if self.is_later or not self.is_icmp() or len(self.message) < 8 or self.is_query():
            return None
        kind, after = self.message[0], self.message[8:]
        if self.version == 4:
            counted = 4 * self.message[5] if kind in (3, 11, 12) else 0
            return after[:counted if counted >= 128 else None] if kind in (3, 4, 5, 11, 12) else None
        counted = 8 * self.message[4] if kind in (1, 3) else 0
        return after[:counted if counted >= 128 else None] if kind < 128 else None

    def has_ports(self):
        return self.protocol in (UDP, TCP) or self.is_icmp()

    def refuse(self, new):
        """Raises where the packet can't be translated."""
        if self.has_source_route:
            raise Refused("a source route")
        if not self.has_ports() and (new[2:] != (None, None) or self.protocol in COVERED[self.version]):
            words = "the IPv6 extension header" if self.protocol in ONLY_IPV6 else "the protocol"
            raise Refused(f"{words} {self.protocol}")

    def refuse_message(self):
        """Raises where its message can't be translated."""
        if self.is_later or not self.has_ports():
            return
        if len(self.message) < NEEDED_LEN:
            raise Refused("the transport header is cut off")
        is_redirect = self.version == 4 and self.message[0] == REDIRECT
        if self.is_icmp() and not self.is_query() and (is_redirect or self.quoted() is None):
            raise Refused("an ICMP message that is no query and no error, or a redirect")


def updated(checksum, old, new):
    """Equation 3 of RFC 1624, for some words."""
    total = ~checksum & 0xFFFF
    for was, now in zip(struct.iter_unpack(">H", old), struct.iter_unpack(">H", new), strict=True):
        total += (~was[0] & 0xFFFF) + now[0]
    while total >> 16:
        total = (total & 0xFFFF) + (total >> 16)
    return ~total & 0xFFFF


def with_number(data, place, number):
    return data[:place] + struct.pack(">H", number) + data[place + 2:] if place + 2 <= len(data) else data


def number_at(data, place):
    return struct.unpack(">H", data[place:place + 2])[0]


def translated_flow(packet, new):
    """The packet with new addresses and ports, as far as its message is there."""
    source, destination = new[0] or packet.addresses[0], new[1] or packet.addresses[1]
    old_addresses, new_addresses = b"".join(packet.addresses), source + destination
    message = packet.message
    if not packet.is_later and packet.has_ports():
        for place, port in ((0, new[2]), (2, new[3])):
            message = with_number(message, place, port) if port is not None else message
        at = CHECKSUM_AT[packet.protocol]
        if at + 2 <= len(message) and not (packet.protocol == UDP and not number_at(message, at)):
            ports = slice(0, 4 if packet.protocol in (UDP, TCP) else 0)
            covers = packet.protocol != ICMPV4
            was, now = ((old_addresses if covers else b"") + packet.message[ports], (new_addresses if covers else b"") + message[ports])
            checksum = updated(number_at(message, at), was, now)
            message = with_number(message, at, checksum or (0xFFFF if packet.protocol == UDP else 0))
    return with_addresses(packet, new_addresses, message)


def with_addresses(packet, addresses, message):
    head = packet.data[:packet.start]
    if packet.version == 4:
        head = with_number(head[:12] + addresses + head[20:], 10, updated(number_at(head, 10), head[12:20], addresses))
    else:
        head = head[:8] + addresses + head[40:]
    return head + message + packet.data[packet.end:]


def translated_error(packet, new, quoted):
    """An ICMP error, and the packet that it is about, in the other direction."""
    inner = translated_flow(quoted, (new[1], new[0], new[3], new[2]))
    addresses = (new[0] or packet.addresses[0]) + (new[1] or packet.addresses[1])
    padding = bytes(len(inner) % 2)
    was, now = quoted.data + padding, inner + padding
    if packet.version == 6:
        was, now = b"".join(packet.addresses) + was, addresses + now
    message = packet.message[:8] + inner + packet.message[8 + len(inner):]
    return with_addresses(packet, addresses, with_number(message, 2, updated(number_at(message, 2), was, now)))


def translated(data, table):
    """The IP packet after its translation. Raises `Refused` where it is written as it was."""
    packet = Packet(data)
    new, quoted = table.translation(*packet.addresses, packet.ports()), packet.quoted()
    if quoted is not None:
        try:
            quoted = Packet(quoted)
        except Refused:
            raise Refused("an ICMP error about a packet that can't be translated") from None
        if quoted.version != packet.version:
            raise Refused("an ICMP error about a packet that can't be translated")
        ports = quoted.ports()
        inner = table.translation(*quoted.addresses[::-1], ports and ports[::-1])
        if inner[:2] != new[:2]:
            raise Refused("an ICMP error about a packet whose addresses have other replacements")
        new = inner
    if all(value is None for value in new):
        return data
    packet.refuse(new)
    packet.refuse_message()
    if quoted is None:
        return translated_flow(packet, new)
    try:
        quoted.refuse(new)
    except Refused:
        raise Refused("an ICMP error about a packet that can't be translated") from None
    return translated_error(packet, new, quoted)
