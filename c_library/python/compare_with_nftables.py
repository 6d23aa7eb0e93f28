# SPDX-FileCopyrightText: 2026 The etherparse_transport developers
# SPDX-License-Identifier: MIT OR Apache-2.0
"""Compares `translate` of etherparse_transport.py with the address translation of Linux: the same packets go through both.

    ETHERPARSE_TRANSPORT_LIBRARY=PREFIX/lib/libetherparse_transport.so ip netns exec SPACE python3 compare_with_nftables.py

It runs in a network namespace of its own, in which it makes two TUN devices and sets up Linux as a router with nftables between them. A
row of `EXCHANGES` is a packet from inside, and packets from outside and inside that follow. A router lowers the hop limit, which the
comparison does to a packet before `translate`. Linux drops what it does not translate. The comparison was made with Linux 6.18.
"""
import fcntl
import ipaddress
import os
import select
import struct
import subprocess
import sys
import unittest
from typing import NamedTuple

sys.dont_write_bytecode = True
import etherparse_transport as ept

# Values of Linux that Python's modules lack.
TUNSETIFF, IFF_TUN, IFF_NO_PI = 0x400454CA, 1, 0x1000
UDP, TCP, ICMP, GRE, ESP, ICMPV6, OSPF, IP_IN_IP, HOP_BY_HOP, ROUTING, DESTINATION_OPTIONS = 17, 6, 1, 47, 50, 58, 89, 4, 0, 43, 60
SYN, ACK = 2, 16
PADDING = bytes([0, 1, 4, 0, 0, 0, 0])  # an extension header of eight bytes with an option PadN
SECONDS = 2
INSIDE_PORT, OUTSIDE_PORT, HOST_PORT = 5000, 6000, 7000


class Version(NamedTuple):
    """The addresses of a version of IP."""
    number: int
    inside: str  # the host inside
    outside: str  # what this host is outside
    host: str  # the host outside. Each exchange has another one, which follows this address
    router: str  # a router outside
    router_inside: str  # a router inside


IPV4 = Version(4, "10.0.0.2", "203.0.113.7", "198.51.100.16", "198.51.100.9", "10.0.0.9")
IPV6 = Version(6, "fd00::2", "2001:db8:113::7", "2001:db8:100::10", "2001:db8:100::9", "fd00::9")
COMMANDS = """
sysctl -qw net.ipv4.ip_forward=1
sysctl -qw net.ipv6.conf.all.forwarding=1
sysctl -qw net.ipv4.conf.all.rp_filter=0
ip link set inside up
ip link set outside up
ip address add 10.0.0.1/24 dev inside
ip address add fd00::1/64 dev inside nodad
ip address add 198.51.100.1/24 dev outside
ip address add 2001:db8:100::1/64 dev outside nodad
"""
RULES = f"""
table inet translation {{
    chain after {{
        type nat hook postrouting priority srcnat;
        oifname "outside" ip saddr {IPV4.inside} udp sport {INSIDE_PORT} snat ip to {IPV4.outside}:{OUTSIDE_PORT}
        oifname "outside" ip saddr {IPV4.inside} tcp sport {INSIDE_PORT} snat ip to {IPV4.outside}:{OUTSIDE_PORT}
        oifname "outside" ip saddr {IPV4.inside} meta l4proto icmp snat ip to {IPV4.outside}:{OUTSIDE_PORT}
        oifname "outside" ip saddr {IPV4.inside} snat ip to {IPV4.outside}
        oifname "outside" ip6 saddr {IPV6.inside} udp sport {INSIDE_PORT} snat ip6 to [{IPV6.outside}]:{OUTSIDE_PORT}
        oifname "outside" ip6 saddr {IPV6.inside} tcp sport {INSIDE_PORT} snat ip6 to [{IPV6.outside}]:{OUTSIDE_PORT}
        oifname "outside" ip6 saddr {IPV6.inside} meta l4proto icmpv6 snat ip6 to [{IPV6.outside}]:{OUTSIDE_PORT}
        oifname "outside" ip6 saddr {IPV6.inside} snat ip6 to {IPV6.outside}
    }}
}}
"""


# ---- packets


def sum_of(data):
    """The Internet checksum of these bytes (RFC 1071)."""
    data += bytes(len(data) % 2)
    total = sum(struct.unpack(f">{len(data) // 2}H", data))
    while total >> 16:
        total = (total & 0xFFFF) + (total >> 16)
    return 0xFFFF - total


def packed(address):
    return ipaddress.ip_address(address).packed


def pseudo_header(source, destination, protocol, length):
    if len(source) == 4:
        return source + destination + struct.pack(">BBH", 0, protocol, length)
    return source + destination + struct.pack(">II", length, protocol)


def with_checksum(message, place, pseudo=b""):
    """A message with its right checksum. In UDP a checksum of 0 is FFFF."""
    [value] = struct.pack(">H", sum_of(pseudo + message[:place] + bytes(2) + message[place + 2:])),
    if place == 6 and value == bytes(2):
        value = b"\xff\xff"
    return message[:place] + value + message[place + 2:]


class Ends(NamedTuple):
    """Where a packet comes from and goes to."""
    source: str
    destination: str
    source_port: int
    destination_port: int

    def back(self):
        return Ends(self.destination, self.source, self.destination_port, self.source_port)


def ip_packet(ends, protocol, payload, hop_limit=64, options=b"", between=b"", flags=0):
    """An IP packet. `options` are of IPv4, and `between` are extension headers of IPv6, the first of which is `protocol`."""
    source, destination = packed(ends.source), packed(ends.destination)
    if len(source) == 16:
        return struct.pack(">IHBB", 6 << 28, len(between) + len(payload), protocol, hop_limit) + source + destination + between + payload
    words = 5 + len(options) // 4
    header = struct.pack(">BBHHHBBH", 4 << 4 | words, 0, 4 * words + len(payload), 0x1234, flags, hop_limit, protocol, 0)
    return with_checksum(header + source + destination + options, 10) + payload


def udp(ends, payload, checksum=True, **fields):
    message = struct.pack(">HHHH", ends.source_port, ends.destination_port, 8 + len(payload), 0) + payload
    if checksum:
        message = with_checksum(message, 6, pseudo_header(packed(ends.source), packed(ends.destination), UDP, len(message)))
    return ip_packet(ends, fields.pop("protocol", UDP), message, **fields)


def tcp(ends, flags, sequence, acknowledgment, payload=b"", options=b""):
    words = 5 + len(options) // 4
    ports = ends.source_port, ends.destination_port
    message = struct.pack(">HHIIBBHHH", *ports, sequence, acknowledgment, words << 4, flags, 8192, 0, 0) + options + payload
    return ip_packet(ends, TCP, with_checksum(message, 16, pseudo_header(packed(ends.source), packed(ends.destination), TCP, len(message))))


def icmp(ends, message):
    """An ICMP message: type, code and checksum are its first four bytes."""
    if len(packed(ends.source)) == 4:
        return ip_packet(ends, ICMP, with_checksum(message, 2))
    pseudo = pseudo_header(packed(ends.source), packed(ends.destination), ICMPV6, len(message))
    return ip_packet(ends, ICMPV6, with_checksum(message, 2, pseudo))


def query(ends, kind, identifier, rest=b"", code=0):
    return icmp(ends, struct.pack(">BBHHH", kind, code, 0, identifier, 1) + rest)


def error(ends, kind, code, quoted, field=0):
    """An ICMP error about a packet. `field` is bytes 4 to 7."""
    return icmp(ends, struct.pack(">BBHI", kind, code, 0, field) + quoted)


def aged(packet):
    """The packet after a router: its hop limit is one less."""
    if packet[0] >> 4 == 6:
        return packet[:7] + bytes([packet[7] - 1]) + packet[8:]
    end = 4 * (packet[0] & 15)
    return with_checksum(packet[:8] + bytes([packet[8] - 1]) + packet[9:end], 10) + packet[end:]


# ---- what both do


def translated(packet, from_inside, version):
    """What `translate` makes of a packet, as a router would, or None if it refuses it."""
    data = bytearray(aged(packet))
    new = {"source": version.outside, "source_port": OUTSIDE_PORT} if from_inside else \
        {"destination": version.inside, "destination_port": INSIDE_PORT}
    if is_without_ports(packet):
        new = {name: it for name, it in new.items() if not name.endswith("port")}
    try:
        ept.translate(data, **new)
    except ept.Error:
        return None
    return bytes(data)


def is_without_ports(packet):
    """Whether only addresses are translated: the protocol of the IP header is not UDP, TCP, ICMP or an extension header."""
    return packet[6 if packet[0] >> 4 == 6 else 9] in (GRE, ESP, OSPF, IP_IN_IP)


def device(name):
    it = os.open("/dev/net/tun", os.O_RDWR | os.O_NONBLOCK)
    fcntl.ioctl(it, TUNSETIFF, struct.pack("16sH", name.encode(), IFF_TUN | IFF_NO_PI))
    return it


def set_up(commands):
    for command in commands.strip().splitlines():
        subprocess.run(command.split(), check=True)


class Router:
    """Linux between two TUN devices."""

    def __init__(self):
        self.inside, self.outside = device("inside"), device("outside")
        set_up(COMMANDS)
        subprocess.run(["nft", "-f", "-"], input=RULES.encode(), check=True)

    def forwarded(self, packet, from_inside, seconds=SECONDS):
        """What leaves the other device after this packet, or None if nothing does within a time."""
        here, there = (self.inside, self.outside) if from_inside else (self.outside, self.inside)
        while select.select([here, there], [], [], 0)[0]:
            os.read(select.select([here, there], [], [])[0][0], 65536)
        os.write(here, packet)
        while select.select([there], [], [], seconds)[0]:
            found = os.read(there, 65536)
            if not is_of_linux(found):
                return found
        return None


def is_of_linux(packet):
    """Whether Linux sent it itself: a multicast message of IPv6, as a router and a new host send."""
    return packet[0] >> 4 == 6 and packet[24] == 0xFF


# ---- the exchanges


class Step(NamedTuple):
    """A packet of an exchange."""
    name: str
    packet: bytes
    from_inside: bool


def ends_of(version, number):
    """The ends of a packet from inside, before and after the translation."""
    host = str(ipaddress.ip_address(version.host) + number)
    return Ends(version.inside, host, INSIDE_PORT, HOST_PORT), Ends(version.outside, host, OUTSIDE_PORT, HOST_PORT)


def udp_exchange(version, number):
    before, after = ends_of(version, number)
    yield Step("UDP", udp(before, b"question"), True)
    yield Step("its answer", udp(after.back(), b"an answer of odd length"), False)
    yield Step("UDP of odd length", udp(before, b"abc"), True)


def tcp_exchange(version, number):
    before, after = ends_of(version, number)
    yield Step("SYN with a maximum segment size", tcp(before, SYN, 1000, 0, options=b"\x02\x04\x05\xb4"), True)
    yield Step("SYN and ACK", tcp(after.back(), SYN | ACK, 2000, 1001), False)
    yield Step("data", tcp(before, ACK, 1001, 2001, b"data"), True)


def echo_exchange(version, number):
    before, after = ends_of(version, number)
    request, reply = (8, 0) if version.number == 4 else (128, 129)
    yield Step("an echo request", query(before, request, INSIDE_PORT, b"payload"), True)
    yield Step("its reply", query(after.back(), reply, OUTSIDE_PORT, b"payload"), False)


def query_exchange(request, reply, rest):
    def exchange(version, number):
        before, after = ends_of(version, number)
        yield Step(f"ICMP type {request}", query(before, request, INSIDE_PORT, rest), True)
        yield Step(f"ICMP type {reply}", query(after.back(), reply, OUTSIDE_PORT, rest), False)
    return exchange


def other_exchange(protocol, payload):
    def exchange(version, number):
        before, after = ends_of(version, number)
        yield Step(f"protocol {protocol}", ip_packet(before, protocol, payload), True)
        yield Step(f"protocol {protocol} from outside", ip_packet(after.back(), protocol, payload), False)
    return exchange


def zero_exchange(version, number):
    before, after = ends_of(version, number)
    yield Step("UDP without a checksum", udp(before, b"question", checksum=False), True)
    yield Step("UDP without a checksum from outside", udp(after.back(), b"answer", checksum=False), False)


def options_exchange(version, number):
    before, after = ends_of(version, number)
    yield Step("UDP behind options of IPv4", udp(before, b"question", options=b"\x01\x01\x01\x00"), True)
    yield Step("UDP that must not be fragmented", udp(before, b"question", flags=0x4000), True)


def extension_exchange(first, rest):
    """UDP behind an extension header, of which `rest` comes after the number of the next header, and an error about it."""
    def exchange(version, number):
        before, after = ends_of(version, number)
        fields = {"protocol": first, "between": bytes([UDP]) + rest}
        yield Step(f"UDP behind extension header {first}", udp(before, b"question", **fields), True)
        yield Step("its answer", udp(after.back(), b"a", **fields), False)
        yield Step("an error about it", error(after.back(), 1, 4, udp(after, b"question", **fields)), False)
    return exchange


def errors_from_outside(make, kinds):
    """Errors about a packet from inside: of the host outside, and of a router."""
    def exchange(version, number):
        before, after = ends_of(version, number)
        yield Step("what the errors are about", make(before), True)
        quoted = make(after)
        for kind, code, field in kinds:
            for source in (after.destination, version.router):
                packet = error(after.back()._replace(source=source), kind, code, quoted, field)
                yield Step(f"error {kind}, {code} from {source}", packet, False)
        first = 28 if version.number == 4 else 48
        yield Step("an error with 8 bytes of the message", error(after.back(), *kinds[0][:2], quoted[:first]), False)
    return exchange


def errors_from_inside(make, kinds):
    """Errors about an answer from outside: of the host inside, and of a router."""
    def exchange(version, number):
        before, after = ends_of(version, number)
        yield Step("what is answered", make(before), True)
        yield Step("what the errors are about", make(after.back()), False)
        quoted = make(before.back())
        for kind, code, field in kinds:
            for source in (version.inside, version.router_inside):
                packet = error(before._replace(source=source), kind, code, quoted, field)
                yield Step(f"error {kind}, {code} from {source}", packet, True)
    return exchange


def extended_error(version, number):
    """An error with a length of RFC 4884 and an extension behind the quoted packet."""
    before, after = ends_of(version, number)
    yield Step("what the error is about", udp(before, bytes(120)), True)
    quoted = udp(after, bytes(120))[:128]
    extension = with_checksum(bytes.fromhex("20000000 0008010100010140"), 2)
    yield Step("an error with an extension", error(after.back(), 11, 0, quoted + extension, 32 << 16), False)
    yield Step("an error with a length below 128 bytes", error(after.back(), 11, 0, quoted, 5 << 16), False)


def errors_of_bsd(version, number):
    """Errors whose quoted packet states a total length without its header, as hosts that follow BSD quote it."""
    before, after = ends_of(version, number)
    yield Step("what the errors are about", udp(before, b"question"), True)
    for payload in (b"", b"abcd", b"twelve bytes", b"nineteen bytes here"):
        quoted = udp(after, payload)
        header = with_checksum(quoted[:2] + struct.pack(">H", len(quoted) - 20) + quoted[4:20], 10)
        yield Step(f"total length {len(quoted) - 20}", error(after.back(), 3, 3, header + quoted[20:]), False)


def redirect(version, number):
    """A redirect, which contains an address of the other side."""
    before, after = ends_of(version, number)
    yield Step("what the redirect is about", udp(before, b"question"), True)
    gateway = int(ipaddress.ip_address(version.router))
    yield Step("a redirect", error(after.back()._replace(source=version.router), 5, 1, udp(after, b"question"), gateway), False)


def datagram(ends):
    return udp(ends, b"question")


def segment(ends):
    """A SYN from inside, or its answer."""
    if ends.source_port == HOST_PORT:
        return tcp(ends, SYN | ACK, 2000, 1001, options=b"\x01\x01\x01\x00")
    return tcp(ends, SYN, 1000, 0, options=b"\x01\x01\x01\x00")


ERRORS_V4 = [(3, 3, 0), (3, 4, 1280), (11, 0, 0), (12, 0, 8 << 24)]
ERRORS_V6 = [(1, 4, 0), (2, 0, 1280), (3, 0, 0), (4, 1, 6)]
TIMES = bytes(range(12))
EXCHANGES = {
    IPV4: [
        udp_exchange, zero_exchange, options_exchange, tcp_exchange, echo_exchange, query_exchange(13, 14, TIMES),
        query_exchange(17, 18, bytes(4)), other_exchange(GRE, bytes.fromhex("00000800") + b"payload"),
        other_exchange(ESP, bytes(range(16))), other_exchange(OSPF, bytes(24)),
        other_exchange(IP_IN_IP, udp(Ends("192.0.2.1", "192.0.2.2", 1, 2), b"inner")),
        errors_from_outside(datagram, ERRORS_V4), errors_from_outside(segment, ERRORS_V4),
        errors_from_inside(datagram, ERRORS_V4), errors_from_inside(segment, ERRORS_V4), extended_error, errors_of_bsd,
        redirect,
    ],
    IPV6: [
        udp_exchange, tcp_exchange, echo_exchange, other_exchange(ESP, bytes(range(16))),
        errors_from_outside(datagram, ERRORS_V6), errors_from_outside(segment, ERRORS_V6),
        errors_from_inside(datagram, ERRORS_V6), errors_from_inside(segment, ERRORS_V6),
        extension_exchange(HOP_BY_HOP, PADDING), extension_exchange(DESTINATION_OPTIONS, PADDING), extension_exchange(ROUTING, bytes(7)),
    ],
}


class Translation(unittest.TestCase):
    maxDiff = None

    def test_packets_agree(self):
        router, count = Router(), 0
        for version, exchanges in EXCHANGES.items():
            for number, exchange in enumerate(exchanges):
                for step in exchange(version, number):
                    with self.subTest(version=version.number, step=step.name, number=number):
                        found = router.forwarded(step.packet, step.from_inside)
                        expected = translated(step.packet, step.from_inside, version)
                        self.assertEqual(found and found.hex(), expected and expected.hex())
                    count += 1
        self.assertEqual(count, 133)


if __name__ == "__main__":
    unittest.main()
