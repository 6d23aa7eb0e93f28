# SPDX-FileCopyrightText: 2026 The etherparse_transport developers
# SPDX-License-Identifier: MIT OR Apache-2.0
"""Compares `ipv4_to_ipv6` and `ipv6_to_ipv4` of etherparse_transport.py with tayga, a NAT64 for Linux: the same packets go through both.

    ETHERPARSE_TRANSPORT_LIBRARY=PREFIX/lib/libetherparse_transport.so ip netns exec SPACE python3 compare_with_tayga.py

It runs in a network namespace of its own. For each prefix it starts a tayga, which makes a TUN device. A packet socket sends a packet to
the device, and receives what tayga writes to it, so Linux changes no packet. Behind each packet goes a mark, whose translation shows that
tayga is done with the packet. Each difference is a row of `DIFFERENCES`, which RFC 7915 decides. The comparison was made with tayga 0.9.2.
"""
import ctypes
import ipaddress
import os
import re
import select
import signal
import socket
import struct
import subprocess
import sys
import tempfile
import time
import unittest
from typing import NamedTuple

sys.dont_write_bytecode = True
import etherparse_transport as ept

# Values of Linux that Python's modules lack.
ETH_P_ALL, ETH_P_IP, ETH_P_IPV6, PR_SET_PDEATHSIG = 3, 0x0800, 0x86DD, 1
HOP_BY_HOP, ICMP, IGMP, IP_IN_IP, TCP, UDP, IPV6, ROUTING, FRAGMENT, GRE, ESP, AH = 0, 1, 2, 4, 6, 17, 41, 43, 44, 47, 50, 51
ICMPV6, NO_NEXT, DESTINATION_OPTIONS, SCTP, MOBILITY, UDP_LITE = 58, 59, 60, 132, 135, 136
SECONDS = 5
IDENTIFICATION = 0x1234
TOGETHER = 50  # packets that wait for tayga at most
DONT_FRAGMENT, MORE = 0x4000, 0x2000
PADDING = bytes([1, 4, 0, 0, 0, 0])  # the options of an extension header of eight bytes: one PadN
# Prefixes of each length, and the well-known prefix.
PREFIX = "2001:db8:64::/96"
PREFIXES = ["2001:db8::/32", "2001:db8:100::/40", "2001:db8:122::/48", "2001:db8:122:300::/56", "2001:db8:122:344::/64", PREFIX,
            "64:ff9b::/96"]
HOST, PEER, ROUTER = "8.8.4.1", "9.9.9.2", "8.8.8.3"  # global addresses, which the well-known prefix may embed
# Addresses that belong to no host, or that are not global.
ADDRESSES = ["0.0.0.0", "0.1.2.3", "127.0.0.1", "224.0.0.1", "239.1.1.1", "240.0.0.1", "255.255.255.255", "10.0.0.1", "100.64.0.1",
             "169.254.0.1", "172.16.0.1", "192.0.0.1", "192.0.2.1", "192.88.99.1", "192.168.0.1", "198.18.0.1", "198.51.100.1",
             "203.0.113.1"]


# ---- packets


def sum_of(data):
    """The Internet checksum of these bytes (RFC 1071)."""
    data += bytes(len(data) % 2)
    total = sum(struct.unpack(f">{len(data) // 2}H", data))
    while total >> 16:
        total = (total & 0xFFFF) + (total >> 16)
    return 0xFFFF - total


def packed(address):
    return ipaddress.ip_address(address).packed


def embedded(address, prefix):
    """The IPv6 address that contains an IPv4 address behind a prefix (RFC 6052, section 2.2). Its byte 8 is 0."""
    network = ipaddress.IPv6Network(prefix)
    front, octets = network.network_address.packed[:network.prefixlen // 8], ipaddress.IPv4Address(address).packed
    whole = front + octets if len(front) == 12 else (front + octets)[:8] + bytes(1) + (front + octets)[8:]
    return str(ipaddress.IPv6Address(whole + bytes(16 - len(whole))))


class Ends(NamedTuple):
    """The addresses of a packet."""
    source: str
    destination: str

    def packed(self):
        return b"".join(packed(it) for it in self)

    def back(self):
        return Ends(self.destination, self.source)

    def is_ipv4(self):
        return "." in self.source


IPV4 = Ends(HOST, PEER)


def ends_over_ipv6(prefix):
    return Ends(*(embedded(it, prefix) for it in IPV4))


def packet(ends, protocol, payload, hop_limit=64, service=0, **fields):
    """An IP packet. `options` and `place` (flags and fragment offset) are of IPv4, `between` (extension headers, whose first number is
    `protocol`) and `flow` are of IPv6. `length` and `checksum` are wrong values of these fields."""
    if not ends.is_ipv4():
        between, word = fields.get("between", b""), 6 << 28 | service << 20 | fields.get("flow", 0)
        length = fields.get("length", len(between) + len(payload))
        return struct.pack(">IHBB", word, length, protocol, hop_limit) + ends.packed() + between + payload
    options = fields.get("options", b"")
    words = 5 + len(options) // 4
    header = struct.pack(">BBHHHBBH", 4 << 4 | words, service, fields.get("length", 4 * words + len(payload)),
                         fields.get("identification", IDENTIFICATION), fields.get("place", 0), hop_limit, protocol, 0)
    header += ends.packed() + options
    return header[:10] + struct.pack(">H", fields.get("checksum", sum_of(header))) + header[12:] + payload


def with_checksum(ends, protocol, message, place):
    """A message with its right checksum, which covers a pseudo header except in ICMP."""
    length = struct.pack(">HH", protocol, len(message)) if ends.is_ipv4() else struct.pack(">II", len(message), protocol)
    pseudo = b"" if protocol == ICMP else ends.packed() + length
    value = sum_of(pseudo + message[:place] + bytes(2) + message[place + 2:])
    return message[:place] + struct.pack(">H", value or (0xFFFF if protocol == UDP else 0)) + message[place + 2:]


def udp(ends, data=b"data", ports=(5000, 6000), length=None):
    message = struct.pack(">HHHH", *ports, 8 + len(data) if length is None else length, 0) + data
    return with_checksum(ends, UDP, message, 6)


def without_checksum(message):
    return message[:6] + bytes(2) + message[8:]


def tcp(ends, flags=0x10, options=b"", data=b""):
    message = struct.pack(">HHIIBBHHH", 5000, 80, 1, 2, (5 + len(options) // 4) << 4, flags, 8192, 0, 0) + options + data
    return with_checksum(ends, TCP, message, 16)


def icmp(ends, kind, code, rest=bytes([0, 7, 0, 1])):
    """An ICMP message of the version of the ends. `rest` begins with bytes 4 to 7."""
    return with_checksum(ends, ICMP if ends.is_ipv4() else ICMPV6, bytes([kind, code, 0, 0]) + rest, 2)


def echo(ends, data=b"data", reply=False):
    kinds = (8, 0) if ends.is_ipv4() else (128, 129)
    return icmp(ends, kinds[reply], 0, bytes([0, 7, 0, 1]) + data)


def udp_with_ffff(ends):
    """A UDP packet whose sum is 0, so that its checksum is FFFF."""
    [checksum] = struct.unpack(">H", udp(ends, bytes(4))[6:8])
    return udp(ends, struct.pack(">HH", checksum, 0))


def error(ends, kind, code, quoted, field=0, source=None):
    """The packet with an ICMP error about a packet from the other end. `field` is bytes 4 to 7."""
    ends = Ends(source or ends.source, ends.destination)
    return packet(ends, ICMP if ends.is_ipv4() else ICMPV6, icmp(ends, kind, code, struct.pack(">I", field) + quoted))


def option_header(following):
    """Hop-by-hop or destination options, or a routing header, since these options are a type of 1 and 4 segments left there."""
    return bytes([following, 0]) + PADDING


def routing_header(following, left):
    return bytes([following, 2, 0, left]) + bytes(4) + bytes(16)


def fragment_header(following, offset, more):
    return struct.pack(">BBHI", following, 0, offset | more, 0xABCD1234)


# ---- the packets of each version


def messages(ends, other_ends):
    """Names, protocols and messages. The other ends are those of the translated packet."""
    icmp_number = ICMP if ends.is_ipv4() else ICMPV6
    for length in (0, 1, 2, 3, 8, 100, 1199):
        yield f"UDP, {length} bytes", UDP, udp(ends, (bytes(range(251)) * 5)[:length])
        yield f"TCP, {length} bytes", TCP, tcp(ends, data=(bytes(range(251)) * 5)[:length])
        yield f"an echo request, {length} bytes", icmp_number, echo(ends, (bytes(range(251)) * 5)[:length])
        yield f"an echo reply, {length} bytes", icmp_number, echo(ends, (bytes(range(251)) * 5)[:length], reply=True)
    yield "UDP, checksum FFFF", UDP, udp_with_ffff(ends)
    yield "UDP, the new checksum is FFFF", UDP, udp(ends, udp_with_ffff(other_ends)[8:])
    yield "UDP, wrong checksum", UDP, udp(ends)[:6] + bytes([0x12, 0x34]) + udp(ends)[8:]
    yield "UDP without a checksum", UDP, without_checksum(udp(ends))
    yield "UDP without a checksum, length field 0", UDP, without_checksum(udp(ends, length=0))
    yield "UDP without a checksum, length field 100", UDP, without_checksum(udp(ends, length=100))
    yield "UDP without a checksum, length field 9", UDP, without_checksum(udp(ends, length=9))
    yield "UDP, length field 9", UDP, udp(ends, length=9)
    yield "UDP, length field 100", UDP, udp(ends, length=100)
    yield "UDP, 7 bytes", UDP, udp(ends)[:7]
    yield "SYN with options", TCP, tcp(ends, 2, bytes([2, 4, 5, 0xB4, 4, 2, 8, 10, 0, 0, 0, 1, 0, 0, 0, 0, 1, 3, 3, 7]))
    yield "TCP, 19 bytes", TCP, tcp(ends)[:19]
    yield "ICMP, 7 bytes", icmp_number, echo(ends)[:7]
    for number in (IGMP, IP_IN_IP, IPV6, GRE, ESP, AH, NO_NEXT, SCTP, MOBILITY, UDP_LITE, ICMPV6 if ends.is_ipv4() else ICMP):
        yield f"protocol {number}", number, bytes(range(16))


def queries(ends):
    """ICMP messages that are no errors and no echo messages."""
    number, request = (ICMP, 8) if ends.is_ipv4() else (ICMPV6, 128)
    for kind in (1, 2, 4, 5, 6, 9, 10, *range(13, 19), 30, 40) if ends.is_ipv4() else (0, 100, 127, *range(130, 138), 143, 200, 255):
        yield f"ICMP type {kind}", number, icmp(ends, kind, 0, bytes(24))
    yield "an echo request with code 1", number, icmp(ends, request, 1)


def header_packets(ends):
    """Packets with other fields of the IP header."""
    for hop_limit in (0, 1, 2, 255):
        yield f"hop limit {hop_limit}", packet(ends, UDP, udp(ends), hop_limit=hop_limit)
    for service in (1, 0xB8, 0xFF):
        yield f"type of service {service}", packet(ends, UDP, udp(ends), service=service)
    yield "trailing bytes", packet(ends, UDP, udp(ends)) + b"trailing"
    yield "a byte too few", packet(ends, UDP, udp(ends))[:-1]
    yield "no bytes after the header", packet(ends, GRE, b"")
    yield "half a header", packet(ends, UDP, udp(ends))[:19]


def packets_over_ipv4(prefix):
    """Packets over IPv4, with names."""
    ends = IPV4
    for name, protocol, message in (*messages(ends, ends_over_ipv6(prefix)), *queries(ends)):
        yield name, packet(ends, protocol, message)
    yield from header_packets(ends)
    yield "don't fragment", packet(ends, UDP, udp(ends), place=DONT_FRAGMENT)
    yield "don't fragment, 1400 bytes", packet(ends, UDP, udp(ends, bytes(1400)), place=DONT_FRAGMENT)
    yield "the reserved flag", packet(ends, UDP, udp(ends), place=0x8000)
    yield "1280 bytes over IPv6", packet(ends, UDP, udp(ends, bytes(1232)))
    yield "1281 bytes over IPv6", packet(ends, UDP, udp(ends, bytes(1233)))
    for name, options in (("no operation", [1, 1, 1, 0]), ("record route", [7, 7, 4, 0, 0, 0, 0, 0]), ("router alert", [148, 4, 0, 0]),
                          ("loose route, at its end", [131, 7, 8, 1, 2, 3, 4, 0]), ("loose route", [131, 7, 4, 1, 2, 3, 4, 0]),
                          ("strict route", [137, 7, 4, 1, 2, 3, 4, 0]), ("of 40 bytes", [1] * 40)):
        yield f"options: {name}", packet(ends, UDP, udp(ends), options=bytes(options))
    yield "total length 19", packet(ends, UDP, udp(ends), length=19)
    yield "wrong header checksum", packet(ends, UDP, udp(ends), checksum=0x1234)
    for address in ADDRESSES:
        yield from packets_of_address(ends, address, address)
    yield from fragments_over_ipv4(ends)
    yield from errors_over_ipv4(ends)


def fragments_over_ipv4(ends):
    for name, protocol, message in (("UDP", UDP, udp(ends, bytes(16))), ("TCP", TCP, tcp(ends, data=bytes(12))), ("ICMP", ICMP, echo(ends)),
                                    ("GRE", GRE, bytes(16)), ("UDP without a checksum", UDP, without_checksum(udp(ends, bytes(16))))):
        for part, place in (("first", MORE), ("middle", MORE | 2), ("last", 2)):
            yield f"{part} fragment of {name}", packet(ends, protocol, message, place=place)


def errors_over_ipv4(ends):
    """ICMP errors of the peer, and of a router, about a packet that the host received."""
    back = ends.back()
    quoted = packet(back, UDP, udp(back, b"quoted"), place=DONT_FRAGMENT)
    for kind, codes in ((3, range(17)), (11, range(3)), (12, range(4))):
        for code in codes:
            yield f"error {kind}, {code}", error(ends, kind, code, quoted, 1400 if (kind, code) == (3, 4) else 0)
    for pointer in range(22):
        yield f"error 12, 0 with pointer {pointer}", error(ends, 12, 0, quoted, pointer << 24)
    for mtu in (0, 1, 68, 1259, 1260, 1261, 1480, 1500, 65535):
        yield f"error 3, 4 with MTU {mtu}", error(ends, 3, 4, quoted, mtu)
    yield "an error of a router", error(ends, 3, 1, quoted, source=ROUTER)
    yield from quotes(ends, 3, 3)
    for name, place in (("first", MORE), ("later", 2)):
        yield f"an error about a {name} fragment", error(ends, 3, 3, packet(back, UDP, udp(back, bytes(8)), place=place))
    yield "an error about a packet with options", error(ends, 3, 3, packet(back, UDP, udp(back), options=bytes([1, 1, 1, 0])))
    yield "an error about a packet with a wrong header checksum", error(ends, 3, 3, packet(back, UDP, udp(back), checksum=1))
    yield "an error with an extension", error(ends, 3, 3, quoted.ljust(128, b"\0") + b"\x20\0\0\0\0\x08\1\1abcd", 32 << 16)
    yield "a wrong checksum in an error", wrong_icmp_checksum(error(ends, 3, 3, quoted))


def quotes(ends, kind, code):
    """Errors about packets of each protocol, with more or less of them."""
    back = ends.back()
    number = ICMP if ends.is_ipv4() else ICMPV6
    header_len = 20 if ends.is_ipv4() else 40
    for name, protocol, message in (("UDP", UDP, udp(back, b"odd")), ("TCP", TCP, tcp(back, data=b"data")), ("GRE", GRE, bytes(16)),
                                    ("an echo request", number, echo(back)), ("an echo reply", number, echo(back, reply=True)),
                                    ("UDP without a checksum", UDP, without_checksum(udp(back))),
                                    ("an error", number, icmp(back, kind, code, bytes(4) + packet(ends, UDP, udp(ends)))),
                                    ("a query", number, icmp(back, 13 if ends.is_ipv4() else 135, 0, bytes(16))),
                                    ("1400 bytes", UDP, udp(back, bytes(1400)))):
        whole = packet(back, protocol, message)
        for kept in sorted({7, 8, min(20, len(message)), len(message)}):
            yield f"an error about {name}, {kept} bytes", error(ends, kind, code, whole[:header_len + kept])
    yield "an error about half a header", error(ends, kind, code, whole[:header_len - 1])
    yield "an error about nothing", error(ends, kind, code, b"")
    yield "an error about hop limit 1", error(ends, kind, code, packet(back, UDP, udp(back), hop_limit=1))
    yield "an error about hop limit 0", error(ends, kind, code, packet(back, UDP, udp(back), hop_limit=0))


def wrong_icmp_checksum(whole):
    at = 22 if whole[0] >> 4 == 4 else 42
    return whole[:at] + bytes([whole[at] ^ 1]) + whole[at + 1:]


def packets_over_ipv6(prefix):
    """Packets over IPv6, with names."""
    ends = ends_over_ipv6(prefix)
    for name, protocol, message in (*messages(ends, IPV4), *queries(ends)):
        yield name, packet(ends, protocol, message)
    yield from header_packets(ends)
    yield "a flow label", packet(ends, UDP, udp(ends), flow=0x12345)
    for length in (1231, 1232, 1233, 1400):
        yield f"{length + 28} bytes over IPv4", packet(ends, UDP, udp(ends, bytes(length)))
    yield "payload length 0", packet(ends, UDP, udp(ends), length=0)
    for address in ("::", "::1", "2001:db9::1", "fe80::1", "ff02::1"):
        yield from packets_of_address(ends, address, address)
    for address in ADDRESSES:
        yield from packets_of_address(ends, address, embedded(address, prefix))
    for place in (8, 15) if prefix[-3:] != "/96" else ():
        octets = bytearray(packed(ends.source))
        octets[place] = 1
        yield from packets_of_address(ends, f"with byte {place} of 1", str(ipaddress.IPv6Address(bytes(octets))))
    yield from extension_headers(ends)
    yield from errors_over_ipv6(ends, embedded(ROUTER, prefix))


def packets_of_address(ends, name, address):
    """Packets with this address as source and as destination."""
    for kind, others in (("source", Ends(address, ends.destination)), ("destination", Ends(ends.source, address))):
        yield f"{kind} {name}", packet(others, UDP, udp(others))


def extension_headers(ends):
    message = udp(ends)
    for name, number in (("hop-by-hop options", HOP_BY_HOP), ("destination options", DESTINATION_OPTIONS)):
        yield name, packet(ends, number, message, between=option_header(UDP))
    for left in (0, 1):
        yield f"a routing header, segments left {left}", packet(ends, ROUTING, message, between=routing_header(UDP, left))
    yield "three extension headers", packet(
        ends, HOP_BY_HOP, message, between=option_header(DESTINATION_OPTIONS) + option_header(ROUTING) + routing_header(UDP, 0))
    yield "an extension header beyond the packet", packet(ends, HOP_BY_HOP, bytes([UDP, 9, 0, 0, 0, 0, 0, 0]))
    for name, protocol, data in (("UDP", UDP, udp(ends, bytes(16))), ("TCP", TCP, tcp(ends, data=bytes(12))), ("ICMP", ICMPV6, echo(ends)),
                                 ("GRE", GRE, bytes(16))):
        for part, offset, more in (("first", 0, 1), ("middle", 16, 1), ("last", 16, 0), ("atomic", 0, 0)):
            yield f"{part} fragment of {name}", packet(ends, FRAGMENT, data, between=fragment_header(protocol, offset, more))
    yield "a fragment header behind hop-by-hop options", packet(
        ends, HOP_BY_HOP, message, between=option_header(FRAGMENT) + fragment_header(UDP, 16, 1))
    yield "destination options behind a fragment header", packet(
        ends, FRAGMENT, message, between=fragment_header(DESTINATION_OPTIONS, 0, 0) + option_header(UDP))
    yield "half a fragment header", packet(ends, FRAGMENT, bytes([UDP, 0, 0, 1]))


def errors_over_ipv6(ends, router):
    back = ends.back()
    quoted = packet(back, UDP, udp(back, b"quoted"))
    for kind, codes in ((1, range(8)), (2, range(2)), (3, range(3)), (4, range(4))):
        for code in codes:
            yield f"error {kind}, {code}", error(ends, kind, code, quoted, 1400 if kind == 2 else 0)
    for pointer in range(42):
        yield f"error 4, 0 with pointer {pointer}", error(ends, 4, 0, quoted, pointer)
    yield "error 4, 0 with pointer 2147483648", error(ends, 4, 0, quoted, 1 << 31)
    for mtu in (0, 20, 1279, 1280, 1300, 1500, 65535, 65556, 100000):
        yield f"error 2, 0 with MTU {mtu}", error(ends, 2, 0, quoted, mtu)
    yield "an error of a router", error(ends, 1, 0, quoted, source=router)
    yield from quotes(ends, 1, 4)
    for part, offset, more in (("first", 0, 1), ("later", 16, 0), ("atomic", 0, 0)):
        about = packet(back, FRAGMENT, udp(back, bytes(8)), between=fragment_header(UDP, offset, more))
        yield f"an error about an {part} fragment" if part == "atomic" else f"an error about a {part} fragment", error(ends, 1, 4, about)
    yield "an error about hop-by-hop options", error(ends, 1, 4, packet(back, HOP_BY_HOP, udp(back), between=option_header(UDP)))
    yield "an error with an extension", error(ends, 1, 4, quoted.ljust(128, b"\0") + b"\x20\0\0\0\0\x08\1\1abcd", 16 << 24)
    yield "a wrong checksum in an error", wrong_icmp_checksum(error(ends, 1, 4, quoted))


MARK = packet(IPV4, GRE, b"this marks the end")

# ---- what both do


def end_with_parent():
    """Linux ends this process when its parent ends."""
    ctypes.CDLL(None).prctl(PR_SET_PDEATHSIG, signal.SIGKILL)


class Tayga:
    """A tayga with this prefix, and the packet socket on its device."""

    def __init__(self, name, prefix, room):
        self.name, self.prefix = name, prefix
        configuration = f"{room}/{name}.conf"
        with open(configuration, "w") as file:
            file.write(f"tun-device {name}\nipv4-addr 192.0.2.254\nipv6-addr fd00::1\nprefix {prefix}\n")
        command = ["tayga", "--config", configuration, "--nodetach"]
        self.process = subprocess.Popen(command, stdout=subprocess.DEVNULL, stderr=subprocess.DEVNULL, preexec_fn=end_with_parent)
        self.set_up()
        self.socket = socket.socket(socket.AF_PACKET, socket.SOCK_RAW, socket.htons(ETH_P_ALL))
        self.socket.setsockopt(socket.SOL_SOCKET, socket.SO_RCVBUF, 1 << 22)
        self.socket.bind((name, ETH_P_ALL))

    def set_up(self):
        """Waits until tayga has made the device, and sets it up. Linux must not send packets of its own to it."""
        mode, end = f"/proc/sys/net/ipv6/conf/{self.name}/addr_gen_mode", time.monotonic() + SECONDS
        while not os.path.exists(mode) and time.monotonic() < end:
            time.sleep(0.01)
        with open(mode, "w") as file:
            file.write("1")
        subprocess.run(["ip", "link", "set", self.name, "up"], check=True)

    def send(self, data):
        self.socket.sendto(data, (self.name, ETH_P_IP if data[0] >> 4 == 4 else ETH_P_IPV6))

    def received(self):
        """The next packet that tayga writes."""
        end = time.monotonic() + SECONDS
        while select.select([self.socket], [], [], max(0, end - time.monotonic()))[0]:
            data, address = self.socket.recvfrom(1 << 17)
            if address[2] != socket.PACKET_OUTGOING:
                return data
        raise AssertionError("tayga does not translate a mark")

    def translations(self, packets):
        """For each packet the packets of the other version that tayga writes. It answers some that it refuses with an ICMP error."""
        found = []
        for start in range(0, len(packets), TOGETHER):
            some = packets[start:start + TOGETHER]
            for it in some:
                self.send(it)
                self.send(MARK)
            found += [self.up_to_mark(it[0] >> 4) for it in some]
        return found

    def up_to_mark(self, version):
        found = []
        while not (data := self.received()).endswith(MARK[20:]):
            if data[0] >> 4 != version:
                found.append(data)
        return found

    def close(self):
        self.process.terminate()
        self.process.wait()
        self.socket.close()


def translated(data, prefix):
    """The packets that the library writes, and the status of a refusal."""
    try:
        return [ept.ipv4_to_ipv6(data, prefix, prefix) if data[0] >> 4 == 4 else ept.ipv6_to_ipv4(data, prefix, prefix)], None
    except ept.Error as error:
        return [], error.status


# ---- the differences


def message_at(data):
    return 20 if data[0] >> 4 == 4 else 40


def with_dont_fragment(header):
    header = header[:6] + struct.pack(">H", DONT_FRAGMENT) + header[8:10] + bytes(2) + header[12:]
    return header[:10] + struct.pack(">H", sum_of(header)) + header[12:]


def as_rfc_6145(data, answer):
    """tayga sets "don't fragment" and the identification 0 in every IPv4 packet, and quoted packet, that was no fragment (RFC 6145, section
    5.1). By RFC 7915, section 5.1, packets of at most 1,260 bytes may be fragmented, and have an identification."""
    if data[0] >> 4 == 4 or data[6] == FRAGMENT:
        return answer
    whole = with_dont_fragment(answer[:20]) + answer[20:]
    is_error = answer[9] == ICMP and answer[20] in (3, 11, 12) and data[54] != FRAGMENT
    return whole[:28] + with_dont_fragment(whole[28:48]) + whole[48:] if is_error else whole


def without_udp_checksum(answer):
    at = message_at(answer)
    return [answer[:at + 6] + bytes(2) + answer[at + 8:]]


def fragments_of_1280(answer):
    """The fragments of an IPv6 packet with a payload of more than 1,232 bytes."""
    parts = (0, 1, answer[40:1272]), (1232, 0, answer[1272:])
    return [answer[:4] + struct.pack(">HB", 8 + len(part), FRAGMENT) + answer[7:40] +
            struct.pack(">BBHI", answer[6], 0, offset | more, IDENTIFICATION) + part for offset, more, part in parts]


def with_message_checksum(answer, message):
    """An ICMP message with its checksum between the ends of this packet."""
    at = message_at(answer)
    packed_ends = answer[12:20] if at == 20 else answer[8:40]
    half = len(packed_ends) // 2
    ends = Ends(*(str(ipaddress.ip_address(it)) for it in (packed_ends[:half], packed_ends[half:])))
    return with_checksum(ends, ICMP if at == 20 else ICMPV6, message, 2)


def with_mtu(mtu):
    def changed(answer):
        at = message_at(answer)
        message = answer[at:at + 4] + struct.pack(">I", mtu) + answer[at + 8:]
        return [answer[:at] + with_message_checksum(answer, message)]
    return changed


def of_576_bytes(answer):
    """An ICMP error without what follows, which are zeros."""
    return [with_dont_fragment(answer[:2] + struct.pack(">H", 576) + answer[4:20]) + answer[20:576]]


def without_extension(answer):
    """An ICMP error without its length field, its extension, and the zeros before it."""
    at = message_at(answer)
    quoted = answer[at + 8:]
    length, = struct.unpack(">H", quoted[2:4] if at == 20 else quoted[4:6])
    quoted = quoted[:length if at == 20 else 40 + length]
    if at == 20:
        header = with_dont_fragment(answer[:2] + struct.pack(">H", 28 + len(quoted)) + answer[4:20])
    else:
        header = answer[:4] + struct.pack(">H", 8 + len(quoted)) + answer[6:40]
    return [header + with_message_checksum(answer, answer[at:at + 4] + bytes(4) + quoted)]


def without_fragment_header(answer):
    """An ICMPv6 error about a fragment, without the fragment header."""
    quoted = answer[48:96]
    length, = struct.unpack(">H", quoted[4:6])
    quoted = quoted[:4] + struct.pack(">HB", length - 8, quoted[40]) + quoted[7:40] + answer[96:]
    header = answer[:4] + struct.pack(">H", 8 + len(quoted)) + answer[6:40]
    return [header + with_message_checksum(answer, answer[40:48] + quoted)]


class Difference(NamedTuple):
    """Packets of a version of IP that both treat differently. `tayga` is what tayga does: it drops a packet that the library translates, it
    translates a packet that the library refuses, or it writes other packets, which a function makes from the packet of the library."""
    version: int
    names: str  # a regular expression
    tayga: object
    reason: str


DROPS, TRANSLATES = "drops", "translates"
# Sections are of RFC 7915 unless a row names another RFC.
DIFFERENCES = [
    Difference(4, "UDP, (the new checksum is|checksum) FFFF", without_udp_checksum, "RFC 8200, section 8.1: 0 is written as FFFF"),
    Difference(6, "UDP, (the new checksum is|checksum) FFFF", without_udp_checksum, "RFC 768: 0 is written as FFFF"),
    Difference(4, "UDP without a checksum(, length field 9)?", DROPS, "section 4.5: a translator may compute the checksum"),
    Difference(4, "1281 bytes over IPv6", fragments_of_1280, "section 4: the program fragments the packet, since the call returns one"),
    Difference(4, "options: (loose|strict) route", TRANSLATES, "section 4.1: a packet with an unexpired source route is discarded"),
    Difference(4, "(source|destination) 0[.].*", TRANSLATES, "RFC 1122, section 3.2.1.3: no host has these addresses"),
    Difference(6, "(source|destination) 0[.].*", TRANSLATES, "RFC 1122, section 3.2.1.3: no host has these addresses"),
    Difference(4, "(source|destination) 169[.].*", DROPS, "RFC 3927, section 7: no router forwards it, so the program has to drop it"),
    Difference(6, "(source|destination) 169[.].*", DROPS, "RFC 3927, section 7: no router forwards it, so the program has to drop it"),
    Difference(4, "(source|destination) (100[.]|192[.]0[.]0|192[.]88).*", TRANSLATES, "RFC 6052, section 3.1: they are not global"),
    Difference(6, "(source|destination) (100[.]|192[.]0[.]0|192[.]88).*", TRANSLATES, "RFC 6052, section 3.1: they are not global"),
    Difference(6, "(source|destination) with byte 15 of 1", DROPS, "RFC 6052, section 2.3: no bit after the IPv4 address is read"),
    Difference(6, "a routing header, segments left 1", TRANSLATES, "section 5.1: such a packet is not translated"),
    Difference(6, "a fragment header behind hop-by-hop options", DROPS, "section 5.1.1: the fragment header is translated"),
    Difference(6, "destination options behind a fragment header", TRANSLATES, "60 is no protocol over IPv4; the library refuses it"),
    Difference(4, "error 12, .*", DROPS, "section 4.2: a parameter problem with code 0 or 2 is translated"),
    Difference(6, "error 4, 0.*", DROPS, "section 5.2: a parameter problem with code 0 is translated"),
    Difference(6, "error 1, 3", DROPS, "section 5.2: code 3 becomes \"the host is unreachable\""),
    Difference(6, "error 2, 0 with MTU (0|20)", DROPS, "section 5.2 states no least MTU"),
    Difference(4, "error 3, 4 with MTU (1500|65535)", with_mtu(1500), "section 4.2: tayga knows the MTU of its device"),
    Difference(6, "error 2, 0 with MTU (65535|65556|100000)", with_mtu(1480), "section 5.2: tayga knows the MTU of its device"),
    Difference(4, "an error about TCP, 8 bytes", DROPS, "RFC 792: an error quotes 8 bytes of the message"),
    Difference(6, "an error about TCP, 8 bytes", DROPS, "section 5.3: the quoted packet is translated as far as it is there"),
    Difference(4, "an error about an echo reply, .*", DROPS, "RFC 1122, section 3.2.2: only an error must not be quoted"),
    Difference(6, "an error about an echo reply, .*", DROPS, "RFC 4443, section 2.4: only an error must not be quoted"),
    Difference(4, "an error about UDP without a checksum, .*", DROPS, "section 4.3: the quoted packet is translated"),
    Difference(6, "an error about UDP without a checksum, .*", DROPS, "section 5.3: the quoted packet is translated"),
    Difference(4, "an error about a (first|later) fragment", without_fragment_header, "section 4.3: a quoted fragment keeps its offset"),
    Difference(6, "an error about 1400 bytes, 1408 bytes", of_576_bytes, "RFC 1812, section 4.3.2.3; RFC 7915 states no longest error"),
    Difference(4, "an error with an extension", without_extension, "section 4.2: the extension is kept; tayga leaves it out"),
    Difference(6, "an error with an extension", without_extension, "section 5.2: the extension is kept; tayga leaves it out"),
    Difference(4, "a wrong checksum in an error", DROPS, "section 4.2: the library keeps a wrong checksum wrong, so the receiver drops it"),
    Difference(6, "a wrong checksum in an error", DROPS, "section 5.2: the library keeps a wrong checksum wrong, so the receiver drops it"),
]


# ---- the test


class Translation(unittest.TestCase):
    maxDiff = None

    def test_packets_agree(self):
        count, used = 0, set()
        with tempfile.TemporaryDirectory() as room:
            for number, prefix in enumerate(PREFIXES):
                tayga = Tayga(f"nat64-{number}", prefix, room)
                self.addCleanup(tayga.close)
                for rows in (packets_over_ipv4(prefix), packets_over_ipv6(prefix)):
                    names, packets = zip(*rows)
                    self.assertEqual(len(set(names)), len(names))
                    for name, data, found in zip(names, packets, tayga.translations(packets)):
                        with self.subTest(prefix=prefix, version=data[0] >> 4, name=name):
                            used |= self.compare(name, data, found, prefix)
                    count += len(packets)
        self.assertGreater(count, 3500)
        self.assertEqual([row.names for row in DIFFERENCES if row not in used], [])

    def compare(self, name, data, found, prefix):
        """Compares what both write, and returns the row of their difference."""
        answers, status = translated(data, prefix)
        expected = [as_rfc_6145(data, it) for it in answers]
        if found == expected:
            return set()
        rows = [row for row in DIFFERENCES if row.version == data[0] >> 4 and re.fullmatch(row.names, name)]
        self.assertEqual(len(rows), 1, [[it.hex() for it in packets] for packets in (found, expected)] + [status])
        what = rows[0].tayga
        if what in (DROPS, TRANSLATES):
            self.assertEqual((len(found), len(expected)), (0, 1) if what == DROPS else (1, 0))
        else:
            self.assertEqual([it.hex() for it in found], [it.hex() for it in what(expected[0])])
        return set(rows)


if __name__ == "__main__":
    unittest.main()
