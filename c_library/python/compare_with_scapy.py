# SPDX-FileCopyrightText: 2026 The etherparse_transport developers
# SPDX-License-Identifier: MIT OR Apache-2.0
"""Compares etherparse_transport.py with scapy: verdicts and fields on the stored capture of crates/capture_report, and packets that scapy
builds.

    ETHERPARSE_TRANSPORT_LIBRARY=PREFIX/lib/libetherparse_transport.so python3 compare_with_scapy.py

The checksums of scapy are those that it writes into packets. The comparison was made with scapy 2.5.0.
"""
import ipaddress
import struct
import sys
import unittest

sys.dont_write_bytecode = True
import etherparse_transport as ept
from etherparse_transport import Icmpv4Kind, Icmpv6Kind, Protocol, TcpOptionKind, VerdictKind
from scapy.layers.inet import ICMP, IP, TCP, UDP, IPOption_LSRR, IPOption_SSRR, TCPOptions, in4_chksum
from scapy.layers.inet6 import (
    HAO, ICMPv6EchoRequest, IPv6, IPv6ExtHdrDestOpt, IPv6ExtHdrFragment, IPv6ExtHdrHopByHop, IPv6ExtHdrRouting, in6_chksum,
)
from scapy.packet import Raw
from test_etherparse_transport import message_of, packets

# scapy writes the faulty TCP options of frame 8 in another way, and has no class for the ICMPv6 message of frame 30.
NOT_REBUILT = {8, 30}
PLACES = {Protocol.UDP: 6, Protocol.TCP: 16, Protocol.ICMPV4: 2, Protocol.ICMPV6: 2}
# The TCP options whose values the module knows, with their names in scapy.
KNOWN_OPTIONS = {kind: TCPOptions[0][kind][0] for kind in TcpOptionKind}
# The fields of UDP and TCP headers, with their names in scapy.
UDP_FIELDS = {"source_port": "sport", "destination_port": "dport", "length": "len", "checksum": "chksum"}
TCP_FIELDS = {
    "source_port": "sport", "destination_port": "dport", "sequence_number": "seq", "acknowledgment_number": "ack", "flags": "flags",
    "window_size": "window", "checksum": "chksum", "urgent_pointer": "urgptr",
}
# The fields of ICMP messages that have other names in scapy, by kind. Other fields are type, code and checksum.
ICMPV4_FIELDS = {
    Icmpv4Kind.ECHO_REQUEST: {"id": "id", "sequence_number": "seq"},
    Icmpv4Kind.ECHO_REPLY: {"id": "id", "sequence_number": "seq"},
    Icmpv4Kind.PARAMETER_PROBLEM: {"pointer": "ptr"},
    **dict.fromkeys((Icmpv4Kind.TIMESTAMP_REQUEST, Icmpv4Kind.TIMESTAMP_REPLY), {
        "id": "id", "sequence_number": "seq", "originate_timestamp": "ts_ori", "receive_timestamp": "ts_rx", "transmit_timestamp": "ts_tx",
    }),
}
ICMPV6_FIELDS = {
    Icmpv6Kind.ECHO_REQUEST: {"id": "id", "sequence_number": "seq"},
    Icmpv6Kind.ECHO_REPLY: {"id": "id", "sequence_number": "seq"},
    Icmpv6Kind.PACKET_TOO_BIG: {"mtu": "mtu"},
    Icmpv6Kind.PARAMETER_PROBLEM: {"pointer": "ptr"},
    Icmpv6Kind.ROUTER_ADVERTISEMENT: {"cur_hop_limit": "chlim", "router_lifetime": "routerlifetime"},
}


def parsed(packet):
    """The IP layer of scapy."""
    return (IP if packet[0] >> 4 == 4 else IPv6)(packet)


def transport_layer(ip):
    """The layer of UDP, TCP or ICMP behind the options or the extension headers."""
    layer = ip.payload
    while type(layer).__name__.startswith("IPv6ExtHdr"):
        layer = layer.payload
    return layer


def checksum_name(layer):
    """What scapy calls the checksum of this layer."""
    return "cksum" if "cksum" in layer.fields else "chksum"


def rebuilt(ip):
    """The bytes of a packet whose checksum of the transport scapy computes anew."""
    layer = transport_layer(ip)
    delattr(layer, checksum_name(layer))
    return bytes(ip)


def checksum_of_scapy(number, packet, found):
    """The checksum that scapy writes into a packet. Where it does not rebuild the packet, the sum is over the bytes of the message."""
    ip = parsed(packet)
    if number not in NOT_REBUILT:
        layer = transport_layer(parsed(rebuilt(ip)))
        return getattr(layer, checksum_name(layer))
    message = bytearray(message_of(found))
    struct.pack_into(">H", message, PLACES[found.header_protocol], 0)
    return (in4_chksum if found.transport.version == 4 else in6_chksum)(found.header_protocol, ip, bytes(message))


def named(layer, names):
    """The fields of a layer, by the names of the module."""
    return {name: getattr(layer, other) for name, other in names.items()}


def option_of_scapy(option):
    """A TCP option of a known kind, as scapy shows it."""
    name, form = TCPOptions[0][option.kind]
    if name == "NOP":
        return name, None
    if form is None:
        return name, option.value
    values = struct.unpack(form + f"{len(option.value) // 4}I" if name == "SAck" else form, option.value)
    return name, values if len(values) > 1 else values[0]


def icmp_names(icmp, is_ipv4):
    """The fields of an ICMP message, each with its name in scapy."""
    names = {"type": "type", "code": "code", "checksum": "chksum" if is_ipv4 else "cksum"}
    names.update((ICMPV4_FIELDS if is_ipv4 else ICMPV6_FIELDS).get(icmp.kind, {}))
    if is_ipv4 and icmp.kind == Icmpv4Kind.DESTINATION_UNREACHABLE and icmp.code == 4:
        names["next_hop_mtu"] = "nexthopmtu"
    return names


class StoredCapture(unittest.TestCase):
    def judged(self):
        """The number and the bytes of each packet whose checksum is tested or absent, its verdict and scapy's layers."""
        for number, packet, _ in packets():
            try:
                found = ept.verdict(packet)
            except ept.Error:
                continue
            if found.kind < VerdictKind.UNTESTED_FRAGMENT:
                ip = parsed(packet)
                yield number, packet, found, ip, transport_layer(ip)

    def test_verdicts_agree(self):
        count = 0
        for number, packet, found, ip, layer in self.judged():
            [stored] = struct.unpack_from(">H", found.transport.payload, PLACES[found.header_protocol])
            computed = checksum_of_scapy(number, packet, found)
            if found.header_protocol == Protocol.UDP and found.transport.version == 4 and stored == 0:
                expected = VerdictKind.ABSENT, None
            else:
                expected = (VerdictKind.RIGHT, None) if stored == computed else (VerdictKind.WRONG, computed)
            self.assertEqual((found.kind, found.expected_checksum), expected, number)
            count += 1
        self.assertEqual(count, 37)

    def test_addresses_agree(self):
        for number, packet, found, ip, layer in self.judged():
            header = ept.header_addresses(packet)
            self.assertEqual((header.version, str(header.source), str(header.destination)), (ip.version, ip.src, ip.dst), number)

    def test_udp_and_tcp_agree(self):
        counts = {Protocol.UDP: 0, Protocol.TCP: 0}
        for number, packet, found, ip, layer in self.judged():
            if found.header_protocol in counts:
                is_tcp = found.header_protocol == Protocol.TCP
                segment = (ept.read_tcp if is_tcp else ept.read_udp)(found.transport.payload)
                names = TCP_FIELDS if is_tcp else UDP_FIELDS
                self.assertEqual({name: getattr(segment, name) for name in names}, named(layer, names), number)
                self.assertEqual(segment.payload, getattr(layer.payload, "load", b""), number)
                if is_tcp:
                    self.assertEqual(len(segment.options), 4 * layer.dataofs - 20, number)
                counts[found.header_protocol] += 1
        self.assertEqual(counts, {Protocol.UDP: 12, Protocol.TCP: 4})

    def test_tcp_options_agree(self):
        count = 0
        for number, packet, found, ip, layer in self.judged():
            if found.header_protocol == Protocol.TCP and number not in NOT_REBUILT:
                options = [it for it in ept.tcp_options(ept.read_tcp(found.transport.payload).options) if it.kind in KNOWN_OPTIONS]
                shown = [it for it in layer.options if it[0] in KNOWN_OPTIONS.values()]
                self.assertEqual([option_of_scapy(it) for it in options], shown, number)
                count += len(options)
        self.assertEqual(count, 9)

    def test_icmp_agrees(self):
        count = 0
        for number, packet, found, ip, layer in self.judged():
            if found.header_protocol in (Protocol.ICMPV4, Protocol.ICMPV6) and number not in NOT_REBUILT:
                is_ipv4 = found.header_protocol == Protocol.ICMPV4
                icmp = (ept.read_icmpv4 if is_ipv4 else ept.read_icmpv6)(found.transport.payload)
                names = icmp_names(icmp, is_ipv4)
                self.assertEqual({name: getattr(icmp, name) for name in names}, named(layer, names), number)
                if is_ipv4 and icmp.kind == Icmpv4Kind.REDIRECT:
                    self.assertEqual(str(ipaddress.IPv4Address(icmp.bytes4to7)), layer.gw, number)
                count += 1
        self.assertEqual(count, 20)

    def test_icmpv6_flags_agree(self):
        kinds = []
        for number, packet, found, ip, layer in self.judged():
            if found.header_protocol == Protocol.ICMPV6:
                icmp = ept.read_icmpv6(found.transport.payload)
                if icmp.kind == Icmpv6Kind.ROUTER_ADVERTISEMENT:
                    kinds.append(icmp.kind)
                    self.assertEqual(icmp.flags, layer.M << 7 | layer.O << 6, number)
                if icmp.kind == Icmpv6Kind.NEIGHBOR_ADVERTISEMENT:
                    kinds.append(icmp.kind)
                    self.assertEqual(icmp.flags, layer.R << 7 | layer.S << 6 | layer.O << 5, number)
        self.assertEqual(kinds, [Icmpv6Kind.ROUTER_ADVERTISEMENT, Icmpv6Kind.NEIGHBOR_ADVERTISEMENT])


# Headers in front of the transport, and the addresses that its checksum covers. scapy replaces the destination of a header with a source
# route when it builds a packet, so each packet needs a new header.
IPV4 = {"src": "192.0.2.1", "dst": "192.0.2.2"}
IPV6 = {"src": "2001:db8::1", "dst": "2001:db8::2"}
HEADERS = [
    (lambda: IP(**IPV4), "192.0.2.1", "192.0.2.2"),
    (lambda: IP(options=[IPOption_LSRR(pointer=4, routers=["192.0.2.3", "192.0.2.4"])], **IPV4), "192.0.2.1", "192.0.2.4"),
    (lambda: IP(options=[IPOption_SSRR(pointer=4, routers=["192.0.2.5"])], **IPV4), "192.0.2.1", "192.0.2.5"),
    (lambda: IPv6(**IPV6), "2001:db8::1", "2001:db8::2"),
    (lambda: IPv6(**IPV6) / IPv6ExtHdrHopByHop(), "2001:db8::1", "2001:db8::2"),
    (lambda: IPv6(**IPV6) / IPv6ExtHdrFragment(), "2001:db8::1", "2001:db8::2"),
    (lambda: IPv6(**IPV6) / IPv6ExtHdrDestOpt(options=[HAO(hoa="2001:db8::6")]), "2001:db8::6", "2001:db8::2"),
    (lambda: IPv6(**IPV6) / IPv6ExtHdrRouting(type=2, addresses=["2001:db8::7"]), "2001:db8::1", "2001:db8::7"),
    (lambda: IPv6(**IPV6) / IPv6ExtHdrRouting(type=0, addresses=["2001:db8::8", "2001:db8::9"]), "2001:db8::1", "2001:db8::9"),
]


def transports(ip):
    """A packet of each protocol after this header, of an even and of an odd length."""
    for payload in (b"", b"abc", bytes(range(256)) * 5):
        yield ip() / UDP(sport=49152, dport=53) / Raw(payload)
        yield ip() / TCP(sport=49153, dport=80, seq=1, options=[("MSS", 1460), ("WScale", 7)]) / Raw(payload)
        if ip().version == 4:
            yield ip() / ICMP(id=1, seq=2) / Raw(payload)
        else:
            yield ip() / ICMPv6EchoRequest(id=1, seq=2, data=payload)


class Built(unittest.TestCase):
    def test_what_scapy_builds_is_right(self):
        for ip, source, destination in HEADERS:
            for built in transports(ip):
                packet = bytearray(bytes(built))
                found = ept.verdict(packet)
                self.assertEqual((str(found.transport.source), str(found.transport.destination)), (source, destination), built)
                self.assertEqual((found.kind, found.expected_checksum), (VerdictKind.RIGHT, None), built)
                place = found.transport.payload_offset + PLACES[found.header_protocol]
                [right] = struct.unpack_from(">H", packet, place)
                packet[place] ^= 0x10
                found = ept.verdict(packet)
                self.assertEqual((found.kind, found.expected_checksum), (VerdictKind.WRONG, right), built)

    def test_scapy_takes_an_answer_for_an_answer(self):
        for request in (IP(**IPV4) / ICMP(id=1, seq=2) / Raw(b"abc"), IPv6(**IPV6) / ICMPv6EchoRequest(id=1, seq=2, data=b"abc")):
            reply = ept.answer_echo(bytes(request))
            self.assertTrue(parsed(reply).answers(parsed(bytes(request))))
            self.assertEqual(rebuilt(parsed(reply)), reply)

    def test_scapy_builds_what_the_module_translates(self):
        for ip, source, destination in ((HEADERS[0][0], "198.51.100.1", "198.51.100.2"), (HEADERS[3][0], "2001:db8:1::1", "2001:db8:1::2")):
            for built in transports(ip):
                packet = bytearray(bytes(built))
                ept.translate(packet, source=source, destination=destination, source_port=40001)
                built.src, built.dst = source, destination
                layer = transport_layer(built)
                setattr(layer, "sport" if "sport" in layer.fields else "id", 40001)
                self.assertEqual(packet, bytes(built))


if __name__ == "__main__":
    unittest.main()
