# SPDX-FileCopyrightText: 2026 The etherparse_transport developers
# SPDX-License-Identifier: MIT OR Apache-2.0
"""Puts packets together that Linux fragments, and compares what `reassemble` of etherparse_transport.py returns with what was sent.

    ETHERPARSE_TRANSPORT_LIBRARY=PREFIX/lib/libetherparse_transport.so ip netns exec SPACE python3 compare_with_linux_fragments.py

It runs in a network namespace of its own, in which it makes a pair of veth devices. What leaves one of them arrives at the other, where
the script reads it. The same fragments also go through tshark, in the order in which they came, shuffled, repeated and overlapping. Each
difference is a row of `OVERLAPS`. Without tshark this part is left out. The comparison was made with Linux 6.18 and tshark 4.0.17.
"""
import ipaddress
import random
import select
import shutil
import socket
import struct
import subprocess
import sys
import tempfile
import unittest
from typing import NamedTuple

sys.dont_write_bytecode = True
import etherparse_transport as ept
from etherparse_transport import Status, VerdictKind

# Values of Linux that Python's modules lack.
ETH_P_ALL, IP_MTU_DISCOVER, IPV6_MTU_DISCOVER, PMTUDISC_DONT = 3, 10, 23, 0
UDP, ICMP, ICMPV6, FRAGMENT = 17, 1, 58, 44
SECONDS = 5
ETHERNET_LEN = 14
RAW_LINK = 101  # the link type of packets without a link header
LENGTHS = [1400, 1472, 1473, 2000, 2952, 4000, 8192, 16384, 24576, 32768, 65000, 65507]  # of packets over IPv4, without their headers
# IPv6 needs 1,280 bytes (RFC 8200, section 5), and Linux removes its addresses below. So its packets are sent first.
MTUS = {6: [1280, 1500], 4: [576, 1280, 1500]}
SOURCES = {4: "10.0.0.1", 6: "2001:db8::1"}
DESTINATIONS = {4: "10.0.0.2", 6: "2001:db8::2"}
PORTS = 5000, 6000
COMMANDS = """
sysctl -qw net.ipv6.auto_flowlabels=0
ip link add left type veth peer name right
ip link set left address 02:00:00:00:00:01 up
ip link set right address 02:00:00:00:00:02 up
ip address add 10.0.0.1/24 dev left
ip address add 2001:db8::1/64 dev left nodad
ip neighbor add 10.0.0.2 lladdr 02:00:00:00:00:02 dev left
ip neighbor add 2001:db8::2 lladdr 02:00:00:00:00:02 dev left
"""


# ---- packets


def sum_of(data):
    """The Internet checksum of these bytes (RFC 1071)."""
    data += bytes(len(data) % 2)
    total = sum(struct.unpack(f">{len(data) // 2}H", data))
    while total >> 16:
        total = (total & 0xFFFF) + (total >> 16)
    return 0xFFFF - total


def packed(address):
    return ipaddress.ip_address(address).packed


def message(version, protocol, data):
    """The UDP packet or the echo request with this data, and its checksum."""
    if protocol == UDP:
        place, written = 6, struct.pack(">HHHH", *PORTS, 8 + len(data), 0) + data
    else:
        place, written = 2, struct.pack(">BBHHH", 128 if protocol == ICMPV6 else 8, 0, 0, 7, 1) + data
    ends = packed(SOURCES[version]) + packed(DESTINATIONS[version])
    pseudo = ends + struct.pack(">II", len(written), protocol) if protocol != ICMP else b""
    checksum = sum_of(pseudo + written) or (0xFFFF if protocol == UDP else 0)
    return written[:place] + struct.pack(">H", checksum) + written[place + 2:]


def ip_header(version, protocol, length, identification, place=0):
    """The header of an IPv4 packet, or of an IPv6 packet with a fragment header unless `place` is None. `place` is bytes 6 and 7 of an
    IPv4 header, or bytes 2 and 3 of a fragment header."""
    ends = packed(SOURCES[version]) + packed(DESTINATIONS[version])
    if version == 6 and place is None:
        return struct.pack(">IHBB", 6 << 28, length, protocol, 64) + ends
    if version == 6:
        return struct.pack(">IHBB", 6 << 28, 8 + length, FRAGMENT, 64) + ends + struct.pack(">BBHI", protocol, 0, place, identification)
    header = struct.pack(">BBHHHBBH", 0x45, 0, 20 + length, identification, place or 0, 64, protocol, 0) + ends
    return header[:10] + struct.pack(">H", sum_of(header)) + header[12:]


def piece(version, protocol, identification, data, offset, more):
    """A fragment with these bytes of the payload."""
    place = offset // 8 | more << 13 if version == 4 else offset | more
    return ip_header(version, protocol, len(data), identification, place) + data


def cut(version, protocol, identification, payload, size):
    """The fragments of a payload, each of this size except the last."""
    starts = range(0, len(payload), size)
    return [piece(version, protocol, identification, payload[at:at + size], at, at + size < len(payload)) for at in starts]


class Sent(NamedTuple):
    """A packet that was sent: its version, its protocol and its payload, and the fragments that came."""
    version: int
    protocol: int
    payload: bytes
    fragments: list

    def whole(self):
        """The packet as it was sent, before it was fragmented."""
        identification = ept.read_fragment(self.fragments[0]).identification
        return ip_header(self.version, self.protocol, len(self.payload), identification, None) + self.payload


# ---- what Linux does


def set_up():
    for command in COMMANDS.strip().splitlines():
        subprocess.run(command.split(), check=True)


class Link:
    """A pair of veth devices: what a socket sends leaves the left device, and the right device receives it."""

    def __init__(self):
        self.right = socket.socket(socket.AF_PACKET, socket.SOCK_RAW, socket.htons(ETH_P_ALL))
        self.right.setsockopt(socket.SOL_SOCKET, socket.SO_RCVBUF, 1 << 22)
        self.right.bind(("right", 0))

    def fragments_of(self, version, protocol, data):
        """The fragments that Linux sends of a packet with this data."""
        family = socket.AF_INET if version == 4 else socket.AF_INET6
        kind = socket.SOCK_DGRAM if protocol == UDP else socket.SOCK_RAW
        with socket.socket(family, kind, protocol) as sender:
            level, option = (socket.SOL_IP, IP_MTU_DISCOVER) if version == 4 else (socket.IPPROTO_IPV6, IPV6_MTU_DISCOVER)
            sender.setsockopt(level, option, PMTUDISC_DONT)
            sender.setsockopt(socket.SOL_SOCKET, socket.SO_SNDBUF, 1 << 20)
            payload = message(version, protocol, data)
            if protocol == UDP:
                sender.bind((SOURCES[version], PORTS[0]))
            sender.sendto(data if protocol == UDP else payload, (DESTINATIONS[version], PORTS[1] if protocol == UDP else 0))
        return Sent(version, protocol, payload, self.received(version, protocol))

    def received(self, version, protocol):
        """The packets of this version to the destination that arrive, up to a last fragment or a whole packet."""
        found, needed, have = [], None, 0
        while needed is None or have < needed:
            if not select.select([self.right], [], [], SECONDS)[0]:
                raise AssertionError(f"fragments are missing: {have} bytes of {needed}")
            frame = self.right.recv(1 << 17)
            packet = frame[ETHERNET_LEN:]
            if not packet or packet[0] >> 4 != version or packed(DESTINATIONS[version]) not in packet[:40]:
                continue
            if packet[9 if version == 4 else 6] not in (protocol, FRAGMENT):
                continue
            found.append(packet)
            try:
                fragment = ept.read_fragment(packet)
            except ept.Error as error:
                if error.status is not Status.REASSEMBLY_NO_FRAGMENT:
                    raise
                return found
            have += len(fragment.payload)
            if not fragment.more_fragments:
                needed = fragment.offset + len(fragment.payload)
        return found


# ---- tshark


def captured(packets, file):
    """Writes a capture with these packets."""
    file.write(struct.pack("<IHHiIII", 0xA1B2C3D4, 2, 4, 0, 0, 1 << 18, RAW_LINK))
    for number, packet in enumerate(packets):
        file.write(struct.pack("<IIII", number // 1000, number % 1000, len(packet), len(packet)) + packet)
    file.flush()


def joined_by_tshark(packets):
    """The payloads that tshark puts together, in the order in which they are complete."""
    with tempfile.NamedTemporaryFile(suffix=".pcap") as file:
        captured(packets, file)
        command = ["tshark", "-n", "-r", file.name, "-o", "ip.defragment:TRUE", "-o", "ipv6.defragment:TRUE", "-T", "fields"]
        fields = [word for name in ("ip.reassembled.data", "ipv6.reassembled.data") for word in ("-e", name)]
        lines = subprocess.run(command + fields, check=True, capture_output=True, text=True).stdout.splitlines()
    return [bytes.fromhex(line.strip().replace(":", "")) for line in lines if line.strip()]


class Overlap(NamedTuple):
    """Fragments that do not agree: how each is made of the payload, why the library refuses them, and whether tshark puts them together.
    A fragment is its place, its end, whether more fragments follow, and the number by which each of its bytes is changed."""
    what: str
    pieces: list
    status: Status
    tshark_joins: bool


OVERLAPS = [
    Overlap("other bytes at the same place", [(0, 64, 1, 0), (0, 64, 1, 1), (64, 100, 0, 0)], Status.REASSEMBLY_OVERLAP, True),
    Overlap("the same bytes, of another extent", [(0, 64, 1, 0), (32, 100, 0, 0)], Status.REASSEMBLY_OVERLAP, True),
    Overlap("a part of a fragment", [(0, 64, 1, 0), (0, 32, 1, 0), (64, 100, 0, 0)], Status.REASSEMBLY_OVERLAP, True),
    Overlap("two ends", [(0, 64, 1, 0), (64, 100, 0, 0), (64, 104, 0, 0)], Status.REASSEMBLY_OTHER_END, True),
    Overlap("bytes behind the end", [(64, 100, 0, 0), (0, 64, 1, 0), (96, 104, 1, 0)], Status.REASSEMBLY_BEHIND_END, True),
    Overlap("a length that is no multiple of 8", [(0, 60, 1, 0), (56, 100, 0, 0)], Status.REASSEMBLY_FRAGMENT_LENGTH, True),
    Overlap("a hole", [(0, 56, 1, 0), (64, 100, 0, 0)], Status.REASSEMBLY_INCOMPLETE, False),
]


def overlapping(version, identification, overlap):
    """The fragments of a row."""
    payload = message(version, UDP, bytes(range(96)))
    pieces = [(payload[at:end], at, more, change) for at, end, more, change in overlap.pieces]
    return [piece(version, UDP, identification, bytes(byte + change & 255 for byte in data), at, more) for data, at, more, change in pieces]


# ---- tests


class Fragments(unittest.TestCase):
    """What `reassemble` returns, and what Linux sent and tshark puts together."""

    @classmethod
    def setUpClass(cls):
        set_up()
        link, cls.sent = Link(), []
        cls.addClassCleanup(link.right.close)
        for version, mtus in MTUS.items():
            for mtu in mtus:
                subprocess.run(["ip", "link", "set", "left", "mtu", str(mtu)], check=True)
                for length in LENGTHS:
                    for protocol in (UDP, ICMP if version == 4 else ICMPV6):
                        data = random.Random(length).randbytes(length)
                        cls.sent.append(link.fragments_of(version, protocol, data))

    def cut_up(self):
        """The packets that Linux fragmented."""
        found = [sent for sent in self.sent if len(sent.fragments) > 1]
        self.assertGreater(len(found), 90)
        return found

    def test_a_packet_that_fits_is_not_fragmented(self):
        for sent in self.sent:
            if len(sent.fragments) == 1:
                with self.assertRaises(ept.Error) as caught:
                    ept.reassemble(sent.fragments)
                self.assertEqual(caught.exception.status, Status.REASSEMBLY_NO_FRAGMENT)

    def test_fragments_give_the_packet_back(self):
        for sent in self.cut_up():
            with self.subTest(version=sent.version, protocol=sent.protocol, length=len(sent.payload), count=len(sent.fragments)):
                self.assertEqual(ept.reassemble(sent.fragments), sent.whole())
                self.assertEqual(ept.verdict(sent.whole()).kind, VerdictKind.RIGHT)

    def test_the_order_does_not_matter(self):
        for sent in self.cut_up():
            mixed = random.Random(len(sent.payload)).sample(sent.fragments * 2, 2 * len(sent.fragments))
            self.assertEqual(ept.reassemble(mixed), sent.whole())

    def test_a_fragment_that_is_missing_is_noticed(self):
        for sent in self.cut_up():
            for lost in {0, len(sent.fragments) // 2, len(sent.fragments) - 1}:
                with self.assertRaises(ept.Error) as caught:
                    ept.reassemble(sent.fragments[:lost] + sent.fragments[lost + 1:])
                self.assertEqual(caught.exception.status, Status.REASSEMBLY_INCOMPLETE)

    @unittest.skipUnless(shutil.which("tshark"), "tshark is missing")
    def test_tshark_puts_the_same_packets_together(self):
        # tshark takes fragments of a packet that is complete for those of a packet with the same key. So each packet gets its own key.
        whole = [sent for sent in self.cut_up()]
        for mix in (lambda found, _: found, lambda found, chance: chance.sample(found, len(found)),
                    lambda found, chance: found[:-1] + chance.sample(found[:-1], len(found) // 2) + found[-1:]):
            packets = []
            for number, sent in enumerate(whole):
                fragments = cut(sent.version, sent.protocol, number + 1, sent.payload, len(ept.read_fragment(sent.fragments[0]).payload))
                packets += mix(fragments, random.Random(number))
            self.assertEqual(joined_by_tshark(packets), [sent.payload for sent in whole])

    @unittest.skipUnless(shutil.which("tshark"), "tshark is missing")
    def test_tshark_accepts_fragments_that_overlap(self):
        for version in (4, 6):
            for number, overlap in enumerate(OVERLAPS):
                fragments = overlapping(version, number + 1, overlap)
                with self.subTest(version=version, what=overlap.what):
                    with self.assertRaises(ept.Error) as caught:
                        ept.reassemble(fragments)
                    self.assertEqual(caught.exception.status, overlap.status)
                    self.assertEqual(bool(joined_by_tshark(fragments)), overlap.tshark_joins)


if __name__ == "__main__":
    unittest.main()
