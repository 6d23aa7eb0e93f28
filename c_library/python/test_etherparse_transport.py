# SPDX-FileCopyrightText: 2026 The etherparse_transport developers
# SPDX-License-Identifier: MIT OR Apache-2.0
"""Tests etherparse_transport.py on the stored capture of crates/capture_report, and compares it with the stored report.

    ETHERPARSE_TRANSPORT_LIBRARY=PREFIX/lib/libetherparse_transport.so python3 test_etherparse_transport.py

Checksums are also computed here, without the library.
"""
import copy
import dataclasses
import ipaddress
import os
import pathlib
import pickle
import re
import struct
import subprocess
import sys
import tempfile
import unittest
from unittest import mock

sys.dont_write_bytecode = True
import etherparse_transport as ept
from etherparse_transport import Protocol, Status, VerdictKind

STORED = pathlib.Path(__file__).resolve().parent.parent.parent / "crates" / "capture_report"
TAGS = (0x8100, 0x88A8, 0x9100)
IP = (0x0800, 0x86DD)
# What the report says of a checksum that was not tested.
UNTESTED = {
    "a fragment": VerdictKind.UNTESTED_FRAGMENT,
    "cut off": VerdictKind.UNTESTED_CUT_OFF,
    "the final destination is not known": VerdictKind.UNTESTED_UNKNOWN_DESTINATION,
    "another protocol": VerdictKind.UNTESTED_OTHER_PROTOCOL,
}
# The packet of docs/C_LIBRARY.md: UDP from 192.168.1.1 to 192.168.1.2.
PACKET = bytes.fromhex("4500001f000700004011" "0000" "c0a80101c0a80102" "001504d2000bb33a616263")
# An echo request from 192.168.1.1 to 192.168.1.2, and the same from 2001:db8::1 to 2001:db8::2.
REQUEST = bytes.fromhex("4500002000070000" "0901" "2e83" "c0a80101" "c0a80102" "0800192c00010002" "70696e67")
REQUEST6 = bytes.fromhex("60000000000c3a09" "20010db8" + "00" * 11 + "01" "20010db8" + "00" * 11 + "02" "8000457000010002" "70696e67")
# How many bytes a TCP option has, by its kind and the number of its values (RFC 9293, section 3.2; RFC 7323; RFC 2018).
OPTION_LENGTHS = {(1, 0): 1, (2, 1): 4, (3, 1): 3, (4, 0): 2, (5, 2): 10, (5, 4): 18, (5, 6): 26, (5, 8): 34, (8, 2): 10}


def refusal_of_options(options):
    """The error of writing TCP options, each given by its kind and the number of its values."""
    try:
        ept.write_tcp_options(ept.TcpOptionValues(kind, (0,) * count) for kind, count in options)
    except ept.Error as error:
        return error
    raise AssertionError("the options are not refused")


def frames():
    """The frames of the capture, each with its number."""
    data = (STORED / "stdin").read_bytes()
    place, number = 24, 0
    while place < len(data):
        [length] = struct.unpack_from("<I", data, place + 8)
        number += 1
        yield number, data[place + 16 : place + 16 + length]
        place += 16 + length


def ip_packet(frame):
    """The IP packet of an Ethernet frame, behind tags of VLANs, or None."""
    place = 12
    while len(frame) >= place + 2 and struct.unpack_from(">H", frame, place)[0] in TAGS:
        place += 4
    if len(frame) < place + 2 or struct.unpack_from(">H", frame, place)[0] not in IP:
        return None
    return frame[place + 2 :]


def packets():
    """The IP packets of the capture, each with its number and its line of the report."""
    lines = (STORED / "stdout").read_text().replace("==> - <==\n", "", 1).splitlines()
    for number, frame in frames():
        packet = ip_packet(frame)
        if packet is not None:
            yield number, packet, lines[number - 1]


def host_of(end):
    """The address of an end in the report, without its port."""
    if end.startswith("["):
        return end[1 : end.index("]")]
    return end if end.count(":") > 1 else end.partition(":")[0]


def sum_of(*parts):
    """The folded one's complement sum of these parts (RFC 1071), of which only the last may have an odd length."""
    data = b"".join(parts)
    words = struct.unpack(f">{(len(data) + 1) // 2}H", data + bytes(len(data) % 2))
    total = sum(words)
    while total > 0xFFFF:
        total = (total & 0xFFFF) + (total >> 16)
    return total


def pseudo_header(transport, message):
    """What the checksum covers in front of the message (RFC 768; RFC 8200, section 8.1)."""
    if transport.protocol == Protocol.ICMPV4:
        return b""
    addresses = transport.source.packed + transport.destination.packed
    form = ">BBH" if transport.version == 4 else ">IBBBB"
    fields = (0, transport.protocol, len(message)) if transport.version == 4 else (len(message), 0, 0, 0, transport.protocol)
    return addresses + struct.pack(form, *fields)


def built(source, destination, protocol, message):
    """An IP packet with this message, whose checksums are computed here. The message has 0 in place of its checksum."""
    source, destination = ipaddress.ip_address(source).packed, ipaddress.ip_address(destination).packed
    place = {Protocol.UDP: 6, Protocol.TCP: 16}.get(protocol, 2)
    # The fields of the pseudo headers of IPv4 and IPv6 have the same sum.
    covered = b"" if protocol == Protocol.ICMPV4 else source + destination + struct.pack(">II", len(message), protocol)
    checksum = 0xFFFF - sum_of(covered, message) or (0xFFFF if protocol == Protocol.UDP else 0)
    message = message[:place] + struct.pack(">H", checksum) + message[place + 2 :]
    if len(source) == 16:
        return struct.pack(">IHBB", 6 << 28, len(message), protocol, 64) + source + destination + message
    start = struct.pack(">BBHHHBB", 0x45, 0, 20 + len(message), 7, 0, 64, protocol)
    return start + struct.pack(">H", 0xFFFF - sum_of(start, source, destination)) + source + destination + message


def sent(source, port, destination, protocol):
    """A packet of UDP or TCP from this port, or an echo request with this identifier."""
    if protocol == Protocol.UDP:
        message = struct.pack(">HHHH", port, 53, 11, 0) + b"abc"
    elif protocol == Protocol.TCP:
        message = struct.pack(">HHIIHHHH", port, 80, 1, 2, 0x5018, 1024, 0, 0) + b"abc"
    else:
        message = struct.pack(">BBHHH", 8 if protocol == Protocol.ICMPV4 else 128, 0, 0, port, 2) + b"ping"
    return built(source, destination, protocol, message)


def about(quoted, destination):
    """An ICMP error to this address, destination unreachable, about a packet."""
    if quoted[0] >> 4 == 4:
        return built("198.51.100.1", destination, Protocol.ICMPV4, struct.pack(">BBHI", 3, 3, 0, 0) + quoted)
    return built("2001:db8::3", destination, Protocol.ICMPV6, struct.pack(">BBHI", 1, 4, 0, 0) + quoted)


def copies(it):
    """What pickle and copy make of it, by each protocol of pickle."""
    pickled = [pickle.loads(pickle.dumps(it, protocol)) for protocol in range(pickle.HIGHEST_PROTOCOL + 1)]
    return [*pickled, copy.copy(it), copy.deepcopy(it)]


def checked(found):
    """The test of the checksum by the call of its protocol."""
    transport = found.transport
    over = (transport.payload, transport.source, transport.destination)
    if found.header_protocol == Protocol.UDP:
        return ept.check_udp(*over)
    if found.header_protocol == Protocol.TCP:
        return ept.check_tcp(*over)
    if found.header_protocol == Protocol.ICMPV4:
        return ept.check_icmpv4(transport.payload)
    return ept.check_icmpv6(*over)


def message_of(found):
    """The bytes that the checksum covers: those that the length field counts, of UDP in a frame with padding."""
    payload = found.transport.payload
    if found.header_protocol == Protocol.UDP:
        return payload[: ept.read_udp(payload).length or len(payload)]
    return payload


def fields_of(packet, *names):
    """The fields of a packet that was read, without these."""
    return {name: value for name, value in dataclasses.asdict(packet).items() if name not in names}


def read_message(found):
    """The message of a packet, read by the call of its protocol."""
    payload = found.transport.payload
    if found.header_protocol == Protocol.UDP:
        return ept.read_udp(payload, lax=True)
    return {Protocol.TCP: ept.read_tcp, Protocol.ICMPV4: ept.read_icmpv4, Protocol.ICMPV6: ept.read_icmpv6}[found.header_protocol](payload)


def written_again(protocol, packet):
    """The header of a message that was read, written from its fields."""
    if protocol == Protocol.UDP:
        return ept.write_udp_header(**fields_of(packet, "payload", "payload_len_source"))
    write = {Protocol.TCP: ept.write_tcp_header, Protocol.ICMPV4: ept.write_icmpv4_header, Protocol.ICMPV6: ept.write_icmpv6_header}
    return write[protocol](**fields_of(packet, "payload"))


def checksum_calls(protocol, transport):
    """The place of the checksum, and the functions that compute and store it, of a message alone."""
    over = () if protocol == Protocol.ICMPV4 else (transport.source, transport.destination)
    place, compute, store = {
        Protocol.UDP: (6, ept.udp_checksum, ept.store_udp_checksum), Protocol.TCP: (16, ept.tcp_checksum, ept.store_tcp_checksum),
        Protocol.ICMPV4: (2, ept.icmpv4_checksum, ept.store_icmpv4_checksum),
        Protocol.ICMPV6: (2, ept.icmpv6_checksum, ept.store_icmpv6_checksum),
    }[protocol]
    return place, lambda message: compute(message, *over), lambda message: store(message, *over)


def captured_len(line):
    """The number of bytes of the payload that were captured, by the line of the report."""
    stated, captured = re.search(r", payload (\d+)(?:, (\d+) captured)?(?:;|$)", line).groups()
    return int(captured or stated)


class StoredCapture(unittest.TestCase):
    def judged(self):
        """The number, the verdict and the line of each packet that is not refused."""
        for number, packet, line in packets():
            try:
                yield number, ept.verdict(packet, lax=True), line
            except ept.Error:
                pass

    def test_verdicts_are_those_of_the_report(self):
        kinds = {"right": VerdictKind.RIGHT, "none": VerdictKind.ABSENT}
        count = 0
        for number, found, line in self.judged():
            # A line has no verdict if the protocol is not read.
            verdict = re.search(r"; checksum (.*)$", line)
            words = verdict[1] if verdict else "not looked at: another protocol"
            if words == "not looked at: no length stated":
                self.assertTrue(found.transport.is_length_missing, line)
                continue
            if wrong := re.fullmatch(r"wrong, ([0-9A-F]{4}) expected", words):
                expected = VerdictKind.WRONG, int(wrong[1], 16)
            else:
                expected = kinds.get(words) or UNTESTED[words.replace("not looked at: ", "")], None
            self.assertEqual((found.kind, found.expected_checksum), expected, line)
            count += 1
        self.assertEqual(count, 48)

    def test_refused_packets_are_those_of_the_report(self):
        # Two packets are cut off within a header. The report calls them cut off, because their frames are.
        for number, packet, line in packets():
            with self.subTest(line):
                if "refused: " in line or number in (54, 55):
                    with self.assertRaises(ept.Error) as caught:
                        ept.verdict(packet, lax=True)
                    self.assertEqual(str(caught.exception)[-1], ".")
                else:
                    ept.verdict(packet, lax=True)

    def test_addresses_are_those_of_the_report(self):
        for number, found, line in self.judged():
            ends = re.search(r"^\d+ \S+ length .*?: (\S+) > (\S+?) ", line)
            for end, address in zip(ends.groups(), (found.transport.source, found.transport.destination)):
                self.assertEqual(host_of(end), "unknown" if address is None else str(address), line)

    def test_transport_is_that_of_the_verdict(self):
        for number, packet, line in packets():
            try:
                found = ept.verdict(packet, lax=True)
            except ept.Error:
                continue
            self.assertEqual(ept.transport(packet, lax=True), found.transport, line)

    def test_tests_of_checksums_agree_with_the_verdict(self):
        count = 0
        for number, found, line in self.judged():
            if found.kind < VerdictKind.UNTESTED_FRAGMENT:
                # Over IPv6 a UDP packet needs a checksum, so the verdict on a packet without one is that it is wrong.
                is_absent = found.header_protocol == Protocol.UDP and ept.read_udp(found.transport.payload).checksum == 0
                self.assertEqual(checked(found), VerdictKind.ABSENT if is_absent else found.kind, line)
                count += 1
        self.assertEqual(count, 39)

    def test_checksums_agree_with_sums_computed_here(self):
        for number, found, line in self.judged():
            if found.kind in (VerdictKind.RIGHT, VerdictKind.WRONG):
                message = message_of(found)
                right = sum_of(pseudo_header(found.transport, message), message) == 0xFFFF
                self.assertEqual(found.kind == VerdictKind.RIGHT, right, line)

    def test_the_expected_checksum_is_right(self):
        places = {Protocol.UDP: 6, Protocol.TCP: 16, Protocol.ICMPV4: 2, Protocol.ICMPV6: 2}
        for number, found, line in self.judged():
            if found.expected_checksum is not None:
                message, place = bytearray(message_of(found)), places[found.header_protocol]
                struct.pack_into(">H", message, place, found.expected_checksum)
                self.assertEqual(sum_of(pseudo_header(found.transport, message), message), 0xFFFF, line)

    def test_udp_is_read(self):
        for number, found, line in self.judged():
            if found.header_protocol == Protocol.UDP:
                udp = ept.read_udp(found.transport.payload, lax=True)
                self.assertIn(f":{udp.source_port} > ", line)
                self.assertIn(f":{udp.destination_port} UDP length {udp.length}, payload ", line)
                self.assertEqual(len(udp.payload), captured_len(line), line)

    def test_tcp_is_read(self):
        for number, found, line in self.judged():
            if found.header_protocol == Protocol.TCP:
                tcp = ept.read_tcp(found.transport.payload)
                self.assertIn(f":{tcp.source_port} > ", line)
                self.assertIn(f"sequence {tcp.sequence_number}, acknowledgment {tcp.acknowledgment_number}, window {tcp.window_size}", line)
                self.assertEqual(len(tcp.payload), captured_len(line), line)
                stated = set(re.search(r"flags ([A-Z ]+),", line)[1].split())
                self.assertEqual({flag.name for flag in ept.TcpFlags if flag in tcp.flags}, stated, line)

    def test_tcp_options_are_read(self):
        syn = next(found for number, found, line in self.judged() if number == 6)
        read = list(ept.tcp_options(ept.read_tcp(syn.transport.payload).options))
        self.assertEqual([(it.kind.name, it.value.hex()) for it in read], [
            ("MAXIMUM_SEGMENT_SIZE", "05b4"), ("SACK_PERMITTED", ""), ("TIMESTAMP", "0000006400000000"), ("NOOP", ""),
            ("WINDOW_SCALE", "07"),
        ])

    def test_a_faulty_tcp_option_is_an_error_and_the_last(self):
        faulty = next(found for number, found, line in self.judged() if number == 8)
        options = ept.tcp_options(ept.read_tcp(faulty.transport.payload).options)
        self.assertEqual(next(options).kind, ept.TcpOptionKind.NOOP)
        with self.assertRaises(ept.Error) as caught:
            next(options)
        self.assertEqual((caught.exception.status, caught.exception.option_kind), (Status.OPTION_CUT_OFF, 3))
        self.assertEqual(list(options), [])

    def test_too_many_tcp_options_are_refused_with_their_bytes(self):
        for option, length in OPTION_LENGTHS.items():
            for count in (40 // length + 1, 41, 1000):
                error = refusal_of_options([option] * count)
                self.assertEqual((error.status, error.required_len, error.len), (Status.OPTIONS_TOO_LONG, 40, count * length), option)
        self.assertEqual(refusal_of_options([*OPTION_LENGTHS] * 9).len, 9 * sum(OPTION_LENGTHS.values()))
        self.assertIn(" 41 bytes", str(refusal_of_options([(1, 0)] * 41)))

    def test_what_is_no_tcp_option_is_refused_before_too_many_options(self):
        for count in (1, 40, 41, 1000):
            for place in (0, count - 1):
                for wrong, status in ((6, 0), Status.OPTION_UNKNOWN), ((1, 1), Status.OPTION_VALUES):
                    options = [(1, 0)] * count
                    options[place] = wrong
                    error = refusal_of_options(options)
                    self.assertEqual((error.status, error.option_kind, error.len), (status, wrong[0], 0))

    def test_tcp_options_are_read_with_their_values(self):
        syn = next(found for number, found, line in self.judged() if number == 6)
        options = ept.read_tcp(syn.transport.payload).options
        read = list(ept.tcp_option_values(options))
        self.assertEqual([(it.kind.name, it.values) for it in read], [
            ("MAXIMUM_SEGMENT_SIZE", (1460,)), ("SACK_PERMITTED", ()), ("TIMESTAMP", (100, 0)), ("NOOP", ()), ("WINDOW_SCALE", (7,)),
        ])
        self.assertEqual(ept.write_tcp_options(read), options)
        faulty = next(found for number, found, line in self.judged() if number == 8)
        with self.assertRaises(ept.Error) as caught:
            list(ept.tcp_option_values(ept.read_tcp(faulty.transport.payload).options))
        self.assertEqual((caught.exception.status, caught.exception.option_kind), (Status.OPTION_SIZE, 3))

    def test_a_header_that_was_read_is_written_again(self):
        count = 0
        for number, found, line in self.judged():
            if found.header_protocol is not None:
                payload, packet = found.transport.payload, read_message(found)
                canonical = ept.canonical_header(found.header_protocol, payload)
                self.assertEqual(written_again(found.header_protocol, packet), canonical, line)
                if found.header_protocol == Protocol.TCP:
                    stored = bytearray(payload)
                    ept.store_tcp_header(stored, **fields_of(packet, "options", "payload"))
                    self.assertEqual(stored, canonical + packet.payload, line)
                count += 1
        self.assertGreater(count, 38)

    def test_a_stored_checksum_is_the_computed_checksum(self):
        count = 0
        for number, found, line in self.judged():
            if found.kind in (VerdictKind.RIGHT, VerdictKind.WRONG):
                message = bytearray(message_of(found))
                place, compute, store = checksum_calls(found.header_protocol, found.transport)
                right = bytearray(message)
                struct.pack_into(">H", right, place, found.expected_checksum or struct.unpack_from(">H", message, place)[0])
                self.assertEqual(struct.pack(">H", compute(message)), bytes(right[place : place + 2]), line)
                store(message)
                self.assertEqual(message, right, line)
                count += 1
        self.assertGreater(count, 30)

    def test_icmp_is_read(self):
        for number, found, line in self.judged():
            if found.header_protocol in (Protocol.ICMPV4, Protocol.ICMPV6):
                read = ept.read_icmpv4 if found.header_protocol == Protocol.ICMPV4 else ept.read_icmpv6
                icmp = read(found.transport.payload)
                name = icmp.kind.name.lower().replace("_", " ").replace("timestamp request", "timestamp")
                self.assertIn(f"type {icmp.type}" if icmp.kind == 0 else name, line)
                self.assertIn(f"code {icmp.code}", line)
                self.assertEqual(len(icmp.payload), captured_len(line), line)
                if "identifier" in line:
                    self.assertIn(f"identifier {icmp.id}, sequence number {icmp.sequence_number}", line)
        router = next(ept.read_icmpv6(found.transport.payload) for number, found, line in self.judged() if number == 26)
        self.assertEqual(ept.RouterFlags(router.flags), ept.RouterFlags.MANAGED | ept.RouterFlags.OTHER_CONFIG)
        self.assertEqual((router.cur_hop_limit, router.router_lifetime), (64, 1800))
        neighbor = next(ept.read_icmpv6(found.transport.payload) for number, found, line in self.judged() if number == 28)
        self.assertEqual(ept.NeighborFlags(neighbor.flags), ept.NeighborFlags.SOLICITED | ept.NeighborFlags.OVERRIDE)
        redirect = next(ept.read_icmpv4(found.transport.payload) for number, found, line in self.judged() if number == 13)
        self.assertEqual(redirect.bytes4to7, ipaddress.IPv4Address("192.0.2.3").packed)


class Calls(unittest.TestCase):
    def test_the_packet_of_the_page(self):
        found = ept.verdict(PACKET)
        self.assertEqual(found.kind, VerdictKind.RIGHT)
        self.assertEqual(found.header_protocol, Protocol.UDP)
        udp = ept.read_udp(found.transport.payload)
        self.assertEqual((udp.source_port, udp.destination_port, udp.payload), (21, 1234, b"abc"))
        self.assertEqual(udp.payload_len_source, ept.LenSource.UDP_HEADER_LEN)

    def test_an_error_has_the_text_and_the_fields_of_the_library(self):
        with self.assertRaises(ept.Error) as caught:
            ept.verdict(PACKET[:-1])
        error = caught.exception
        self.assertEqual(str(error), "IP Error: the header counts 31 bytes, and 30 are there.")
        self.assertEqual((error.status, error.required_len, error.len), (Status.IP_PACKET_CUT_OFF, 31, 30))
        self.assertEqual((error.layer, error.actual, error.max_allowed), (0, 0, 0))
        self.assertIsInstance(error, ValueError)

    def test_a_cut_off_packet_is_read_with_lax(self):
        found = ept.verdict(PACKET[:-1], lax=True)
        self.assertEqual((found.kind, found.transport.is_cut_off), (VerdictKind.UNTESTED_CUT_OFF, True))
        self.assertEqual(ept.read_udp(found.transport.payload, lax=True).payload, b"ab")
        with self.assertRaises(ept.Error) as caught:
            ept.read_udp(found.transport.payload)
        self.assertEqual((caught.exception.status, caught.exception.layer), (Status.LENGTH, ept.Layer.UDP_PAYLOAD))

    def test_a_packet_that_states_no_length_is_read_with_lax(self):
        packet = PACKET[:2] + bytes(2) + PACKET[4:]
        found = ept.transport(packet, lax=True)
        self.assertEqual((found.is_length_missing, found.is_cut_off, found.payload), (True, False, PACKET[20:]))
        self.assertFalse(ept.transport(PACKET, lax=True).is_length_missing)
        with self.assertRaises(ept.Error) as caught:
            ept.transport(packet)
        self.assertEqual(caught.exception.status, Status.IP_TOTAL_LENGTH)

    def test_forms_of_bytes_and_of_addresses(self):
        message, ends = PACKET[20:], ("192.168.1.1", "192.168.1.2")
        packed = [ipaddress.IPv4Address(end).packed for end in ends]
        for form in (bytes, bytearray, memoryview):
            self.assertEqual(ept.verdict(form(PACKET)), ept.verdict(PACKET))
            self.assertEqual(ept.check_udp(form(message), *ends), VerdictKind.RIGHT)
        self.assertEqual(ept.check_udp(message, *packed), VerdictKind.RIGHT)
        self.assertEqual(ept.check_udp(message, *map(ipaddress.IPv4Address, ends)), VerdictKind.RIGHT)
        self.assertEqual(ept.check_udp(message, ends[0], "192.168.1.3"), VerdictKind.WRONG)
        self.assertEqual(ept.check_udp(message[:6] + bytes(2) + message[8:], *ends), VerdictKind.ABSENT)

    def test_wrong_arguments_are_no_packets(self):
        for wrong in (5, "text", None):
            with self.assertRaises(TypeError):
                ept.verdict(wrong)
        with self.assertRaises(ValueError):
            ept.check_udp(PACKET[20:], "192.168.1.1", "::1")
        with self.assertRaises(ValueError):
            ept.check_icmpv6(bytes(8), "192.168.1.1", "192.168.1.2")
        for number in (5, True):
            for call in (
                lambda: ept.check_udp(PACKET[20:], number, "192.168.1.2"), lambda: ept.check_udp(PACKET[20:], "192.168.1.1", number),
                lambda: ept.answer_echo(REQUEST, source=number), lambda: ept.translate(bytearray(PACKET), destination=number),
            ):
                with self.assertRaises(TypeError):
                    call()

    def test_an_error_can_be_copied(self):
        for call, packet in ((ept.verdict, PACKET[:-1]), (ept.read_udp, PACKET[20:27]), (ept.transport, b"\x50")):
            with self.assertRaises(ept.Error) as caught:
                call(packet)
            error = caught.exception
            # A copy does not call the library, which a process that receives it may not have.
            with mock.patch.object(ept, "_library", side_effect=AssertionError):
                for copied in copies(error):
                    self.assertIs(type(copied), ept.Error)
                    self.assertEqual((str(copied), copied.args, vars(copied)), (str(error), error.args, vars(error)))

    def test_results_can_be_copied(self):
        tcp = ept.read_tcp(sent("192.168.1.1", 80, "192.168.1.2", Protocol.TCP)[20:])
        # The kind of the option and the protocol of the last packet have no name.
        for it in (
            ept.verdict(PACKET), ept.header_addresses(PACKET), ept.read_udp(PACKET[20:]), tcp, *ept.tcp_options(b"\x4d\x03\x07"),
            ept.read_icmpv4(REQUEST[20:]), ept.read_icmpv6(REQUEST6[40:]), ept.verdict(PACKET[:9] + bytes([47]) + PACKET[10:]),
        ):
            for copied in copies(it):
                self.assertEqual((copied, repr(copied)), (it, repr(it)))

    def test_an_echo_request_is_answered(self):
        for request, host in ((REQUEST, "192.168.1.3"), (REQUEST6, "2001:db8::3")):
            asked = ept.transport(request)
            for source, expected in ((None, asked.destination), (host, ipaddress.ip_address(host))):
                found = ept.verdict(ept.answer_echo(request + b"padding", source=source))
                self.assertEqual((found.transport.source, found.transport.destination), (expected, asked.source))
                self.assertEqual(found.kind, VerdictKind.RIGHT)
                read = ept.read_icmpv4 if asked.version == 4 else ept.read_icmpv6
                reply = read(found.transport.payload)
                self.assertEqual((reply.kind.name, reply.id, reply.sequence_number, reply.payload), ("ECHO_REPLY", 1, 2, b"ping"))
        answered = ept.answer_echo(REQUEST, 7)
        self.assertEqual((answered[8], sum_of(answered[:20])), (7, 0xFFFF))
        with_options = bytes.fromhex("4600002400070000" "0901" "2c77" "c0a80101" "c0a80102" "01010007") + REQUEST[20:]
        self.assertEqual(ept.answer_echo(with_options, 7), answered)

    def test_what_is_no_echo_request_is_not_answered(self):
        for packet, source, status in (
            (PACKET, None, Status.ECHO_NO_REQUEST), (REQUEST, "::1", Status.ECHO_NO_REQUEST),
            (REQUEST[:-1] + b"G", None, Status.CHECKSUM_WRONG), (REQUEST, "224.0.0.1", Status.ECHO_REPLY_SOURCE),
            (b"", None, Status.IP_HEADER_CUT_OFF),
        ):
            with self.assertRaises(ept.Error) as caught:
                ept.answer_echo(packet, source=source)
            self.assertEqual(caught.exception.status, status)
        with self.assertRaises(ValueError):
            ept.answer_echo(REQUEST, 256)

    def test_only_the_reply_is_the_reply_to_an_echo_request(self):
        for request, other in ((REQUEST, REQUEST6), (REQUEST6, REQUEST)):
            reply = ept.answer_echo(request)
            for sent, received in ((request, reply), (request + b"padding", bytearray(reply + b"more"))):
                self.assertIs(ept.is_reply_to(sent, received), True)
            for sent, received in (
                (reply, request), (request, request), (request, reply[:-1]), (request, reply[:-1] + b"G"), (request[:-1] + b"G", reply),
                (other, reply), (request, ept.answer_echo(other)), (b"", reply), (request, b""),
            ):
                self.assertIs(ept.is_reply_to(sent, received), False)
        with self.assertRaises(TypeError):
            ept.is_reply_to(REQUEST, None)

    def test_the_reply_of_another_host_is_a_reply_from_any(self):
        for request, place, check in ((REQUEST, 15, ept.store_ipv4_header_checksum), (REQUEST6, 23, ept.store_checksum)):
            reply = bytearray(ept.answer_echo(request))
            self.assertIs(ept.is_reply_from_any(request, reply), True)
            reply[place] += 1
            check(reply)
            self.assertIs(ept.is_reply_from_any(request, reply), True)
            self.assertIs(ept.is_reply_to(request, reply), False)
            self.assertIs(ept.is_reply_from_any(reply, request), False)

    def test_errors_about_packets(self):
        error = ept.icmpv4_error_about(PACKET, ept.Icmpv4Kind.TIME_EXCEEDED, "192.0.2.254")
        self.assertEqual((error[20], error[28:]), (11, PACKET))
        self.assertEqual(ept.verdict(error).kind, ept.VerdictKind.RIGHT)
        with self.assertRaises(ept.Error) as caught:
            ept.icmpv4_error_about(error, ept.Icmpv4Kind.TIME_EXCEEDED, "192.0.2.254")
        self.assertEqual(caught.exception.status, Status.ICMP_ERROR_ABOUT_ERROR)
        with self.assertRaises(ValueError):
            ept.icmpv4_error_about(PACKET, ept.Icmpv4Kind.TIME_EXCEEDED, "2001:db8::1")
        error = ept.icmpv6_error_about(REQUEST6, ept.Icmpv6Kind.PACKET_TOO_BIG, "2001:db8::fe", mtu=1280)
        self.assertEqual((error[40], error[48:]), (2, REQUEST6))
        self.assertEqual(ept.verdict(error).kind, ept.VerdictKind.RIGHT)

    def test_a_hop_limit_is_lowered(self):
        packet = bytearray(PACKET)
        packet[8] = 2
        ept.store_ipv4_header_checksum(packet)
        ept.lower_hop_limit(packet)
        self.assertEqual((packet[8], packet[12:]), (1, PACKET[12:]))
        self.assertEqual(ept.check_ipv4_header(packet), ept.VerdictKind.RIGHT)
        before = bytes(packet)
        with self.assertRaises(ept.Error) as caught:
            ept.lower_hop_limit(packet)
        self.assertEqual((caught.exception.status, caught.exception.actual, packet), (Status.HOP_LIMIT_EXPIRED, 1, before))
        self.assertEqual(str(caught.exception), "Hop Limit Error: the hop limit is 1.")

    def test_a_maximum_segment_size_is_lowered(self):
        packet = bytearray.fromhex(
            "4500002C000000004006F778C0A80101C0A80102C3500050000000010000000060022000313100000204" "05B4")
        self.assertEqual(ept.lower_maximum_segment_size(packet, 1360), 1460)
        self.assertEqual((packet[36:38], packet[42:]), (b"\x31\x95", b"\x05\x50"))
        self.assertEqual(ept.verdict(packet).kind, ept.VerdictKind.RIGHT)
        before = bytes(packet)
        self.assertEqual((ept.lower_maximum_segment_size(packet, 1460), packet), (1360, before))
        with self.assertRaises(ValueError):
            ept.lower_maximum_segment_size(packet, 65536)
        with self.assertRaises(ept.Error) as caught:
            ept.lower_maximum_segment_size(bytearray(PACKET), 1360)
        self.assertEqual((caught.exception.status, caught.exception.actual), (Status.PROTOCOL_UNKNOWN, PACKET[9]))

    def test_a_packet_is_put_together_from_its_fragments(self):
        head = "450000{:02x}0007{:04x}40110000" "0a0000010a000002"
        first = bytes.fromhex(head.format(28, 0x2000) + "00010002000973d6")
        last = bytes.fromhex(head.format(21, 1) + "78" "00")
        fragment = ept.read_fragment(last)
        self.assertEqual((fragment.version, fragment.protocol, fragment.identification), (4, Protocol.UDP, 7))
        self.assertEqual((str(fragment.source), str(fragment.destination)), ("10.0.0.1", "10.0.0.2"))
        self.assertEqual((fragment.offset, fragment.more_fragments, fragment.payload), (8, False, b"x"))
        packet = ept.reassemble([last, bytearray(first), last])
        self.assertEqual((packet[2:4], packet[6:8], packet[20:]), (b"\0\x1d", b"\0\0", first[20:] + b"x"))
        self.assertEqual((ept.verdict(packet).kind, ept.check_ipv4_header(packet)), (VerdictKind.RIGHT, VerdictKind.RIGHT))
        for fragments, status in (([first], Status.REASSEMBLY_INCOMPLETE), ([], Status.REASSEMBLY_INCOMPLETE),
                                  ([first, PACKET], Status.REASSEMBLY_NO_FRAGMENT)):
            with self.assertRaises(ept.Error) as caught:
                ept.reassemble(fragments)
            self.assertEqual(caught.exception.status, status)
        self.assertEqual(str(caught.exception), "Reassembly Error: the packet is not a fragment.")

    def test_packets_between_ipv4_and_ipv6(self):
        packet = bytes.fromhex("4500001F000700004011F773C0A80101C0A80102001504D2000BB33A616263")
        translated = bytes.fromhex(
            "60000000000B113F20010DB8006400000000" "0000C0A8010120010DB8006400000000" "0000C0A80102" "001504D2000B5700616263")
        prefix = "2001:db8:64::/96"
        self.assertEqual(ept.ipv4_to_ipv6(packet, prefix, prefix), translated)
        back = ept.ipv6_to_ipv4(translated, prefix, ipaddress.IPv6Network(prefix), identification=7)
        self.assertEqual(back, packet[:8] + b"\x3E" + packet[9:10] + b"\xF9\x73" + packet[12:])
        self.assertEqual(ept.verdict(translated).kind, ept.VerdictKind.RIGHT)
        for value in ("2001:db8:64::1/96", "10.0.0.0/8"):
            with self.assertRaises(ValueError):
                ept.ipv4_to_ipv6(packet, value, prefix)
        with self.assertRaises(ValueError):
            ept.ipv6_to_ipv4(translated, prefix, prefix, identification=65536)
        with self.assertRaises(ept.Error) as caught:
            ept.ipv4_to_ipv6(packet, prefix, "2001:db8::/33")
        self.assertEqual((caught.exception.status, caught.exception.actual), (Status.PREFIX_LENGTH, 33))
        with self.assertRaises(ept.Error) as caught:
            ept.ipv4_to_ipv6(packet, prefix, "64:ff9b::/96")
        self.assertEqual((caught.exception.status, caught.exception.actual), (Status.SIIT_NOT_GLOBAL, 1))
        with self.assertRaises(ept.Error) as caught:
            ept.ipv6_to_ipv4(packet, prefix, prefix)
        self.assertEqual((caught.exception.status, caught.exception.actual), (Status.SIIT_NO_HEADER, 6))
        self.assertEqual(str(caught.exception), "Translation Error: the bytes do not begin with an IPv6 header.")

    def test_fragments_over_ipv6_become_fragments_over_ipv4(self):
        address = "20010DB8006400000000" "0000C0A801"
        fragment = bytes.fromhex(
            "6000000000182C3F" + address + "01" + address + "02" "11000001ABCD1234" "001504D2001857006162636465666768")
        prefix = "2001:db8:64::/96"

        def changed(place, byte):
            return ept.ipv6_to_ipv4(fragment[:place] + bytes([byte]) + fragment[place + 1:], prefix, prefix, identification=7)

        # A first, a later and an atomic fragment. The bytes of the later one are copied.
        for byte, flags, checksum in ((1, "2000", "B33A"), (16, "0002", "5700"), (0, "0000", "B33A")):
            translated = changed(43, byte)
            self.assertEqual((len(translated), translated[4:8]), (36, bytes.fromhex("1234" + flags)))
            self.assertEqual(translated[20:], fragment[48:54] + bytes.fromhex(checksum) + fragment[56:])
        with self.assertRaises(ept.Error) as caught:
            changed(40, 58)
        self.assertEqual(caught.exception.status, Status.SIIT_ICMP_FRAGMENT)
        self.assertEqual(str(caught.exception), "Translation Error: a fragment of an ICMP message is not translated.")
        with self.assertRaises(ept.Error) as caught:
            changed(40, 60)
        self.assertEqual((caught.exception.status, caught.exception.actual), (Status.SIIT_EXTENSION_HEADER, 60))

    def test_a_fragment_over_ipv4_becomes_a_fragment_over_ipv6(self):
        packet = bytes.fromhex("4500001F000720004011D773C0A80101C0A80102001504D2000BB33A616263")
        prefix = "2001:db8:64::/96"
        translated = ept.ipv4_to_ipv6(packet, prefix, prefix)
        self.assertEqual(translated[:8] + translated[40:], bytes.fromhex("6000000000132C3F" "1100000100000007" "001504D2000B5700616263"))
        with self.assertRaises(ept.Error) as caught:
            ept.ipv4_to_ipv6(packet[:26] + bytes(2) + packet[28:], prefix, prefix)
        self.assertEqual(caught.exception.status, Status.SIIT_FRAGMENT_CHECKSUM)
        self.assertEqual(str(caught.exception), "Translation Error: a fragment of a UDP packet has no checksum.")

    def test_a_partial_checksum_is_completed(self):
        packet = bytearray(PACKET)
        self.assertIs(ept.is_checksum_partial(packet), False)
        packet[26:28] = b"\x83\x70"
        self.assertIs(ept.is_checksum_partial(packet), True)
        self.assertEqual(ept.verdict(packet).kind, ept.VerdictKind.PARTIAL)
        self.assertEqual((ept.store_checksum(packet), packet), (0xB33A, PACKET))
        fragment = bytearray(PACKET[:6] + b"\x20" + PACKET[7:])
        before = bytes(fragment)
        self.assertIs(ept.is_checksum_partial(fragment), False)
        with self.assertRaises(ept.Error) as caught:
            ept.store_checksum(fragment)
        self.assertEqual((caught.exception.status, caught.exception.actual, fragment), (Status.CHECKSUM_UNTESTED, 16, before))
        self.assertEqual(str(caught.exception), "Checksum Error: the packet is a fragment.")
        with self.assertRaises(ept.Error):
            ept.is_checksum_partial(PACKET[:30])

    def test_hop_limit_and_later_fragment(self):
        found = ept.transport(PACKET)
        self.assertEqual((found.hop_limit, found.is_later_fragment, found.is_fragment), (64, False, False))
        found = ept.transport(PACKET[:7] + b"\x01\x05" + PACKET[9:])
        self.assertEqual((found.hop_limit, found.is_later_fragment, found.is_fragment), (5, True, True))
        self.assertEqual(ept.transport(REQUEST6).hop_limit, REQUEST6[7])

    def test_the_fields_that_tell_fragments_apart(self):
        found = ept.transport(PACKET[:1] + b"\xb9\x00\x1f\xab\xcd\x5f\xff" + PACKET[8:])
        self.assertEqual((found.traffic_class, found.identification), (0xB9, 0xABCD))
        self.assertEqual((found.dont_fragment, found.fragment_offset), (True, 65528))
        packet = REQUEST6[:5] + b"\x10\x2c" + REQUEST6[7:40] + b"\x3a\x00\x00\x09\xde\xad\xbe\xef" + bytes(8)
        found = ept.transport(packet)
        self.assertEqual((found.identification, found.dont_fragment, found.fragment_offset), (0xDEADBEEF, False, 8))

    def test_the_flow_of_a_packet(self):
        found = ept.flow(PACKET)
        self.assertEqual((found.ends.source_port, found.ends.destination_port, found.quoted), (21, 1234, None))
        self.assertEqual((found.ends.version, found.ends.protocol, found.ends.is_fragment), (4, Protocol.UDP, False))
        transport = ept.transport(PACKET)
        self.assertEqual((found.ends.source, found.ends.destination), (transport.source, transport.destination))
        self.assertEqual(ept.flow(REQUEST).ends.source_port, int.from_bytes(REQUEST[24:26], "big"))
        self.assertIsNone(ept.flow(REQUEST).ends.destination_port)
        error = PACKET[:2] + b"\x00\x38" + PACKET[4:9] + b"\x01" + PACKET[10:20] + b"\x0b" + bytes(7) + PACKET[:28]
        about = ept.flow(error)
        self.assertEqual((about.quoted, about.ends.source_port), (found.ends, None))
        with self.assertRaises(ept.Error):
            ept.flow(PACKET[:19])

    def test_a_written_packet_is_read_back(self):
        message = PACKET[20:24] + bytes(4) + PACKET[28:]
        packet = ept.write_packet(message, Protocol.UDP, "192.168.1.1", "192.168.1.2")
        self.assertEqual(packet[20:], PACKET[20:])
        self.assertEqual((ept.verdict(packet).kind, ept.check_ipv4_header(packet)), (ept.VerdictKind.RIGHT, ept.VerdictKind.RIGHT))
        packet = ept.write_packet(message, Protocol.UDP, "2001:db8::1", "2001:db8::2", hop_limit=3)
        self.assertEqual((ept.verdict(packet).kind, ept.transport(packet).hop_limit), (ept.VerdictKind.RIGHT, 3))
        with self.assertRaises(ept.Error) as caught:
            ept.write_packet(message, Protocol.ICMPV6, "192.168.1.1", "192.168.1.2")
        self.assertEqual((caught.exception.status, caught.exception.actual), (Status.PROTOCOL_UNKNOWN, 58))
        with self.assertRaises(ept.Error) as caught:
            ept.write_packet(bytes(65516), Protocol.UDP, "192.168.1.1", "192.168.1.2")
        self.assertEqual((caught.exception.value_type, caught.exception.max_allowed), (ept.ValueType.IP_PAYLOAD_LENGTH, 65507))
        for arguments in (("::1", "192.168.1.2"), ("192.168.1.1", "192.168.1.2", 256)):
            with self.assertRaises(ValueError):
                ept.write_packet(message, Protocol.UDP, *arguments)

    def test_a_translated_packet_is_the_packet_of_the_other_host(self):
        for inside, outside, server, icmp in (
            ("192.168.1.1", "203.0.113.7", "192.0.2.1", Protocol.ICMPV4),
            ("2001:db8::1", "2001:db8:ffff::7", "2001:db8::2", Protocol.ICMPV6),
        ):
            for protocol in (Protocol.UDP, Protocol.TCP, icmp):
                before, after = sent(inside, 21, server, protocol), sent(outside, 40001, server, protocol)
                packet = bytearray(before + b"padding")
                ept.translate(packet, source=outside, source_port=40001)
                self.assertEqual(packet, after + b"padding")
                ept.translate(memoryview(packet), source=ipaddress.ip_address(inside), source_port=21)
                self.assertEqual(packet, before + b"padding")
                for end in (len(after), len(after) - 3):
                    packet = bytearray(about(after[:end], outside))
                    ept.translate(packet, destination=inside, destination_port=21)
                    self.assertEqual(packet, about(before[:end], inside))
                    packet = bytearray(about(after[:end], outside))
                    ept.translate(packet, destination=inside, quoted={"source": inside, "source_port": 21})
                    self.assertEqual(packet, about(before[:end], inside))
                packet = bytearray(before)
                ept.translate(packet)
                self.assertEqual(packet, before)

    def test_what_is_not_translated(self):
        unknown = REQUEST[:20] + b"\x09" + REQUEST[21:]
        for packet, source, status in (
            (PACKET, "::1", Status.IP_VERSION), (REQUEST6, "10.0.0.1", Status.IP_VERSION), (b"\x50" + PACKET[1:], None, Status.IP_VERSION),
            (b"\x46" + PACKET[1:20] + b"\x83\x03\x04\x00" + PACKET[20:], None, Status.TRANSLATE_SOURCE_ROUTE),
            (PACKET[:27], None, Status.TRANSLATE_HEADER_CUT_OFF),
            (REQUEST6[:6] + b"\x3b" + REQUEST6[7:], None, Status.TRANSLATE_PROTOCOL), (b"", None, Status.IP_HEADER_CUT_OFF),
            (unknown, None, Status.TRANSLATE_ICMP_MESSAGE), (about(REQUEST[:19], "10.0.0.1"), None, Status.TRANSLATE_QUOTED_PACKET),
        ):
            changed = bytearray(packet)
            with self.assertRaises(ept.Error) as caught:
                ept.translate(changed, source=source, source_port=1)
            self.assertEqual((caught.exception.status, changed), (status, packet))
        for arguments in (
            {"source_port": -1}, {"destination_port": 65536}, {"source": "::1", "destination": "10.0.0.1"}, {"quoted": {"source_port": -1}},
            {"source": "::1", "quoted": {"source": "10.0.0.1"}},
        ):
            with self.assertRaises(ValueError):
                ept.translate(bytearray(PACKET), **arguments)
        with self.assertRaises(TypeError):
            ept.translate(PACKET)

    def test_the_packet_that_an_icmp_error_is_about(self):
        for quoted_by, header, trailing, packet in (
            (ept.quoted_by_icmpv4, "0b00000000000000", b"", PACKET[:28]),
            (ept.quoted_by_icmpv4, "0b00000000200000", b"more", PACKET[:28] + bytes(100)),
            (ept.quoted_by_icmpv6, "0200000000000500", b"", REQUEST6),
            (ept.quoted_by_icmpv6, "0100000010000000", b"more", REQUEST6[:48] + bytes(80)),
        ):
            quoted = quoted_by(bytes.fromhex(header) + packet + trailing)
            self.assertEqual(quoted, packet)
            self.assertEqual(ept.transport(quoted, lax=True).source, ept.transport(packet, lax=True).source)
        for quoted_by, message, status in (
            (ept.quoted_by_icmpv4, REQUEST[20:], Status.NO_ICMP_ERROR), (ept.quoted_by_icmpv4, bytes(7), Status.LENGTH),
            (ept.quoted_by_icmpv6, REQUEST6[40:], Status.NO_ICMP_ERROR), (ept.quoted_by_icmpv6, bytes(7), Status.LENGTH),
        ):
            with self.assertRaises(ept.Error) as caught:
                quoted_by(message)
            self.assertEqual(caught.exception.status, status)

    def test_the_addresses_of_the_header_and_of_a_source_route(self):
        # A loose source route to 10.0.0.3 follows the header.
        routed = bytes.fromhex("4700001c00000000" "40110000" "0a000001" "0a000002" "83070" "40a000003" "00")
        found, final = ept.header_addresses(routed), ept.transport(routed)
        self.assertEqual([str(it) for it in (found.source, found.destination)], ["10.0.0.1", "10.0.0.2"])
        self.assertEqual([str(it) for it in (final.source, final.destination)], ["10.0.0.1", "10.0.0.3"])
        found = ept.header_addresses(REQUEST6[:40])
        self.assertEqual((found.version, str(found.source), str(found.destination)), (6, "2001:db8::1", "2001:db8::2"))
        for packet, status in ((REQUEST6[:39], Status.IP_HEADER_CUT_OFF), (b"\x50", Status.IP_VERSION)):
            with self.assertRaises(ept.Error) as caught:
                ept.header_addresses(packet)
            self.assertEqual(caught.exception.status, status)

    def test_the_checksum_of_an_ipv4_header(self):
        self.assertEqual(ept.check_ipv4_header(REQUEST[:20]), VerdictKind.RIGHT)
        self.assertEqual(ept.check_ipv4_header(PACKET), VerdictKind.WRONG)
        for packet, status in ((REQUEST[:19], Status.IP_HEADER_CUT_OFF), (REQUEST6, Status.IP_VERSION)):
            with self.assertRaises(ept.Error) as caught:
                ept.check_ipv4_header(packet)
            self.assertEqual(caught.exception.status, status)

    def test_the_checksum_of_an_ipv4_header_is_stored(self):
        changed = bytearray(PACKET)
        right = 0xFFFF - sum_of(PACKET[:20])
        self.assertEqual(ept.ipv4_header_checksum(changed), right)
        ept.store_ipv4_header_checksum(memoryview(changed))
        self.assertEqual(changed, PACKET[:10] + struct.pack(">H", right) + PACKET[12:])
        for wrong in (bytearray(REQUEST[:19]), bytearray(REQUEST6)):
            before = bytes(wrong)
            with self.assertRaises(ept.Error):
                ept.store_ipv4_header_checksum(wrong)
            self.assertEqual(wrong, before)

    def test_numbers_that_no_field_can_have(self):
        for fields in ({"source_port": 65536}, {"length": -1}):
            with self.assertRaises(ValueError):
                ept.write_udp_header(**fields)
        with self.assertRaises(TypeError):
            ept.write_udp_header(source_port=1.5)
        with self.assertRaises(ValueError):
            ept.write_icmpv4_header(ept.Icmpv4Kind.REDIRECT, bytes4to7=bytes(5))
        with self.assertRaises(ValueError):
            ept.write_tcp_options([ept.TcpOptionValues(ept.TcpOptionKind.SACK, (0,) * 9)])
        with self.assertRaises(ept.Error) as caught:
            ept.write_tcp_header(flags=0x200)
        self.assertEqual(caught.exception.status, Status.FLAGS_UNKNOWN)
        with self.assertRaises(ept.Error) as caught:
            ept.write_icmpv6_header(ept.Icmpv6Kind.TIME_EXCEEDED, code=2)
        self.assertEqual(caught.exception.status, Status.MESSAGE_UNKNOWN)
        with self.assertRaises(ept.Error) as caught:
            ept.canonical_header(2, PACKET)
        self.assertEqual(caught.exception.status, Status.PROTOCOL_UNKNOWN)

    def test_codes_of_icmp(self):
        needed = ept.write_icmpv4_header(
            ept.Icmpv4Kind.DESTINATION_UNREACHABLE, code=ept.Icmpv4UnreachableCode.FRAGMENTATION_NEEDED, next_hop_mtu=1400)
        self.assertEqual(needed, bytes([ept.Icmpv4Type.DESTINATION_UNREACHABLE, 4, 0, 0, 0, 0, 0x05, 0x78]))
        reply = ept.write_icmpv6_header(ept.Icmpv6Kind.ECHO_REPLY, id=1, sequence_number=2)
        self.assertEqual(reply, bytes([ept.Icmpv6Type.ECHO_REPLY, 0, 0, 0, 0, 1, 0, 2]))

    def test_sums(self):
        data = PACKET[:27]
        whole = ept.Sum().add(data)
        self.assertEqual((ept.Sum().value, whole.value), (0, sum_of(data)))
        for first in range(len(data)):
            self.assertEqual(ept.Sum().add_at(0, data[:first]).add_at(first, data[first:]), whole)
        self.assertEqual((whole.checksum(), whole.udp_checksum()), (0xFFFF - sum_of(data),) * 2)
        self.assertEqual((ept.Sum(0xFFFF).checksum(), ept.Sum(0xFFFF).udp_checksum()), (0, 0xFFFF))

    def test_changes_of_a_checksum(self):
        change = ept.ChecksumChange().replace(PACKET[12:16], bytes([203, 0, 113, 7])).replace(b"\x00\x15", b"\x9c\x41")
        self.assertEqual((ept.ChecksumChange().removed, ept.ChecksumChange().added), (0, 0))
        self.assertEqual((change.apply(0xB33A), change.apply_udp(0xB33A), change.apply_udp(0)), (0x9CAF, 0x9CAF, 0))
        self.assertEqual(change.reversed().apply(0x9CAF), 0xB33A)
        self.assertEqual(change.reversed(), ept.ChecksumChange(change.added, change.removed))

    def test_names_in_c(self):
        self.assertEqual(ept.status_name(0), "ETHERPARSE_OK")
        for status in Status:
            self.assertEqual(ept.status_name(status), f"ETHERPARSE_STATUS_{status.name}")
        for kind in VerdictKind:
            self.assertEqual(ept.verdict_name(kind), f"ETHERPARSE_VERDICT_{kind.name}")
        self.assertEqual((ept.status_name(25), ept.verdict_name(0)), ("unknown status", "unknown verdict"))

    def test_a_status_has_a_text(self):
        self.assertEqual(Status.CHECKSUM_WRONG.text, "the checksum is wrong")
        self.assertEqual(Status(25).text, "unknown status")
        texts = {status.text for status in Status}
        self.assertEqual((len(texts), "unknown status" in texts), (len(Status), False))

    def test_no_bytes(self):
        with self.assertRaises(ept.Error) as caught:
            ept.transport(b"")
        self.assertEqual(caught.exception.status, Status.IP_HEADER_CUT_OFF)
        self.assertEqual(list(ept.tcp_options(b"")), [])

    def test_no_error_is_wanted(self):
        """The library takes None for an error: where it accepts, and where it refuses."""
        read, found = ept._library().etherparse_udp_packet_read, ept._UdpPacket()
        self.assertEqual(read(PACKET[20:], len(PACKET) - 20, found, None), 0)
        self.assertEqual(found.header.source_port, 21)
        self.assertEqual(read(PACKET[20:], 7, found, None), Status.LENGTH)
        self.assertEqual(found.header.source_port, 21)

    def test_unknown_numbers_have_names(self):
        found = ept.verdict(PACKET[:9] + bytes([47]) + PACKET[10:])
        self.assertEqual((found.transport.protocol, found.transport.protocol.name), (47, "UNKNOWN_47"))
        self.assertEqual((found.header_protocol, found.kind), (None, VerdictKind.UNTESTED_OTHER_PROTOCOL))

    def test_version(self):
        self.assertRegex(ept.library_version(), r"^\d+\.\d+\.\d+$")


class OtherLibraries(unittest.TestCase):
    """A library that the module cannot use is an ImportError, with what the system raised as its cause."""

    @classmethod
    def setUpClass(cls):
        # No library is removed before the last test: the system takes a new file with the same inode for the library that it loaded.
        folder = tempfile.TemporaryDirectory()
        cls.addClassCleanup(folder.cleanup)
        cls.folder = pathlib.Path(folder.name)

    def refusal_of(self, path):
        """The error of the first call with the library at this path."""
        self.addCleanup(ept._library.cache_clear)
        ept._library.cache_clear()
        with mock.patch.dict(os.environ, {"ETHERPARSE_TRANSPORT_LIBRARY": str(path)}), self.assertRaises(ImportError) as caught:
            ept.transport(PACKET)
        self.assertEqual(caught.exception.path, str(path))
        return caught.exception

    def refusal_of_library(self, text):
        """The error of the first call with a library that consists of this C code."""
        path = self.folder / f"{len(list(self.folder.iterdir()))}.so"
        subprocess.run([os.environ.get("CC", "cc"), "-shared", "-fPIC", "-x", "c", "-", "-o", path], input=text.encode(), check=True)
        return self.refusal_of(path)

    def test_a_missing_library(self):
        self.assertIsInstance(self.refusal_of("/no/such/library.so").__cause__, OSError)

    def test_a_library_with_another_interface(self):
        for version, text in (("0x000300", "0.3.0"), ("0x000400", "0.4.0"), ("0x003200", "0.50.0"), ("0x80000500", "32768.5.0")):
            refusal = self.refusal_of_library(f"unsigned etherparse_version(void) {{ return {version}; }}")
            self.assertEqual(str(refusal), f"the library has version {text}, and this module needs version {ept._INTERFACE}")
            self.assertIsNone(refusal.__cause__)

    def test_a_library_without_a_call(self):
        for text, missing in (
            ("int other;", "etherparse_version"), ("unsigned etherparse_version(void) { return 0x000500; }", "etherparse_error_text"),
        ):
            refusal = self.refusal_of_library(text)
            self.assertIsInstance(refusal.__cause__, AttributeError)
            self.assertIn(missing, str(refusal))


if __name__ == "__main__":
    if "ETHERPARSE_TRANSPORT_LIBRARY" not in os.environ:
        sys.exit("set ETHERPARSE_TRANSPORT_LIBRARY to the path of the shared library")
    unittest.main()
