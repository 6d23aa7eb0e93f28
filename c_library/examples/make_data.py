#!/usr/bin/env python3
# SPDX-FileCopyrightText: 2026 The etherparse_transport developers
# SPDX-License-Identifier: MIT OR Apache-2.0
"""Makes pings.pcap, and the captures that ping_reply and translate have to write, in a folder that is named, or in data/.

Every checksum is summed here, over the whole packet, and not by the library.
"""
import pathlib
import struct
import sys

DATA = pathlib.Path(__file__).parent / "data"
WRITTEN = pathlib.Path(sys.argv[1]) if len(sys.argv) > 1 else DATA
FOUR = bytes([192, 168, 1, 1]), bytes([192, 168, 1, 2])
SIX = bytes.fromhex("20010db8" + "00" * 11 + "01"), bytes.fromhex("20010db8" + "00" * 11 + "02")
MACS = bytes.fromhex("020000000002"), bytes.fromhex("020000000001")


def checksum(data):
    """The Internet checksum (RFC 1071)."""
    total = sum(struct.unpack(f"!{(len(data) + 1) // 2}H", data + b"\0" * (len(data) % 2)))
    while total > 0xFFFF:
        total = (total & 0xFFFF) + (total >> 16)
    return 0xFFFF - total


def put(data, place, number):
    return data[:place] + struct.pack("!H", number) + data[place + 2 :]


def ipv4(source, destination, protocol, body, options=b"", ttl=9):
    length = 20 + len(options)
    header = struct.pack("!BBHHHBBH4s4s", 0x40 + length // 4, 0, length + len(body), 7, 0, ttl, protocol, 0, source, destination) + options
    return put(header, 10, checksum(header)) + body


def ipv6(source, destination, protocol, body, hop_limit=9):
    return struct.pack("!IHBB16s16s", 0x60000000, len(body), protocol, hop_limit, source, destination) + body


def pseudo_header(source, destination, protocol, length):
    return source + destination + struct.pack("!II", protocol, length)


def echo4(message_type, payload, identifier=1, sequence=2):
    body = struct.pack("!BBHHH", message_type, 0, 0, identifier, sequence) + payload
    return put(body, 2, checksum(body))


def echo6(message_type, payload, source, destination, identifier=1, sequence=2):
    body = struct.pack("!BBHHH", message_type, 0, 0, identifier, sequence) + payload
    return put(body, 2, checksum(pseudo_header(source, destination, 58, len(body)) + body))


def frame(packet, macs=MACS):
    return macs[0] + macs[1] + (b"\x08\0" if packet[0] >> 4 == 4 else b"\x86\xdd") + packet


def write(name, frames, times=None):
    with open(WRITTEN / name, "wb") as file:
        file.write(struct.pack("<IHHiIII", 0xA1B2C3D4, 2, 4, 0, 0, 65535, 1))
        for number, data in enumerate(frames):
            seconds, micros = times[number] if times else (number, 0)
            file.write(struct.pack("<IIII", seconds, micros, len(data), len(data)) + data)


def read(name):
    """Seconds, microseconds and bytes of each frame."""
    data = (DATA / name).read_bytes()[24:]
    while data:
        seconds, micros, length = struct.unpack("<III", data[:12])
        yield seconds, micros, data[16 : 16 + length]
        data = data[16 + length :]


def make_pings():
    """Requests, and with each the reply that is wanted, or None."""
    here, there = FOUR
    here6, there6 = SIX
    ping = echo4(8, b"ping")
    ping6 = echo6(128, b"ping", here6, there6)
    longest = bytes(range(256)) * 5
    group6 = bytes.fromhex("ff02" + "00" * 13 + "01")
    back = MACS[1], MACS[0]
    rows = [
        (ipv4(here, there, 1, ping), ipv4(there, here, 1, echo4(0, b"ping"), ttl=64)),
        (ipv4(here, there, 1, echo4(8, b"odd", 65535, 0)), ipv4(there, here, 1, echo4(0, b"odd", 65535, 0), ttl=64)),
        (ipv4(here, there, 1, echo4(8, longest), b"\1" * 8), ipv4(there, here, 1, echo4(0, longest), b"\1" * 8, ttl=64)),
        (ipv4(here, there, 1, echo4(8, b"")), ipv4(there, here, 1, echo4(0, b""), ttl=64)),
        (ipv6(here6, there6, 58, ping6), ipv6(there6, here6, 58, echo6(129, b"ping", there6, here6), hop_limit=64)),
        (ipv6(here6, there6, 58, echo6(128, longest + b"x", here6, there6, 7, 65535)),
         ipv6(there6, here6, 58, echo6(129, longest + b"x", there6, here6, 7, 65535), hop_limit=64)),
        (ipv4(here, there, 1, ping[:-1] + b"G"), None),
        (ipv6(here6, there6, 58, ping6[:-1] + b"G"), None),
        (ipv4(here, there, 1, echo4(0, b"ping")), None),
        (ipv6(here6, there6, 58, echo6(129, b"ping", here6, there6)), None),
        (ipv4(here, bytes([224, 0, 0, 1]), 1, ping), None),
        (ipv6(here6, group6, 58, echo6(128, b"ping", here6, group6)), None),
        (ipv4(here, there, 1, ping[:7]), None),
        (ipv4(here, there, 17, b"\0" * 8), None),
    ]
    write("pings.pcap", [frame(request) for request, _ in rows])
    replies = [(number, frame(reply, back)) for number, (_, reply) in enumerate(rows) if reply]
    write("ping_replies.pcap", [data for _, data in replies], [(number, 0) for number, _ in replies])


def translated(packet, port):
    """The packet with another source, and None if it is no whole UDP or TCP packet. A wrong checksum stays as wrong as it was."""
    four = packet[0] >> 4 == 4
    protocol, body = (packet[9], packet[20:]) if four else (packet[6], packet[40:])
    place = {17: 6, 6: 16}.get(protocol)
    if place is None or len(body) < place + 2:
        return None
    if protocol == 17 and struct.unpack("!H", body[4:6])[0] != len(body):
        return None
    if protocol == 6 and not 20 <= (body[12] >> 4) * 4 <= len(body):
        return None
    source, destination = (packet[12:16], packet[16:20]) if four else (packet[8:24], packet[24:40])
    outside = bytes([203, 0, 113, 7]) if four else bytes.fromhex("20010db8ffff" + "00" * 9 + "07")

    def right(body, source):
        computed = checksum(pseudo_header(source, destination, protocol, len(body)) + put(body, place, 0))
        return 0xFFFF if protocol == 17 and computed == 0 else computed

    before = struct.unpack("!H", body[place : place + 2])[0]
    after = right(put(body, 0, port), outside)
    if before != right(body, source):
        # By how much it was wrong, in one's complement.
        after = (after + before - right(body, source)) % 0xFFFF
    if before == 0 and protocol == 17:
        after = 0
    body = put(put(body, 0, port), place, after)
    if four:
        header = put(packet[:12] + outside + packet[16:20], 10, 0)
        return put(header, 10, checksum(header)) + body
    return packet[:8] + outside + packet[24:40] + body


def make_translated():
    frames, times = [], []
    for number, (seconds, micros, data) in enumerate(read("transport.pcap"), 1):
        if changed := translated(data[14:], 40000 + number):
            frames.append(data[:14] + changed)
            times.append((seconds, micros))
    write("translated.pcap", frames, times)


make_pings()
make_translated()
