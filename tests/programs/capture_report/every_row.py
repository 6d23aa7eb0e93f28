"""The capture with a packet of every row of every table in docs/CAPTURE_REPORT.md, and its test.

The capture is stored as crates/capture_report/data/every_row.pcapng, and read by the stored run.
"""
import re
import struct

from ..build import (
    ETHERNET, FRAME_RELAY, IEEE80211, IPV4, IPV6, LINKS, LOOPBACK, OTHER_LINK, PPP, RADIOTAP, RAW, START, arp, block, frame, icmpv4,
    icmpv6, interface_description, ipv4, ipv6, ones_complement_sum, packet_block, pseudo_header, section_header, tcp, udp
)
from ..kinds import every_kind, packets_in_tunnels, without_length
from ..program import TOP
from .members import check_objects
from .names import ETHER_TYPES, IP_NAMES, NLPIDS, NUMBERS, PPP_NAMES
from .report import PROGRAM, run, table_of, with_underscores


def jumbo_payload(length, next_header=17):
    """Hop-by-hop options with a jumbo payload option of this length (RFC 2675, section 2)."""
    return struct.pack(">BBBBI", next_header, 0, 0xC2, 4, length)


def unread_frames():
    """Frames without an IP packet: the number of the link type and the frame, for each row of the table of frames, and for each name."""
    yield ETHERNET, frame(ETHERNET, bytes(28), number=0x0842)
    yield from ((ETHERNET, frame(ETHERNET, bytes.fromhex("0000110000000000"), number=number)) for number in ETHER_TYPES.values())
    after_length = [b"\xF0\xF0\x03", b"\x42\x42\x03", bytes.fromhex("AAAA0300000C2000")]
    after_length += [bytes([0xFE, 0xFE, 3, number]) for number in NLPIDS.values()]
    yield from ((ETHERNET, frame(ETHERNET, llc + bytes(30), number=len(llc) + 30)) for llc in after_length)
    yield from ((PPP, struct.pack(">HH", 0xFF03, number) + bytes(4)) for number in (0xC02D, *PPP_NAMES.values()))
    yield LOOPBACK, struct.pack("<I", 16) + bytes(4)
    yield IEEE80211, bytes.fromhex("8000") + bytes(30)
    yield RADIOTAP, bytes.fromhex("0100080000000000")
    yield FRAME_RELAY, bytes.fromhex("18411300")
    yield FRAME_RELAY, bytes.fromhex("18410308")
    yield OTHER_LINK, bytes(20)
    yield from ((ETHERNET, frame(ETHERNET, packet, number=0x0806)) for packet in (arp(1), arp(2), arp(3)[:20]))


def further_packets():
    """IP packets of the rows that have no packet in `transports`."""
    data = bytes(range(32))
    yield ipv4(17, udp(IPV4, data, stored=ones_complement_sum(pseudo_header(IPV4, 17, 40))))
    yield ipv6(6, with_partial_sum(tcp(IPV6, data)))
    yield from (ipv4(number, bytes(4)) for number in (48, *IP_NAMES.values()))
    yield ipv4(51, data, flags=0x0005)
    yield from (packet for _, packet, _ in packets_in_tunnels())
    # A fifth tunnel is not read.
    yield ipv4(4, ipv4(4, ipv4(4, ipv4(4, ipv4(4, ipv4(17, udp(IPV4, data)))))))
    yield from (ipv4(6, tcp(IPV4, options=bytes.fromhex(options)))
                for options in ("08010000", "01010105", "0512000000010000000200000003000000040101"))
    yield ipv4(1, icmpv4(14, 0, bytes(17)))
    yield ipv6(0, jumbo_payload(65535) + udp(IPV6, data), length=0)
    yield ipv6(0, jumbo_payload(70000) + udp(IPV6, data[:8]))
    yield ipv6(0, jumbo_payload(70000, 44) + bytes.fromhex("1100000100000001") + udp(IPV6, data), length=0)
    yield from (ipv4(17, udp(IPV4, data, source=number)) for number in range(1000, 1012))
    yield from (packet for _, packet in without_length())
    yield ipv6(58, icmpv6(135, 0, bytes(4), IPV6[1] + bytes.fromhex("0101020000000001")))
    yield ipv6(58, icmpv6(130, 0, bytes.fromhex("27100000"), bytes(16)))
    yield ipv6(58, icmpv6(143, 0, bytes.fromhex("00000001"), bytes.fromhex("04000000FF0200000000000000000001FF000002")))


def with_partial_sum(segment):
    """A TCP segment over IPv6 whose checksum is not filled in."""
    return segment[:16] + struct.pack(">H", ones_complement_sum(pseudo_header(IPV6, 6, len(segment)))) + segment[18:]


def every_row():
    """The blocks of a pcapng file with a packet of every row of every table: the packets of all kinds on Ethernet, a packet on each further
    link, frames without an IP packet, further packets, a packet older than the first, one without a time, and one that is too long."""
    links = [*LINKS, OTHER_LINK]
    yield section_header()
    yield from (interface_description(link) for link in links)
    yield interface_description(RAW, nanoseconds=True)
    packets = [(ETHERNET, entry) for entry in every_kind(ETHERNET)[0]]
    packets += [(link, frame(link, ipv4(17, udp(IPV4, bytes(100))))) for link in LINKS[1:]]
    packets += list(unread_frames())
    packets += [(RAW, packet) for packet in further_packets()]
    packets.append((ETHERNET, frame(ETHERNET, b"", number=0x0800)))
    for number, (link, entry) in enumerate(packets):
        data, length = entry if isinstance(entry, tuple) else (entry, len(entry))
        yield packet_block(links.index(link), START * 1_000_000 + number * 100, data, length)
    packet = ipv4(17, udp(IPV4, b"abc"))
    yield packet_block(len(links), START * 1_000_000_000 + 123_456_789, packet, len(packet))
    yield packet_block(links.index(RAW), START * 1_000_000 - 1, packet, len(packet))
    whole = frame(ETHERNET, packet)
    yield block(3, struct.pack("<I", len(whole)) + whole)
    yield packet_block(0, START * 1_000_000, bytes(600_000), 600_000)


PAGE = (TOP / "docs" / "CAPTURE_REPORT.md").read_text()


def tables_of_page():
    """The tables of docs/CAPTURE_REPORT.md by the first cell of their heads: the cells of each row."""
    tables = {}
    for table in re.findall(r"(?:^\|.*\|\n)+", PAGE, re.MULTILINE):
        head, _, *rows = [[cell.strip() for cell in line.strip("|\n").split(" | ")] for line in table.splitlines()]
        tables[head[0]] = rows
    return tables


def between(first, last):
    """The part of docs/CAPTURE_REPORT.md from these words to those, in one line."""
    text = " ".join(PAGE.split())
    start = text.index(first)
    return text[start:text.index(last, start)]


def quoted_texts(text):
    """The parts of a text that are code."""
    return re.findall(r"`([^`]+)`", text)


def pattern_of(text):
    """A pattern of the texts that have other numbers, which are decimal or hex digits."""
    words = re.split(r"(\w+)", text.removesuffix(" .."))
    return "".join("[0-9A-F]+" if re.fullmatch(r"[0-9A-F]*\d[0-9A-F]*|F0", word) else re.escape(word) for word in words)


def texts_of_page():
    """What a line shows for each row of each table of docs/CAPTURE_REPORT.md, and for each reason and option next to the tables."""
    tables = tables_of_page()
    for table, cell in (("Packet", 1), ("Frame", 1), ("In the line", 0), ("Other reasons", 0)):
        yield from (text for row in tables[table] for text in quoted_texts(row[cell]))
    yield from (f"{name} needs 20 bytes, has 1" for name in quoted_texts(between("The same reason exists for", "An empty packet")))
    yield from quoted_texts(between("An empty packet has the reason", "| Other reasons"))
    yield from quoted_texts(between("TCP options of unknown kinds", "A frame without an IP packet"))


def check_every_row(tally):
    """The stored capture has a packet of every row of every table in docs/CAPTURE_REPORT.md, in text and in JSON."""
    data = (PROGRAM.crate / "data" / "every_row.pcapng").read_bytes()
    tally.expect("the stored capture of every row", data == b"".join(every_row()), True)
    text, members = (run(data, *arguments).stdout.decode() for arguments in ((), ("--json",)))
    for row in texts_of_page():
        tally.expect(f"a packet with '{row}'", bool(re.search(pattern_of(row), text)), True)
    tables = tables_of_page()
    links = "; ".join(row[0] for row in tables["Link type"]).replace("; version 2", "; Linux cooked version 2").split("; ")
    refused = quoted_texts(between("The rows of the table `refused` are", "A conversation"))[1:]
    protocols = {*NUMBERS, *ETHER_TYPES, *PPP_NAMES, *NLPIDS, "STP", "other over IP", "other without IP", "unknown"}
    for title, rows in (("link type", [*links, "another link type", "unknown"]), ("refused", refused), ("protocol", protocols)):
        tally.expect(f"rows of the table {title}", sorted(table_of(text, title)), sorted(map(with_underscores, rows)))
    tally.expect("rows of the table checksum", len(table_of(text, "checksum")), len(tables["In the line"]))
    # It is one capture without texts; check_texts, check_interfaces and check_comments read some, and check_rows reads several captures.
    texts = {"application", "operating_system", "hardware", "comment", "packets_with_comment", "interface_name", "comments", "more_comments",
             "files", "other_files"}
    for table, cell in (("Frame", 2), ("In the line", 1), ("Member of a packet", 0), ("Member of the summary", 0)):
        for name in (name.strip('"') for row in tables[table] for name in quoted_texts(row[cell])):
            tally.expect(f"JSON has {name}", f'"{name}' in members or name.startswith("..") or name in texts, True)
    check_objects(tally, "every row", data)
