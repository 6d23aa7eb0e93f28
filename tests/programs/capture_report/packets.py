"""Tests of the lines of packets: of each kind, behind each link header, and in tunnels."""
import ipaddress
import json
import struct

from ..build import (
    CISCO_HDLC, COOKED, COOKED2, ETHERNET, IPV4, IPV6, LINKS, NFLOG, OPENBSD, OTHER_LINK, PPP_OVER_ETHERNET, RAW, arp, capture, frame, gre, icmpv6,
    ipv4, ipv6, pcapng, tcp, udp, vxlan
)
from ..kinds import TCP_OPTIONS, datagrams_without_a_tunnel, every_kind, further_headers, packets_in_tunnels, packets_in_udp_tunnels
from .members import check_objects, tunnel_of
from .names import ETHER_TYPES, NUMBERS
from .report import HOP_LIMIT, ends_of, fragment_text, length_text, lines_of, parts_of, run, verdict_of, with_underscores, without_facts


def check_every_kind(tally):
    """A capture of every kind of packet, behind every link, in both orders and resolutions: the packets have their verdicts, and in a
    pcapng file the same report."""
    for link in LINKS:
        for order in "<>":
            for nanoseconds in (False, True):
                name = f"link type {link}, order {order}, nanoseconds {nanoseconds}"
                frames, verdicts = every_kind(link, order)
                done = run(capture(link, frames, order, nanoseconds), "--packets")
                tally.expect(f"{name}: status", (done.returncode, done.stderr), (0, b""))
                tally.expect(f"{name}: verdicts", [verdict_of(line) for line in lines_of(done.stdout)], verdicts)
                lengths = [parts_of(line)[2] for line in lines_of(done.stdout)]
                tally.expect(f"{name}: lengths", lengths, [length_text(entry) for entry in frames])
                ours, theirs = (run(form(link, frames, order, nanoseconds)) for form in (pcapng, capture))
                tally.expect(f"{name}: pcapng", (ours.returncode, ours.stderr, without_facts(ours)), (0, b"", without_facts(theirs)))


def check_further_headers(tally):
    """Other headers before a packet."""
    for link in LINKS:
        for order in "<>":
            frames, verdicts = further_headers(link, order)
            found = [verdict_of(line) for line in lines_of(run(capture(link, frames, order), "--packets").stdout)]
            tally.expect(f"further headers, link type {link}, order {order}", found, verdicts)
    # These are not read by tshark.
    packet = ipv4(17, udp(IPV4, bytes(100)))
    found = run(capture(NFLOG, [frame(NFLOG, packet, order=">")]), "--packets").stdout.decode()
    tally.expect("NFLOG in the other order", verdict_of(found), "right")
    found = run(capture(OPENBSD, [struct.pack("<I", 2) + packet]), "--packets").stdout.decode()
    tally.expect("OpenBSD loopback in the other order", verdict_of(found), "right")
    for tags in ((0x9200,), (0x9200, 0x8100), (0x88A8, 0x8100)):
        found = run(capture(ETHERNET, [frame(ETHERNET, packet, tags=tags)]), "--packets").stdout.decode()
        tally.expect(f"VLAN tags {tags}", verdict_of(found), "right")
    frames = further_headers(ETHERNET)[0]
    found = [parts_of(line)[3].split(";")[0] for line in lines_of(run(capture(ETHERNET, frames), "--packets").stdout)]
    tally.expect("what other frames of Ethernet are", found[1:4], ["STP", "IS-IS", "MPLS"])
    for link, text in ((CISCO_HDLC, "link type 104"), (COOKED, "link type 253"), (COOKED2, "link type 253"), (PPP_OVER_ETHERNET, "PPPoE discovery")):
        done = run(capture(link, further_headers(link)[0][-1:]), "--packets")
        tally.expect(f"what another frame of link type {link} is", [parts_of(line)[3] for line in lines_of(done.stdout)], [text])


def check_tunnels(tally):
    """Packets in tunnels: the line shows the outer packets and then the inner packet, which alone is counted. Packets that contain no packet
    that is read are packets of another protocol."""
    rows = list(packets_in_tunnels())
    lines = [parts_of(line)[3] for line in lines_of(run(capture(RAW, [packet for _, packet, _ in rows]), "--packets").stdout)]
    inner = [parts_of(line)[3] for line in lines_of(run(capture(RAW, [packet for _, _, packet in rows]), "--packets").stdout)]
    tally.expect("lines of packets in tunnels", lines, [before + line for (before, _, _), line in zip(rows, inner)])
    ours, theirs = (run(capture(RAW, [row[place] for row in rows]), "--summary").stdout.decode().split("\n\n")[1:] for place in (1, 2))
    tally.expect("tables of packets in tunnels", [[line.split()[:2] for line in block.splitlines()] for block in ours[2:]],
                 [[line.split()[:2] for line in block.splitlines()] for block in theirs[2:]])
    data = capture(RAW, [packet for _, packet, _ in rows])
    for (before, _, _), line in zip(rows, lines_of(run(data, "--packets", "--json").stdout)):
        wanted = [tunnel_of(outer) for outer in before.split(" | ")[:-1]]
        tally.expect(f"tunnels in JSON, {before}", json.loads(line)["tunnels"], wanted)
    for host in ("203.0.113.2", "2001:db8::a", "192.0.2.1", "2001:db8::1", "203.0.113.0/24", "198.51.100.7"):
        found = [parts_of(line)[3] for line in lines_of(run(data, "--packets", "--host", host).stdout)]
        network = ipaddress.ip_network(host)
        wanted = [line for line in lines if any(ipaddress.ip_address(address) in network for part in line.split(" | ")
                                                for address, _ in ends_of("1 - length unknown: " + part))]
        tally.expect(f"packets in tunnels, --host {host}", found, wanted)
    packet = ipv4(17, udp(IPV4, b"abc"))
    for name, protocol, payload, others in [
        ("version 6 after protocol 4", 4, ipv6(59, b""), {}), ("version 4 after protocol 41", 41, packet, {}), ("no packet", 4, b"", {}),
        ("19 bytes", 4, packet[:19], {}), ("a fragment", 4, packet, {"flags": 0x2000}), ("a later fragment", 4, packet, {"flags": 3}),
        ("GRE of version 1", 47, gre(packet, 1), {}), ("GRE with a route", 47, gre(packet, 0x4000), {}),
        ("GRE with Ethernet", 47, gre(packet, protocol_type=0x6558), {}), ("a cut GRE header", 47, gre(b"", 0x2000, b"ab", 0x0800), {}),
    ]:
        found = parts_of(*lines_of(run(capture(RAW, [ipv4(protocol, payload, **others)]), "--packets").stdout))[3]
        word = {4: "IPv4", 41: "IPv6", 47: "GRE"}[protocol]
        wanted = f"192.0.2.1 > 192.0.2.2 {word}, payload {len(payload)}{fragment_text(others.get('flags', 0))}"
        tally.expect(name, found, wanted)
    whole = ipv4(4, packet)
    found = [parts_of(line)[3] for line in lines_of(run(capture(RAW, [(whole[:len(whole) - cut], len(whole)) for cut in range(52)]),
                                                            "--packets").stdout)]
    tally.expect("packets in a cut tunnel", [line.count(" | ") for line in found], [1] * 12 + [0] * 40)
    tally.expect("verdicts of packets in a cut tunnel", [verdict_of(line) for line in found[:51]],
                 ["right"] + ["cut"] * 11 + ["other"] * 20 + ["cut"] * 19)
    for name, others, payload in [("of which more follow", {"flags": 0x2000}, "3"), ("in a later fragment", {"flags": 5}, "3"),
                                  ("that is cut off", {"total": 100}, "80, 3 captured"), ("without a length", {"total": 0}, "3")]:
        data = capture(RAW, [ipv4(89, b"abc", **others)])
        line = parts_of(*lines_of(run(data, "--packets").stdout))[3]
        tally.expect(f"OSPF {name}", line, f"192.0.2.1 > 192.0.2.2 OSPF, payload {payload}{fragment_text(others.get('flags', 0))}")
        reason = json.loads(run(data, "--packets", "--json").stdout)["reason"]
        tally.expect(f"OSPF {name}, in JSON", reason, "another_protocol")


def check_udp_tunnels(tally):
    """VXLAN and Geneve: with --tunnels the line shows the outer packets and then the inner packet, as in other tunnels. Without the option,
    and if a header does not fit, it is the line of a UDP datagram."""
    rows = list(packets_in_udp_tunnels())
    data = capture(RAW, [packet for _, packet, _, _ in rows])
    lines = [parts_of(line)[3] for line in lines_of(run(data, "--packets", "--tunnels").stdout)]
    inner = [parts_of(*lines_of(run(capture(link, [frame]), "--packets").stdout))[3] for _, _, frame, link in rows]
    tally.expect("lines of packets in tunnels in UDP", lines, [before + line for (before, _, _, _), line in zip(rows, inner)])
    plain = [parts_of(line)[3] for line in lines_of(run(data, "--packets").stdout)]
    tally.expect("tunnels in UDP without --tunnels", [line.split("; ")[0].rpartition(" | ")[2].split(",")[0].split(" length ")[0] for line in plain],
                 [ends_text(before) for before, _, _, _ in rows])
    for (before, _, _, _), line in zip(rows, lines_of(run(data, "--packets", "--json", "--tunnels").stdout), strict=True):
        tally.expect(f"tunnels in JSON, {before}", json.loads(line)["tunnels"], [tunnel_of(outer) for outer in before.split(" | ")[:-1]])
    for arguments, wanted in [(("--host", "203.0.113.2"), [line for line in lines if "203.0.113.2" in line]), (("--port", "4789"), []),
                              (("--protocol", "arp"), [line for line in lines if "ARP" in line])]:
        found = [parts_of(line)[3] for line in lines_of(run(data, "--packets", "--tunnels", *arguments).stdout)]
        tally.expect(f"packets in tunnels in UDP, {arguments}", found, wanted)
    check_objects(tally, "packets in tunnels in UDP", data, "--tunnels")
    written = run(data, "--tunnels", "--protocol", "arp", "-w", "-").stdout
    tally.expect("-w of packets in tunnels in UDP", len(lines_of(run(written, "--packets").stdout)), 2)
    for name, port, payload, others in datagrams_without_a_tunnel():
        data = capture(RAW, [ipv4(17, udp(IPV4, payload, destination=port), **others)])
        found, wanted = (run(data, "--packets", *arguments).stdout.decode() for arguments in (("--tunnels",), ()))
        tally.expect(name, (found, " | " in found), (wanted, False))
    whole = ipv4(17, udp(IPV4, vxlan(frame(ETHERNET, ipv4(17, udp(IPV4, b"abc")))), destination=4789))
    cuts = [(whole[:len(whole) - cut], len(whole)) for cut in range(len(whole))]
    found = [parts_of(line)[3] for line in lines_of(run(capture(RAW, cuts), "--packets", "--tunnels").stdout)]
    # The inner packet has 31 bytes. The Ethernet header before it has to be whole.
    tally.expect("packets in a cut tunnel in UDP", [line.count(" | ") for line in found], [1] * 32 + [0] * (len(whole) - 32))
    tally.expect("verdicts of packets in a cut tunnel in UDP", [verdict_of(line) for line in found], ["right"] + ["cut"] * (len(whole) - 1))
    deep = whole
    for _ in range(4):
        deep = ipv4(4, deep)
    found = parts_of(*lines_of(run(capture(RAW, [deep]), "--packets", "--tunnels").stdout))[3]
    tally.expect("VXLAN as a fifth tunnel", found.split(" | ")[4].split(" length ")[0], "192.0.2.1:49152 > 192.0.2.2:4789 UDP")


def ends_text(before):
    """The ends and the protocol of the outermost datagram in UDP, as a line without --tunnels shows them."""
    outer = next(text for text in before.split(" | ") if " UDP, " in text)
    port = 4789 if "VXLAN" in outer else 6081
    source, _, destination = outer.split(" ")[:3]
    return " > ".join(f"[{end}]:{number}" if ":" in end else f"{end}:{number}" for end, number in ((source, 50000), (destination, port))) + " UDP"


def check_other_links(tally):
    """A capture of a link type that is not read: the packets are shown with its number."""
    frames = every_kind(OTHER_LINK)[0]
    ours, theirs = (run(form(OTHER_LINK, frames)) for form in (pcapng, capture))
    tally.expect("another link type", (theirs.returncode, theirs.stderr, without_facts(theirs)), (0, b"", without_facts(ours)))
    lines = lines_of(run(capture(OTHER_LINK, frames), "--packets").stdout)
    tally.expect("another link type: lines", [parts_of(line)[3] for line in lines], ["link type 147"] * len(frames))


def check_hop_limits(tally):
    """With -v a line has the time to live or the hop limit of the packet with the last addresses, and is otherwise the same. In JSON it is
    always a member."""
    for link in LINKS + (OTHER_LINK,):
        data = capture(link, every_kind(link)[0])
        plain, verbose, long = (lines_of(run(data, "--packets", *arguments).stdout) for arguments in ((), ("-v",), ("--verbose",)))
        tally.expect(f"-v, link type {link}", ([HOP_LIMIT.sub("", line) for line in verbose], long), (plain, verbose))
        tally.expect(f"-v, link type {link}: which lines", [bool(HOP_LIMIT.search(line)) for line in verbose], [" > " in line for line in plain])
    over_ipv4, over_ipv6 = ipv4(17, udp(IPV4, b"abc")), ipv6(17, udp(IPV6, b"abc"))
    over_ipv4, over_ipv6 = over_ipv4[:8] + b"\x07" + over_ipv4[9:], over_ipv6[:7] + b"\xff" + over_ipv6[8:]
    in_4, in_6 = {"time_to_live": 7}, {"hop_limit": 255}
    for name, packet, wanted in [
        ("IPv4", over_ipv4, in_4), ("IPv6", over_ipv6, in_6), ("IPv4 in IPv4", ipv4(4, over_ipv4), in_4), ("IPv6 in IPv4", ipv4(41, over_ipv6), in_6),
        ("GRE", ipv6(47, gre(over_ipv4)), in_4), ("20 bytes", over_ipv4[:20], in_4), ("19 bytes", over_ipv4[:19], {}),
        ("40 bytes", over_ipv6[:40], in_6), ("39 bytes", over_ipv6[:39], {}), ("a refused header", b"\x44" + over_ipv4[1:], in_4),
    ]:
        data = capture(RAW, [packet])
        line, found = lines_of(run(data, "--packets", "-v").stdout)[0], json.loads(run(data, "--packets", "--json").stdout)
        found = {name: found[name] for name in ("time_to_live", "hop_limit") if name in found}
        shown = {with_underscores(name): int(value) for name, value in HOP_LIMIT.findall(line)}
        tally.expect(f"hop limit, {name}", (shown, found), (wanted, wanted))


def check_payloads(tally):
    """Of a frame that is cut after any number of bytes the length of the payload is that of the whole packet, once its header is there. The
    bytes that were captured are those after the header."""
    data = bytes(range(64))
    for name, packet, header in [
        ("UDP", ipv4(17, udp(IPV4, data)), 28), ("TCP", ipv6(6, tcp(IPV6, data, options=TCP_OPTIONS)), 80),
        ("ICMPv6", ipv6(58, icmpv6(128, 0, bytes(4), data)), 48), ("another protocol", ipv4(47, data), 20),
        ("a fragment", ipv6(44, bytes.fromhex("1100000100000001") + data), 48),
    ]:
        frames = [(packet[:length], len(packet)) for length in range(header, len(packet) + 1)]
        packets = [json.loads(line) for line in lines_of(run(capture(RAW, frames), "--packets", "--json").stdout)]
        found = [(packet["payload_length"], packet.get("payload_captured_length", len(data))) for packet in packets]
        tally.expect(f"payload of {name}", found, [(len(data), length) for length in range(len(data) + 1)])


def check_names(tally):
    """Protocols that are not read: a line has the name, and an object has it next to the number."""
    for name, number in NUMBERS.items():
        # An authentication header is read, and what it protects has the name.
        if number not in (1, 6, 17, 51, 58):
            data = capture(RAW, [ipv4(number, bytes(4))])
            line, found = run(data, "--packets").stdout.decode(), json.loads(run(data, "--packets", "--json").stdout)
            tally.expect(f"protocol {number}", (f" {name}, payload 4" in line, found["protocol"], found["protocol_name"]), (True, number, name))
    for name, number in ETHER_TYPES.items():
        data = capture(ETHERNET, [frame(ETHERNET, bytes.fromhex("0000110000000000"), number=number)])
        line, found = run(data, "--packets").stdout.decode(), json.loads(run(data, "--packets", "--json").stdout)
        found = (parts_of(line.rstrip())[3], found["ether_type"], found["protocol_name"])
        # The packet of ARP has no hardware type, and addresses of no bytes.
        tally.expect(f"ether type {number:04X}", found, ("ARP, operation 0" if name == "ARP" else name, number, name))
    for number in (1, 3, 138, 255):
        found = json.loads(run(capture(RAW, [ipv6(number, bytes(4))]), "--packets", "--json").stdout)
        tally.expect(f"protocol {number} without a name", (found["protocol"], "protocol_name" in found), (number, False))


def check_fragments(tally):
    """Fragments have their identification, their offset in bytes, and whether more of them follow."""
    data = bytes(range(32))
    for name, packet, wanted in [
        ("the last over IPv4", ipv4(17, data, flags=0x00B9), "0001, offset 1480"),
        ("one of the middle over IPv4", ipv4(17, data, flags=0x20B9), "0001, offset 1480, more"),
        ("the first over IPv6", ipv6(44, bytes.fromhex("11000001A1B2C3D4") + udp(IPV6, data)), "A1B2C3D4, offset 0, more"),
        ("the last over IPv6", ipv6(44, bytes.fromhex("1100FFF8A1B2C3D4") + data), "A1B2C3D4, offset 65528"),
        ("one in a tunnel", ipv4(4, ipv4(17, data, flags=0x3FFF)), "0001, offset 65528, more"),
        ("an atomic one over IPv6", ipv6(44, bytes.fromhex("11000000A1B2C3D4") + udp(IPV6, data)), None),
        ("one that must not be", ipv4(17, udp(IPV4, data), flags=0x4000), None),
        ("refused headers", ipv4(17, data, words=4, flags=0x20B9), None),
    ]:
        for entry in (packet, (packet[:-1], len(packet))):
            capture_of = capture(RAW, [entry])
            line = run(capture_of, "--packets").stdout.decode().rstrip()
            found = line.partition(", fragment, identification ")[2].partition(";")[0]
            tally.expect(f"fragment, {name}", found, wanted or "")
            check_objects(tally, f"fragment, {name}", capture_of)


def check_arp(tally):
    """ARP packets: what is asked and answered, other operations, and packets that are cut off or of another form."""
    for packet, wanted in [
        (arp(1), ", who has 192.0.2.2, asked by 192.0.2.1"), (arp(2), ", 192.0.2.1 is at 02:00:00:00:00:01"),
        (arp(1) + bytes(18), ", who has 192.0.2.2, asked by 192.0.2.1"), (arp(3), ", operation 3"), (arp(0x0102), ", operation 258"),
        (arp(1)[:27], ", operation 1, cut off"), (arp(2)[:8], ", operation 2, cut off"), (arp(2)[:7], ", cut off"), (b"", ", cut off"),
        (arp(1, hardware=32, sizes=(6, 4)), ", operation 1"), (arp(2, protocol=0x86DD), ", operation 2"),
        (arp(2, sizes=(4, 6)), ", operation 2"), (arp(2, sizes=(7, 4)), ", operation 2, cut off"),
    ]:
        for link in (ETHERNET, COOKED, COOKED2, CISCO_HDLC):
            data = capture(link, [frame(link, packet, number=0x0806)])
            line = parts_of(*lines_of(run(data, "--packets").stdout))[3]
            tally.expect(f"ARP of {packet.hex()}, link type {link}", line, "ARP" + wanted)
            check_objects(tally, f"ARP of {packet.hex()}, link type {link}", data)
    found = json.loads(run(capture(ETHERNET, [frame(ETHERNET, arp(2), number=0x0806)]), "--packets", "--json").stdout)["arp"]
    wanted = {"operation": 2, "sender_hardware_address": "02:00:00:00:00:01", "sender_address": "192.0.2.1",
              "target_hardware_address": "00:00:00:00:00:00", "target_address": "192.0.2.2"}
    tally.expect("addresses of ARP in JSON", found, wanted)


def check_neighbors(tally):
    """Messages of neighbor discovery and about multicast listeners: addresses, the first link-layer address, and its place after others."""
    target, group = ipaddress.IPv6Address("fe80::1").packed, ipaddress.IPv6Address("ff02::1:ff00:2").packed
    source, other, nonce = (bytes.fromhex(text) for text in ("01010200000000AB", "0301000000000000", "0E010102030405FF"))
    for kind, rest, payload, wanted in [
        (133, bytes(4), source, "router solicitation, code 0, link-layer address 02:00:00:00:00:ab"),
        (133, bytes(4), nonce, "router solicitation, code 0"),
        (135, bytes(4), target + nonce + source, "neighbor solicitation, code 0, target fe80::1, link-layer address 02:00:00:00:00:ab"),
        (135, bytes(4), target[:15], "neighbor solicitation, code 0"),
        (135, bytes(4), target + b"\0" * 8 + source, "neighbor solicitation, code 0, target fe80::1"),
        (136, b"\x60\0\0\0", target + b"\x02" + source[1:],
         "neighbor advertisement, code 0, flags solicited override, target fe80::1, link-layer address 02:00:00:00:00:ab"),
        (137, bytes(4), target + IPV6[1] + other + source,
         "redirect, code 0, target fe80::1, destination 2001:db8::2, link-layer address 02:00:00:00:00:ab"),
        (130, bytes.fromhex("27100000"), bytes(16), "multicast listener query, code 0, maximum response code 10000, group ::"),
        (131, bytes(4), group, "multicast listener report, code 0, group ff02::1:ff00:2"),
        (132, bytes(4), group, "multicast listener done, code 0, group ff02::1:ff00:2"),
        (143, bytes.fromhex("00000002"), bytes(40), "version 2 multicast listener report, code 0, records 2"),
    ]:
        data = capture(RAW, [ipv6(58, icmpv6(kind, 0, rest, payload))])
        line = parts_of(*lines_of(run(data, "--packets").stdout))[3]
        tally.expect(f"type {kind}", line, f"2001:db8::1 > 2001:db8::2 ICMPv6 {wanted}, payload {len(payload)}; checksum right")
        check_objects(tally, f"type {kind}, {wanted}", data)
