"""Packets of every kind, each with the verdict that a report has to have on it."""
import struct

from .build import (
    CISCO_HDLC, COOKED, COOKED2, ETHERNET, FRAME_RELAY, IPV4, IPV6, LOOPBACK, MAC, NFLOG, PPP, PPP_HDLC, PPP_OVER_ETHERNET, RAW, checksum,
    arp, frame, geneve, gre, icmpv4, icmpv6, ipv4, ipv6, tcp, udp, vxlan
)

TCP_OPTIONS = bytes.fromhex("020405B4" "0402" "080A0000006400000000" "01" "030307")
OTHER_OPTIONS = bytes.fromhex("01" "01" "0512" "00000001000000020000000300000004" "FE041234" "01" "00")


def transports():
    """Packets of every kind over IP, each with the verdict that it has to have."""
    data = bytes(range(32))
    redirect = bytes.fromhex("C0000203")
    # What ICMP errors quote: the first 32 bytes of a packet over IPv4, and the first 56 over IPv6.
    to_ipv4, to_ipv6 = (IPV4[0], bytes([198, 51, 100, 7])), (IPV6[0], IPV6[1][:15] + b"\x07")
    quoted_ipv4 = [ipv4(protocol, payload, addresses=to_ipv4, flags=flags)[:32] for protocol, payload, flags in (
        (17, udp(to_ipv4, data, destination=33434), 0x4000), (1, icmpv4(8, 0, bytes.fromhex("00010002"), data), 0x4000), (17, data, 0x0005))]
    quoted_ipv6 = [ipv6(protocol, payload, addresses=to_ipv6)[:56] for protocol, payload in (
        (0, bytes.fromhex("1100010400000000") + udp(to_ipv6, data, destination=33434)), (6, tcp(to_ipv6, data)))]
    yield "right", ipv4(17, udp(IPV4, data))
    yield "wrong", ipv4(17, udp(IPV4, data, change=1))
    yield "none", ipv4(17, udp(IPV4, data, stored=0))
    yield "right", ipv6(17, udp(IPV6, data))
    yield "wrong", ipv6(17, udp(IPV6, data, stored=0))
    yield "right", ipv4(6, tcp(IPV4, options=TCP_OPTIONS))
    yield "wrong", ipv4(6, tcp(IPV4, data, flags=0x1FF, options=OTHER_OPTIONS, change=0x100, urgent=7, acknowledgment=77))
    yield "right", ipv4(6, tcp(IPV4, data, flags=0x018, options=bytes.fromhex("0103FE00")))
    yield "right", ipv6(6, tcp(IPV6, data[:7], flags=0x010))
    yield "right", ipv4(1, icmpv4(8, 0, bytes.fromhex("00010002"), data))
    yield "wrong", ipv4(1, icmpv4(0, 0, bytes.fromhex("00010002"), data, change=2))
    yield "right", ipv4(1, icmpv4(3, 4, bytes.fromhex("000005DC"), quoted_ipv4[2]))
    yield "right", ipv4(1, icmpv4(5, 1, redirect, quoted_ipv4[1]))
    yield "right", ipv4(1, icmpv4(11, 0, bytes(4), quoted_ipv4[0]))
    yield "right", ipv4(1, icmpv4(12, 0, bytes.fromhex("14000000"), data))
    yield "right", ipv4(1, icmpv4(13, 0, bytes.fromhex("00010002") + struct.pack(">III", 1, 2, 3)))
    yield "right", ipv4(1, icmpv4(14, 0, bytes.fromhex("00010002") + struct.pack(">III", 1, 2, 3)))
    yield "right", ipv4(1, icmpv4(42, 7, bytes.fromhex("01020304"), data))
    yield "right", ipv6(58, icmpv6(128, 0, bytes.fromhex("00010002"), data))
    yield "wrong", ipv6(58, icmpv6(129, 0, bytes.fromhex("00010002"), data, change=0x4321))
    yield "right", ipv6(58, icmpv6(1, 4, bytes(4), data))
    yield "right", ipv6(58, icmpv6(2, 0, bytes.fromhex("00000500"), quoted_ipv6[1]))
    yield "right", ipv6(58, icmpv6(3, 1, bytes(4), quoted_ipv6[0]))
    yield "right", ipv6(58, icmpv6(4, 1, bytes.fromhex("00000028"), data))
    yield "right", ipv6(58, icmpv6(133, 0, bytes(4)))
    yield "right", ipv6(58, icmpv6(134, 0, bytes.fromhex("40C00708"), struct.pack(">II", 30000, 1000)))
    yield "right", ipv6(58, icmpv6(135, 0, bytes(4), IPV6[1]))
    yield "right", ipv6(58, icmpv6(136, 0, bytes.fromhex("60000000"), IPV6[1]))
    yield "right", ipv6(58, icmpv6(137, 0, bytes(4), IPV6[0] + IPV6[1]))
    yield "right", ipv6(58, icmpv6(200, 3, bytes.fromhex("0A0B0C0D"), data))
    yield "right", ipv6(0, bytes.fromhex("1100010400000000") + udp(IPV6, data))
    yield "right", ipv6(44, bytes.fromhex("1100000000000001") + udp(IPV6, data))
    yield "fragment", ipv4(17, udp(IPV4, data), flags=0x2000)
    yield "fragment", ipv4(17, data, flags=0x0005)
    yield "fragment", ipv6(44, bytes.fromhex("0600000100000001") + tcp(IPV6))
    yield "destination", ipv6(43, bytes.fromhex("1100FD0100000000") + udp(IPV6, data))
    yield "other", ipv4(47, data)
    yield "other", ipv6(59, b"")
    yield "refused", b"\x50" + bytes(19)
    yield "refused", ipv4(17, data, words=4)
    yield "refused", ipv4(17, data, total=19)
    yield "cut", ipv4(17, data, total=100)
    yield "refused", ipv4(17, udp(IPV4, data))[:15]
    yield "refused", ipv6(0, bytes.fromhex("1103010400000000"))
    yield "refused", ipv4(17, data[:7])
    yield "refused", ipv4(17, udp(IPV4, data, length=7))
    yield "refused", ipv6(17, udp(IPV6, data, length=41))
    yield "refused", ipv4(6, data[:19])
    yield "refused", ipv4(6, tcp(IPV4, offset=4))
    yield "refused", ipv4(6, tcp(IPV4, offset=15))
    yield "refused", ipv4(1, icmpv4(13, 0, bytes(17)))
    yield "refused", ipv4(1, b"\x08\x00\x00")
    yield "refused", ipv6(58, b"\x80\x00\x00\x00\x00\x00\x00")


def without_length():
    """Packets that state no length, each with the verdict that it has to have."""
    data = bytes(range(32))
    yield "length", ipv4(6, tcp(IPV4, data), total=0)
    yield "length", ipv6(17, udp(IPV6, data), length=0)
    yield "length", ipv6(0, bytes.fromhex("1100010400000000") + udp(IPV6, data), length=0)
    yield "fragment", ipv4(17, udp(IPV4, data), total=0, flags=0x2000)
    yield "refused", ipv6(58, b"\x80\x00\x00", length=0)


def every_kind(link, order="<"):
    """Frames with a packet of every kind, and the verdicts that these have to have."""
    frames, verdicts = [], []

    def add(verdict, entry):
        frames.append(entry)
        verdicts.append(verdict)

    for verdict, packet in transports():
        number = 0x0800 if packet[:1] == b"\x50" else None
        add(verdict, frame(link, packet, number=number, order=order))
    whole = frame(link, ipv4(17, udp(IPV4, bytes(100))), order=order)
    header = len(whole) - 128
    for kept in (header + 10, header + 25, header + 28, len(whole) - 1):
        add("cut", (whole[:kept], len(whole)))
    add("right", (whole, len(whole) + 4))
    add("cut", (frame(link, ipv6(6, tcp(IPV6, bytes(100), options=TCP_OPTIONS)), order=order)[:-90], 500))
    add("cut", (frame(link, ipv6(58, icmpv6(128, 0, bytes(4), bytes(100))), order=order)[:-90], 500))
    if link in (ETHERNET, COOKED, COOKED2):
        packet = ipv4(17, udp(IPV4, bytes(100)))
        add("right", frame(link, packet + bytes(10)))
        add("right", frame(link, packet, tags=(0x8100,)))
        add("right", frame(link, packet, tags=(0x88A8, 0x8100)))
        add("right", frame(link, packet, tags=(0x9100, 0x8100, 0x8100)))
        add("other", frame(link, bytes(28), number=0x0806))
        add("refused", frame(link, b"", tags=(0x8100,))[:-1])
        # The packet alone in a PPPoE payload, before padding, without its last byte, and after a length without room for a PPP protocol number.
        for verdict, length, padding in (("right", 2, 0), ("right", 2, 10), ("cut", 1, 10), ("other", 1 - len(packet), 0)):
            session = struct.pack(">BBHHH", 0x11, 0, 1, len(packet) + length, 0x0021)
            add(verdict, frame(link, session + packet + bytes(padding), number=0x8864))
        add("right", frame(link, struct.pack(">II", 0x1040, 0x2140) + packet, number=0x8847))
    if link != RAW:
        add("refused", whole[:header - 1])
        add("cut", (whole[:header - 1], len(whole)))
    for verdict, packet in without_length():
        add(verdict, frame(link, packet, order=order))
    add("length", (frame(link, ipv4(6, tcp(IPV4, bytes(100)), total=0), order=order)[:-90], 1500))
    add("cut", (frame(link, ipv6(6, tcp(IPV6), length=0), order=order)[:-1], 1500))
    return frames, verdicts


def further_headers(link, order="<"):
    """Frames of a link with other headers before a packet, and the verdicts that these have to have."""
    packet, labels = ipv4(17, udp(IPV4, bytes(100))), struct.pack(">II", 0x1040, 0x2140)
    snap = bytes.fromhex("AAAA030000000800") + packet
    pseudowire = frame(ETHERNET, labels + bytes(24), number=0x8847)
    headers = {
        ETHERNET: [("right", MAC + struct.pack(">H", len(snap)) + snap), ("other", MAC + struct.pack(">H", 38) + b"\x42\x42\x03" + bytes(35)),
                   ("other", MAC + struct.pack(">H", 30) + b"\xFE\xFE\x03\x83" + bytes(26)), ("other", pseudowire),
                   ("right", MAC + struct.pack(">H", len(packet) + 3) + b"\x06\x06\x03" + packet),
                   ("right", MAC + struct.pack(">H", len(snap)) + bytes.fromhex("AAAA030000F80800") + packet)],
        COOKED: [("right", frame(COOKED, snap, number=4)), ("other", struct.pack(">HHHQH", 4, 824, 0, 0, 16) + bytes(20))],
        COOKED2: [("right", frame(COOKED2, snap, number=4)), ("other", struct.pack(">HHIHBBQ", 4, 0, 1, 824, 4, 0, 0) + bytes(20))],
        CISCO_HDLC: [("other", bytes.fromhex("8F008035") + bytes(18)), ("other", bytes.fromhex("8F002000") + bytes(11))],
        PPP_OVER_ETHERNET: [("other", bytes.fromhex("11090000000401010000"))],
        NFLOG: [("right", frame(NFLOG, packet, order=order) + struct.pack(order + "HHI", 8, 5, 0))],
        LOOPBACK: [("right", frame(LOOPBACK, packet, order="><"[order == ">"]))],
        PPP: [("right", struct.pack(">HH", 0xFF03, 0x0281) + labels + packet)],
        PPP_HDLC: [("right", struct.pack(">HH", 0xFF03, 0x0283) + labels + packet)],
        FRAME_RELAY: [("right", struct.pack(">HH", 0x1841, 0x0800) + packet)],
    }.get(link, [])
    return [frame for _, frame in headers], [verdict for verdict, _ in headers]


def packets_in_tunnels():
    """Packets in tunnels: what the line of each has before the inner packet, the packet, and the inner packet."""
    data = bytes(range(32))
    ends4, ends6 = (bytes([203, 0, 113, 1]), bytes([203, 0, 113, 2])), (IPV6[0][:15] + b"\x0A", IPV6[1][:15] + b"\x0B")
    inner4, inner6 = ipv4(17, udp(IPV4, data)), ipv6(6, tcp(IPV6, data))
    over4, over6 = "203.0.113.1 > 203.0.113.2", "2001:db8::a > 2001:db8::b"

    def in4(protocol, payload, **others):
        return ipv4(protocol, payload, addresses=ends4, **others)

    def in6(protocol, payload):
        return ipv6(protocol, payload, addresses=ends6)

    yield f"{over4} IPv4 | ", in4(4, inner4), inner4
    yield f"{over4} IPv6 | ", in4(41, inner6), inner6
    yield f"{over6} IPv6 | ", in6(41, inner6), inner6
    yield f"{over6} IPv4 | ", in6(4, inner4), inner4
    yield f"{over6} IPv4 | ", in6(60, bytes.fromhex("0400040104010100") + inner4), inner4
    yield f"{over4} GRE | ", in4(47, gre(inner4)), inner4
    yield f"{over4} GRE | ", in4(47, gre(inner6, 0x2000, bytes.fromhex("0000002A"))), inner6
    yield f"{over6} GRE | ", in6(47, gre(inner4, 0x3000, bytes.fromhex("0000002A00000007"))), inner4
    sum_of_gre = struct.pack(">HH", checksum(gre(inner4, 0xB000, bytes(4) + bytes.fromhex("0000002A00000007"))), 0)
    yield f"{over4} GRE | ", in4(47, gre(inner4, 0xB000, sum_of_gre + bytes.fromhex("0000002A00000007"))), inner4
    yield f"{over4} GRE | {over6} IPv6 | {over6} IPv4 | ", in4(47, gre(in6(41, in6(4, inner4)))), inner4
    yield f"{over4} IPv4 | " * 4, in4(4, in4(4, in4(4, in4(4, inner4)))), inner4
    yield f"{over4} IPv4 | ", in4(4, ipv4(17, data, words=4)), ipv4(17, data, words=4)
    yield f"{over4} IPv4 | ", in4(4, ipv4(17, udp(IPV4, data, change=1))), ipv4(17, udp(IPV4, data, change=1))


def packets_in_udp_tunnels():
    """Packets in VXLAN and Geneve: what the line of each has before the inner packet, the packet, and the inner frame with its link type."""
    data = bytes(range(32))
    ends4, ends6 = (bytes([203, 0, 113, 1]), bytes([203, 0, 113, 2])), (IPV6[0][:15] + b"\x0A", IPV6[1][:15] + b"\x0B")
    inner4, inner6 = ipv4(17, udp(IPV4, data)), ipv6(6, tcp(IPV6, data))
    over4, over6 = "203.0.113.1 > 203.0.113.2", "2001:db8::a > 2001:db8::b"

    def in4(port, payload, stored=0):
        return ipv4(17, udp(ends4, payload, 50000, port, stored=stored), addresses=ends4)

    def in6(port, payload):
        return ipv6(17, udp(ends6, payload, 50000, port), addresses=ends6)

    for inner in (frame(ETHERNET, inner4), frame(ETHERNET, inner6), frame(ETHERNET, inner4, tags=(0x88A8, 0x8100)), frame(ETHERNET, arp(1), number=0x0806),
                  frame(ETHERNET, ipv4(17, udp(IPV4, data, change=1))), frame(ETHERNET, ipv4(17, data, words=4)), frame(ETHERNET, inner4 + bytes(7))):
        yield f"{over4} UDP, VXLAN, VNI 42 | ", in4(4789, vxlan(inner)), inner, ETHERNET
        yield f"{over6} UDP, Geneve, VNI 42 | ", in6(6081, geneve(inner)), inner, ETHERNET
    inner = frame(ETHERNET, inner4)
    # With a checksum, with other flags and reserved bytes, and the greatest network.
    yield f"{over4} UDP, VXLAN, VNI 42 | ", in4(4789, vxlan(inner), stored=None), inner, ETHERNET
    yield f"{over4} UDP, VXLAN, VNI 42 | ", in4(4789, vxlan(inner), stored=1), inner, ETHERNET
    yield f"{over4} UDP, VXLAN, VNI 42 | ", in4(4789, vxlan(inner, flags=0x0C, reserved=0x1234)), inner, ETHERNET
    yield f"{over4} UDP, VXLAN, VNI 16777215 | ", in4(4789, vxlan(inner, 0xFFFFFF)), inner, ETHERNET
    options = bytes.fromhex("010000010000002A" "FFFF8003000102030405060708090A0B")
    yield f"{over4} UDP, Geneve, VNI 0 | ", in4(6081, geneve(inner, 0, options=options, bits=0xC0)), inner, ETHERNET
    yield f"{over4} UDP, Geneve, VNI 42 | ", in4(6081, geneve(inner, options=bytes.fromhex("0100001E") + bytes(120))), inner, ETHERNET
    yield f"{over4} UDP, Geneve, VNI 42 | ", in4(6081, geneve(inner4, protocol_type=0x0800)), inner4, RAW
    yield f"{over6} UDP, Geneve, VNI 42 | ", in6(6081, geneve(inner6, protocol_type=0x86DD, options=options)), inner6, RAW
    # Tunnels in tunnels.
    within = in4(4789, vxlan(inner))
    yield f"{over4} GRE | {over4} UDP, VXLAN, VNI 42 | ", ipv4(47, gre(within), addresses=ends4), inner, ETHERNET
    within = ipv4(47, gre(in4(6081, geneve(inner))), addresses=ends4)
    yield (f"{over4} UDP, VXLAN, VNI 42 | {over4} GRE | {over4} UDP, Geneve, VNI 42 | ", in4(4789, vxlan(frame(ETHERNET, within))), inner,
           ETHERNET)


def datagrams_without_a_tunnel():
    """Datagrams to the ports of VXLAN and Geneve that are no tunnel, each with a name: the port, the payload and other fields of IP."""
    inner = frame(ETHERNET, ipv4(17, udp(IPV4, b"abc")))
    yield "VXLAN without flag I", 4789, vxlan(inner, flags=0xF7), {}
    yield "VXLAN at another port", 4790, vxlan(inner), {}
    yield "a cut VXLAN header", 4789, vxlan(b"")[:7], {}
    yield "VXLAN without a whole Ethernet header", 4789, vxlan(inner[:13]), {}
    yield "VXLAN in a fragment", 4789, vxlan(inner), {"flags": 0x2000}
    yield "Geneve of version 1", 6081, geneve(inner, version=1), {}
    yield "Geneve with long options", 6081, geneve(inner, words=63), {}
    yield "Geneve with another protocol", 6081, geneve(inner, protocol_type=0x8847), {}
    yield "Geneve with IPv6 that is IPv4", 6081, geneve(inner[14:], protocol_type=0x86DD), {}
    yield "Geneve without a packet", 6081, geneve(b"", protocol_type=0x0800), {}
