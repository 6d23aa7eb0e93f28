use super::packet::{OTHER_PROTOCOL, RIGHT, over_ipv4};
use crate::expect::{append, expect_at, expect_equal, expect_ok, joined};
use crate::packets::{IPV4_UDP, UDP_OVER_IPV4};
use capture_file::{ByteOrder, LinkType};
use capture_packet::{
    Arp, ArpAddresses, Content, HopLimit, NetworkKind, NetworkProtocol, Packet, Tunnel, Verdict,
    VirtualNetwork, read_packet,
};
use etherparse_transport::ip::IpAddresses;
use etherparse_transport::{IpNumber, TransportSlice, UdpSlice, Untested, ip_number};
use std::process::Abort;

/// The addresses of the outer packet, 192.0.2.1 and 192.0.2.2.
const OUTER: IpAddresses = IpAddresses::Ipv4 {
    source: &[192, 0, 2, 1],
    destination: &[192, 0, 2, 2],
};

/// A VXLAN header with the network identifier 123456 (RFC 7348, section 5).
const VXLAN: [u8; 8] = [8, 0, 0, 0, 1, 0xE2, 0x40, 0];

/// A Geneve header before an Ethernet frame, with the network identifier 123456 (RFC 8926, section 3.4).
const GENEVE: [u8; 8] = [0, 0, 0x65, 0x58, 1, 0xE2, 0x40, 0];

/// A Geneve header before an IPv4 packet, with four bytes of options.
const GENEVE_WITH_OPTIONS: [u8; 12] = [1, 0, 8, 0, 1, 0xE2, 0x40, 0, 1, 2, 3, 0];

/// An Ethernet header before an IPv4 packet.
const ETHERNET: [u8; 14] = [2, 0, 0, 0, 0, 2, 2, 0, 0, 0, 0, 1, 8, 0];

/// An Ethernet header with a VLAN tag before an IPv4 packet.
const TAGGED: [u8; 18] = [2, 0, 0, 0, 0, 2, 2, 0, 0, 0, 0, 1, 0x81, 0, 0, 5, 8, 0];

/// An Ethernet header before an ARP packet.
const ARP_ETHERNET: [u8; 14] = [2, 0, 0, 0, 0, 2, 2, 0, 0, 0, 0, 1, 8, 6];

/// An ARP request: 10.0.0.1 asks who has 10.0.0.2.
const ARP: [u8; 28] = [
    0, 1, 8, 0, 6, 4, 0, 1, 2, 0, 0, 0, 0, 1, 10, 0, 0, 1, 0, 0, 0, 0, 0, 0, 10, 0, 0, 2,
];

/// An IPv4 packet with a UDP datagram to this port. The headers count this number of bytes more than the packet has.
fn datagram_to(
    rt: &(impl Abort + AllocGlobal),
    port: u16,
    missing_len: u8,
    parts: &[&[u8]],
) -> Vec<u8> {
    let payload = joined(rt, parts);
    let len = u8::try_from(payload.len())
        .unwrap_or(u8::MAX)
        .saturating_add(missing_len);
    let [high, low] = port.to_be_bytes();
    let (datagram_len, total_len) = (len.saturating_add(8), len.saturating_add(28));
    let header = [
        0x45,
        0,
        0,
        total_len,
        0,
        1,
        0,
        0,
        9,
        17,
        0,
        0,
        192,
        0,
        2,
        1,
        192,
        0,
        2,
        2,
        0xC0,
        0,
        high,
        low,
        0,
        datagram_len,
        0,
        0,
    ];
    let mut packet = joined(rt, &[&header]);
    append(rt, &mut packet, payload.as_slice());
    packet
}

/// The packet in a frame of raw IP, with tunnels in UDP.
fn read(frame: &[u8]) -> Packet<'_> {
    read_packet(LinkType::RawIp, ByteOrder::BigEndian, frame, false, true)
}

/// A tunnel of this kind, with the network identifier 123456.
fn tunnel_of(kind: NetworkKind) -> Tunnel<'static> {
    Tunnel {
        addresses: OUTER,
        protocol: ip_number::UDP,
        network: Some(VirtualNetwork { kind, id: 123_456 }),
    }
}

/// The kind of a tunnel, its destination port, and the bytes before the IPv4 packet in it.
type OpenRow = (NetworkKind, u16, &'static [&'static [u8]]);

#[rattlefmt::skip]
static OPEN: [OpenRow; 5] = [
    (NetworkKind::Vxlan, 4789, &[&VXLAN, &ETHERNET]),
    (NetworkKind::Vxlan, 4789, &[&[0xFF, 1, 2, 3, 1, 0xE2, 0x40, 4], &TAGGED]),
    (NetworkKind::Geneve, 6081, &[&GENEVE, &ETHERNET]),
    (NetworkKind::Geneve, 6081, &[&GENEVE, &TAGGED]),
    (NetworkKind::Geneve, 6081, &[&GENEVE_WITH_OPTIONS]),
];

/// Stops the test unless the UDP packet after the bytes of a row is read, in one tunnel.
fn expect_open(rt: &(impl Abort + AllocGlobal), row: &OpenRow) {
    let (kind, port, parts) = *row;
    let before = joined(rt, parts);
    let frame = datagram_to(rt, port, 0, &[before.as_slice(), &IPV4_UDP, &UDP_OVER_IPV4]);
    let packet = read(&frame);
    let udp = expect_ok(rt, UdpSlice::from_slice(&UDP_OVER_IPV4));
    let content = over_ipv4(ip_number::UDP, TransportSlice::Udp(udp));
    expect_at(rt, row, &packet.content, &content);
    expect_at(rt, row, &packet.verdict, &RIGHT);
    expect_at(rt, row, &packet.hop_limit, &Some(HopLimit::Ipv4(64)));
    expect_at(
        rt,
        row,
        &packet.tunnels.as_slice(),
        &[tunnel_of(kind)].as_slice(),
    );
    let closed = read_packet(LinkType::RawIp, ByteOrder::BigEndian, &frame, false, false);
    expect_at(rt, row, &closed.tunnels.len(), &0);
}

#[test]
fn packets_in_udp_tunnels(rt: HostRuntime) {
    for row in &OPEN {
        expect_open(&rt, row);
    }
}

/// The destination port and the payload of a datagram in which no tunnel is read, and the number of missing bytes that its headers count.
type ClosedRow = (u16, u8, &'static [&'static [u8]]);

#[rattlefmt::skip]
static CLOSED: [ClosedRow; 10] = [
    (4788, 0, &[&VXLAN, &ETHERNET]),
    (4789, 0, &[&[0xF7, 0, 0, 0, 1, 0xE2, 0x40, 0], &ETHERNET]),
    (4789, 0, &[&[8, 0, 0, 0, 1, 0xE2, 0x40]]),
    (4789, 0, &[&VXLAN, &[2, 0, 0, 0, 0, 2, 2, 0, 0, 0, 0, 1, 8]]),
    (6081, 0, &[&[64, 0, 0x65, 0x58, 1, 0xE2, 0x40, 0], &ETHERNET]),
    (6081, 0, &[&[4, 0, 0x65, 0x58, 1, 0xE2, 0x40, 0], &ETHERNET]),
    (6081, 0, &[&[0, 0, 0x65, 0x59, 1, 0xE2, 0x40, 0], &ETHERNET]),
    (6081, 0, &[&[0, 0, 0x86, 0xDD, 1, 0xE2, 0x40, 0], &IPV4_UDP, &UDP_OVER_IPV4]),
    (6081, 0, &[&[0, 0, 0x65, 0x58, 1, 0xE2, 0x40]]),
    (4789, 2, &[&VXLAN, &[2, 0, 0, 0, 0, 2, 2, 0, 0, 0, 0, 1]]),
];

/// Stops the test unless no tunnel is read in the datagram of a row.
fn expect_closed(rt: &(impl Abort + AllocGlobal), row: &ClosedRow) {
    let (port, missing_len, parts) = *row;
    let frame = datagram_to(rt, port, missing_len, parts);
    let packet = read(&frame);
    expect_at(rt, row, &packet.tunnels.len(), &0);
    let is_udp = matches!(
        packet.content,
        Content::Ip {
            protocol: IpNumber(17),
            ..
        }
    );
    expect_at(rt, row, &is_udp, &true);
}

#[test]
fn datagrams_without_a_tunnel(rt: HostRuntime) {
    for row in &CLOSED {
        expect_closed(&rt, row);
    }
}

#[test]
fn an_arp_packet_in_vxlan(rt: HostRuntime) {
    let frame = datagram_to(&rt, 4789, 0, &[&VXLAN, &ARP_ETHERNET, &ARP]);
    let packet = read(&frame);
    let addresses = ArpAddresses {
        sender_hardware: [2, 0, 0, 0, 0, 1],
        sender: [10, 0, 0, 1],
        target_hardware: [0; 6],
        target: [10, 0, 0, 2],
    };
    let arp = Arp::Addresses {
        operation: 1,
        addresses,
    };
    expect_equal(&rt, &packet.arp, &Some(arp));
    expect_equal(
        &rt,
        &packet.content,
        &Content::NotIp(NetworkProtocol::EtherType(0x0806)),
    );
    expect_equal(&rt, &packet.verdict, &OTHER_PROTOCOL);
    expect_equal(
        &rt,
        &packet.tunnels.as_slice(),
        &[tunnel_of(NetworkKind::Vxlan)].as_slice(),
    );
}

/// The bytes of the inner packet that are missing, and the verdict on it.
static CUTS: [(usize, Verdict); 2] = [
    (
        1,
        Verdict::Checksum(etherparse_transport::ChecksumVerdict::Untested(Untested::CutOff)),
    ),
    (
        11,
        Verdict::Checksum(etherparse_transport::ChecksumVerdict::Untested(Untested::CutOff)),
    ),
];

#[test]
fn packets_in_cut_udp_tunnels(rt: HostRuntime) {
    let frame = datagram_to(
        &rt,
        4789,
        0,
        &[&VXLAN, &ETHERNET, &IPV4_UDP, &UDP_OVER_IPV4],
    );
    for (missing, verdict) in &CUTS {
        let packet = read(crate::expect::bytes_to(&rt, &frame, frame.len() - missing));
        expect_at(&rt, missing, &packet.verdict, verdict);
        expect_at(&rt, missing, &packet.tunnels.len(), &1);
    }
}
