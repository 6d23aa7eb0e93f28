use super::packet::{
    IPV6_DESTINATION, IPV6_SOURCE, OTHER_PROTOCOL, RIGHT, UDP_OVER_IPV6, over_ipv4, over_ipv6,
    read_raw,
};
use crate::expect::{append, expect_at, expect_equal, expect_ok, expect_some, joined};
use crate::packets::{IPV4_UDP, UDP_OVER_IPV4};
use capture_packet::{Content, HopLimit, Packet, Refusal, Tunnel, Verdict};
use etherparse_transport::ip::{IpAddresses, IpError};
use etherparse_transport::{IpNumber, TransportSlice, UdpSlice, Untested, ip_number};
use std::process::Abort;

/// The addresses of the outer packets over IPv4, 192.0.2.1 and 192.0.2.2.
const OUTER_IPV4: IpAddresses = IpAddresses::Ipv4 {
    source: &[192, 0, 2, 1],
    destination: &[192, 0, 2, 2],
};

/// The addresses of the outer packets over IPv6, 2001:db8::1 and 2001:db8::2.
const OUTER_IPV6: IpAddresses = IpAddresses::Ipv6 {
    source: &IPV6_SOURCE,
    destination: Some(&IPV6_DESTINATION),
};

/// The IPv6 header of `UDP_OVER_IPV6`.
const IPV6_UDP: [u8; 40] = [
    0x60, 0, 0, 0, 0, 11, 17, 64, 0x20, 1, 0x0d, 0xb8, 0, 0, 0, 0, 0, 0, 0, 0, 0, 0, 0, 1, 0x20, 1,
    0x0d, 0xb8, 0, 0, 0, 0, 0, 0, 0, 0, 0, 0, 0, 2,
];

/// A header before the innermost packet.
#[derive(Clone, Copy, Debug, PartialEq, Eq)]
enum Outer {
    /// An IPv4 header with this protocol.
    Ipv4(u8),
    /// An IPv6 header with this next header.
    Ipv6(u8),
    /// A GRE header of these bytes.
    Gre(&'static [u8]),
}

/// The bytes of a header before this number of bytes.
fn header_of(rt: &(impl Abort + AllocGlobal), outer: Outer, payload_len: u8) -> Vec<u8> {
    match outer {
        Outer::Ipv4(protocol) => {
            let total_len = payload_len.saturating_add(20);
            let header = [
                0x45, 0, 0, total_len, 0, 1, 0x40, 0, 9, protocol, 0, 0, 192, 0, 2, 1, 192, 0, 2, 2,
            ];
            joined(rt, &[&header])
        }
        Outer::Ipv6(next_header) => {
            let first = [0x60, 0, 0, 0, 0, payload_len, next_header, 7];
            joined(rt, &[&first, &IPV6_SOURCE, &IPV6_DESTINATION])
        }
        Outer::Gre(bytes) => joined(rt, &[bytes]),
    }
}

/// A packet with these headers before it, the outermost first.
fn packet_in(rt: &(impl Abort + AllocGlobal), outers: &[Outer], inner: &[u8]) -> Vec<u8> {
    let mut packet = Vec::new(rt.alloc());
    append(rt, &mut packet, inner);
    for outer in outers.iter().rev() {
        let len = u8::try_from(packet.len()).unwrap_or(u8::MAX);
        let mut longer = header_of(rt, *outer, len);
        append(rt, &mut longer, packet.as_slice());
        packet = longer;
    }
    packet
}

/// The UDP datagram over IPv4 or over IPv6.
fn datagram(rt: &(impl Abort + AllocGlobal), is_ipv6: bool) -> Vec<u8> {
    if is_ipv6 {
        joined(rt, &[&IPV6_UDP, &UDP_OVER_IPV6])
    } else {
        joined(rt, &[&IPV4_UDP, &UDP_OVER_IPV4])
    }
}

/// The content of the packet with the datagram over IPv4 or over IPv6.
fn content_of(rt: &impl Abort, is_ipv6: bool) -> Content<'static> {
    if is_ipv6 {
        let udp = expect_ok(rt, UdpSlice::from_slice(&UDP_OVER_IPV6));
        over_ipv6(ip_number::UDP, TransportSlice::Udp(udp))
    } else {
        let udp = expect_ok(rt, UdpSlice::from_slice(&UDP_OVER_IPV4));
        over_ipv4(ip_number::UDP, TransportSlice::Udp(udp))
    }
}

/// The tunnel of a header, unless it is a GRE header.
fn tunnel_of(outer: Outer) -> Option<Tunnel<'static>> {
    match outer {
        Outer::Ipv4(protocol) => Some(Tunnel {
            addresses: OUTER_IPV4,
            protocol: IpNumber(protocol),
            network: None,
        }),
        Outer::Ipv6(protocol) => Some(Tunnel {
            addresses: OUTER_IPV6,
            protocol: IpNumber(protocol),
            network: None,
        }),
        Outer::Gre(_) => None,
    }
}

/// The headers before a UDP datagram over IPv4, or over IPv6 if the second field is true.
#[rattlefmt::skip]
static TUNNELS: [(&[Outer], bool); 13] = [
    (&[Outer::Ipv4(4)], false),
    (&[Outer::Ipv4(41)], true),
    (&[Outer::Ipv6(41)], true),
    (&[Outer::Ipv6(4)], false),
    (&[Outer::Ipv4(47), Outer::Gre(&[0, 0, 8, 0])], false),
    (&[Outer::Ipv4(47), Outer::Gre(&[0, 0, 0x86, 0xDD])], true),
    (&[Outer::Ipv6(47), Outer::Gre(&[3, 0xF8, 8, 0])], false),
    (&[Outer::Ipv4(47), Outer::Gre(&[0x80, 0, 8, 0, 1, 2, 0, 0])], false),
    (&[Outer::Ipv4(47), Outer::Gre(&[0x20, 0, 0x86, 0xDD, 0, 0, 0, 7])], true),
    (&[Outer::Ipv4(47), Outer::Gre(&[0x10, 0, 8, 0, 0, 0, 0, 9])], false),
    (&[Outer::Ipv4(47), Outer::Gre(&[0xB0, 0, 8, 0, 1, 2, 0, 0, 0, 0, 0, 7, 0, 0, 0, 9])], false),
    (&[Outer::Ipv4(47), Outer::Gre(&[0, 0, 0x86, 0xDD]), Outer::Ipv6(41), Outer::Ipv6(4)], false),
    (&[Outer::Ipv4(4), Outer::Ipv4(4), Outer::Ipv4(4), Outer::Ipv4(4)], false),
];

/// The packet with the datagram, in the tunnels of these headers.
fn expected_of(rt: &impl Abort, outers: &[Outer], is_ipv6: bool) -> Packet<'static> {
    let mut expected = Packet::in_no_tunnel(content_of(rt, is_ipv6), RIGHT);
    expected.hop_limit = Some(if is_ipv6 {
        HopLimit::Ipv6(64)
    } else {
        HopLimit::Ipv4(64)
    });
    for outer in outers {
        if let Some(tunnel) = tunnel_of(*outer) {
            expect_some(rt, expected.tunnels.try_push(tunnel).ok());
        }
    }
    expected
}

/// Stops the test unless the datagram after the headers of a row is read, and these headers are its tunnels.
fn expect_tunnels(rt: &(impl Abort + AllocGlobal), outers: &[Outer], is_ipv6: bool) {
    let frame = packet_in(rt, outers, &datagram(rt, is_ipv6));
    let packet = read_raw(&frame, false);
    expect_at(rt, &outers, &packet, &expected_of(rt, outers, is_ipv6));
}

#[test]
fn packets_in_tunnels(rt: HostRuntime) {
    for (outers, is_ipv6) in &TUNNELS {
        expect_tunnels(&rt, outers, *is_ipv6);
    }
}

/// The bytes after an IPv4 header with this protocol and with this byte of flags. The inner packet is not read.
type ClosedRow = (u8, u8, &'static [&'static [u8]]);

#[rattlefmt::skip]
static CLOSED: [ClosedRow; 14] = [
    (4, 0, &[&IPV6_UDP, &UDP_OVER_IPV6]),
    (41, 0, &[&IPV4_UDP, &UDP_OVER_IPV4]),
    (4, 0, &[&[0x45, 0, 0, 31, 0, 1, 0x40, 0, 64, 17, 0, 0, 10, 0, 0, 1, 10, 0, 0]]),
    (41, 0, &[&[0x60, 0, 0, 0, 0, 11, 17, 64], &IPV6_SOURCE, &[0x20, 1, 0x0d, 0xb8, 0, 0, 0, 0, 0, 0, 0, 0, 0, 0, 0]]),
    (4, 0, &[]),
    (4, 0x20, &[&IPV4_UDP, &UDP_OVER_IPV4]),
    (50, 0, &[&IPV4_UDP, &UDP_OVER_IPV4]),
    (47, 0, &[&[0, 0, 8]]),
    (47, 0, &[&[0, 1, 8, 0], &IPV4_UDP, &UDP_OVER_IPV4]),
    (47, 0, &[&[0x40, 0, 8, 0], &IPV4_UDP, &UDP_OVER_IPV4]),
    (47, 0, &[&[8, 0, 8, 0], &IPV4_UDP, &UDP_OVER_IPV4]),
    (47, 0, &[&[4, 0, 8, 0], &IPV4_UDP, &UDP_OVER_IPV4]),
    (47, 0, &[&[0, 0, 0x65, 0x58], &IPV4_UDP, &UDP_OVER_IPV4]),
    (47, 0, &[&[0x20, 0, 8, 0, 0, 0]]),
];

/// The number of tunnels of a packet, and the protocol number of its content.
fn shape_of(packet: &Packet<'_>) -> (usize, Option<u8>) {
    let protocol = match &packet.content {
        Content::Ip { protocol, .. } => Some(protocol.0),
        Content::Unread | Content::IpHeader(_) | Content::NotIp(_) => None,
    };
    (packet.tunnels.len(), protocol)
}

/// An IPv4 packet with this protocol and these bytes, in which the byte at this place is replaced.
fn changed_packet(
    rt: &(impl Abort + AllocGlobal),
    protocol: u8,
    payload: &[u8],
    place: usize,
    byte: u8,
) -> Vec<u8> {
    let mut frame = packet_in(rt, &[Outer::Ipv4(protocol)], payload);
    *expect_some(rt, frame.as_mut_slice().get_mut(place)) = byte;
    frame
}

/// Stops the test unless the packet of a row is in no tunnel.
fn expect_closed(rt: &(impl Abort + AllocGlobal), row: &ClosedRow) {
    let (protocol, flags, parts) = *row;
    let frame = changed_packet(rt, protocol, &joined(rt, parts), 6, flags);
    let shape = shape_of(&read_raw(&frame, false));
    expect_at(rt, row, &shape, &(0, Some(protocol)));
}

#[test]
fn packets_without_an_inner_packet(rt: HostRuntime) {
    for row in &CLOSED {
        expect_closed(&rt, row);
    }
}

/// The bytes after an IPv4 header with protocol 4, the total length in the header, and the verdict on the inner packet. With the length 60
/// the outer packet is cut off.
type RefusedRow = (&'static [u8], u8, Verdict);

#[rattlefmt::skip]
static REFUSED: [RefusedRow; 3] = [
    (
        &[0x46, 0, 0, 31, 0, 1, 0x40, 0, 64, 17, 0, 0, 10, 0, 0, 1, 10, 0, 0, 2], 40,
        Verdict::Refused(Refusal::Ip(IpError::HeaderCutOff { required_len: 24, len: 20 })),
    ),
    (
        &[0x46, 0, 0, 31, 0, 1, 0x40, 0, 64, 17, 0, 0, 10, 0, 0, 1, 10, 0, 0, 2], 60,
        Verdict::Checksum(etherparse_transport::ChecksumVerdict::Untested(Untested::CutOff)),
    ),
    (
        &[0x44, 0, 0, 31, 0, 1, 0x40, 0, 64, 17, 0, 0, 10, 0, 0, 1, 10, 0, 0, 2], 40,
        Verdict::Refused(Refusal::Ip(IpError::HeaderLength { header_len: 16 })),
    ),
];

/// Stops the test unless the packet of a row is in one tunnel, and only its addresses are read.
fn expect_refused(rt: &(impl Abort + AllocGlobal), row: &RefusedRow) {
    let (inner, total_len, verdict) = row;
    let frame = changed_packet(rt, 4, inner, 3, *total_len);
    let packet = read_raw(&frame, false);
    expect_at(rt, row, &packet.content, &Content::IpHeader(INNER));
    expect_at(rt, row, &packet.verdict, verdict);
    expect_at(rt, row, &packet.tunnels.len(), &1);
}

/// The addresses of the inner packet, 10.0.0.1 and 10.0.0.2.
const INNER: IpAddresses = IpAddresses::Ipv4 {
    source: &[10, 0, 0, 1],
    destination: &[10, 0, 0, 2],
};

#[test]
fn refused_inner_packets(rt: HostRuntime) {
    for row in &REFUSED {
        expect_refused(&rt, row);
    }
}

#[test]
fn a_packet_in_five_tunnels(rt: HostRuntime) {
    let frame = packet_in(&rt, &[Outer::Ipv4(4); 5], &datagram(&rt, false));
    let packet = read_raw(&frame, false);
    expect_equal(&rt, &shape_of(&packet), &(4, Some(4)));
    expect_equal(&rt, &packet.verdict, &OTHER_PROTOCOL);
}
