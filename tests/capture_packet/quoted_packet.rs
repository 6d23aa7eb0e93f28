//! The packets that ICMP errors quote.

use crate::expect::{expect_at, expect_equal, expect_ok, joined};
use capture_packet::{QuotedPacket, Transport};
use etherparse_transport::ip::{IpAddresses, proto_over};
use etherparse_transport::{Icmpv4Slice, Icmpv6Slice, IpNumber, TransportSlice};
use std::process::Abort;

/// 192.0.2.1 and 198.51.100.7.
const OVER_IPV4: IpAddresses = IpAddresses::Ipv4 {
    source: &[192, 0, 2, 1],
    destination: &[198, 51, 100, 7],
};

/// The addresses in an IPv6 header, 2001:db8::1 and 2001:db8::2.
const IPV6_ADDRESSES: [u8; 32] = [
    0x20, 1, 0x0D, 0xB8, 0, 0, 0, 0, 0, 0, 0, 0, 0, 0, 0, 1, // the source
    0x20, 1, 0x0D, 0xB8, 0, 0, 0, 0, 0, 0, 0, 0, 0, 0, 0, 2, // the destination
];

const OVER_IPV6: IpAddresses = IpAddresses::Ipv6 {
    source: &[0x20, 1, 0x0D, 0xB8, 0, 0, 0, 0, 0, 0, 0, 0, 0, 0, 0, 1],
    destination: Some(&[0x20, 1, 0x0D, 0xB8, 0, 0, 0, 0, 0, 0, 0, 0, 0, 0, 0, 2]),
};

/// 2001:db8::1, and a final destination that is not known.
const FROM_IPV6: IpAddresses = IpAddresses::Ipv6 {
    source: &[0x20, 1, 0x0D, 0xB8, 0, 0, 0, 0, 0, 0, 0, 0, 0, 0, 0, 1],
    destination: None,
};

/// IPv4 headers of 60 bytes of UDP, TCP, ICMP and protocol 47.
const IPV4_UDP: [u8; 20] = [
    0x45, 0, 0, 60, 0, 0, 0, 0, 1, 17, 0, 0, 192, 0, 2, 1, 198, 51, 100, 7,
];

const IPV4_TCP: [u8; 20] = [
    0x45, 0, 0, 60, 0, 0, 0, 0, 1, 6, 0, 0, 192, 0, 2, 1, 198, 51, 100, 7,
];

const IPV4_ICMP: [u8; 20] = [
    0x45, 0, 0, 60, 0, 0, 0, 0, 1, 1, 0, 0, 192, 0, 2, 1, 198, 51, 100, 7,
];

const IPV4_GRE: [u8; 20] = [
    0x45, 0, 0, 60, 0, 0, 0, 0, 1, 47, 0, 0, 192, 0, 2, 1, 198, 51, 100, 7,
];

/// IPv4 headers of UDP: of a first and of a later fragment, without a length, with 2 bytes after the header, and with a header length of 24
/// and of 16 bytes.
const FIRST_FRAGMENT: [u8; 20] = [
    0x45, 0, 0, 60, 0, 0, 0x20, 0, 1, 17, 0, 0, 192, 0, 2, 1, 198, 51, 100, 7,
];

const LATER_FRAGMENT: [u8; 20] = [
    0x45, 0, 0, 60, 0, 0, 0x20, 1, 1, 17, 0, 0, 192, 0, 2, 1, 198, 51, 100, 7,
];

const IPV4_OF_0: [u8; 20] = [
    0x45, 0, 0, 0, 0, 0, 0, 0, 1, 17, 0, 0, 192, 0, 2, 1, 198, 51, 100, 7,
];

const IPV4_OF_22: [u8; 20] = [
    0x45, 0, 0, 22, 0, 0, 0, 0, 1, 17, 0, 0, 192, 0, 2, 1, 198, 51, 100, 7,
];

const IPV4_OPTIONS: [u8; 24] = [
    0x46, 0, 0, 60, 0, 0, 0, 0, 1, 17, 0, 0, 192, 0, 2, 1, 198, 51, 100, 7, 1, 1, 1, 1,
];

const IPV4_SHORT: [u8; 20] = [
    0x44, 0, 0, 60, 0, 0, 0, 0, 1, 17, 0, 0, 192, 0, 2, 1, 198, 51, 100, 7,
];

/// The first 19 bytes of an IPv4 header.
const IPV4_CUT: [u8; 19] = [
    0x45, 0, 0, 60, 0, 0, 0, 0, 1, 17, 0, 0, 192, 0, 2, 1, 198, 51, 100,
];

/// IPv6 headers with a payload length of 64 before the addresses: of UDP, TCP, ICMPv6, protocol 1, hop-by-hop options, a routing header and
/// a fragment header.
const IPV6_UDP: [u8; 8] = [0x60, 0, 0, 0, 0, 64, 17, 1];

const IPV6_TCP: [u8; 8] = [0x60, 0, 0, 0, 0, 64, 6, 1];

const IPV6_ICMP: [u8; 8] = [0x60, 0, 0, 0, 0, 64, 58, 1];

const IPV6_1: [u8; 8] = [0x60, 0, 0, 0, 0, 64, 1, 1];

const IPV6_OPTIONS: [u8; 8] = [0x60, 0, 0, 0, 0, 64, 0, 1];

const IPV6_ROUTING: [u8; 8] = [0x60, 0, 0, 0, 0, 64, 43, 1];

const IPV6_FRAGMENT: [u8; 8] = [0x60, 0, 0, 0, 0, 64, 44, 1];

/// The extension headers for these IPv6 headers, each before UDP. The routing header has an unknown type and one segment left.
const OPTIONS: [u8; 8] = [17, 0, 1, 4, 0, 0, 0, 0];

const ROUTING: [u8; 8] = [17, 0, 253, 1, 0, 0, 0, 0];

const WHOLE_FRAGMENT: [u8; 8] = [17, 0, 0, 0, 0, 0, 0, 1];

const SECOND_FRAGMENT: [u8; 8] = [17, 0, 0, 8, 0, 0, 0, 1];

/// The first eight bytes of UDP and of TCP, and of an echo request.
const UDP: [u8; 8] = [0xC0, 0, 0x82, 0x9A, 0, 40, 0, 0];

const TCP: [u8; 8] = [0, 80, 4, 210, 0, 0, 0, 1];

const ECHO: [u8; 8] = [8, 0, 0, 0, 0, 1, 0, 2];

/// The ports of these transports.
const UDP_PORTS: Option<(u16, u16)> = Some((49152, 33434));

const TCP_PORTS: Option<(u16, u16)> = Some((80, 1234));

/// The parts of an ICMP message, and the quoted packet: its addresses, its protocol and its ports.
type QuoteRow = (
    &'static [&'static [u8]],
    Option<(IpAddresses<'static>, u8, Option<(u16, u16)>)>,
);

#[rattlefmt::skip]
static ICMPV4_ERRORS: [QuoteRow; 23] = [
    (&[&[11, 0, 0, 0, 0, 0, 0, 0], &IPV4_UDP, &UDP], Some((OVER_IPV4, 17, UDP_PORTS))),
    (&[&[3, 3, 0, 0, 0, 0, 0, 0], &IPV4_TCP, &TCP], Some((OVER_IPV4, 6, TCP_PORTS))),
    (&[&[4, 0, 0, 0, 0, 0, 0, 0], &IPV4_UDP, &UDP], Some((OVER_IPV4, 17, UDP_PORTS))),
    (&[&[5, 1, 0, 0, 192, 0, 2, 3], &IPV4_UDP, &UDP], Some((OVER_IPV4, 17, UDP_PORTS))),
    (&[&[12, 0, 0, 0, 20, 0, 0, 0], &IPV4_UDP, &UDP], Some((OVER_IPV4, 17, UDP_PORTS))),
    // The length field counts seven words of four bytes, and then five words. Both are fewer than 128 bytes, so the field ends nothing.
    (&[&[11, 0, 0, 0, 0, 7, 0, 0], &IPV4_UDP, &UDP, &[0x20, 0, 0, 0]], Some((OVER_IPV4, 17, UDP_PORTS))),
    (&[&[11, 0, 0, 0, 0, 5, 0, 0], &IPV4_UDP, &UDP], Some((OVER_IPV4, 17, UDP_PORTS))),
    // The transport header is cut off.
    (&[&[11, 0, 0, 0, 0, 0, 0, 0], &IPV4_TCP, &[0, 80, 4, 210]], Some((OVER_IPV4, 6, TCP_PORTS))),
    (&[&[11, 0, 0, 0, 0, 0, 0, 0], &IPV4_TCP, &[0, 80, 4]], Some((OVER_IPV4, 6, None))),
    (&[&[11, 0, 0, 0, 0, 0, 0, 0], &IPV4_UDP], Some((OVER_IPV4, 17, None))),
    (&[&[11, 0, 0, 0, 0, 0, 0, 0], &IPV4_OF_22, &UDP], Some((OVER_IPV4, 17, None))),
    (&[&[11, 0, 0, 0, 0, 0, 0, 0], &IPV4_OF_0, &UDP], Some((OVER_IPV4, 17, UDP_PORTS))),
    (&[&[11, 0, 0, 0, 0, 0, 0, 0], &IPV4_OPTIONS, &UDP], Some((OVER_IPV4, 17, UDP_PORTS))),
    (&[&[11, 0, 0, 0, 0, 0, 0, 0], &FIRST_FRAGMENT, &UDP], Some((OVER_IPV4, 17, UDP_PORTS))),
    (&[&[11, 0, 0, 0, 0, 0, 0, 0], &LATER_FRAGMENT, &UDP], Some((OVER_IPV4, 17, None))),
    (&[&[11, 0, 0, 0, 0, 0, 0, 0], &IPV4_ICMP, &ECHO], Some((OVER_IPV4, 1, None))),
    (&[&[11, 0, 0, 0, 0, 0, 0, 0], &IPV4_GRE, &UDP], Some((OVER_IPV4, 47, None))),
    // The IP header is cut off, refused, or missing.
    (&[&[11, 0, 0, 0, 0, 0, 0, 0], &IPV4_CUT], None),
    (&[&[11, 0, 0, 0, 0, 0, 0, 0], &IPV4_SHORT, &UDP], None),
    (&[&[11, 0, 0, 0, 0, 0, 0, 0], &[0x55], &IPV4_UDP, &UDP], None),
    (&[&[11, 0, 0, 0, 0, 0, 0, 0]], None),
    // The message is not an error.
    (&[&[8, 0, 0, 0, 0, 0, 0, 0], &IPV4_UDP, &UDP], None),
    (&[&[0, 0, 0, 0, 0, 0, 0, 0], &IPV4_UDP, &UDP], None),
];

#[rattlefmt::skip]
static ICMPV6_ERRORS: [QuoteRow; 15] = [
    (&[&[1, 4, 0, 0, 0, 0, 0, 0], &IPV6_UDP, &IPV6_ADDRESSES, &UDP], Some((OVER_IPV6, 17, UDP_PORTS))),
    (&[&[2, 0, 0, 0, 0, 0, 5, 0], &IPV6_TCP, &IPV6_ADDRESSES, &TCP], Some((OVER_IPV6, 6, TCP_PORTS))),
    (&[&[3, 0, 0, 0, 0, 0, 0, 0], &IPV6_UDP, &IPV6_ADDRESSES, &UDP], Some((OVER_IPV6, 17, UDP_PORTS))),
    (&[&[4, 1, 0, 0, 0, 0, 0, 40], &IPV6_UDP, &IPV6_ADDRESSES, &UDP], Some((OVER_IPV6, 17, UDP_PORTS))),
    // The length field counts five words of eight bytes: fewer than 128 bytes, so it ends nothing.
    (&[&[3, 0, 0, 0, 5, 0, 0, 0], &IPV6_UDP, &IPV6_ADDRESSES, &UDP], Some((OVER_IPV6, 17, UDP_PORTS))),
    (&[&[3, 0, 0, 0, 0, 0, 0, 0], &IPV6_TCP, &IPV6_ADDRESSES, &[0, 80, 4]], Some((OVER_IPV6, 6, None))),
    (&[&[3, 0, 0, 0, 0, 0, 0, 0], &IPV6_ICMP, &IPV6_ADDRESSES, &[128, 0, 0, 0, 0, 1, 0, 2]], Some((OVER_IPV6, 58, None))),
    (&[&[3, 0, 0, 0, 0, 0, 0, 0], &IPV6_1, &IPV6_ADDRESSES, &ECHO], Some((OVER_IPV6, 1, None))),
    (&[&[3, 0, 0, 0, 0, 0, 0, 0], &IPV6_OPTIONS, &IPV6_ADDRESSES, &OPTIONS, &UDP], Some((OVER_IPV6, 17, UDP_PORTS))),
    (&[&[3, 0, 0, 0, 0, 0, 0, 0], &IPV6_ROUTING, &IPV6_ADDRESSES, &ROUTING, &UDP], Some((FROM_IPV6, 17, UDP_PORTS))),
    (&[&[3, 0, 0, 0, 0, 0, 0, 0], &IPV6_FRAGMENT, &IPV6_ADDRESSES, &WHOLE_FRAGMENT, &UDP], Some((OVER_IPV6, 17, UDP_PORTS))),
    (&[&[3, 0, 0, 0, 0, 0, 0, 0], &IPV6_FRAGMENT, &IPV6_ADDRESSES, &SECOND_FRAGMENT, &UDP], Some((OVER_IPV6, 17, None))),
    // An IP header or an extension header is cut off.
    (&[&[3, 0, 0, 0, 0, 0, 0, 0], &IPV6_OPTIONS, &IPV6_ADDRESSES, &[17, 0, 1, 4, 0, 0, 0]], None),
    // The message is not an error.
    (&[&[128, 0, 0, 0, 0, 0, 0, 0], &IPV6_UDP, &IPV6_ADDRESSES, &UDP], None),
    (&[&[137, 0, 0, 0, 0, 0, 0, 0], &IPV6_UDP, &IPV6_ADDRESSES, &UDP], None),
];

/// The quoted packet of a row.
fn expected_of(row: &QuoteRow) -> Option<QuotedPacket<'static>> {
    let (addresses, protocol, ports) = row.1?;
    let protocol = IpNumber(protocol);
    Some(QuotedPacket {
        addresses,
        protocol,
        proto: proto_over(addresses, protocol),
        ports,
    })
}

/// Stops the test unless a transport quotes the packet of a row.
fn expect_quoted(rt: &impl Abort, transport: TransportSlice<'_>, row: &QuoteRow) {
    let quoted = Transport::Read(transport).quoted_packet();
    expect_at(rt, &row.0, &quoted, &expected_of(row));
}

/// Stops the test unless the ICMPv4 message of a row quotes the packet of the row.
fn expect_icmpv4(rt: &(impl Abort + AllocGlobal), row: &QuoteRow) {
    let message = joined(rt, row.0);
    let slice = expect_ok(rt, Icmpv4Slice::from_slice(&message));
    expect_quoted(rt, TransportSlice::Icmpv4(slice), row);
}

#[test]
fn packets_that_icmpv4_errors_quote(rt: HostRuntime) {
    for row in &ICMPV4_ERRORS {
        expect_icmpv4(&rt, row);
    }
}

/// Stops the test unless the ICMPv6 message of a row quotes the packet of the row.
fn expect_icmpv6(rt: &(impl Abort + AllocGlobal), row: &QuoteRow) {
    let message = joined(rt, row.0);
    let slice = expect_ok(rt, Icmpv6Slice::from_slice(&message));
    expect_quoted(rt, TransportSlice::Icmpv6(slice), row);
}

#[test]
fn packets_that_icmpv6_errors_quote(rt: HostRuntime) {
    for row in &ICMPV6_ERRORS {
        expect_icmpv6(&rt, row);
    }
}

#[test]
fn transports_that_quote_no_packet(rt: HostRuntime) {
    let ports = Transport::Ports {
        source: 49152,
        destination: 33434,
        payload: &UDP,
    };
    expect_equal(&rt, &ports.quoted_packet(), &None);
    let unread = Transport::Unread(&UDP);
    expect_equal(&rt, &unread.quoted_packet(), &None);
}
