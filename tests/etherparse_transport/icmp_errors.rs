//! ICMP errors about packets. The bytes were computed without this crate, by the rules of RFC 792, RFC 4443, RFC 791, RFC 8200 and RFC
//! 1071.

use crate::expect::{expect_bytes, expect_equal, expect_ok, expect_some, expect_text};
use etherparse_transport::err::packet::ErrorAboutError;
use etherparse_transport::icmpv4::{
    DestUnreachableHeader, ParameterProblemHeader as Ipv4Problem, RedirectCode, RedirectHeader,
    TimeExceededCode,
};
use etherparse_transport::icmpv6::{
    DestUnreachableCode, ParameterProblemCode, ParameterProblemHeader as Ipv6Problem,
};
use etherparse_transport::ip::{
    IpError, checksum_verdict, icmpv4_error_about, icmpv6_error_about, transport_in_ip,
};
use etherparse_transport::{
    ChecksumVerdict, IcmpEchoHeader, Icmpv4Slice, Icmpv4Type, Icmpv6Slice, Icmpv6Type,
};
use std::process::Abort;

/// The address of the router that sends the errors.
const ROUTER: [u8; 4] = [192, 168, 1, 254];

#[rattlefmt::skip]
const ROUTER_IPV6: [u8; 16] = [0x20, 1, 0xD, 0xB8, 0, 0, 0, 0, 0, 0, 0, 0, 0, 0, 0, 0xFE];

/// A message, a packet, and the error about the packet.
type Ipv4Row = (Icmpv4Type, &'static [u8], &'static [u8]);

#[rattlefmt::skip]
static IPV4: [Ipv4Row; 5] = [
    // a packet whose time to live is at its end
    (Icmpv4Type::TimeExceeded(TimeExceededCode::TtlExceededInTransit), &[
        0x45, 0, 0, 0x20, 0, 0, 0x40, 0, 1, 0x11, 0x8D, 0xE9, 0xC0, 0xA8, 1, 1, 0xC6, 0x33, 0x64, 7, 0x9C, 0x40, 0, 0x35, 0, 0xC, 0, 0,
        0x70, 0x69, 0x6E, 0x67,
    ], &[
        0x45, 0, 0, 0x3C, 0, 0, 0x40, 0, 0x40, 1, 0xB6, 0x71, 0xC0, 0xA8, 1, 0xFE, 0xC0, 0xA8, 1, 1, 0xB, 0, 0x79, 0xAD, 0, 0, 0, 0,
        0x45, 0, 0, 0x20, 0, 0, 0x40, 0, 1, 0x11, 0x8D, 0xE9, 0xC0, 0xA8, 1, 1, 0xC6, 0x33, 0x64, 7, 0x9C, 0x40, 0, 0x35, 0, 0xC, 0, 0,
        0x70, 0x69, 0x6E, 0x67,
    ]),
    // a packet that is too big, with padding
    (Icmpv4Type::DestinationUnreachable(DestUnreachableHeader::FragmentationNeeded { next_hop_mtu: 1300 }), &[
        0x45, 0, 0, 0x20, 0, 0, 0x40, 0, 1, 0x11, 0x8D, 0xE9, 0xC0, 0xA8, 1, 1, 0xC6, 0x33, 0x64, 7, 0x9C, 0x40, 0, 0x35, 0, 0xC, 0, 0,
        0x70, 0x69, 0x6E, 0x67, 0xEE, 0xEE, 0xEE,
    ], &[
        0x45, 0, 0, 0x3C, 0, 0, 0x40, 0, 0x40, 1, 0xB6, 0x71, 0xC0, 0xA8, 1, 0xFE, 0xC0, 0xA8, 1, 1, 3, 4, 0x7C, 0x95, 0, 0, 5, 0x14,
        0x45, 0, 0, 0x20, 0, 0, 0x40, 0, 1, 0x11, 0x8D, 0xE9, 0xC0, 0xA8, 1, 1, 0xC6, 0x33, 0x64, 7, 0x9C, 0x40, 0, 0x35, 0, 0xC, 0, 0,
        0x70, 0x69, 0x6E, 0x67,
    ]),
    // a wrong byte, in a packet that is cut off
    (Icmpv4Type::ParameterProblem(Ipv4Problem::PointerIndicatesError(1)), &[
        0x45, 0, 0, 0x20, 0, 0, 0x40, 0, 1, 0x11, 0x8D, 0xE9, 0xC0, 0xA8, 1, 1, 0xC6, 0x33, 0x64, 7, 0x9C, 0x40, 0, 0x35, 0, 0xC, 0, 0,
        0x70, 0x69,
    ], &[
        0x45, 0, 0, 0x3A, 0, 0, 0x40, 0, 0x40, 1, 0xB6, 0x73, 0xC0, 0xA8, 1, 0xFE, 0xC0, 0xA8, 1, 1, 0xC, 0, 0xE6, 0x14, 1, 0, 0, 0,
        0x45, 0, 0, 0x20, 0, 0, 0x40, 0, 1, 0x11, 0x8D, 0xE9, 0xC0, 0xA8, 1, 1, 0xC6, 0x33, 0x64, 7, 0x9C, 0x40, 0, 0x35, 0, 0xC, 0, 0,
        0x70, 0x69,
    ]),
    // another gateway
    (Icmpv4Type::Redirect(RedirectHeader { code: RedirectCode::RedirectForHost, gateway_internet_address: [192, 168, 1, 253] }), &[
        0x45, 0, 0, 0x20, 0, 0, 0x40, 0, 1, 0x11, 0x8D, 0xE9, 0xC0, 0xA8, 1, 1, 0xC6, 0x33, 0x64, 7, 0x9C, 0x40, 0, 0x35, 0, 0xC, 0, 0,
        0x70, 0x69, 0x6E, 0x67,
    ], &[
        0x45, 0, 0, 0x3C, 0, 0, 0x40, 0, 0x40, 1, 0xB6, 0x71, 0xC0, 0xA8, 1, 0xFE, 0xC0, 0xA8, 1, 1, 5, 1, 0xBD, 6, 0xC0, 0xA8, 1,
        0xFD, 0x45, 0, 0, 0x20, 0, 0, 0x40, 0, 1, 0x11, 0x8D, 0xE9, 0xC0, 0xA8, 1, 1, 0xC6, 0x33, 0x64, 7, 0x9C, 0x40, 0, 0x35, 0, 0xC,
        0, 0, 0x70, 0x69, 0x6E, 0x67,
    ]),
    // the first fragment of an echo request
    (Icmpv4Type::TimeExceeded(TimeExceededCode::FragmentReassemblyTimeExceeded), &[
        0x45, 0, 0, 0x24, 0, 0, 0x20, 0, 0x40, 1, 0x6E, 0xF5, 0xC0, 0xA8, 1, 1, 0xC6, 0x33, 0x64, 7, 8, 0, 0x66, 0x62, 0, 7, 0, 1,
        0x61, 0x62, 0x63, 0x64, 0x65, 0x66, 0x67, 0x68,
    ], &[
        0x45, 0, 0, 0x40, 0, 0, 0x40, 0, 0x40, 1, 0xB6, 0x6D, 0xC0, 0xA8, 1, 0xFE, 0xC0, 0xA8, 1, 1, 0xB, 1, 0xF4, 0xFE, 0, 0, 0, 0,
        0x45, 0, 0, 0x24, 0, 0, 0x20, 0, 0x40, 1, 0x6E, 0xF5, 0xC0, 0xA8, 1, 1, 0xC6, 0x33, 0x64, 7, 8, 0, 0x66, 0x62, 0, 7, 0, 1,
        0x61, 0x62, 0x63, 0x64, 0x65, 0x66, 0x67, 0x68,
    ]),
];

/// A message, a packet, and the error about the packet.
type Ipv6Row = (Icmpv6Type, &'static [u8], &'static [u8]);

#[rattlefmt::skip]
static IPV6: [Ipv6Row; 4] = [
    // a packet that is too big
    (Icmpv6Type::PacketTooBig { mtu: 1280 }, &[
        0x60, 0, 0, 0, 0, 0xC, 0x11, 0x40, 0x20, 1, 0xD, 0xB8, 0, 0, 0, 0, 0, 0, 0, 0, 0, 0, 0, 1, 0x20, 1, 0xD, 0xB8, 0, 0, 0, 0, 0,
        0, 0, 0, 0, 0, 0, 2, 0x9C, 0x40, 0, 0x35, 0, 0xC, 0x12, 0x34, 0x70, 0x69, 0x6E, 0x67,
    ], &[
        0x60, 0, 0, 0, 0, 0x3C, 0x3A, 0x40, 0x20, 1, 0xD, 0xB8, 0, 0, 0, 0, 0, 0, 0, 0, 0, 0, 0, 0xFE, 0x20, 1, 0xD, 0xB8, 0, 0, 0, 0,
        0, 0, 0, 0, 0, 0, 0, 1, 2, 0, 0x41, 0xD0, 0, 0, 5, 0, 0x60, 0, 0, 0, 0, 0xC, 0x11, 0x40, 0x20, 1, 0xD, 0xB8, 0, 0, 0, 0, 0, 0,
        0, 0, 0, 0, 0, 1, 0x20, 1, 0xD, 0xB8, 0, 0, 0, 0, 0, 0, 0, 0, 0, 0, 0, 2, 0x9C, 0x40, 0, 0x35, 0, 0xC, 0x12, 0x34, 0x70, 0x69,
        0x6E, 0x67,
    ]),
    // a closed port, with padding
    (Icmpv6Type::DestinationUnreachable(DestUnreachableCode::Port), &[
        0x60, 0, 0, 0, 0, 0xC, 0x11, 0x40, 0x20, 1, 0xD, 0xB8, 0, 0, 0, 0, 0, 0, 0, 0, 0, 0, 0, 1, 0x20, 1, 0xD, 0xB8, 0, 0, 0, 0, 0,
        0, 0, 0, 0, 0, 0, 2, 0x9C, 0x40, 0, 0x35, 0, 0xC, 0x12, 0x34, 0x70, 0x69, 0x6E, 0x67, 0xEE, 0xEE, 0xEE,
    ], &[
        0x60, 0, 0, 0, 0, 0x3C, 0x3A, 0x40, 0x20, 1, 0xD, 0xB8, 0, 0, 0, 0, 0, 0, 0, 0, 0, 0, 0, 0xFE, 0x20, 1, 0xD, 0xB8, 0, 0, 0, 0,
        0, 0, 0, 0, 0, 0, 0, 1, 1, 4, 0x47, 0xCC, 0, 0, 0, 0, 0x60, 0, 0, 0, 0, 0xC, 0x11, 0x40, 0x20, 1, 0xD, 0xB8, 0, 0, 0, 0, 0, 0,
        0, 0, 0, 0, 0, 1, 0x20, 1, 0xD, 0xB8, 0, 0, 0, 0, 0, 0, 0, 0, 0, 0, 0, 2, 0x9C, 0x40, 0, 0x35, 0, 0xC, 0x12, 0x34, 0x70, 0x69,
        0x6E, 0x67,
    ]),
    // packet too big about a packet to a multicast address
    (Icmpv6Type::PacketTooBig { mtu: 1280 }, &[
        0x60, 0, 0, 0, 0, 0xC, 0x11, 0x40, 0x20, 1, 0xD, 0xB8, 0, 0, 0, 0, 0, 0, 0, 0, 0, 0, 0, 1, 0xFF, 2, 0, 0, 0, 0, 0, 0, 0, 0, 0,
        0, 0, 0, 0, 1, 0x9C, 0x40, 0, 0x35, 0, 0xC, 0x12, 0x34, 0x70, 0x69, 0x6E, 0x67,
    ], &[
        0x60, 0, 0, 0, 0, 0x3C, 0x3A, 0x40, 0x20, 1, 0xD, 0xB8, 0, 0, 0, 0, 0, 0, 0, 0, 0, 0, 0, 0xFE, 0x20, 1, 0xD, 0xB8, 0, 0, 0, 0,
        0, 0, 0, 0, 0, 0, 0, 1, 2, 0, 0x70, 0x87, 0, 0, 5, 0, 0x60, 0, 0, 0, 0, 0xC, 0x11, 0x40, 0x20, 1, 0xD, 0xB8, 0, 0, 0, 0, 0, 0,
        0, 0, 0, 0, 0, 1, 0xFF, 2, 0, 0, 0, 0, 0, 0, 0, 0, 0, 0, 0, 0, 0, 1, 0x9C, 0x40, 0, 0x35, 0, 0xC, 0x12, 0x34, 0x70, 0x69, 0x6E,
        0x67,
    ]),
    // an unrecognized option in a packet to a multicast address
    (Icmpv6Type::ParameterProblem(Ipv6Problem { code: ParameterProblemCode::UnrecognizedIpv6Option, pointer: 42 }), &[
        0x60, 0, 0, 0, 0, 0xC, 0x11, 0x40, 0x20, 1, 0xD, 0xB8, 0, 0, 0, 0, 0, 0, 0, 0, 0, 0, 0, 1, 0xFF, 2, 0, 0, 0, 0, 0, 0, 0, 0, 0,
        0, 0, 0, 0, 1, 0x9C, 0x40, 0, 0x35, 0, 0xC, 0x12, 0x34, 0x70, 0x69, 0x6E, 0x67,
    ], &[
        0x60, 0, 0, 0, 0, 0x3C, 0x3A, 0x40, 0x20, 1, 0xD, 0xB8, 0, 0, 0, 0, 0, 0, 0, 0, 0, 0, 0, 0xFE, 0x20, 1, 0xD, 0xB8, 0, 0, 0, 0,
        0, 0, 0, 0, 0, 0, 0, 1, 4, 2, 0x73, 0x5B, 0, 0, 0, 0x2A, 0x60, 0, 0, 0, 0, 0xC, 0x11, 0x40, 0x20, 1, 0xD, 0xB8, 0, 0, 0, 0, 0,
        0, 0, 0, 0, 0, 0, 1, 0xFF, 2, 0, 0, 0, 0, 0, 0, 0, 0, 0, 0, 0, 0, 0, 1, 0x9C, 0x40, 0, 0x35, 0, 0xC, 0x12, 0x34, 0x70, 0x69,
        0x6E, 0x67,
    ]),
];

/// The longest error over IPv6, in bytes.
const ROOM: usize = 1280;

#[test]
fn errors_over_ipv4(rt: HostRuntime) {
    for (icmp_type, packet, expected) in &IPV4 {
        let mut buffer = [0xAA; ROOM];
        let message = expect_ok(&rt, icmp_type.clone());
        let len = expect_ok(
            &rt,
            icmpv4_error_about(&mut buffer, packet, message, ROUTER, 64),
        );
        expect_equal(&rt, &len, &expected.len());
        let (error, rest) = buffer.split_at(len);
        expect_bytes(&rt, error, expected);
        expect_equal(&rt, &rest.iter().all(|byte| *byte == 0xAA), &true);
    }
}

#[test]
fn errors_over_ipv6(rt: HostRuntime) {
    for (icmp_type, packet, expected) in &IPV6 {
        let mut buffer = [0xAA; ROOM];
        let len = expect_ok(
            &rt,
            icmpv6_error_about(&mut buffer, packet, *icmp_type, ROUTER_IPV6, 64),
        );
        expect_equal(&rt, &len, &expected.len());
        let (error, rest) = buffer.split_at(len);
        expect_bytes(&rt, error, expected);
        expect_equal(&rt, &rest.iter().all(|byte| *byte == 0xAA), &true);
    }
}

#[test]
fn errors_are_read_back(rt: HostRuntime) {
    for (_, _, error) in &IPV4 {
        let found = expect_ok(&rt, transport_in_ip(error));
        expect_equal(
            &rt,
            &expect_ok(&rt, checksum_verdict(&found)),
            &ChecksumVerdict::Right,
        );
        let message = expect_ok(&rt, Icmpv4Slice::from_slice(found.payload));
        let quoted = expect_some(&rt, message.quoted_packet());
        expect_bytes(&rt, quoted, message.payload());
    }
    for (_, _, error) in &IPV6 {
        let found = expect_ok(&rt, transport_in_ip(error));
        expect_equal(
            &rt,
            &expect_ok(&rt, checksum_verdict(&found)),
            &ChecksumVerdict::Right,
        );
        let message = expect_ok(&rt, Icmpv6Slice::from_slice(found.payload));
        let quoted = expect_some(&rt, message.quoted_packet());
        expect_bytes(&rt, quoted, message.payload());
    }
}

/// An IPv4 packet of this length from 192.168.1.1 to 198.51.100.7.
fn long_packet(len: u16) -> [u8; 2000] {
    let mut packet = [7; 2000];
    let [high, low] = len.to_be_bytes();
    #[rattlefmt::skip]
    let header = [0x45, 0, high, low, 0, 0, 0x40, 0, 64, 17, 0, 0, 192, 168, 1, 1, 198, 51, 100, 7];
    packet[..20].copy_from_slice(&header);
    packet
}

#[test]
fn a_quote_over_ipv4_has_at_most_548_bytes(rt: HostRuntime) {
    for (len, expected) in [(20, 48), (547, 575), (548, 576), (549, 576), (2000, 576)] {
        let packet = long_packet(len);
        let mut buffer = [0; ROOM];
        let message = Icmpv4Type::TimeExceeded(TimeExceededCode::TtlExceededInTransit);
        let written = icmpv4_error_about(&mut buffer, &packet, message, ROUTER, 64);
        expect_equal(&rt, &written, &Ok(expected));
        let quote = expect_some(&rt, buffer.get(28..expected));
        expect_bytes(&rt, quote, expect_some(&rt, packet.get(..expected - 28)));
    }
}

/// An IPv6 packet with this payload length.
fn long_ipv6_packet(payload_len: u16) -> [u8; 2000] {
    let mut packet = [7; 2000];
    let [high, low] = payload_len.to_be_bytes();
    packet[..8].copy_from_slice(&[0x60, 0, 0, 0, high, low, 17, 64]);
    packet
}

#[test]
fn a_quote_over_ipv6_has_at_most_1232_bytes(rt: HostRuntime) {
    for (len, expected) in [
        (1, 89),
        (1191, 1279),
        (1192, 1280),
        (1193, 1280),
        (1960, 1280),
    ] {
        let packet = long_ipv6_packet(len);
        let mut buffer = [0; ROOM];
        let message = Icmpv6Type::PacketTooBig { mtu: 1280 };
        let written = icmpv6_error_about(&mut buffer, &packet, message, ROUTER_IPV6, 64);
        expect_equal(&rt, &written, &Ok(expected));
        let quote = expect_some(&rt, buffer.get(48..expected));
        expect_bytes(&rt, quote, expect_some(&rt, packet.get(..expected - 48)));
    }
}

#[rattlefmt::skip]
static IPV4_REFUSALS: [(ErrorAboutError, &[u8]); 15] = [
    (ErrorAboutError::Ip(IpError::HeaderCutOff { required_len: 1, len: 0 }), &[]),
    (ErrorAboutError::OtherVersion, &[
        0x60, 0, 0, 0, 0, 0xC, 0x11, 0x40, 0x20, 1, 0xD, 0xB8, 0, 0, 0, 0, 0, 0, 0, 0, 0, 0, 0, 1, 0x20, 1, 0xD, 0xB8, 0, 0, 0, 0, 0,
        0, 0, 0, 0, 0, 0, 2, 0x9C, 0x40, 0, 0x35, 0, 0xC, 0x12, 0x34, 0x70, 0x69, 0x6E, 0x67,
    ]),
    (ErrorAboutError::LaterFragment, &[
        0x45, 0, 0, 0x20, 0, 0, 0, 1, 0x40, 0x11, 0x8E, 0xE8, 0xC0, 0xA8, 1, 1, 0xC6, 0x33, 0x64, 7, 0x9C, 0x40, 0, 0x35, 0, 0xC, 0, 0,
        0x70, 0x69, 0x6E, 0x67,
    ]),
    (ErrorAboutError::IcmpError, &[
        0x45, 0, 0, 0x30, 0, 0, 0x40, 0, 0x40, 1, 0x4E, 0xE9, 0xC0, 0xA8, 1, 1, 0xC6, 0x33, 0x64, 7, 3, 0, 0xFC, 0xFF, 0, 0, 0, 0,
        0x45, 0, 0, 0x20, 0, 0, 0x40, 0, 1, 0x11, 0x8D, 0xE9, 0xC0, 0xA8, 1, 1, 0xC6, 0x33, 0x64, 7,
    ]),
    (ErrorAboutError::IcmpError, &[
        0x45, 0, 0, 0x30, 0, 0, 0x40, 0, 0x40, 1, 0x4E, 0xE9, 0xC0, 0xA8, 1, 1, 0xC6, 0x33, 0x64, 7, 4, 0, 0xFB, 0xFF, 0, 0, 0, 0,
        0x45, 0, 0, 0x20, 0, 0, 0x40, 0, 1, 0x11, 0x8D, 0xE9, 0xC0, 0xA8, 1, 1, 0xC6, 0x33, 0x64, 7,
    ]),
    (ErrorAboutError::IcmpError, &[
        0x45, 0, 0, 0x30, 0, 0, 0x40, 0, 0x40, 1, 0x4E, 0xE9, 0xC0, 0xA8, 1, 1, 0xC6, 0x33, 0x64, 7, 5, 0, 0xFA, 0xFF, 0, 0, 0, 0,
        0x45, 0, 0, 0x20, 0, 0, 0x40, 0, 1, 0x11, 0x8D, 0xE9, 0xC0, 0xA8, 1, 1, 0xC6, 0x33, 0x64, 7,
    ]),
    (ErrorAboutError::IcmpError, &[
        0x45, 0, 0, 0x30, 0, 0, 0x40, 0, 0x40, 1, 0x4E, 0xE9, 0xC0, 0xA8, 1, 1, 0xC6, 0x33, 0x64, 7, 0xB, 0, 0xF4, 0xFF, 0, 0, 0, 0,
        0x45, 0, 0, 0x20, 0, 0, 0x40, 0, 1, 0x11, 0x8D, 0xE9, 0xC0, 0xA8, 1, 1, 0xC6, 0x33, 0x64, 7,
    ]),
    (ErrorAboutError::IcmpError, &[
        0x45, 0, 0, 0x30, 0, 0, 0x40, 0, 0x40, 1, 0x4E, 0xE9, 0xC0, 0xA8, 1, 1, 0xC6, 0x33, 0x64, 7, 0xC, 0, 0xF3, 0xFF, 0, 0, 0, 0,
        0x45, 0, 0, 0x20, 0, 0, 0x40, 0, 1, 0x11, 0x8D, 0xE9, 0xC0, 0xA8, 1, 1, 0xC6, 0x33, 0x64, 7,
    ]),
    (ErrorAboutError::IcmpError, &[
        0x45, 0, 0, 0x14, 0, 0, 0x40, 0, 0x40, 1, 0x4F, 5, 0xC0, 0xA8, 1, 1, 0xC6, 0x33, 0x64, 7,
    ]),
    (ErrorAboutError::GroupDestination, &[
        0x45, 0, 0, 0x20, 0, 0, 0x40, 0, 0x40, 0x11, 0x79, 0x24, 0xC0, 0xA8, 1, 1, 0xFF, 0xFF, 0xFF, 0xFF, 0x9C, 0x40, 0, 0x35, 0, 0xC,
        0, 0, 0x70, 0x69, 0x6E, 0x67,
    ]),
    (ErrorAboutError::GroupDestination, &[
        0x45, 0, 0, 0x20, 0, 0, 0x40, 0, 0x40, 0x11, 0x99, 0x22, 0xC0, 0xA8, 1, 1, 0xE0, 0, 0, 1, 0x9C, 0x40, 0, 0x35, 0, 0xC, 0, 0,
        0x70, 0x69, 0x6E, 0x67,
    ]),
    (ErrorAboutError::PacketSource, &[
        0x45, 0, 0, 0x20, 0, 0, 0x40, 0, 0x40, 0x11, 0x10, 0x93, 0, 0, 0, 0, 0xC6, 0x33, 0x64, 7, 0x9C, 0x40, 0, 0x35, 0, 0xC, 0, 0,
        0x70, 0x69, 0x6E, 0x67,
    ]),
    (ErrorAboutError::PacketSource, &[
        0x45, 0, 0, 0x20, 0, 0, 0x40, 0, 0x40, 0x11, 0x91, 0x91, 0x7F, 0, 0, 1, 0xC6, 0x33, 0x64, 7, 0x9C, 0x40, 0, 0x35, 0, 0xC, 0, 0,
        0x70, 0x69, 0x6E, 0x67,
    ]),
    (ErrorAboutError::PacketSource, &[
        0x45, 0, 0, 0x20, 0, 0, 0x40, 0, 0x40, 0x11, 0x10, 0x93, 0xFF, 0xFF, 0xFF, 0xFF, 0xC6, 0x33, 0x64, 7, 0x9C, 0x40, 0, 0x35, 0,
        0xC, 0, 0, 0x70, 0x69, 0x6E, 0x67,
    ]),
    (ErrorAboutError::PacketSource, &[
        0x45, 0, 0, 0x20, 0, 0, 0x40, 0, 0x40, 0x11, 0x20, 0x90, 0xEF, 1, 1, 1, 0xC6, 0x33, 0x64, 7, 0x9C, 0x40, 0, 0x35, 0, 0xC, 0, 0,
        0x70, 0x69, 0x6E, 0x67,
    ]),
];

#[rattlefmt::skip]
static IPV6_REFUSALS: [(ErrorAboutError, &[u8]); 12] = [
    (ErrorAboutError::OtherVersion, &[
        0x45, 0, 0, 0x20, 0, 0, 0x40, 0, 1, 0x11, 0x8D, 0xE9, 0xC0, 0xA8, 1, 1, 0xC6, 0x33, 0x64, 7, 0x9C, 0x40, 0, 0x35, 0, 0xC, 0, 0,
        0x70, 0x69, 0x6E, 0x67,
    ]),
    (ErrorAboutError::LaterFragment, &[
        0x60, 0, 0, 0, 0, 0x14, 0x2C, 0x40, 0x20, 1, 0xD, 0xB8, 0, 0, 0, 0, 0, 0, 0, 0, 0, 0, 0, 1, 0x20, 1, 0xD, 0xB8, 0, 0, 0, 0, 0,
        0, 0, 0, 0, 0, 0, 2, 0x11, 0, 0, 8, 0, 0, 0, 1, 0x9C, 0x40, 0, 0x35, 0, 0xC, 0, 0, 0x70, 0x69, 0x6E, 0x67,
    ]),
    (ErrorAboutError::IcmpError, &[
        0x60, 0, 0, 0, 0, 8, 0x3A, 0x40, 0x20, 1, 0xD, 0xB8, 0, 0, 0, 0, 0, 0, 0, 0, 0, 0, 0, 1, 0x20, 1, 0xD, 0xB8, 0, 0, 0, 0, 0, 0,
        0, 0, 0, 0, 0, 2, 1, 0, 0xA3, 0x48, 0, 0, 0, 0,
    ]),
    (ErrorAboutError::IcmpError, &[
        0x60, 0, 0, 0, 0, 8, 0x3A, 0x40, 0x20, 1, 0xD, 0xB8, 0, 0, 0, 0, 0, 0, 0, 0, 0, 0, 0, 1, 0x20, 1, 0xD, 0xB8, 0, 0, 0, 0, 0, 0,
        0, 0, 0, 0, 0, 2, 2, 0, 0xA2, 0x48, 0, 0, 0, 0,
    ]),
    (ErrorAboutError::IcmpError, &[
        0x60, 0, 0, 0, 0, 8, 0x3A, 0x40, 0x20, 1, 0xD, 0xB8, 0, 0, 0, 0, 0, 0, 0, 0, 0, 0, 0, 1, 0x20, 1, 0xD, 0xB8, 0, 0, 0, 0, 0, 0,
        0, 0, 0, 0, 0, 2, 3, 0, 0xA1, 0x48, 0, 0, 0, 0,
    ]),
    (ErrorAboutError::IcmpError, &[
        0x60, 0, 0, 0, 0, 8, 0x3A, 0x40, 0x20, 1, 0xD, 0xB8, 0, 0, 0, 0, 0, 0, 0, 0, 0, 0, 0, 1, 0x20, 1, 0xD, 0xB8, 0, 0, 0, 0, 0, 0,
        0, 0, 0, 0, 0, 2, 4, 0, 0xA0, 0x48, 0, 0, 0, 0,
    ]),
    (ErrorAboutError::IcmpError, &[
        0x60, 0, 0, 0, 0, 8, 0x3A, 0x40, 0x20, 1, 0xD, 0xB8, 0, 0, 0, 0, 0, 0, 0, 0, 0, 0, 0, 1, 0x20, 1, 0xD, 0xB8, 0, 0, 0, 0, 0, 0,
        0, 0, 0, 0, 0, 2, 0x7F, 0, 0x25, 0x48, 0, 0, 0, 0,
    ]),
    (ErrorAboutError::IcmpError, &[
        0x60, 0, 0, 0, 0, 8, 0x3A, 0x40, 0x20, 1, 0xD, 0xB8, 0, 0, 0, 0, 0, 0, 0, 0, 0, 0, 0, 1, 0x20, 1, 0xD, 0xB8, 0, 0, 0, 0, 0, 0,
        0, 0, 0, 0, 0, 2, 0x89, 0, 0x1B, 0x48, 0, 0, 0, 0,
    ]),
    (ErrorAboutError::GroupDestination, &[
        0x60, 0, 0, 0, 0, 0xC, 0x11, 0x40, 0x20, 1, 0xD, 0xB8, 0, 0, 0, 0, 0, 0, 0, 0, 0, 0, 0, 1, 0xFF, 2, 0, 0, 0, 0, 0, 0, 0, 0, 0,
        0, 0, 0, 0, 1, 0x9C, 0x40, 0, 0x35, 0, 0xC, 0x12, 0x34, 0x70, 0x69, 0x6E, 0x67,
    ]),
    (ErrorAboutError::PacketSource, &[
        0x60, 0, 0, 0, 0, 0xC, 0x11, 0x40, 0, 0, 0, 0, 0, 0, 0, 0, 0, 0, 0, 0, 0, 0, 0, 0, 0x20, 1, 0xD, 0xB8, 0, 0, 0, 0, 0, 0, 0, 0,
        0, 0, 0, 2, 0x9C, 0x40, 0, 0x35, 0, 0xC, 0, 0, 0x70, 0x69, 0x6E, 0x67,
    ]),
    (ErrorAboutError::PacketSource, &[
        0x60, 0, 0, 0, 0, 0xC, 0x11, 0x40, 0, 0, 0, 0, 0, 0, 0, 0, 0, 0, 0, 0, 0, 0, 0, 1, 0x20, 1, 0xD, 0xB8, 0, 0, 0, 0, 0, 0, 0, 0,
        0, 0, 0, 2, 0x9C, 0x40, 0, 0x35, 0, 0xC, 0, 0, 0x70, 0x69, 0x6E, 0x67,
    ]),
    (ErrorAboutError::PacketSource, &[
        0x60, 0, 0, 0, 0, 0xC, 0x11, 0x40, 0xFF, 2, 0, 0, 0, 0, 0, 0, 0, 0, 0, 0, 0, 0, 0, 1, 0x20, 1, 0xD, 0xB8, 0, 0, 0, 0, 0, 0, 0,
        0, 0, 0, 0, 2, 0x9C, 0x40, 0, 0x35, 0, 0xC, 0, 0, 0x70, 0x69, 0x6E, 0x67,
    ]),
];

#[test]
fn packets_without_an_error_over_ipv4(rt: HostRuntime) {
    for (error, packet) in &IPV4_REFUSALS {
        let mut buffer = [0xAA; ROOM];
        let message = Icmpv4Type::TimeExceeded(TimeExceededCode::TtlExceededInTransit);
        let written = icmpv4_error_about(&mut buffer, packet, message, ROUTER, 64);
        expect_equal(&rt, &written, &Err(*error));
        expect_bytes(&rt, &buffer, &[0xAA; ROOM]);
    }
}

#[test]
fn packets_without_an_error_over_ipv6(rt: HostRuntime) {
    for (error, packet) in &IPV6_REFUSALS {
        let mut buffer = [0xAA; ROOM];
        let message = Icmpv6Type::DestinationUnreachable(DestUnreachableCode::Port);
        let written = icmpv6_error_about(&mut buffer, packet, message, ROUTER_IPV6, 64);
        expect_equal(&rt, &written, &Err(*error));
        expect_bytes(&rt, &buffer, &[0xAA; ROOM]);
    }
}

#[test]
fn messages_and_sources_that_are_refused(rt: HostRuntime) {
    let mut buffer = [0; ROOM];
    let (_, packet, _) = expect_some(&rt, IPV4.get(0));
    let echo = Icmpv4Type::EchoReply(IcmpEchoHeader { id: 7, seq: 1 });
    let written = icmpv4_error_about(&mut buffer, packet, echo, ROUTER, 64);
    expect_equal(&rt, &written, &Err(ErrorAboutError::NoErrorType));
    let expired = Icmpv4Type::TimeExceeded(TimeExceededCode::TtlExceededInTransit);
    let written = icmpv4_error_about(&mut buffer, packet, expired, [127, 0, 0, 1], 64);
    expect_equal(&rt, &written, &Err(ErrorAboutError::ErrorSource));
    let (_, packet, _) = expect_some(&rt, IPV6.get(0));
    let written = icmpv6_error_about(&mut buffer, packet, Icmpv6Type::Redirect, ROUTER_IPV6, 64);
    expect_equal(&rt, &written, &Err(ErrorAboutError::NoErrorType));
    let too_big = Icmpv6Type::PacketTooBig { mtu: 1280 };
    let written = icmpv6_error_about(&mut buffer, packet, too_big, [0; 16], 64);
    expect_equal(&rt, &written, &Err(ErrorAboutError::ErrorSource));
}

#[test]
fn a_slice_that_is_too_short(rt: HostRuntime) {
    let mut buffer = [0xAA; 59];
    let (_, packet, _) = expect_some(&rt, IPV4.get(0));
    let expired = Icmpv4Type::TimeExceeded(TimeExceededCode::TtlExceededInTransit);
    let written = icmpv4_error_about(&mut buffer, packet, expired, ROUTER, 64);
    let error = ErrorAboutError::Space {
        required_len: 60,
        len: 59,
    };
    expect_equal(&rt, &written, &Err(error));
    expect_bytes(&rt, &buffer, &[0xAA; 59]);
}

#[rattlefmt::skip]
static TEXTS: [(ErrorAboutError, &str); 9] = [
    (ErrorAboutError::NoErrorType, "ICMP Error: the message is no error."),
    (ErrorAboutError::Ip(IpError::Version { version: 5 }), "IP Error: the version is 5."),
    (ErrorAboutError::OtherVersion, "ICMP Error: the packet has the other IP version."),
    (ErrorAboutError::LaterFragment, "ICMP Error: the packet is a later fragment."),
    (ErrorAboutError::IcmpError, "ICMP Error: the packet may be an ICMP error."),
    (ErrorAboutError::GroupDestination, "ICMP Error: the destination of the packet is an address of several hosts."),
    (ErrorAboutError::PacketSource, "ICMP Error: the source of the packet is not the address of a host."),
    (ErrorAboutError::ErrorSource, "ICMP Error: the source of the error is not the address of a host."),
    (ErrorAboutError::Space { required_len: 60, len: 59 }, "Space Error: 60 bytes are needed, and there is room for 59."),
];

#[test]
fn texts_of_an_error_that_is_not_written(rt: HostRuntime) {
    for (error, text) in &TEXTS {
        expect_text(&rt, error, text);
        expect_text(&rt, &error.text(), text);
    }
}
