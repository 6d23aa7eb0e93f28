//! Tests of the crate `ip_part`.

mod jumbograms;
mod sweeps;

use crate::expect::{
    bytes_between, bytes_from, bytes_to, expect_at, expect_clone, expect_debug_text, expect_equal,
    expect_ok, expect_some, expect_text,
};
use etherparse_transport::ip::{
    FixedHeader, IpAddresses, IpError, TransportInIp, fixed_header, transport_in_ip,
    transport_in_ip_lax,
};
use etherparse_transport::{IpNumber, ip_number};
use ip_part::has_unexpired_source_route;
use std::fmt::Debug;
use std::process::Abort;

/// The fixed part of an IPv4 header with this protocol, from 10.0.0.1 to 10.0.0.2.
fn fixed_ipv4(protocol: IpNumber) -> FixedHeader<'static> {
    FixedHeader::Ipv4 {
        source: &[10, 0, 0, 1],
        destination: &[10, 0, 0, 2],
        time_to_live: 64,
        protocol,
    }
}

/// The payload of a whole UDP packet over IPv4, from 10.0.0.1 to 10.0.0.2.
fn over_ipv4(payload: &[u8]) -> TransportInIp<'_> {
    TransportInIp {
        addresses: IpAddresses::Ipv4 {
            source: &[10, 0, 0, 1],
            destination: &[10, 0, 0, 2],
        },
        protocol: ip_number::UDP,
        payload,
        payload_offset: 20,
        is_fragment: false,
        is_later_fragment: false,
        is_cut_off: false,
        is_length_missing: false,
        fixed_header: fixed_ipv4(ip_number::UDP),
        header_len: 20,
        counted_len: 20 + payload.len(),
    }
}

/// An IPv4 header of five words with this total length and these bytes 6 and 7; a UDP packet of 11 bytes; and 15 bytes of padding.
fn ipv4_packet(total_len: u8, fragment_bytes: [u8; 2]) -> [u8; 46] {
    let [flags, offset] = fragment_bytes;
    [
        0x45, 0, 0, total_len, 0, 1, flags, offset, 64, 17, 0, 0, 10, 0, 0, 1, 10, 0, 0, 2, // IPv4
        0, 53, 4, 210, 0, 11, 0, 0, 97, 98, 99, // UDP
        0, 0, 0, 0, 0, 0, 0, 0, 0, 0, 0, 0, 0, 0, 0,
    ]
}

/// What the two calls find in this packet.
fn found_by_both<'a>(rt: &impl Abort, packet: &'a [u8]) -> (TransportInIp<'a>, TransportInIp<'a>) {
    (
        expect_ok(rt, transport_in_ip(packet)),
        expect_ok(rt, transport_in_ip_lax(packet)),
    )
}

/// Both calls find this in the packet.
fn expect_both<K: Debug>(rt: &impl Abort, key: &K, packet: &[u8], expected: &TransportInIp<'_>) {
    expect_at(rt, key, &expect_ok(rt, transport_in_ip(packet)), expected);
    expect_at(
        rt,
        key,
        &expect_ok(rt, transport_in_ip_lax(packet)),
        expected,
    );
}

/// The total length, bytes 6 and 7, and whether the packet is a fragment.
type Ipv4Row = (u8, [u8; 2], bool);

static OVER_IPV4: [Ipv4Row; 8] = [
    (46, [0x40, 0], false),
    (31, [0x40, 0], false),
    (30, [0x40, 0], false),
    (20, [0x40, 0], false),
    (31, [0x80, 0], false),
    (31, [0x20, 0], true),
    (31, [0, 1], true),
    (31, [0x20, 1], true),
];

/// Both calls find the UDP packet of a row.
fn expect_over_ipv4(rt: &impl Abort, row: &Ipv4Row) {
    let (total_len, fragment_bytes, is_fragment) = *row;
    let packet = ipv4_packet(total_len, fragment_bytes);
    let expected = TransportInIp {
        is_fragment,
        is_later_fragment: fragment_bytes[1] != 0,
        ..over_ipv4(bytes_between(rt, &packet, 20, usize::from(total_len)))
    };
    expect_both(rt, row, &packet, &expected);
}

#[test]
fn ipv4_packets_carry_their_transport(rt: HostRuntime) {
    for row in &OVER_IPV4 {
        expect_over_ipv4(&rt, row);
    }
    let mut with_options = ipv4_packet(31, [0x40, 0]);
    with_options[0] = 0x46;
    expect_with_options(&rt, &with_options);
    expect_cut_off(&rt, &ipv4_packet(47, [0x40, 0]));
}

/// The header of the packet has six words.
fn expect_with_options(rt: &impl Abort, packet: &[u8]) {
    let mut expected = over_ipv4(bytes_between(rt, packet, 24, 31));
    expected.payload_offset = 24;
    expected.header_len = 24;
    expected.counted_len = 31;
    let found = expect_ok(rt, transport_in_ip(packet));
    expect_equal(rt, &found, &expected);
}

/// The packet is cut off.
fn expect_cut_off(rt: &impl Abort, packet: &[u8]) {
    let mut expected = over_ipv4(bytes_from(rt, packet, 20));
    expected.is_cut_off = true;
    expected.counted_len = 47;
    let found = expect_ok(rt, transport_in_ip_lax(packet));
    expect_equal(rt, &found, &expected);
    expect_equal(rt, &found.missing_len(), &1);
}

/// Both calls refuse these bytes by this error.
fn expect_refusal(rt: &impl Abort, packet: &[u8], error: IpError) {
    expect_error(rt, transport_in_ip(packet), &error);
    expect_error(rt, transport_in_ip_lax(packet), &error);
}

/// The call returned this error.
fn expect_error(rt: &impl Abort, outcome: Result<TransportInIp<'_>, IpError>, error: &IpError) {
    expect_equal(rt, &expect_some(rt, outcome.err()), error);
}

fn header_cut_off(required_len: usize, len: usize) -> IpError {
    IpError::HeaderCutOff { required_len, len }
}

/// The first byte of an IPv4 packet, and the error.
static REFUSED_FIRST_BYTES: [(u8, IpError); 5] = [
    (0x55, IpError::Version { version: 5 }),
    (0x05, IpError::Version { version: 0 }),
    (0x44, IpError::HeaderLength { header_len: 16 }),
    (0x40, IpError::HeaderLength { header_len: 0 }),
    (
        0x4F,
        IpError::HeaderCutOff {
            required_len: 60,
            len: 46,
        },
    ),
];

/// An IPv4 packet that begins with this byte.
fn packet_from(first: u8) -> [u8; 46] {
    let mut packet = ipv4_packet(46, [0, 0]);
    packet[0] = first;
    packet
}

#[test]
fn ipv4_headers_are_refused(rt: HostRuntime) {
    expect_refusal(&rt, &[], header_cut_off(1, 0));
    for (first, error) in &REFUSED_FIRST_BYTES {
        expect_refusal(&rt, &packet_from(*first), *error);
    }
    let packet = ipv4_packet(19, [0, 0]);
    expect_refusal(&rt, bytes_to(&rt, &packet, 19), header_cut_off(20, 19));
    let below_header = IpError::TotalLength {
        total_len: 19,
        header_len: 20,
    };
    expect_refusal(&rt, &packet, below_header);
    let beyond = IpError::PacketCutOff {
        required_len: 47,
        len: 46,
    };
    let packet = ipv4_packet(47, [0, 0]);
    expect_error(&rt, transport_in_ip(&packet), &beyond);
}

/// Bytes 6 and 7, the number that an authentication header of 24 bytes names, the protocol, where its payload begins, and whether it is
/// a fragment.
type AuthenticationRow = ([u8; 2], u8, u8, usize, bool);

static AUTHENTICATED: [AuthenticationRow; 7] = [
    ([0x40, 0], 17, 17, 44, false),
    ([0x20, 0], 17, 17, 44, true),
    ([0x20, 1], 17, 51, 20, true),
    ([0, 1], 17, 51, 20, true),
    ([0x40, 0], 51, 51, 44, false),
    ([0x40, 0], 60, 60, 44, false),
    ([0x40, 0], 44, 44, 44, false),
];

/// An IPv4 packet with this total length, these bytes 6 and 7, and an authentication header of 24 bytes that names this number.
fn authenticated_packet(total_len: u8, fragment_bytes: [u8; 2], next: u8) -> [u8; 46] {
    let mut packet = ipv4_packet(total_len, fragment_bytes);
    packet[9] = 51;
    packet[20] = next;
    packet[21] = 4;
    packet
}

/// Both calls find the payload of a row.
fn expect_authenticated(rt: &impl Abort, row: &AuthenticationRow) {
    let (fragment_bytes, next, protocol, start, is_fragment) = *row;
    let packet = authenticated_packet(46, fragment_bytes, next);
    let expected = TransportInIp {
        protocol: IpNumber(protocol),
        payload_offset: start,
        is_fragment,
        is_later_fragment: start == 20,
        fixed_header: fixed_ipv4(ip_number::AUTHENTICATION_HEADER),
        counted_len: 46,
        ..over_ipv4(bytes_from(rt, &packet, start))
    };
    expect_both(rt, row, &packet, &expected);
}

/// A total length, and what the error says of the authentication header: how many bytes it has, and how many are there.
static CUT_OFF_AUTHENTICATION: [(u8, usize, usize); 4] = [
    (43, 24, 23),
    (28, 24, 8),
    (27, 8, 7),
    (20, 8, 0),
];

#[test]
fn authentication_headers_over_ipv4_are_passed_over(rt: HostRuntime) {
    for row in &AUTHENTICATED {
        expect_authenticated(&rt, row);
    }
    for row in &CUT_OFF_AUTHENTICATION {
        expect_cut_off_authentication(&rt, row);
    }
}

/// Both calls refuse the packet of a row.
fn expect_cut_off_authentication(rt: &impl Abort, row: &(u8, usize, usize)) {
    let (total_len, required_len, len) = *row;
    let error = IpError::ExtensionHeaderCutOff {
        protocol: ip_number::AUTHENTICATION_HEADER,
        offset: 20,
        required_len,
        len,
    };
    let packet = authenticated_packet(total_len, [0x40, 0], 0);
    expect_refusal(rt, &packet, error);
}

/// An IPv4 packet with these options, and 8 bytes after them.
fn packet_with_options(options: [u8; 12]) -> [u8; 40] {
    let mut packet = [0; 40];
    packet[..20].copy_from_slice(&ipv4_packet(40, [0, 0])[..20]);
    packet[0] = 0x48;
    packet[20..32].copy_from_slice(&options);
    packet
}

/// 12 bytes of options, and the last byte of the destination: of the header's 10.0.0.2, and of the routes 10.0.0.3 and 10.0.0.4.
type RouteRow = ([u8; 12], u8);

static SOURCE_ROUTES: [RouteRow; 20] = [
    ([131, 7, 4, 10, 0, 0, 3, 0, 0, 0, 0, 0], 3),
    ([137, 11, 4, 10, 0, 0, 3, 10, 0, 0, 4, 0], 4),
    ([131, 11, 8, 10, 0, 0, 3, 10, 0, 0, 4, 0], 4),
    ([131, 11, 9, 10, 0, 0, 3, 10, 0, 0, 4, 0], 2),
    ([131, 11, 10, 10, 0, 0, 3, 10, 0, 0, 4, 0], 2),
    ([137, 11, 11, 10, 0, 0, 3, 10, 0, 0, 4, 0], 2),
    ([131, 7, 5, 10, 0, 0, 3, 0, 0, 0, 0, 0], 2),
    ([131, 7, 6, 10, 0, 0, 3, 0, 0, 0, 0, 0], 2),
    ([137, 7, 7, 10, 0, 0, 3, 0, 0, 0, 0, 0], 2),
    ([131, 11, 12, 10, 0, 0, 3, 10, 0, 0, 4, 0], 2),
    ([137, 11, 255, 10, 0, 0, 3, 10, 0, 0, 4, 0], 2),
    ([131, 11, 3, 10, 0, 0, 3, 10, 0, 0, 4, 0], 2),
    ([7, 11, 4, 10, 0, 0, 3, 10, 0, 0, 4, 0], 2),
    ([1, 148, 4, 0, 0, 137, 7, 4, 10, 0, 0, 3], 3),
    ([0, 148, 4, 0, 0, 137, 7, 4, 10, 0, 0, 3], 2),
    ([1, 148, 1, 1, 1, 137, 7, 4, 10, 0, 0, 3], 2),
    ([131, 3, 4, 1, 1, 137, 7, 4, 10, 0, 0, 3], 2),
    ([131, 8, 4, 10, 0, 0, 3, 10, 0, 0, 0, 0], 2),
    ([131, 13, 4, 10, 0, 0, 3, 10, 0, 0, 4, 0], 2),
    ([1, 1, 1, 1, 1, 1, 1, 1, 1, 1, 1, 131], 2),
];

/// A whole UDP packet whose checksum is right for the last address of its loose source route.
#[rattlefmt::skip]
static ROUTED: [u8; 36] = [
    0x47, 0, 0, 36, 0, 0, 0, 0, 64, 17, 0xDA, 0xB5, 10, 0, 0, 1, 10, 0, 0, 2, // IPv4
    131, 7, 4, 10, 0, 0, 3, 0, // a loose source route, and the end of the list
    0, 1, 0, 2, 0, 8, 0xEB, 0xD7, // UDP
];

/// Both calls find the last address of a row.
fn expect_routed(rt: &impl Abort, row: &RouteRow) {
    let packet = packet_with_options(row.0);
    let destination = [10, 0, 0, row.1];
    let expected = TransportInIp {
        addresses: IpAddresses::Ipv4 {
            source: &[10, 0, 0, 1],
            destination: &destination,
        },
        payload_offset: 32,
        header_len: 32,
        counted_len: packet.len(),
        ..over_ipv4(bytes_from(rt, &packet, 32))
    };
    expect_both(rt, row, &packet, &expected);
}

#[test]
fn source_routes_are_followed(rt: HostRuntime) {
    for row in &SOURCE_ROUTES {
        expect_routed(&rt, row);
    }
    let transport = expect_ok(&rt, transport_in_ip(&ROUTED));
    let addresses = IpAddresses::Ipv4 {
        source: &[10, 0, 0, 1],
        destination: &[10, 0, 0, 3],
    };
    expect_equal(&rt, &transport.addresses, &addresses);
}

/// Options, and whether they contain a source route that is not at its end.
#[rattlefmt::skip]
static UNEXPIRED_ROUTES: [(&[u8], bool); 14] = [
    (&[], false), (&[1, 7, 3, 4], false),
    // Pointers to the last address, to the last byte, and after the route.
    (&[131, 7, 4, 1, 2, 3, 4, 0], true), (&[137, 7, 7, 1, 2, 3, 4, 0], true), (&[131, 7, 8, 1, 2, 3, 4, 0], false),
    (&[137, 7, 255, 1, 2, 3, 4, 0], false),
    // Routes without an address, and without a pointer.
    (&[131, 3, 3, 0], true), (&[131, 3, 4, 0], false), (&[137, 2, 4, 0], true),
    // A second route, and a route after another option.
    (&[131, 3, 4, 137, 3, 3, 0, 0], true), (&[1, 7, 3, 4, 131, 3, 3, 0], true),
    // A route after the end of the list, after an option of length 1, and beyond the bytes.
    (&[0, 131, 3, 3], false), (&[7, 1, 131, 3, 3, 0, 0, 0], false), (&[131, 5, 4, 0], false),
];

#[test]
fn source_routes_expire(rt: HostRuntime) {
    for (options, is_unexpired) in &UNEXPIRED_ROUTES {
        expect_at(
            &rt,
            options,
            &has_unexpired_source_route(options),
            is_unexpired,
        );
    }
}

#[test]
fn ipv6_headers_are_refused(rt: HostRuntime) {
    let (mut packet, _) = ipv6_packet(58, &[]);
    expect_refusal(&rt, bytes_to(&rt, &packet, 39), header_cut_off(40, 39));
    packet[5] = 65;
    let beyond = IpError::PacketCutOff {
        required_len: 105,
        len: 104,
    };
    expect_error(&rt, transport_in_ip(&packet), &beyond);
}

/// An IPv6 header with this next header, then these bytes, at most 64, and the length of both together.
fn ipv6_packet(next_header: u8, after: &[u8]) -> ([u8; 104], usize) {
    let mut packet = [0; 104];
    packet[0] = 0x60;
    packet[6] = next_header;
    packet[7] = 64;
    packet[8..24].copy_from_slice(&[1; 16]);
    packet[24..40].copy_from_slice(&[2; 16]);
    let len = after.len().min(64);
    packet[5] = u8::try_from(len).unwrap_or(0);
    packet[40..40 + len].copy_from_slice(&after[..len]);
    (packet, 40 + len)
}

/// Source and final destination of an IPv6 packet.
fn ipv6_addresses(addresses: IpAddresses<'_>) -> Option<([u8; 16], Option<[u8; 16]>)> {
    match addresses {
        IpAddresses::Ipv6 {
            source,
            destination,
        } => Some((*source, destination.copied())),
        IpAddresses::Ipv4 { .. } => None,
    }
}

/// What an IPv6 packet carries: the protocol, the place where its payload begins, and whether it is a fragment.
type Carried = (u8, usize, bool);

/// The next header of an IPv6 packet, the bytes after its header, and what it carries.
type Ipv6Row = (u8, &'static [u8], Carried);

/// The packet is read as one with this final destination and with this payload, and is neither cut off nor without a length.
fn expect_read(
    rt: &impl Abort,
    key: (u8, &[u8]),
    found: TransportInIp<'_>,
    carried: Carried,
    destination: Option<[u8; 16]>,
) {
    let addresses = ipv6_addresses(found.addresses);
    let expected = Some(([1; 16], destination));
    expect_at(rt, &key, &addresses, &expected);
    let read = (found.protocol.0, found.payload_offset, found.is_fragment);
    expect_at(rt, &key, &read, &carried);
    let flags = (found.is_cut_off, found.is_length_missing);
    expect_at(rt, &key, &flags, &(false, false));
}

/// Over IPv6 these bytes carry this payload, with this final destination.
fn expect_found(
    rt: &impl Abort,
    key: (u8, &[u8]),
    carried: Carried,
    destination: Option<[u8; 16]>,
) {
    let (packet, len) = ipv6_packet(key.0, key.1);
    let (strict, lax) = found_by_both(rt, &packet);
    expect_read(rt, key, strict, carried, destination);
    expect_read(rt, key, lax, carried, destination);
    let payload = bytes_between(rt, &packet, carried.1, len);
    expect_at(rt, &key, &strict.payload, &payload);
    expect_at(rt, &key, &lax.payload, &payload);
}

#[rattlefmt::skip]
static OVER_IPV6: [Ipv6Row; 18] = [
    (58, &[128, 0, 0, 0, 0, 1, 0, 2], (58, 40, false)),
    (17, &[9, 9, 9, 9, 9, 9, 9, 9, 9, 9, 9, 9], (17, 40, false)),
    (50, &[9, 9, 9, 9, 9, 9, 9, 9, 9, 9, 9, 9], (50, 40, false)),
    (59, &[9, 9, 9, 9, 9, 9, 9, 9, 9, 9, 9, 9], (59, 40, false)),
    (253, &[9, 9, 9, 9, 9, 9, 9, 9, 9, 9, 9, 9], (253, 40, false)),
    (254, &[9, 9, 9, 9, 9, 9, 9, 9, 9, 9, 9, 9], (254, 40, false)),
    // hop-by-hop options of 8 bytes, destination options of 16
    (0, &[60, 0, 1, 4, 0, 0, 0, 0, 17, 1, 1, 12, 0, 0, 0, 0, 0, 0, 0, 0, 0, 0, 0, 0, 0, 53], (17, 64, false)),
    // a mobility header of 16 bytes
    (135, &[59, 1, 5, 0, 0, 0, 0, 0, 0, 0, 0, 0, 0, 0, 0, 0], (59, 56, false)),
    // headers of 16 bytes of the Host Identity Protocol and of Shim6
    (139, &[17, 1, 0, 0, 0, 0, 0, 0, 0, 0, 0, 0, 0, 0, 0, 0, 0, 53], (17, 56, false)),
    (140, &[17, 1, 0, 0, 0, 0, 0, 0, 0, 0, 0, 0, 0, 0, 0, 0, 0, 53], (17, 56, false)),
    // an authentication header of 24 bytes, which are six words
    (51, &[17, 4, 7, 7, 7, 7, 7, 7, 7, 7, 7, 7, 7, 7, 7, 7, 7, 7, 7, 7, 7, 7, 7, 7, 7, 7, 7, 7], (17, 64, false)),
    // a fragment header, and destination options or what is in their place
    (44, &[60, 0, 0, 0, 0, 0, 0, 9, 17, 0, 1, 4, 0, 0, 0, 0, 0, 53], (17, 56, false)),
    (44, &[60, 0, 0, 1, 0, 0, 0, 9, 17, 0, 1, 4, 0, 0, 0, 0, 0, 53], (17, 56, true)),
    (44, &[60, 0, 0, 6, 0, 0, 0, 9, 17, 0, 1, 4, 0, 0, 0, 0, 0, 53], (17, 56, false)),
    (44, &[60, 0, 0, 64, 0, 0, 0, 9, 17, 0, 1, 4, 0, 0, 0, 0, 0, 53], (60, 48, true)),
    (44, &[60, 0, 0, 65, 0, 0, 0, 9, 17, 0, 1, 4, 0, 0, 0, 0, 0, 53], (60, 48, true)),
    (44, &[60, 0, 1, 0, 0, 0, 0, 9, 17, 0, 1, 4, 0, 0, 0, 0, 0, 53], (60, 48, true)),
    (44, &[60, 0, 0, 8, 0, 0, 0, 9, 17, 0, 1, 4, 0, 0, 0, 0, 0, 53], (60, 48, true)),
];

#[test]
fn ipv6_packets_carry_their_transport(rt: HostRuntime) {
    for (next_header, after, carried) in &OVER_IPV6 {
        expect_found(&rt, (*next_header, after), *carried, Some([2; 16]));
    }
    // fewer bytes than the header counts
    let (mut packet, _) = ipv6_packet(17, &[9; 64]);
    packet[5] = 65;
    let transport = expect_ok(&rt, transport_in_ip_lax(&packet));
    expect_equal(
        &rt,
        &(transport.payload, transport.is_cut_off),
        &(bytes_from(&rt, &packet, 40), true),
    );
}

/// The length byte of a routing header, its type, the segments left, the place where the payload begins, and the final destination.
type RoutingRow = (u8, u8, u8, usize, Option<[u8; 16]>);

static ROUTING_HEADERS: [RoutingRow; 13] = [
    (4, 0, 1, 80, Some([4; 16])),
    (4, 0, 0, 80, Some([2; 16])),
    (2, 0, 1, 64, Some([3; 16])),
    (0, 0, 1, 48, None),
    (2, 2, 1, 64, Some([3; 16])),
    (2, 2, 0, 64, Some([2; 16])),
    (1, 2, 1, 56, None),
    (4, 4, 1, 80, Some([3; 16])),
    (4, 4, 0, 80, Some([2; 16])),
    (0, 4, 2, 48, None),
    (4, 3, 1, 80, None),
    (4, 3, 0, 80, Some([2; 16])),
    (4, 255, 255, 80, None),
];

/// Both calls find the final destination of a row.
fn expect_final_destination(rt: &impl Abort, row: &RoutingRow) {
    let (length_byte, routing_type, segments_left, start, destination) = *row;
    let mut routing = [3; 48];
    routing[0] = 17;
    routing[1] = length_byte;
    routing[2] = routing_type;
    routing[3] = segments_left;
    routing[24..40].copy_from_slice(&[4; 16]);
    expect_found(rt, (43, &routing), (17, start, false), destination);
}

#[test]
fn final_destinations_are_found(rt: HostRuntime) {
    for row in &ROUTING_HEADERS {
        expect_final_destination(&rt, row);
    }
}

/// The number of options of 22 bytes, their first bytes, each byte of the source, and the final destination. The home address is 16 bytes
/// 7.
type HomeRow = (u8, [u8; 6], u8, Option<[u8; 16]>);

static HOME_ADDRESSES: [HomeRow; 10] = [
    (60, [1, 2, 0, 0, 0xC9, 16], 7, Some([2; 16])),
    (60, [0, 0, 0, 0, 0xC9, 16], 7, Some([2; 16])),
    (60, [0, 1, 1, 0, 0xC9, 16], 7, Some([2; 16])),
    (60, [0, 0, 0, 0xC9, 15, 7], 1, Some([2; 16])),
    (60, [1, 3, 0, 0, 0, 0xC9], 1, Some([2; 16])),
    (60, [0, 0, 0, 0, 0, 0xC9], 1, Some([2; 16])),
    (60, [1, 21, 0, 0, 0xC9, 16], 1, Some([2; 16])),
    (60, [1, 2, 0, 0, 0xC8, 16], 1, Some([2; 16])),
    (0, [1, 2, 0, 0, 0xC9, 16], 1, Some([2; 16])),
    (43, [1, 2, 0, 0, 0xC9, 16], 1, None),
];

/// The addresses of an IPv6 packet with this next header and these bytes after its header, by the strict call.
fn strict_addresses(
    rt: &impl Abort,
    next_header: u8,
    after: &[u8],
) -> Option<([u8; 16], Option<[u8; 16]>)> {
    let (packet, len) = ipv6_packet(next_header, after);
    let transport = expect_ok(rt, transport_in_ip(bytes_to(rt, &packet, len)));
    ipv6_addresses(transport.addresses)
}

/// The strict call finds the addresses of a row.
fn expect_home_address(rt: &impl Abort, row: &HomeRow) {
    let (number, options, source, destination) = *row;
    let mut after = [7; 26];
    after[0] = 17;
    after[1] = 2;
    after[2..8].copy_from_slice(&options);
    let addresses = strict_addresses(rt, number, &after);
    let expected = Some(([source; 16], destination));
    expect_at(rt, row, &addresses, &expected);
}

#[test]
fn home_addresses_are_found(rt: HostRuntime) {
    for row in &HOME_ADDRESSES {
        expect_home_address(&rt, row);
    }
}

#[test]
fn the_last_home_address_counts(rt: HostRuntime) {
    // two home addresses in destination options of 48 bytes, the second of 16 bytes 8
    let mut after = [8; 56];
    after[..8].copy_from_slice(&[17, 5, 1, 2, 0, 0, 0xC9, 16]);
    after[8..24].copy_from_slice(&[7; 16]);
    after[24..30].copy_from_slice(&[1, 2, 0, 0, 0xC9, 16]);
    after[46..48].copy_from_slice(&[1, 0]);
    let addresses = strict_addresses(&rt, 60, &after);
    expect_equal(&rt, &addresses, &Some(([8; 16], Some([2; 16]))));
}

/// The number of the first extension header, and what the error says: the number, the offset, the required length and the length.
type ExtensionRow = (u8, u8, usize, usize, usize);

static REFUSED_EXTENSIONS: [ExtensionRow; 8] = [
    (60, 60, 40, 8, 7),
    (44, 44, 40, 8, 7),
    (0, 0, 40, 24, 23),
    (43, 43, 40, 24, 8),
    (135, 135, 40, 24, 16),
    (51, 51, 40, 16, 15),
    (51, 60, 56, 8, 7),
    (44, 60, 48, 16, 15),
];

/// Both calls refuse one header whose length byte is 2, and after it the beginning of destination options of 16 bytes.
fn expect_extension_refused(rt: &impl Abort, row: &ExtensionRow) {
    let (first, number, offset, required_len, len) = *row;
    let mut after = [0; 40];
    after[0] = 60;
    after[1] = 2;
    let place = if first == 44 { 9 } else { 17 };
    after[place] = 1;
    let end = len.saturating_add(offset).saturating_sub(40);
    let (packet, packet_len) = ipv6_packet(first, bytes_to(rt, &after, end));
    let error = IpError::ExtensionHeaderCutOff {
        protocol: IpNumber(number),
        offset,
        required_len,
        len,
    };
    expect_refusal(rt, bytes_to(rt, &packet, packet_len), error);
}

#[test]
fn extension_headers_are_refused(rt: HostRuntime) {
    for row in &REFUSED_EXTENSIONS {
        expect_extension_refused(&rt, row);
    }
}

#[rattlefmt::skip]
static TEXTS: [(IpError, &str); 10] = [
    (IpError::HeaderCutOff { required_len: 20, len: 19 }, "IP Error: the header has at least 20 bytes, and 19 are there."),
    (IpError::Version { version: 5 }, "IP Error: the version is 5."),
    (IpError::HeaderLength { header_len: 16 }, "IP Error: the stated header length is 16."),
    (IpError::TotalLength { total_len: 19, header_len: 20 }, "IP Error: the total length 19 is below the header length 20."),
    (IpError::PacketCutOff { required_len: 47, len: 46 }, "IP Error: the header counts 47 bytes, and 46 are there."),
    (
        IpError::ExtensionHeaderCutOff { protocol: IpNumber(60), offset: 40, required_len: 16, len: 15 },
        "IP Error: the extension header with protocol number 60 at offset 40 has at least 16 bytes, and 15 are left.",
    ),
    (
        IpError::JumboPayloadMissing,
        "IP Error: the payload length is 0, and the hop-by-hop options have no jumbo payload option.",
    ),
    (
        IpError::JumboPayloadLength { jumbo_payload_len: 65_535 },
        "IP Error: the jumbo payload length is 65535, which is not above 65535.",
    ),
    (
        IpError::JumboPayloadUnexpected { payload_len: 24 },
        "IP Error: the payload length is 24, and the hop-by-hop options have a jumbo payload option.",
    ),
    (
        IpError::JumboPayloadFragment { offset: 48 },
        "IP Error: a packet with a jumbo payload option has a fragment header at offset 48.",
    ),
];

#[test]
fn errors_have_their_texts(rt: HostRuntime) {
    for (error, expected) in &TEXTS {
        expect_text(&rt, error, expected);
        expect_text(&rt, &error.text(), expected);
        expect_clone(&rt, error);
    }
    let packet = ipv4_packet(31, [0, 0]);
    let transport = expect_ok(&rt, transport_in_ip(&packet));
    expect_clone(&rt, &transport);
    expect_clone(&rt, &transport.addresses);
    expect_clone(&rt, &transport.fixed_header);
    expect_equal(&rt, &fixed_header(&packet), &Some(transport.fixed_header));
    expect_equal(&rt, &transport.missing_len(), &0);
    let other = over_ipv4(bytes_between(&rt, &packet, 20, 30));
    expect_equal(&rt, &(transport == other), &false);
    expect_debug_text(
        &rt,
        &over_ipv4(&[7, 8]),
        "TransportInIp { addresses: Ipv4 { source: [10, 0, 0, 1], destination: [10, 0, 0, 2] }, protocol: IpNumber(17), payload: [7, 8], payload_offset: 20, is_fragment: false, is_later_fragment: false, is_cut_off: false, is_length_missing: false, fixed_header: Ipv4 { source: [10, 0, 0, 1], destination: [10, 0, 0, 2], time_to_live: 64, protocol: IpNumber(17) }, header_len: 20, counted_len: 22 }",
    );
}
