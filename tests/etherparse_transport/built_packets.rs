//! Packets that are built. The expected bytes were computed without this crate, by the rules of RFC 791, RFC 8200 and RFC 1071.

use crate::expect::{bytes_from, bytes_to, expect_equal, expect_ok, expect_some, expect_text};
use etherparse_transport::err::packet::BuildSliceWriteError;
use etherparse_transport::err::{Layer, LenError};
use etherparse_transport::ip::{
    IpAddresses, TransportInIp, checksum_verdict, transport_in_ip, write_packet_ipv4,
    write_packet_ipv6,
};
use etherparse_transport::{
    ChecksumVerdict, Icmpv4Header, Icmpv4Type, Icmpv6Header, Icmpv6Type, Ipv4HeaderSlice,
    LenSource, Proto, TcpHeader, TransportHeader, UdpHeader,
};
use std::process::Abort;

static IPV4: [[u8; 4]; 2] = [[10, 0, 0, 1], [10, 0, 0, 2]];

#[rattlefmt::skip]
static IPV6: [[u8; 16]; 2] = [
    [0x20, 1, 0x0D, 0xB8, 0, 0, 0, 0, 0, 0, 0, 0, 0, 0, 0, 1],
    [0x20, 1, 0x0D, 0xB8, 0, 0, 0, 0, 0, 0, 0, 0, 0, 0, 0, 2],
];

static PAYLOAD: [u8; 65_536] = [0; 65_536];

/// The version of IP that carries a packet.
#[derive(Clone, Copy)]
enum Version {
    Ipv4,
    Ipv6,
}

/// Writes a packet from the first address of this version to the second.
fn build(
    version: Version,
    slice: &mut [u8],
    hop_limit: u8,
    header: &TransportHeader,
    payload: &[u8],
) -> Result<usize, BuildSliceWriteError> {
    match version {
        Version::Ipv4 => write_packet_ipv4(slice, IPV4[0], IPV4[1], hop_limit, header, payload),
        Version::Ipv6 => write_packet_ipv6(slice, IPV6[0], IPV6[1], hop_limit, header, payload),
    }
}

/// The length of the IP header of a packet that is built, and its addresses.
#[rattlefmt::skip]
fn ip_header(version: Version) -> (usize, IpAddresses<'static>) {
    match version {
        Version::Ipv4 => (20, IpAddresses::Ipv4 { source: &IPV4[0], destination: &IPV4[1] }),
        Version::Ipv6 => (40, IpAddresses::Ipv6 { source: &IPV6[0], destination: Some(&IPV6[1]) }),
    }
}

/// Reads a packet, and judges its checksum.
fn read<'a>(rt: &impl Abort, packet: &'a [u8]) -> (TransportInIp<'a>, ChecksumVerdict) {
    let found = expect_ok(rt, transport_in_ip(packet));
    let verdict = expect_ok(rt, checksum_verdict(&found));
    (found, verdict)
}

/// The protocol, a message with another checksum and another length field, and the packet.
type Row = (Proto, &'static [u8], &'static [u8]);

#[rattlefmt::skip]
static OVER_IPV4: [Row; 4] = [
    (Proto::Udp, &[0, 53, 4, 210, 0xAA, 0xAA, 0xAA, 0xAA, 97, 98, 99], &[
        0x45, 0, 0, 31, 0, 0, 0x40, 0, 64, 17, 0x26, 0xCC, 10, 0, 0, 1, 10, 0, 0, 2,
        0, 53, 4, 210, 0, 11, 0x22, 0x6C, 97, 98, 99,
    ]),
    (Proto::Tcp, &[0, 80, 4, 210, 0, 0, 0, 1, 0, 0, 0, 0, 0x60, 0x12, 32, 0, 0xAA, 0xAA, 0, 0, 2, 4, 5, 0xB4, 97, 98, 99], &[
        0x45, 0, 0, 47, 0, 0, 0x40, 0, 64, 6, 0x26, 0xC7, 10, 0, 0, 1, 10, 0, 0, 2,
        0, 80, 4, 210, 0, 0, 0, 1, 0, 0, 0, 0, 0x60, 0x12, 32, 0, 0x9A, 0x8B, 0, 0, 2, 4, 5, 0xB4, 97, 98, 99,
    ]),
    (Proto::Icmpv4, &[8, 0, 0xAA, 0xAA, 0, 1, 0, 2, 97], &[
        0x45, 0, 0, 29, 0, 0, 0x40, 0, 64, 1, 0x26, 0xDE, 10, 0, 0, 1, 10, 0, 0, 2,
        8, 0, 0x96, 0xFC, 0, 1, 0, 2, 97,
    ]),
    (Proto::Icmpv4, &[13, 0, 0xAA, 0xAA, 0, 1, 0, 2, 0, 0, 0, 3, 0, 0, 0, 4, 0, 0, 0, 5], &[
        0x45, 0, 0, 40, 0, 0, 0x40, 0, 64, 1, 0x26, 0xD3, 10, 0, 0, 1, 10, 0, 0, 2,
        13, 0, 0xF2, 0xF0, 0, 1, 0, 2, 0, 0, 0, 3, 0, 0, 0, 4, 0, 0, 0, 5,
    ]),
];

#[rattlefmt::skip]
static OVER_IPV6: [Row; 3] = [
    (Proto::Udp, &[0, 53, 4, 210, 0xAA, 0xAA, 0xAA, 0xAA, 97, 98, 99], &[
        0x60, 0, 0, 0, 0, 11, 17, 64, 0x20, 1, 0x0D, 0xB8, 0, 0, 0, 0, 0, 0, 0, 0, 0, 0, 0, 1,
        0x20, 1, 0x0D, 0xB8, 0, 0, 0, 0, 0, 0, 0, 0, 0, 0, 0, 2, 0, 53, 4, 210, 0, 11, 0xDA, 0xF9, 97, 98, 99,
    ]),
    (Proto::Tcp, &[0, 80, 4, 210, 0, 0, 0, 1, 0, 0, 0, 0, 0x60, 0x12, 32, 0, 0xAA, 0xAA, 0, 0, 2, 4, 5, 0xB4, 97, 98, 99], &[
        0x60, 0, 0, 0, 0, 27, 6, 64, 0x20, 1, 0x0D, 0xB8, 0, 0, 0, 0, 0, 0, 0, 0, 0, 0, 0, 1,
        0x20, 1, 0x0D, 0xB8, 0, 0, 0, 0, 0, 0, 0, 0, 0, 0, 0, 2,
        0, 80, 4, 210, 0, 0, 0, 1, 0, 0, 0, 0, 0x60, 0x12, 32, 0, 0x53, 0x19, 0, 0, 2, 4, 5, 0xB4, 97, 98, 99,
    ]),
    (Proto::Icmpv6, &[128, 0, 0xAA, 0xAA, 0, 1, 0, 2, 97], &[
        0x60, 0, 0, 0, 0, 9, 58, 64, 0x20, 1, 0x0D, 0xB8, 0, 0, 0, 0, 0, 0, 0, 0, 0, 0, 0, 1,
        0x20, 1, 0x0D, 0xB8, 0, 0, 0, 0, 0, 0, 0, 0, 0, 0, 0, 2, 128, 0, 0xC3, 0x43, 0, 1, 0, 2, 97,
    ]),
];

/// The slice begins with the packet, and its bytes after the packet are unchanged.
fn expect_packet(rt: &impl Abort, slice: &[u8; 72], packet: &[u8]) {
    let untouched = [0xEE; 72];
    let len = packet.len();
    expect_equal(rt, &bytes_to(rt, slice, len), &packet);
    let after = bytes_from(rt, slice, len);
    expect_equal(rt, &after, &bytes_from(rt, &untouched, len));
}

/// The slice is read as a packet with this payload, whose checksum is right.
fn expect_read(rt: &impl Abort, addresses: IpAddresses<'_>, slice: &[u8], payload: &[u8]) {
    let (found, verdict) = read(rt, slice);
    expect_equal(rt, &found.payload, &payload);
    expect_equal(
        rt,
        &(found.addresses, verdict),
        &(addresses, ChecksumVerdict::Right),
    );
}

/// Builds the packet of a row, reads it back, and returns the slice that it is in.
fn expect_built(rt: &impl Abort, version: Version, row: &Row) -> [u8; 72] {
    let (protocol, message, packet) = *row;
    let (header, payload) = expect_ok(rt, TransportHeader::from_slice(protocol, message));
    let mut slice = [0xEE; 72];
    let written = build(version, &mut slice, 64, &header, payload);
    expect_equal(rt, &(protocol, written), &(protocol, Ok(packet.len())));
    expect_packet(rt, &slice, packet);
    let (header_len, addresses) = ip_header(version);
    expect_read(rt, addresses, &slice, bytes_from(rt, packet, header_len));
    slice
}

#[test]
fn packets_are_built_over_ipv4(rt: HostRuntime) {
    for row in &OVER_IPV4 {
        let slice = expect_built(&rt, Version::Ipv4, row);
        let header = expect_some(&rt, Ipv4HeaderSlice::from_slice(&slice));
        expect_equal(&rt, &(row.0, header.is_checksum_valid()), &(row.0, true));
    }
}

#[test]
fn packets_are_built_over_ipv6(rt: HostRuntime) {
    for row in &OVER_IPV6 {
        expect_built(&rt, Version::Ipv6, row);
    }
}

/// A header whose fields are zero, but for the type of an ICMPv4 message that is not read.
enum Header {
    Udp,
    Tcp,
    RawIcmpv4(u8),
    Icmpv6,
}

fn header_of(header: &Header) -> TransportHeader {
    match header {
        Header::Udp => TransportHeader::Udp(UdpHeader::default()),
        Header::Tcp => TransportHeader::Tcp(TcpHeader::default()),
        Header::RawIcmpv4(type_u8) => {
            TransportHeader::Icmpv4(Icmpv4Header::new(Icmpv4Type::Unknown {
                type_u8: *type_u8,
                code_u8: 0,
                bytes5to8: [0; 4],
            }))
        }
        Header::Icmpv6 => {
            TransportHeader::Icmpv6(Icmpv6Header::new(Icmpv6Type::RouterSolicitation))
        }
    }
}

/// A header, the lengths of payload and slice, and the error.
type Refusal = (Header, usize, usize, BuildSliceWriteError);

#[rattlefmt::skip]
static REFUSED_OVER_IPV4: [Refusal; 9] = [
    (Header::Icmpv6, 65_536, 0, BuildSliceWriteError::Icmpv6InIpv4),
    (Header::Udp, 65_508, 0, BuildSliceWriteError::PayloadLen { actual: 65_508, max_allowed: 65_507 }),
    (Header::Tcp, 65_496, 0, BuildSliceWriteError::PayloadLen { actual: 65_496, max_allowed: 65_495 }),
    (Header::RawIcmpv4(13), 65_508, 0, BuildSliceWriteError::PayloadLen { actual: 65_508, max_allowed: 65_507 }),
    (Header::RawIcmpv4(13), 13, 0, BuildSliceWriteError::TimestampLen(LenError {
        required_len: 20, len: 21, len_source: LenSource::Slice, layer: Layer::Icmpv4Timestamp, layer_start_offset: 0,
    })),
    (Header::RawIcmpv4(14), 0, 0, BuildSliceWriteError::TimestampLen(LenError {
        required_len: 20, len: 8, len_source: LenSource::Slice, layer: Layer::Icmpv4TimestampReply, layer_start_offset: 0,
    })),
    (Header::RawIcmpv4(14), 12, 39, BuildSliceWriteError::Space { required_len: 40, len: 39 }),
    (Header::Udp, 65_507, 70, BuildSliceWriteError::Space { required_len: 65_535, len: 70 }),
    (Header::Tcp, 3, 42, BuildSliceWriteError::Space { required_len: 43, len: 42 }),
];

#[rattlefmt::skip]
static REFUSED_OVER_IPV6: [Refusal; 5] = [
    (Header::RawIcmpv4(8), 65_536, 0, BuildSliceWriteError::Icmpv4InIpv6),
    (Header::Udp, 65_528, 0, BuildSliceWriteError::PayloadLen { actual: 65_528, max_allowed: 65_527 }),
    (Header::Tcp, 65_516, 0, BuildSliceWriteError::PayloadLen { actual: 65_516, max_allowed: 65_515 }),
    (Header::Udp, 65_527, 70, BuildSliceWriteError::Space { required_len: 65_575, len: 70 }),
    (Header::Tcp, 3, 62, BuildSliceWriteError::Space { required_len: 63, len: 62 }),
];

/// The packet of a row is refused, and the slice stays as it was.
fn expect_refused(rt: &impl Abort, version: Version, row: &Refusal) {
    let (header, payload_len, len, error) = row;
    let payload = bytes_to(rt, &PAYLOAD, *payload_len);
    let mut slice = [0xEE; 70];
    let room = expect_some(rt, slice.get_mut(..*len));
    let written = build(version, room, 64, &header_of(header), payload);
    expect_equal(rt, &written.as_ref().err(), &Some(error));
    expect_equal(rt, &slice, &[0xEE; 70]);
}

#[test]
fn packets_over_ipv4_are_refused(rt: HostRuntime) {
    for row in &REFUSED_OVER_IPV4 {
        expect_refused(&rt, Version::Ipv4, row);
    }
}

#[test]
fn packets_over_ipv6_are_refused(rt: HostRuntime) {
    for row in &REFUSED_OVER_IPV6 {
        expect_refused(&rt, Version::Ipv6, row);
    }
}

#[test]
fn the_longest_packet_is_built(rt: HostRuntime) {
    let payload = [0xFF; 65_507];
    let mut slice = [0; 65_535];
    let written = build(
        Version::Ipv4,
        &mut slice,
        1,
        &header_of(&Header::Udp),
        &payload,
    );
    expect_equal(&rt, &written, &Ok(65_535));
    let (_, verdict) = read(&rt, &slice);
    expect_equal(&rt, &verdict, &ChecksumVerdict::Right);
}

#[rattlefmt::skip]
static TEXTS: [(BuildSliceWriteError, &str); 5] = [
    (BuildSliceWriteError::Space { required_len: 43, len: 42 }, "Space Error: 43 bytes are needed, and there is room for 42."),
    (
        BuildSliceWriteError::PayloadLen { actual: 65_508, max_allowed: 65_507 },
        "Payload Error: a payload of 65508 bytes is above 65507.",
    ),
    (
        BuildSliceWriteError::TimestampLen(LenError {
            required_len: 20, len: 21, len_source: LenSource::Slice, layer: Layer::Icmpv4Timestamp, layer_start_offset: 0,
        }),
        "Length Error: layer Icmpv4Timestamp at offset 0 requires length 20, the length is 21 (from Slice).",
    ),
    (BuildSliceWriteError::Icmpv6InIpv4, "ICMPv6 Error: there is no packet over IPv4."),
    (BuildSliceWriteError::Icmpv4InIpv6, "ICMPv4 Error: there is no packet over IPv6."),
];

#[test]
fn errors_of_built_packets_have_their_texts(rt: HostRuntime) {
    for (error, expected) in &TEXTS {
        expect_text(&rt, error, expected);
        expect_text(&rt, &error.text(), expected);
        expect_equal(&rt, &expect_ok(&rt, error.clone()), error);
    }
}
