//! Tests of the crate `transport_part`: the transport of IP packets, and whether its checksum is right. The checksums were computed without
//! this crate, by the rules of RFC 1071.

use crate::expect::{bytes_to, expect_at, expect_equal, expect_ok};
use crate::packets::{JUMBOGRAM_LEN, write_jumbogram_headers};
use arrayvec::ArrayVec;
use etherparse_transport::err::tcp::{HeaderError, HeaderSliceError};
use etherparse_transport::err::{Layer, LenError, LenSource};
use etherparse_transport::ip::{
    TransportInIp, checksum_verdict, proto_in_ip, proto_over, transport_in_ip, transport_in_ip_lax,
    transport_slice,
};
use etherparse_transport::{ChecksumVerdict, Proto, Untested, icmpv4, ip_number};
use std::process::Abort;

/// An IP packet of this version and protocol, with these bytes after its header: over IPv4 from 10.0.0.1 to 10.0.0.2 and with this byte 6,
/// over IPv6 from 2001:db8::1 to 2001:db8::2.
fn packet_of(
    rt: &impl Abort,
    version: u8,
    protocol: u8,
    byte_6: u8,
    transport: &[u8],
) -> ArrayVec<u8, 63> {
    let len = expect_ok(rt, u8::try_from(transport.len()));
    let total_len = len.saturating_add(20);
    let over_ipv4 = [
        0x45, 0, 0, total_len, 0, 1, byte_6, 0, 64, protocol, 0, 0, 10, 0, 0, 1, 10, 0, 0, 2,
    ];
    let over_ipv6 = [
        0x60, 0, 0, 0, 0, len, protocol, 64, 0x20, 1, 0x0D, 0xB8, 0, 0, 0, 0, 0, 0, 0, 0, 0, 0, 0,
        1, 0x20, 1, 0x0D, 0xB8, 0, 0, 0, 0, 0, 0, 0, 0, 0, 0, 0, 2,
    ];
    let header = if version == 4 {
        over_ipv4.as_slice()
    } else {
        over_ipv6.as_slice()
    };
    let mut packet = ArrayVec::new();
    expect_ok(rt, packet.try_extend_from_slice(header));
    expect_ok(rt, packet.try_extend_from_slice(transport));
    packet
}

/// The version, the protocol, byte 6 over IPv4, the bytes after the IP header, and the verdict.
type VerdictRow = (u8, u8, u8, &'static [u8], ChecksumVerdict);

#[rattlefmt::skip]
static VERDICTS: [VerdictRow; 22] = [
    (4, 17, 0x40, &[0, 53, 4, 210, 0, 11, 0x22, 0x6C, 97, 98, 99], ChecksumVerdict::Right),
    (4, 17, 0x40, &[0, 53, 4, 210, 0, 11, 0x22, 0x6D, 97, 98, 99], ChecksumVerdict::Wrong { expected: 0x226C }),
    (4, 17, 0x40, &[0, 53, 4, 210, 0, 11, 0x00, 0x00, 97, 98, 99], ChecksumVerdict::Absent),
    (4, 17, 0x40, &[0, 53, 4, 210, 0, 11, 0x14, 0x1F, 97, 98, 99], ChecksumVerdict::Partial { expected: 0x226C }),
    (4, 17, 0x40, &[0, 53, 4, 210, 0, 0, 0x22, 0x6C, 97, 98, 99], ChecksumVerdict::Untested(Untested::ZeroLength)),
    (4, 17, 0x20, &[0, 53, 4, 210, 0, 11, 0x22, 0x6C, 97, 98, 99], ChecksumVerdict::Untested(Untested::Fragment)),
    (4, 6, 0x40, &[0, 80, 4, 210, 0, 0, 0, 1, 0, 0, 0, 0, 0x5E, 0x12, 0x20, 0, 0xA4, 0x47, 0, 0, 97, 98, 99], ChecksumVerdict::Right),
    (
        4, 6, 0x40, &[0, 80, 4, 210, 0, 0, 0, 1, 0, 0, 0, 0, 0x5E, 0x12, 0x20, 0, 0x00, 0x00, 0, 0, 97, 98, 99],
        ChecksumVerdict::Wrong { expected: 0xA447 },
    ),
    (
        4, 6, 0x40, &[0, 80, 4, 210, 0, 0, 0, 1, 0, 0, 0, 0, 0x5E, 0x12, 0x20, 0, 0x14, 0x20, 0, 0, 97, 98, 99],
        ChecksumVerdict::Partial { expected: 0xA447 },
    ),
    (4, 1, 0x40, &[8, 0, 0x96, 0xFC, 0, 1, 0, 2, 97], ChecksumVerdict::Right),
    (4, 1, 0x40, &[8, 0, 0x00, 0x00, 0, 1, 0, 2, 97], ChecksumVerdict::Wrong { expected: 0x96FC }),
    (4, 58, 0x40, &[128, 0, 0xC3, 0x43, 0, 1, 0, 2, 97], ChecksumVerdict::Untested(Untested::OtherProtocol)),
    (4, 47, 0x40, &[], ChecksumVerdict::Untested(Untested::OtherProtocol)),
    (6, 17, 0x00, &[0, 53, 4, 210, 0, 11, 0xDA, 0xF9, 97, 98, 99], ChecksumVerdict::Right),
    (6, 17, 0x00, &[0, 53, 4, 210, 0, 11, 0x00, 0x00, 97, 98, 99], ChecksumVerdict::Wrong { expected: 0xDAF9 }),
    (6, 17, 0x00, &[0, 53, 4, 210, 0, 11, 0x5B, 0x91, 97, 98, 99], ChecksumVerdict::Partial { expected: 0xDAF9 }),
    (6, 17, 0x00, &[0, 53, 4, 210, 0, 0, 0xDA, 0xF9, 97, 98, 99], ChecksumVerdict::Untested(Untested::ZeroLength)),
    (6, 6, 0x00, &[0, 80, 4, 210, 0, 0, 0, 1, 0, 0, 0, 0, 0x5E, 0x12, 0x20, 0, 0x5C, 0xD5, 0, 0, 97, 98, 99], ChecksumVerdict::Right),
    (
        6, 6, 0x00, &[0, 80, 4, 210, 0, 0, 0, 1, 0, 0, 0, 0, 0x5E, 0x12, 0x20, 0, 0x5B, 0x92, 0, 0, 97, 98, 99],
        ChecksumVerdict::Partial { expected: 0x5CD5 },
    ),
    (6, 58, 0x00, &[128, 0, 0xC3, 0x43, 0, 1, 0, 2, 97], ChecksumVerdict::Right),
    (6, 58, 0x00, &[128, 0, 0x5B, 0xB8, 0, 1, 0, 2, 97], ChecksumVerdict::Partial { expected: 0xC343 }),
    (6, 1, 0x00, &[8, 0, 0x96, 0xFC, 0, 1, 0, 2, 97], ChecksumVerdict::Untested(Untested::OtherProtocol)),
];

/// The checksum of a row is judged as the row says.
fn expect_verdict(rt: &impl Abort, row: &VerdictRow) {
    let (version, protocol, byte_6, transport, expected) = *row;
    let packet = packet_of(rt, version, protocol, byte_6, transport);
    let found = expect_ok(rt, transport_in_ip(&packet));
    let verdict = expect_ok(rt, checksum_verdict(&found));
    expect_at(rt, row, &verdict, &expected);
}

#[test]
fn checksums_of_packets_are_judged(rt: HostRuntime) {
    for row in &VERDICTS {
        expect_verdict(&rt, row);
    }
}

/// The first bytes of a packet are read by the lax call, and its checksum is not tested.
fn expect_cut_off(rt: &impl Abort, packet: &[u8], len: usize) {
    let found = expect_ok(rt, transport_in_ip_lax(bytes_to(rt, packet, len)));
    let verdict = expect_ok(rt, checksum_verdict(&found));
    let expected = ChecksumVerdict::Untested(Untested::CutOff);
    expect_at(rt, &len, &verdict, &expected);
}

#[test]
fn packets_that_are_cut_off_are_not_tested(rt: HostRuntime) {
    let transport = [0, 53, 4, 210, 0, 11, 0x22, 0x6C, 97, 98, 99];
    let packet = packet_of(&rt, 4, 17, 0x40, &transport);
    for len in [28, 29, 30] {
        expect_cut_off(&rt, &packet, len);
    }
}

/// The protocol, how many bytes it has after the IPv4 header, and the error.
type RefusedRow = (u8, usize, HeaderSliceError);

#[rattlefmt::skip]
static REFUSED: [RefusedRow; 2] = [
    (17, 7, HeaderSliceError::Len(LenError {
        required_len: 8, len: 7, len_source: LenSource::Slice, layer: Layer::UdpHeader, layer_start_offset: 0,
    })),
    (6, 20, HeaderSliceError::Content(HeaderError::DataOffsetTooSmall { data_offset: 4 })),
];

/// The checksum of a row is not judged, since its slice is refused.
fn expect_refused(rt: &impl Abort, row: &RefusedRow) {
    let mut transport = [0; 20];
    transport[12] = 0x40;
    let packet = packet_of(rt, 4, row.0, 0x40, bytes_to(rt, &transport, row.1));
    let found = expect_ok(rt, transport_in_ip(&packet));
    let verdict = checksum_verdict(&found);
    expect_equal(rt, &verdict.as_ref().err(), &Some(&row.2));
}

#[test]
fn transports_are_refused_as_their_slices_are(rt: HostRuntime) {
    for row in &REFUSED {
        expect_refused(&rt, row);
    }
}

/// The version, the protocol, byte 6 over IPv4, the bytes after the IP header, and the protocol of its slice with the lengths of the
/// slice, of the header and of the payload.
type SliceRow = (
    u8,
    u8,
    u8,
    &'static [u8],
    Option<(Proto, usize, usize, usize)>,
);

#[rattlefmt::skip]
static SLICES: [SliceRow; 7] = [
    (4, 17, 0x40, &[0, 53, 4, 210, 0, 9, 0, 0, 97, 98, 99], Some((Proto::Udp, 9, 8, 1))),
    (
        4, 6, 0x40, &[0, 80, 4, 210, 0, 0, 0, 1, 0, 0, 0, 0, 0x50, 0x12, 0x20, 0, 0, 0, 0, 0, 97, 98, 99],
        Some((Proto::Tcp, 23, 20, 3)),
    ),
    (4, 1, 0x40, &[8, 0, 0, 0, 0, 1, 0, 2, 97], Some((Proto::Icmpv4, 9, 8, 1))),
    (6, 58, 0, &[8, 0, 0, 0, 0, 1, 0, 2, 97], Some((Proto::Icmpv6, 9, 8, 1))),
    (6, 1, 0, &[8, 0, 0, 0, 0, 1, 0, 2, 97], None),
    (4, 58, 0x40, &[8, 0, 0, 0, 0, 1, 0, 2, 97], None),
    (4, 17, 0x20, &[0, 53, 4, 210, 0, 9, 0, 0, 97, 98, 99], None),
];

/// The protocol of the slice of this transport, and the lengths of the slice, of the header and of the payload.
fn read_slice(rt: &impl Abort, found: &TransportInIp<'_>) -> Option<(Proto, usize, usize, usize)> {
    let slice = expect_ok(rt, transport_slice(found))?;
    Some((
        slice.proto(),
        slice.slice().len(),
        slice.header_len(),
        slice.payload().len(),
    ))
}

/// The transport of a row has the slice and the protocol that the row says.
fn expect_slice(rt: &impl Abort, row: &SliceRow) {
    let (version, protocol, byte_6, transport, expected) = *row;
    let packet = packet_of(rt, version, protocol, byte_6, transport);
    let found = expect_ok(rt, transport_in_ip(&packet));
    expect_at(rt, row, &read_slice(rt, &found), &expected);
    let proto = match expected {
        Some((proto, ..)) => Some(proto),
        None => None,
    };
    expect_at(rt, row, &proto_in_ip(&found), &proto);
    // The one fragment is of UDP.
    let over = if found.is_fragment {
        Some(Proto::Udp)
    } else {
        proto
    };
    let by_number = proto_over(found.addresses, found.protocol);
    expect_at(rt, row, &by_number, &over);
    expect_at(rt, row, &found.proto(), &over);
}

#[test]
fn transports_are_slices_of_their_protocol(rt: HostRuntime) {
    for row in &SLICES {
        expect_slice(&rt, row);
    }
}

/// The jumbo payload length, the length field and the checksum of UDP, the length of the payload, and the verdict.
type JudgedRow = (u32, u16, u16, usize, ChecksumVerdict);

#[rattlefmt::skip]
static JUDGED: [JudgedRow; 5] = [
    (65_552, 0, 0x1E64, 65_544, ChecksumVerdict::Right),
    (65_552, 0, 0x1E65, 65_544, ChecksumVerdict::Wrong { expected: 0x1E64 }),
    (65_552, 0, 0x1832, 65_544, ChecksumVerdict::Partial { expected: 0x1E64 }),
    (65_536, 0xFFF8, 0x1E7B, 65_528, ChecksumVerdict::Right),
    (65_536, 0, 0x1E7B, 65_528, ChecksumVerdict::Untested(Untested::ZeroLength)),
];

/// The jumbogram of a row has the payload and the verdict of the row.
fn expect_judged(rt: &impl Abort, packet: &mut [u8; JUMBOGRAM_LEN], row: &JudgedRow) {
    let (jumbo_payload_len, length, checksum, len, expected) = *row;
    write_jumbogram_headers(packet, jumbo_payload_len, length, checksum);
    let found = expect_ok(rt, transport_in_ip(packet));
    let verdict = expect_ok(rt, checksum_verdict(&found));
    expect_at(rt, row, &found.payload.len(), &len);
    expect_at(rt, row, &verdict, &expected);
}

#[test]
fn jumbograms_are_judged(rt: HostRuntime) {
    let mut packet = [0; JUMBOGRAM_LEN];
    for row in &JUDGED {
        expect_judged(&rt, &mut packet, row);
    }
}

#[test]
fn an_icmpv4_message_is_tested_at_any_length(rt: HostRuntime) {
    // IPv4 with total length 0, and then 65,536 bytes: an echo request with the right checksum.
    let mut packet = [0; 65_556];
    packet[0] = 0x45;
    packet[9] = ip_number::ICMP.0;
    packet[20] = icmpv4::TYPE_ECHO_REQUEST;
    packet[22] = 0xF7;
    packet[23] = 0xFF;
    let found = expect_ok(&rt, transport_in_ip_lax(&packet));
    let verdict = expect_ok(&rt, checksum_verdict(&found));
    expect_equal(&rt, &verdict, &ChecksumVerdict::Right);
    packet[9] = ip_number::UDP.0;
    let found = expect_ok(&rt, transport_in_ip_lax(&packet));
    let verdict = expect_ok(&rt, checksum_verdict(&found));
    expect_equal(&rt, &verdict, &ChecksumVerdict::Untested(Untested::TooLong));
}
