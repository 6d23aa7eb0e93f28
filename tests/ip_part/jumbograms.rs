//! Packets whose length is not in the length field of their header: jumbograms (RFC 2675), and packets that state no length.

use super::{
    expect_error, expect_refusal, found_by_both, header_cut_off, ipv4_packet, ipv6_packet,
};
use crate::expect::{bytes_from, bytes_to, expect_at, expect_bytes, expect_equal, expect_ok};
use crate::packets::{JUMBOGRAM_LEN, write_jumbogram_headers};
use etherparse_transport::ip::{IpError, TransportInIp, transport_in_ip, transport_in_ip_lax};
use std::process::Abort;

/// A payload length, the first next header, options of 8 bytes, and the errors of the strict and of the lax call.
type RefusedRow = (u8, u8, [u8; 8], Option<IpError>, Option<IpError>);

#[rattlefmt::skip]
static REFUSED: [RefusedRow; 8] = [
    (0, 0, [17, 0, 0xC2, 4, 0, 1, 0, 0], Some(IpError::PacketCutOff { required_len: 65_576, len: 104 }), None),
    (
        0, 0, [44, 0, 0xC2, 4, 0, 1, 0, 0],
        Some(IpError::PacketCutOff { required_len: 65_576, len: 104 }), Some(IpError::JumboPayloadFragment { offset: 48 }),
    ),
    (
        0, 0, [17, 0, 0xC2, 4, 0, 0, 1, 0],
        Some(IpError::JumboPayloadLength { jumbo_payload_len: 256 }), Some(IpError::JumboPayloadLength { jumbo_payload_len: 256 }),
    ),
    (0, 0, [17, 0, 0xC2, 3, 0, 1, 0, 0], Some(IpError::JumboPayloadMissing), None),
    (0, 0, [17, 0, 0xC3, 4, 0, 1, 0, 0], Some(IpError::JumboPayloadMissing), None),
    (
        16, 0, [17, 0, 0xC2, 4, 0, 1, 0, 0],
        Some(IpError::JumboPayloadUnexpected { payload_len: 16 }), Some(IpError::JumboPayloadUnexpected { payload_len: 16 }),
    ),
    (16, 0, [17, 0, 0xC2, 3, 0, 1, 0, 0], None, None),
    (16, 60, [17, 0, 0xC2, 4, 0, 1, 0, 0], None, None),
];

/// The two calls refuse the packet of a row by its errors.
fn expect_errors(rt: &impl Abort, row: &RefusedRow) {
    let (payload_len, next_header, options, strict, lax) = *row;
    let mut after = [0; 64];
    after[..8].copy_from_slice(&options);
    after[8] = 17;
    let (mut packet, _) = ipv6_packet(next_header, &after);
    packet[5] = payload_len;
    expect_at(rt, row, &transport_in_ip(&packet).err(), &strict);
    expect_at(rt, row, &transport_in_ip_lax(&packet).err(), &lax);
}

#[test]
fn jumbograms_are_refused(rt: HostRuntime) {
    let mut packet = [0; JUMBOGRAM_LEN];
    write_jumbogram_headers(&mut packet, 65_553, 0, 0);
    let beyond = IpError::PacketCutOff {
        required_len: 65_593,
        len: JUMBOGRAM_LEN,
    };
    expect_error(&rt, transport_in_ip(&packet), &beyond);
    let found = expect_ok(&rt, transport_in_ip_lax(&packet));
    expect_equal(
        &rt,
        &(found.is_cut_off, found.is_length_missing),
        &(true, false),
    );
    write_jumbogram_headers(&mut packet, 65_535, 0, 0);
    let too_short = IpError::JumboPayloadLength {
        jumbo_payload_len: 65_535,
    };
    expect_refusal(&rt, &packet, too_short);
    for row in &REFUSED {
        expect_errors(&rt, row);
    }
    // hop-by-hop options that are not all there
    let (mut packet, _) = ipv6_packet(0, &[17, 2, 0xC2, 4, 0, 1, 0, 0]);
    packet[5] = 0;
    for (len, required_len) in &CUT_OFF {
        let front = bytes_to(&rt, &packet, *len);
        expect_refusal(&rt, front, header_cut_off(*required_len, *len));
    }
}

/// A length, and the length that is required.
static CUT_OFF: [(usize, usize); 4] = [(40, 48), (47, 48), (48, 64), (63, 64)];

/// The next header of an IPv6 packet without a length, how many bytes of payload the strict call finds, and the protocol and the place
/// where the payload of the lax call begins.
type WithoutLengthRow = (u8, Option<usize>, u8, usize);

static WITHOUT_LENGTH: [WithoutLengthRow; 3] = [
    (17, Some(0), 17, 40),
    (0, None, 17, 48),
    (60, None, 17, 48),
];

/// The two calls read the packet of a row.
fn expect_without_length(rt: &impl Abort, row: &WithoutLengthRow) {
    let (next_header, strict, protocol, start) = *row;
    let (mut packet, _) = ipv6_packet(next_header, &[17, 0, 1, 4, 0, 0, 0, 0, 0, 53]);
    packet[5] = 0;
    let counted = match transport_in_ip(&packet) {
        Ok(transport) => Some(transport.payload.len()),
        Err(_) => None,
    };
    expect_at(rt, row, &counted, &strict);
    let found = expect_ok(rt, transport_in_ip_lax(&packet));
    expect_bytes(rt, found.payload, bytes_from(rt, &packet, start));
    let read = (found.protocol.0, found.payload_offset);
    expect_at(rt, row, &read, &(protocol, start));
    expect_length_missing(rt, &found);
}

/// The packet states no length.
fn expect_length_missing(rt: &impl Abort, found: &TransportInIp<'_>) {
    let flags = (found.is_cut_off, found.is_length_missing);
    expect_equal(rt, &flags, &(false, true));
}

#[test]
fn packets_without_a_length_are_read(rt: HostRuntime) {
    let over_ipv4 = ipv4_packet(0, [0x40, 0]);
    let found = expect_ok(&rt, transport_in_ip_lax(&over_ipv4));
    expect_bytes(&rt, found.payload, bytes_from(&rt, &over_ipv4, 20));
    expect_equal(&rt, &found.payload_offset, &20);
    expect_length_missing(&rt, &found);
    for row in &WITHOUT_LENGTH {
        expect_without_length(&rt, row);
    }
}

#[test]
fn packets_with_no_next_header_have_no_payload(rt: HostRuntime) {
    let (mut packet, _) = ipv6_packet(59, &[7; 8]);
    packet[5] = 0;
    let (strict, lax) = found_by_both(&rt, &packet);
    expect_no_payload(&rt, &strict);
    expect_no_payload(&rt, &lax);
}

/// The packet is whole, and has no bytes after its header.
fn expect_no_payload(rt: &impl Abort, found: &TransportInIp<'_>) {
    let read = (found.payload.len(), found.payload_offset);
    expect_equal(rt, &read, &(0, 40));
    let flags = (found.is_cut_off, found.is_length_missing);
    expect_equal(rt, &flags, &(false, false));
}
