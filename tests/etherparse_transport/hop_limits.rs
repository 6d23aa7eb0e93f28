//! Lowered hop limits. The bytes were computed without this crate, by the rules of RFC 791, RFC 1071 and RFC 8200.

use crate::expect::{expect_bytes, expect_equal, expect_some, expect_text};
use etherparse_transport::Ipv4HeaderSlice;
use etherparse_transport::err::packet::LowerHopLimitError;
use etherparse_transport::ip::{IpError, lower_hop_limit};
use std::process::Abort;

/// A packet, and the packet with its hop limit lowered.
type Lowered = (&'static [u8], &'static [u8]);

#[rattlefmt::skip]
static LOWERED: [Lowered; 6] = [
    // UDP over IPv4
    (
        &[0x45, 0, 0, 28, 0, 0, 0, 0, 64, 17, 0xF7, 0x7D, 192, 168, 1, 1, 192, 168, 1, 2, 0, 7, 0, 8, 0, 8, 0, 0],
        &[0x45, 0, 0, 28, 0, 0, 0, 0, 63, 17, 0xF8, 0x7D, 192, 168, 1, 1, 192, 168, 1, 2, 0, 7, 0, 8, 0, 8, 0, 0],
    ),
    // a wrong checksum stays wrong by the same number
    (
        &[0x45, 0, 0, 28, 0, 0, 0, 0, 64, 17, 0xF7, 0x7E, 192, 168, 1, 1, 192, 168, 1, 2],
        &[0x45, 0, 0, 28, 0, 0, 0, 0, 63, 17, 0xF8, 0x7E, 192, 168, 1, 1, 192, 168, 1, 2],
    ),
    // an option, the highest time to live, and a carry
    (
        &[0x46, 0, 0, 24, 0x13, 0xBA, 0, 0, 255, 1, 0xFF, 0x23, 10, 0, 0, 1, 10, 0, 0, 2, 0x94, 4, 0, 0],
        &[0x46, 0, 0, 24, 0x13, 0xBA, 0, 0, 254, 1, 0x00, 0x24, 10, 0, 0, 1, 10, 0, 0, 2, 0x94, 4, 0, 0],
    ),
    // 2 is the lowest time to live that is lowered, and the lengths of the packet are not read
    (
        &[0x45, 0, 0, 0, 0, 0, 0, 0, 2, 17, 0, 0, 0, 0, 0, 0, 0, 0, 0, 0],
        &[0x45, 0, 0, 0, 0, 0, 0, 0, 1, 17, 1, 0, 0, 0, 0, 0, 0, 0, 0, 0],
    ),
    // IPv6
    (
        &[
            0x60, 0, 0, 0, 0, 0, 59, 64, 0x20, 1, 0xD, 0xB8, 0, 0, 0, 0, 0, 0, 0, 0, 0, 0, 0, 1, 0x20, 1, 0xD, 0xB8, 0, 0, 0, 0, 0, 0, 0,
            0, 0, 0, 0, 2, 0xAA,
        ],
        &[
            0x60, 0, 0, 0, 0, 0, 59, 63, 0x20, 1, 0xD, 0xB8, 0, 0, 0, 0, 0, 0, 0, 0, 0, 0, 0, 1, 0x20, 1, 0xD, 0xB8, 0, 0, 0, 0, 0, 0, 0,
            0, 0, 0, 0, 2, 0xAA,
        ],
    ),
    // an IPv6 header that is cut off after its 40 bytes
    (
        &[0x60, 0, 0, 0, 1, 0, 0, 2, 1, 0, 0, 0, 0, 0, 0, 0, 0, 0, 0, 0, 0, 0, 0, 0, 2, 0, 0, 0, 0, 0, 0, 0, 0, 0, 0, 0, 0, 0, 0, 0],
        &[0x60, 0, 0, 0, 1, 0, 0, 1, 1, 0, 0, 0, 0, 0, 0, 0, 0, 0, 0, 0, 0, 0, 0, 0, 2, 0, 0, 0, 0, 0, 0, 0, 0, 0, 0, 0, 0, 0, 0, 0],
    ),
];

/// The longest packet of the tables, in bytes.
const ROOM: usize = 48;

/// The result of the call for this packet, and the buffer after it.
fn lowered(rt: &impl Abort, packet: &[u8]) -> (Result<(), LowerHopLimitError>, [u8; ROOM]) {
    let mut buffer = [0; ROOM];
    let front = expect_some(rt, buffer.get_mut(..packet.len()));
    front.copy_from_slice(packet);
    (lower_hop_limit(front), buffer)
}

#[test]
fn the_hop_limit_is_lowered_by_one(rt: HostRuntime) {
    for (packet, expected) in &LOWERED {
        let (result, buffer) = lowered(&rt, packet);
        expect_equal(&rt, &result, &Ok(()));
        expect_bytes(&rt, expect_some(&rt, buffer.get(..packet.len())), expected);
    }
}

#[test]
fn a_right_checksum_of_the_header_stays_right(rt: HostRuntime) {
    for (row, is_valid) in [(0, true), (1, false), (2, true)] {
        let (_, packet) = expect_some(&rt, LOWERED.get(row));
        let header = expect_some(&rt, Ipv4HeaderSlice::from_slice(packet));
        expect_equal(&rt, &header.is_checksum_valid(), &is_valid);
    }
}

#[rattlefmt::skip]
static REFUSALS: [(LowerHopLimitError, &[u8]); 8] = [
    (LowerHopLimitError::Ip(IpError::HeaderCutOff { required_len: 1, len: 0 }), &[]),
    (LowerHopLimitError::Ip(IpError::Version { version: 5 }), &[0x50, 0, 0, 0, 0, 0, 0, 0, 64]),
    (LowerHopLimitError::Ip(IpError::HeaderCutOff { required_len: 20, len: 19 }), &[
        0x45, 0, 0, 20, 0, 0, 0, 0, 64, 17, 0, 0, 192, 168, 1, 1, 192, 168, 1,
    ]),
    (LowerHopLimitError::Ip(IpError::HeaderLength { header_len: 16 }), &[
        0x44, 0, 0, 20, 0, 0, 0, 0, 64, 17, 0, 0, 192, 168, 1, 1, 192, 168, 1, 2,
    ]),
    (LowerHopLimitError::Ip(IpError::HeaderCutOff { required_len: 24, len: 20 }), &[
        0x46, 0, 0, 20, 0, 0, 0, 0, 64, 17, 0, 0, 192, 168, 1, 1, 192, 168, 1, 2,
    ]),
    (LowerHopLimitError::Ip(IpError::HeaderCutOff { required_len: 40, len: 39 }), &[
        0x60, 0, 0, 0, 0, 0, 59, 64, 0, 0, 0, 0, 0, 0, 0, 0, 0, 0, 0, 0, 0, 0, 0, 0, 0, 0, 0, 0, 0, 0, 0, 0, 0, 0, 0, 0, 0, 0, 0,
    ]),
    (LowerHopLimitError::Expired { hop_limit: 1 }, &[0x45, 0, 0, 20, 0, 0, 0, 0, 1, 17, 0, 0, 192, 168, 1, 1, 192, 168, 1, 2]),
    (LowerHopLimitError::Expired { hop_limit: 0 }, &[
        0x60, 0, 0, 0, 0, 0, 59, 0, 0, 0, 0, 0, 0, 0, 0, 0, 0, 0, 0, 0, 0, 0, 0, 0, 0, 0, 0, 0, 0, 0, 0, 0, 0, 0, 0, 0, 0, 0, 0, 0,
    ]),
];

#[test]
fn packets_with_another_hop_limit_stay_as_they_are(rt: HostRuntime) {
    for (error, packet) in &REFUSALS {
        let (result, buffer) = lowered(&rt, packet);
        expect_equal(&rt, &result, &Err(*error));
        expect_bytes(&rt, expect_some(&rt, buffer.get(..packet.len())), packet);
    }
}

#[rattlefmt::skip]
static TEXTS: [(LowerHopLimitError, &str); 2] = [
    (LowerHopLimitError::Ip(IpError::Version { version: 5 }), "IP Error: the version is 5."),
    (LowerHopLimitError::Expired { hop_limit: 1 }, "Hop Limit Error: the hop limit is 1."),
];

#[test]
fn texts_of_a_hop_limit_that_is_not_lowered(rt: HostRuntime) {
    for (error, text) in &TEXTS {
        expect_text(&rt, error, text);
        expect_text(&rt, &error.text(), text);
    }
}
