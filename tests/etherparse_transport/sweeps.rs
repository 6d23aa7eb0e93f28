//! Tests the canonical headers of these packets:
//! - UDP packets with every length up to 12 bytes, and every length field up to 13.
//! - TCP segments with every length up to 60 bytes, and every data offset. Segments with every accepted value of byte 12.
//! - ICMP messages with every type and code.
//!
//! The results are compared with plain functions, which were written from the format tables, not from the library. Each canonical header is
//! read again, and must not change.

use super::len_error;
use crate::expect::{
    are_same, bytes_to, expect_at, expect_bytes, expect_equal, expect_ok, expect_some,
};
use arrayvec::ArrayVec;
use etherparse_transport::err::Layer;
use etherparse_transport::err::tcp::{HeaderError, HeaderSliceError};
use etherparse_transport::{Proto, canonical_header};
use std::process::Abort;

/// Returns the length of the header at the front of the bytes.
fn header_len(protocol: Proto, bytes: &[u8]) -> Result<usize, HeaderSliceError> {
    let len = bytes.len();
    let (shortest, layer) = match protocol {
        Proto::Udp => (8, Layer::UdpHeader),
        Proto::Tcp => (20, Layer::TcpHeader),
        Proto::Icmpv4 => (8, Layer::Icmpv4),
        Proto::Icmpv6 => (8, Layer::Icmpv6),
    };
    if len < shortest {
        return Err(len_error(shortest, len, layer));
    }
    match protocol {
        Proto::Tcp => {
            let data_offset = at(bytes, 12) >> 4;
            if data_offset < 5 {
                return Err(HeaderSliceError::Content(HeaderError::DataOffsetTooSmall {
                    data_offset,
                }));
            }
            let header_len = usize::from(data_offset) * 4;
            if len < header_len {
                return Err(len_error(header_len, len, Layer::TcpHeader));
            }
            Ok(header_len)
        }
        Proto::Icmpv4 => match (at(bytes, 0), at(bytes, 1)) {
            (13 | 14, 0) if len == 20 => Ok(20),
            (13, 0) => Err(len_error(20, len, Layer::Icmpv4Timestamp)),
            (14, 0) => Err(len_error(20, len, Layer::Icmpv4TimestampReply)),
            _ => Ok(8),
        },
        Proto::Udp | Proto::Icmpv6 => Ok(8),
    }
}

/// Returns the byte at this place, or 0 after the last byte.
fn at(bytes: &[u8], place: usize) -> u8 {
    if place < bytes.len() { bytes[place] } else { 0 }
}

/// Returns the bits that a canonical header keeps of the byte at this place. `first` and `second` are the first two bytes of the header.
fn mask(protocol: Proto, first: u8, second: u8, place: usize) -> u8 {
    match (protocol, first, second, place) {
        (Proto::Udp, _, _, _) => 0xFF,
        (Proto::Tcp, _, _, 12) => 0xF1,
        (Proto::Tcp, _, _, _) => 0xFF,
        (_, _, _, 0..=3) => 0xFF,
        (Proto::Icmpv4, 3, 4, 6..=7) => 0xFF,
        (Proto::Icmpv4, 3, 0..=15, _) => 0,
        (Proto::Icmpv4, 11, 0..=1, _) => 0,
        (Proto::Icmpv4, 12, 0, 4) => 0xFF,
        (Proto::Icmpv4, 12, 0..=2, _) => 0,
        (Proto::Icmpv4, _, _, _) => 0xFF,
        (Proto::Icmpv6, 1, 0..=6, _) => 0,
        (Proto::Icmpv6, 3, 0..=1, _) => 0,
        (Proto::Icmpv6, 133 | 135 | 137, 0, _) => 0,
        (Proto::Icmpv6, 134, 0, 5) => 0xC0,
        (Proto::Icmpv6, 136, 0, 4) => 0xE0,
        (Proto::Icmpv6, 136, 0, _) => 0,
        (Proto::Icmpv6, _, _, _) => 0xFF,
    }
}

/// The numbers of accepted and of refused packets.
#[derive(Clone, Copy, Debug, PartialEq, Eq)]
struct Counts {
    accepted: usize,
    refused: usize,
}

const NONE: Counts = Counts {
    accepted: 0,
    refused: 0,
};

/// Tests that the packet is accepted with a header of this length, and that its canonical form does not change. If the packet is its own
/// canonical form, it is read only once.
fn expect_accepted(rt: &impl Abort, protocol: Proto, bytes: &[u8], header_len: usize) {
    let (header, rest) = expect_ok(rt, canonical_header(protocol, bytes));
    let header = header.as_slice();
    let (front, after) = expect_some(rt, bytes.split_at_checked(header_len));
    expect_bytes(rt, rest, after);
    expect_kept(rt, protocol, front, header);
    if !are_same(header, front) {
        let whole = joined(rt, header, rest);
        expect_canonical(rt, protocol, whole.as_slice(), header, rest);
    }
}

/// Tests that the canonical header is as long as the header of the packet, and that each byte contains exactly the kept bits.
fn expect_kept(rt: &impl Abort, protocol: Proto, front: &[u8], header: &[u8]) {
    expect_at(rt, &(protocol, front), &header.len(), &front.len());
    let (first, second) = (at(front, 0), at(front, 1));
    let mut place = 0;
    while place < header.len() {
        let kept = front[place] & mask(protocol, first, second, place);
        if header[place] != kept {
            expect_at(rt, &(place, protocol, front), &header[place], &kept);
        }
        place += 1;
    }
}

/// Returns the first part, followed by the second part.
fn joined(rt: &impl Abort, first: &[u8], second: &[u8]) -> ArrayVec<u8, 60> {
    let mut whole = ArrayVec::new();
    expect_ok(rt, whole.try_extend_from_slice(first));
    expect_ok(rt, whole.try_extend_from_slice(second));
    whole
}

/// Tests that the packet has this canonical header and these bytes after it.
fn expect_canonical(rt: &impl Abort, protocol: Proto, packet: &[u8], header: &[u8], rest: &[u8]) {
    let (found, after) = expect_ok(rt, canonical_header(protocol, packet));
    expect_bytes(rt, found.as_slice(), header);
    expect_bytes(rt, after, rest);
}

/// Tests that the packet is refused with this error.
fn expect_refused(rt: &impl Abort, protocol: Proto, bytes: &[u8], expected: &HeaderSliceError) {
    let error = expect_some(rt, canonical_header(protocol, bytes).err());
    expect_at(rt, &(protocol, bytes), &error, expected);
}

impl Counts {
    /// Tests a packet, and its canonical form if it is accepted.
    fn try_packet(&mut self, rt: &impl Abort, protocol: Proto, bytes: &[u8]) {
        match header_len(protocol, bytes) {
            Ok(header_len) => {
                expect_accepted(rt, protocol, bytes, header_len);
                self.accepted = self.accepted.saturating_add(1);
            }
            Err(expected) => {
                expect_refused(rt, protocol, bytes, &expected);
                self.refused = self.refused.saturating_add(1);
            }
        }
    }
}

#[test]
fn every_udp_length_and_length_field(rt: HostRuntime) {
    let mut counts = NONE;
    for len in 0..13usize {
        for length in 0..14u8 {
            let bytes = [11, 12, 13, 14, 0, length, 17, 18, 19, 20, 21, 22];
            counts.try_packet(&rt, Proto::Udp, bytes_to(&rt, &bytes, len));
        }
    }
    let expected = Counts {
        accepted: 70,
        refused: 112,
    };
    expect_equal(&rt, &counts, &expected);
}

#[test]
fn every_tcp_length_and_byte_12(rt: HostRuntime) {
    let mut bytes = [0xFF; 60];
    let mut counts = NONE;
    for len in 0..61usize {
        for data_offset in 0..16u8 {
            bytes[12] = data_offset * 16;
            counts.try_packet(&rt, Proto::Tcp, bytes_to(&rt, &bytes, len));
        }
    }
    let expected = Counts {
        accepted: 231,
        refused: 745,
    };
    expect_equal(&rt, &counts, &expected);

    let mut counts = NONE;
    for byte_12 in 0x50..=u8::MAX {
        bytes[12] = byte_12;
        counts.try_packet(&rt, Proto::Tcp, &bytes);
    }
    let expected = Counts {
        accepted: 176,
        refused: 0,
    };
    expect_equal(&rt, &counts, &expected);
}

/// Tests packets of every type and code with these bytes after the code.
fn try_types_and_codes(rt: &impl Abort, protocol: Proto, after: &[u8]) -> Counts {
    let mut counts = NONE;
    let mut packet = joined(rt, &[0, 0], after);
    let bytes = packet.as_mut_slice();
    for type_u8 in 0..=u8::MAX {
        bytes[0] = type_u8;
        for code_u8 in 0..=u8::MAX {
            bytes[1] = code_u8;
            counts.try_packet(rt, protocol, bytes);
        }
    }
    counts
}

/// The bytes after the type and the code.
static AFTER_CODE: [u8; 19] = [
    0x12, 0x34, 0xFF, 0xFE, 0xFD, 0xFC, 1, 2, 3, 4, 5, 6, 7, 8, 9, 10, 11, 12, 13,
];

#[test]
fn every_icmpv4_type_and_code_with_8_bytes(rt: HostRuntime) {
    let counts = try_types_and_codes(&rt, Proto::Icmpv4, bytes_to(&rt, &AFTER_CODE, 6));
    let expected = Counts {
        accepted: 65534,
        refused: 2,
    };
    expect_equal(&rt, &counts, &expected);
}

#[test]
fn every_icmpv4_type_and_code_with_20_bytes(rt: HostRuntime) {
    let counts = try_types_and_codes(&rt, Proto::Icmpv4, bytes_to(&rt, &AFTER_CODE, 18));
    let expected = Counts {
        accepted: 65536,
        refused: 0,
    };
    expect_equal(&rt, &counts, &expected);
}

#[test]
fn every_icmpv4_type_and_code_with_21_bytes(rt: HostRuntime) {
    let counts = try_types_and_codes(&rt, Proto::Icmpv4, &AFTER_CODE);
    let expected = Counts {
        accepted: 65534,
        refused: 2,
    };
    expect_equal(&rt, &counts, &expected);
}

#[test]
fn every_icmpv6_type_and_code_with_8_bytes(rt: HostRuntime) {
    let counts = try_types_and_codes(&rt, Proto::Icmpv6, bytes_to(&rt, &AFTER_CODE, 6));
    let expected = Counts {
        accepted: 65536,
        refused: 0,
    };
    expect_equal(&rt, &counts, &expected);
}
