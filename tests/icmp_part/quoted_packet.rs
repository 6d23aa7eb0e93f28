//! The packets that ICMP errors quote.

use crate::expect::{bytes_from, bytes_to, expect_equal, expect_ok};
use etherparse_transport::{Icmpv4Slice, Icmpv6Slice};
use std::process::Abort;

/// The tested values of the length field, and the tested numbers of bytes after the header.
static FIELDS: [u8; 8] = [0, 1, 15, 16, 17, 31, 32, 255];

static LENGTHS: [usize; 6] = [0, 1, 8, 127, 128, 140];

/// Returns the length of the quoted packet. `len` bytes follow the header, and the length field counts units of `unit` bytes.
fn counted(field: u8, unit: usize, len: usize) -> usize {
    let counted = usize::from(field).saturating_mul(unit);
    if counted < 128 { len } else { len.min(counted) }
}

/// Returns the length of the packet that an ICMPv4 message quotes, or `None` if the message is not an error.
fn icmpv4_len(type_u8: u8, field: u8, len: usize) -> Option<usize> {
    match type_u8 {
        3 | 11 | 12 => Some(counted(field, 4, len)),
        4 | 5 => Some(len),
        _ => None,
    }
}

/// Returns the length of the packet that an ICMPv6 message quotes, or `None` if the message is not an error.
fn icmpv6_len(type_u8: u8, field: u8, len: usize) -> Option<usize> {
    match type_u8 {
        1 | 3 => Some(counted(field, 8, len)),
        0..=127 => Some(len),
        _ => None,
    }
}

/// Returns a message of this type with this length field at this place. The bytes after the header differ from each other.
fn message(type_u8: u8, place: usize, field: u8) -> [u8; 148] {
    let mut bytes = [0; 148];
    for (place, byte) in bytes.iter_mut().enumerate() {
        *byte = place as u8 | 0x80;
    }
    bytes[0] = type_u8;
    bytes[1] = 0;
    if place < bytes.len() {
        bytes[place] = field;
    }
    bytes
}

/// Returns whether a message of this type is a timestamp message, which has 20 bytes.
fn is_timestamp(type_u8: u8) -> bool {
    type_u8 == 13 || type_u8 == 14
}

/// Stops the test unless an ICMPv4 message with these fields quotes the expected bytes. Returns 1 if a packet is quoted, otherwise 0.
fn expect_icmpv4(rt: &impl Abort, type_u8: u8, field: u8, len: usize) -> u32 {
    if is_timestamp(type_u8) {
        return 0;
    }
    let whole = message(type_u8, 5, field);
    let bytes = bytes_to(rt, &whole, len.saturating_add(8));
    let quoted = expect_ok(rt, Icmpv4Slice::from_slice(bytes)).quoted_packet();
    let after = bytes_from(rt, bytes, 8);
    let expected = icmpv4_len(type_u8, field, len).map(|len| bytes_to(rt, after, len));
    expect_equal(rt, &quoted, &expected);
    u32::from(quoted.is_some())
}

/// Stops the test unless an ICMPv6 message with these fields quotes the expected bytes. Returns 1 if a packet is quoted, otherwise 0.
fn expect_icmpv6(rt: &impl Abort, type_u8: u8, field: u8, len: usize) -> u32 {
    let whole = message(type_u8, 4, field);
    let bytes = bytes_to(rt, &whole, len.saturating_add(8));
    let quoted = expect_ok(rt, Icmpv6Slice::from_slice(bytes)).quoted_packet();
    let after = bytes_from(rt, bytes, 8);
    let expected = icmpv6_len(type_u8, field, len).map(|len| bytes_to(rt, after, len));
    expect_equal(rt, &quoted, &expected);
    u32::from(quoted.is_some())
}

#[test]
fn errors_quote_what_their_length_field_counts(rt: HostRuntime) {
    let mut counts: (u32, u32) = (0, 0);
    for type_u8 in 0..=u8::MAX {
        for field in &FIELDS {
            for len in &LENGTHS {
                counts.0 = expect_icmpv4(&rt, type_u8, *field, *len).saturating_add(counts.0);
                counts.1 = expect_icmpv6(&rt, type_u8, *field, *len).saturating_add(counts.1);
            }
        }
    }
    // Five types of ICMPv4 and 128 types of ICMPv6, with each length field and each length.
    expect_equal(&rt, &counts, &(240, 6_144));
}
