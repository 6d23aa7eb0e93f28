//! The fields of fragments.

use super::packet::{IPV6_DESTINATION, IPV6_SOURCE, read_raw};
use crate::expect::{expect_at, joined};
use capture_packet::{FragmentFields, Identification};
use std::process::Abort;

/// The fields of a fragment with this identification, with its offset and whether more fragments follow. `None` for a whole packet.
fn fragment_of(
    identification: Identification,
    place: Option<(u16, bool)>,
) -> Option<FragmentFields> {
    let (offset, more_fragments) = place?;
    Some(FragmentFields {
        identification,
        offset,
        more_fragments,
    })
}

/// Byte 0, the total length, and bytes 6 and 7 of an IPv4 header, and the offset of the fragment and whether more follow.
#[rattlefmt::skip]
static OVER_IPV4: [(u8, u8, [u8; 2], Option<(u16, bool)>); 11] = [
    (0x45, 24, [0, 0], None),
    (0x45, 24, [0x40, 0], None),
    (0x45, 24, [0x80, 0], None),
    (0x45, 24, [0x20, 0], Some((0, true))),
    (0x45, 24, [0, 1], Some((8, false))),
    (0x45, 24, [0x20, 0xB9], Some((1480, true))),
    (0x45, 24, [0x1F, 0xFF], Some((65_528, false))),
    (0x45, 24, [0xFF, 0xFF], Some((65_528, true))),
    (0x45, 100, [0x20, 0xB9], Some((1480, true))),
    (0x45, 0, [0x20, 0xB9], Some((1480, true))),
    (0x44, 24, [0x20, 0xB9], None),
];

/// Stops the test unless a packet with this IPv4 header is this fragment.
fn expect_over_ipv4(rt: &(impl Abort + AllocGlobal), row: &(u8, u8, [u8; 2], Option<(u16, bool)>)) {
    let (first, total_len, flags, place) = *row;
    let fragment = fragment_of(Identification::Ipv4(0x1A2B), place);
    let header = [
        first, 0, 0, total_len, 0x1A, 0x2B, flags[0], flags[1], 64, 89, 0, 0,
    ];
    let frame = joined(rt, &[&header, &[10, 0, 0, 1, 10, 0, 0, 2], &[0; 4]]);
    expect_at(rt, row, &read_raw(&frame, false).fragment, &fragment);
}

#[test]
fn fragments_over_ipv4(rt: HostRuntime) {
    for row in &OVER_IPV4 {
        expect_over_ipv4(&rt, row);
    }
}

/// The number of the first header after an IPv6 header, the bytes of the payload, and the offset of the fragment and whether more follow.
#[rattlefmt::skip]
static OVER_IPV6: [(u8, &[u8], Option<(u16, bool)>); 9] = [
    (89, &[1, 2, 3, 4, 5, 6, 7, 8], None),
    (44, &[89, 0, 0, 0, 1, 2, 3, 4], None),
    (44, &[89, 0, 0, 6, 1, 2, 3, 4], None),
    (44, &[89, 0, 0, 1, 1, 2, 3, 4], Some((0, true))),
    (44, &[89, 0, 0, 8, 1, 2, 3, 4], Some((8, false))),
    (44, &[89, 0, 5, 0xC9, 1, 2, 3, 4, 0], Some((1480, true))),
    (44, &[89, 0, 0xFF, 0xFE, 1, 2, 3, 4], Some((65_528, false))),
    (60, &[44, 0, 1, 4, 0, 0, 0, 0, 89, 0, 5, 0xC9, 1, 2, 3, 4], Some((1480, true))),
    (44, &[89, 0, 5, 0xC9, 1, 2, 3], None),
];

/// Stops the test unless an IPv6 packet with this payload is this fragment.
fn expect_over_ipv6(rt: &(impl Abort + AllocGlobal), row: &(u8, &[u8], Option<(u16, bool)>)) {
    let (next_header, payload, place) = *row;
    let fragment = fragment_of(Identification::Ipv6(0x0102_0304), place);
    let first = [0x60, 0, 0, 0, 0, payload.len() as u8, next_header, 63];
    let frame = joined(rt, &[&first, &IPV6_SOURCE, &IPV6_DESTINATION, payload]);
    expect_at(rt, row, &read_raw(&frame, false).fragment, &fragment);
}

#[test]
fn fragments_over_ipv6(rt: HostRuntime) {
    for row in &OVER_IPV6 {
        expect_over_ipv6(&rt, row);
    }
}
