//! Tests of the crate `reassembly`.

use crate::expect::{
    bytes_to, expect_at, expect_bytes, expect_equal, expect_ok, expect_some, expect_text,
};
use ip_part::IpError;
use net_base::ip_number;
use reassembly::{
    Fragment, FragmentError, FragmentKey, MAX_FRAGMENTS, Place, Progress, Reassembly,
    ReassemblyError, Waiting, ipv6_fragment_header, place_for, whole_ipv4_header,
    whole_ipv6_header,
};
use std::process::Abort;

/// The key of the fragments over IPv4.
const KEY_OVER_IPV4: FragmentKey = FragmentKey::Ipv4 {
    source: [10, 0, 0, 1],
    destination: [10, 0, 0, 2],
    protocol: ip_number::UDP,
    identification: 0x1A2B,
};

/// The address 2001:db8::1.
const SOURCE: [u8; 16] = [0x20, 1, 0x0D, 0xB8, 0, 0, 0, 0, 0, 0, 0, 0, 0, 0, 0, 1];

/// The address 2001:db8::2.
const DESTINATION: [u8; 16] = [0x20, 1, 0x0D, 0xB8, 0, 0, 0, 0, 0, 0, 0, 0, 0, 0, 0, 2];

/// The key of the fragments over IPv6.
const KEY_OVER_IPV6: FragmentKey = FragmentKey::Ipv6 {
    source: SOURCE,
    destination: DESTINATION,
    identification: 0x0102_0304,
};

/// A fragment of eight bytes over IPv4, with two bytes of padding, and with these bits of bytes 6 and 7.
fn over_ipv4(flags: u8, offset: u8) -> [u8; 30] {
    let mut packet = [
        0x45, 0, 0, 28, 0x1A, 0x2B, 0, 0, 64, 17, 0, 0, 10, 0, 0, 1, 10, 0, 0, 2, // IPv4
        0, 21, 4, 0xD2, 0, 16, 0, 0, 9, 9,
    ];
    packet[6] = flags;
    packet[7] = offset;
    packet
}

/// A fragment over IPv6 of these first bytes of UDP, with hop-by-hop options before the fragment header, whose bytes 2 and 3 are these.
fn over_ipv6(place: [u8; 2]) -> [u8; 64] {
    let mut packet = [0; 64];
    packet[..8].copy_from_slice(&[0x60, 0, 0, 0, 0, 24, 0, 64]);
    packet[8..24].copy_from_slice(&SOURCE);
    packet[24..40].copy_from_slice(&DESTINATION);
    packet[40..48].copy_from_slice(&[44, 0, 1, 4, 0, 0, 0, 0]);
    packet[48..56].copy_from_slice(&[17, 0, place[0], place[1], 1, 2, 3, 4]);
    packet[56..].copy_from_slice(&[0, 21, 4, 0xD2, 0, 16, 0, 0]);
    packet
}

/// Stops the test unless this is the place of the fragment over IPv4.
fn expect_place(rt: &impl Abort, row: &(u8, u8, Option<(u16, bool)>)) {
    let packet = over_ipv4(row.0, row.1);
    let expected = row.2.map(|(offset, more_fragments)| Fragment {
        key: KEY_OVER_IPV4,
        offset,
        more_fragments,
        payload: &packet[20..28],
        header: &packet[..20],
    });
    expect_at(rt, row, &Fragment::of(&packet), &Ok(expected));
}

/// Bytes 6 and 7 of an IPv4 header; the offset in bytes, and whether more fragments come after.
#[rattlefmt::skip]
static PLACES: [(u8, u8, Option<(u16, bool)>); 5] = [
    (0x00, 0, None),
    (0x40, 0, None),
    (0x20, 0, Some((0, true))),
    (0x20, 1, Some((8, true))),
    (0x1F, 0xFF, Some((65_528, false))),
];

#[test]
fn a_fragment_over_ipv4_has_its_place_in_bytes(rt: HostRuntime) {
    for row in &PLACES {
        expect_place(&rt, row);
    }
}

#[test]
fn a_fragment_over_ipv6_is_found_after_other_headers(rt: HostRuntime) {
    let packet = over_ipv6([0, 9]);
    let expected = Fragment {
        key: KEY_OVER_IPV6,
        offset: 8,
        more_fragments: true,
        payload: &packet[56..],
        header: &packet[..56],
    };
    expect_equal(&rt, &Fragment::of(&packet), &Ok(Some(expected)));
}

#[test]
fn an_atomic_fragment_is_whole(rt: HostRuntime) {
    expect_equal(&rt, &Fragment::of(&over_ipv6([0, 0])), &Ok(None));
}

#[test]
fn a_fragment_header_over_ipv6_is_found(rt: HostRuntime) {
    let packet = over_ipv6([0, 0]);
    let header = [17, 0, 0, 0, 1, 2, 3, 4];
    expect_equal(&rt, &ipv6_fragment_header(&packet), &Some(header));
    let headers = bytes_to(&rt, &packet, 56);
    expect_equal(&rt, &ipv6_fragment_header(headers), &Some(header));
    // The headers are cut off, there is no fragment header, and the version is 4.
    let headers = bytes_to(&rt, &packet, 55);
    expect_equal(&rt, &ipv6_fragment_header(headers), &None);
    let mut other = packet;
    other[40] = 17;
    expect_equal(&rt, &ipv6_fragment_header(&other), &None);
    other = packet;
    other[0] = 0x45;
    expect_equal(&rt, &ipv6_fragment_header(&other), &None);
    expect_equal(&rt, &ipv6_fragment_header(&[]), &None);
}

#[test]
fn a_fragment_that_is_cut_off_is_refused(rt: HostRuntime) {
    let error = IpError::PacketCutOff {
        required_len: 28,
        len: 27,
    };
    let packet = over_ipv4(0x20, 0);
    expect_equal(
        &rt,
        &Fragment::of(&packet[..27]),
        &Err(FragmentError::Ip(error)),
    );
}

#[test]
fn only_a_first_fragment_has_an_authentication_header(rt: HostRuntime) {
    let mut packet = over_ipv4(0x20, 0);
    packet[9] = 51;
    let error = IpError::ExtensionHeaderCutOff {
        protocol: ip_number::AUTHENTICATION_HEADER,
        offset: 20,
        required_len: 92,
        len: 8,
    };
    expect_equal(&rt, &Fragment::of(&packet), &Err(FragmentError::Ip(error)));
    packet[7] = 1;
    let fragment = expect_some(&rt, expect_ok(&rt, Fragment::of(&packet)));
    expect_equal(&rt, &(fragment.offset, fragment.payload.len()), &(8, 8));
}

#[test]
fn a_first_fragment_has_its_header_chain(rt: HostRuntime) {
    let mut packet = over_ipv6([0, 1]);
    packet[5] = 23;
    let error = FragmentError::HeaderChainCutOff {
        required_len: 8,
        len: 7,
    };
    expect_equal(&rt, &Fragment::of(&packet), &Err(error));
    expect_text(
        &rt,
        &error,
        "Fragment Error: the transport header has at least 8 bytes, and the first fragment has 7.",
    );
}

/// A payload of 20 bytes.
static PAYLOAD: [u8; 20] = [
    1, 2, 3, 4, 5, 6, 7, 8, 9, 10, 11, 12, 13, 14, 15, 16, 17, 18, 19, 20,
];

/// The header of the fragments over IPv4: its total length, flags and checksum are those of a fragment.
#[rattlefmt::skip]
static HEADER: [u8; 20] = [
    0x45, 0, 0, 28, 0x1A, 0x2B, 0x20, 0, 64, 17, 0, 0, 10, 0, 0, 1, 10, 0, 0, 2,
];

/// The header of the whole packet, with the payload of 20 bytes.
#[rattlefmt::skip]
static WHOLE_HEADER: [u8; 20] = [
    0x45, 0, 0, 40, 0x1A, 0x2B, 0, 0, 64, 17, 0x4C, 0x98, 10, 0, 0, 1, 10, 0, 0, 2,
];

/// A fragment of a packet over IPv4.
fn fragment(offset: u16, more_fragments: bool, payload: &[u8]) -> Fragment<'_> {
    Fragment {
        key: KEY_OVER_IPV4,
        offset,
        more_fragments,
        payload,
        header: &HEADER,
    }
}

/// Orders of the three fragments of the payload, in which each arrives, and some repeatedly.
static ORDERS: [[usize; 4]; 4] = [[0, 1, 1, 2], [2, 1, 2, 0], [1, 0, 0, 2], [2, 0, 0, 1]];

/// Stops the test unless the fragments in this order give the payload back.
fn expect_payload(rt: &impl Abort, order: &[usize; 4]) {
    let fragments = [
        fragment(0, true, &PAYLOAD[..8]),
        fragment(8, true, &PAYLOAD[8..16]),
        fragment(16, false, &PAYLOAD[16..]),
    ];
    let mut buffer = [0xFF; 84];
    let mut reassembly = Reassembly::new(KEY_OVER_IPV4, &mut buffer);
    for index in &order[..3] {
        expect_at(
            rt,
            order,
            &reassembly.add(&fragments[*index]),
            &Ok(Progress::Incomplete),
        );
        expect_at(rt, order, &reassembly.payload(), &None);
        expect_at(rt, order, &reassembly.packet(), &None);
    }
    expect_at(
        rt,
        order,
        &reassembly.add(&fragments[order[3]]),
        &Ok(Progress::Complete),
    );
    expect_at(rt, order, &reassembly.payload(), &Some(PAYLOAD.as_slice()));
    let packet = expect_some(rt, reassembly.packet());
    expect_bytes(rt, &packet[..20], &WHOLE_HEADER);
    expect_bytes(rt, &packet[20..], &PAYLOAD);
    expect_at(rt, order, &reassembly.key(), &KEY_OVER_IPV4);
}

#[test]
fn fragments_in_any_order_give_the_payload_back(rt: HostRuntime) {
    for order in &ORDERS {
        expect_payload(&rt, order);
    }
}

/// The place of a fragment, whether more fragments come after it, its bytes in the payload, and why it is refused after the bytes 8 to 15.
#[rattlefmt::skip]
static REFUSED: [(u16, bool, usize, usize, ReassemblyError); 8] = [
    (8, true, 0, 0, ReassemblyError::Empty),
    (0, true, 0, 7, ReassemblyError::LengthNotMultipleOf8 { len: 7 }),
    (65_528, true, 0, 8, ReassemblyError::TooLong { end: 65_536 }),
    (16, true, 0, 16, ReassemblyError::BufferTooSmall { required_len: 32, len: 24 }),
    (0, false, 0, 4, ReassemblyError::BehindEnd),
    (8, false, 8, 16, ReassemblyError::BehindEnd),
    (8, true, 0, 8, ReassemblyError::Overlap),
    (0, true, 0, 16, ReassemblyError::Overlap),
];

/// Stops the test unless the fragment of this row is refused, and nothing changes.
fn expect_refused(rt: &impl Abort, row: &(u16, bool, usize, usize, ReassemblyError)) {
    let mut buffer = [0; 84];
    let mut reassembly = Reassembly::new(KEY_OVER_IPV4, &mut buffer);
    expect_ok(rt, reassembly.add(&fragment(8, true, &PAYLOAD[8..16])));
    let refused = fragment(row.0, row.1, &PAYLOAD[row.2..row.3]);
    expect_at(rt, row, &reassembly.add(&refused), &Err(row.4));
    expect_ok(rt, reassembly.add(&fragment(16, false, &PAYLOAD[16..])));
    let last = reassembly.add(&fragment(0, true, &PAYLOAD[..8]));
    expect_at(rt, row, &last, &Ok(Progress::Complete));
}

#[test]
fn fragments_that_do_not_fit_are_refused(rt: HostRuntime) {
    for row in &REFUSED {
        expect_refused(&rt, row);
    }
}

#[test]
fn a_fragment_agrees_with_the_known_end(rt: HostRuntime) {
    let mut buffer = [0; 84];
    let mut reassembly = Reassembly::new(KEY_OVER_IPV4, &mut buffer);
    expect_ok(&rt, reassembly.add(&fragment(8, false, &PAYLOAD[8..16])));
    let other_end = reassembly.add(&fragment(16, false, &PAYLOAD[16..]));
    expect_equal(&rt, &other_end, &Err(ReassemblyError::OtherEnd));
    let behind_end = reassembly.add(&fragment(8, true, &PAYLOAD[8..16]));
    expect_equal(&rt, &behind_end, &Err(ReassemblyError::BehindEnd));
    let mut other_key = fragment(0, true, &PAYLOAD[..8]);
    other_key.key = KEY_OVER_IPV6;
    expect_equal(
        &rt,
        &reassembly.add(&other_key),
        &Err(ReassemblyError::OtherKey),
    );
}

/// Keys that differ from the key of the fragments over IPv4 in one field.
#[rattlefmt::skip]
static OTHER_KEYS: [FragmentKey; 4] = [
    FragmentKey::Ipv4 { source: [10, 0, 0, 9], destination: [10, 0, 0, 2], protocol: ip_number::UDP, identification: 0x1A2B },
    FragmentKey::Ipv4 { source: [10, 0, 0, 1], destination: [11, 0, 0, 2], protocol: ip_number::UDP, identification: 0x1A2B },
    FragmentKey::Ipv4 { source: [10, 0, 0, 1], destination: [10, 0, 0, 2], protocol: ip_number::TCP, identification: 0x1A2B },
    FragmentKey::Ipv4 { source: [10, 0, 0, 1], destination: [10, 0, 0, 2], protocol: ip_number::UDP, identification: 0x1A2C },
];

#[test]
fn each_field_of_a_key_counts(rt: HostRuntime) {
    let mut buffer = [0; 84];
    for key in &OTHER_KEYS {
        let mut reassembly = Reassembly::new(*key, &mut buffer);
        let refused = reassembly.add(&fragment(0, true, &PAYLOAD[..8]));
        expect_at(&rt, key, &refused, &Err(ReassemblyError::OtherKey));
    }
}

#[test]
fn as_many_fragments_as_fit_are_added(rt: HostRuntime) {
    let mut buffer = [0; 1100];
    let mut reassembly = Reassembly::new(KEY_OVER_IPV4, &mut buffer);
    for index in 0..MAX_FRAGMENTS {
        let offset = expect_ok(&rt, u16::try_from(index * 8));
        expect_ok(&rt, reassembly.add(&fragment(offset, true, &PAYLOAD[..8])));
    }
    let refused = reassembly.add(&fragment(1024, true, &PAYLOAD[..8]));
    expect_equal(&rt, &refused, &Err(ReassemblyError::TooManyFragments));
}

#[test]
fn errors_have_texts(rt: HostRuntime) {
    for (error, text) in &TEXTS {
        expect_text(&rt, error, text);
    }
}

/// The text of each error.
#[rattlefmt::skip]
static TEXTS: [(ReassemblyError, &str); 9] = [
    (ReassemblyError::OtherKey, "Reassembly Error: the fragment is of another packet."),
    (ReassemblyError::Empty, "Reassembly Error: the fragment has no payload."),
    (ReassemblyError::LengthNotMultipleOf8 { len: 7 }, "Reassembly Error: more fragments follow, and the length 7 is no multiple of 8."),
    (ReassemblyError::TooLong { end: 65_536 }, "Reassembly Error: the fragment ends at 65536, which is above 65535."),
    (ReassemblyError::BufferTooSmall { required_len: 32, len: 24 }, "Reassembly Error: the fragment ends at 32, and the buffer has room for 24 bytes."),
    (ReassemblyError::OtherEnd, "Reassembly Error: two last fragments end at different places."),
    (ReassemblyError::BehindEnd, "Reassembly Error: a fragment does not end before the last."),
    (ReassemblyError::Overlap, "Reassembly Error: the fragment overlaps another."),
    (ReassemblyError::TooManyFragments, "Reassembly Error: no more fragments fit."),
];

#[test]
fn a_whole_header_has_no_mark_of_a_fragment(rt: HostRuntime) {
    let header = expect_some(&rt, whole_ipv4_header(&over_ipv4(0x60, 1), 16));
    let expected = [
        0x45, 0, 0, 36, 0x1A, 0x2B, 0x40, 0, 64, 17, 0x0C, 0x9C, 10, 0, 0, 1, 10, 0, 0, 2,
    ];
    expect_bytes(&rt, header.as_slice(), &expected);
    let too_long = whole_ipv4_header(&over_ipv4(0x20, 0), 65_516);
    expect_equal(&rt, &too_long.is_none(), &true);
    expect_equal(&rt, &whole_ipv4_header(&[0x60; 20], 16).is_none(), &true);
}

/// The fragment over IPv6 with these bytes 2 and 3 of its fragment header, added to a reassembly.
fn add_over_ipv6(rt: &impl Abort, reassembly: &mut Reassembly<'_>, place: [u8; 2]) -> Progress {
    let packet = over_ipv6(place);
    let fragment = expect_some(rt, expect_ok(rt, Fragment::of(&packet)));
    expect_ok(rt, reassembly.add(&fragment))
}

#[test]
fn fragments_over_ipv6_give_the_packet_back(rt: HostRuntime) {
    let mut buffer = [0xFF; 272];
    let mut reassembly = Reassembly::new(KEY_OVER_IPV6, &mut buffer);
    expect_equal(
        &rt,
        &add_over_ipv6(&rt, &mut reassembly, [0, 8]),
        &Progress::Incomplete,
    );
    expect_equal(&rt, &reassembly.packet(), &None);
    expect_equal(
        &rt,
        &add_over_ipv6(&rt, &mut reassembly, [0, 1]),
        &Progress::Complete,
    );
    let packet = expect_some(&rt, reassembly.packet());
    expect_equal(&rt, &packet.len(), &64);
    expect_bytes(&rt, &packet[..8], &[0x60, 0, 0, 0, 0, 24, 0, 64]);
    expect_bytes(&rt, &packet[40..48], &[17, 0, 1, 4, 0, 0, 0, 0]);
    expect_bytes(&rt, &packet[48..56], &[0, 21, 4, 0xD2, 0, 16, 0, 0]);
    expect_bytes(&rt, &packet[56..], &[0, 21, 4, 0xD2, 0, 16, 0, 0]);
}

#[test]
fn headers_of_ipv6_are_those_before_the_fragment_header(rt: HostRuntime) {
    let header = expect_some(&rt, whole_ipv6_header(&over_ipv6([0, 1]), 65_527));
    expect_bytes(&rt, &header.as_slice()[4..8], &[0xFF, 0xFF, 0, 64]);
    expect_bytes(&rt, &header.as_slice()[40..], &[17, 0, 1, 4, 0, 0, 0, 0]);
    let too_long = whole_ipv6_header(&over_ipv6([0, 1]), 65_528);
    expect_equal(&rt, &too_long.is_none(), &true);
    expect_equal(
        &rt,
        &whole_ipv6_header(&over_ipv4(0, 0), 8).is_none(),
        &true,
    );
}

/// A packet that is put together since this time.
fn waiting(key: FragmentKey, since: u64) -> Waiting {
    Waiting { key, since }
}

#[test]
fn a_fragment_has_a_place_among_reassemblies(rt: HostRuntime) {
    let mut other = KEY_OVER_IPV4;
    if let FragmentKey::Ipv4 { identification, .. } = &mut other {
        *identification = 7;
    }
    let all = [
        waiting(other, 5),
        waiting(KEY_OVER_IPV6, 3),
        waiting(other, 3),
    ];
    expect_equal(
        &rt,
        &place_for(&all, &KEY_OVER_IPV6),
        &Some(Place::Known(1)),
    );
    expect_equal(&rt, &place_for(&all, &other), &Some(Place::Known(0)));
    expect_equal(
        &rt,
        &place_for(&all, &KEY_OVER_IPV4),
        &Some(Place::Oldest(1)),
    );
    expect_equal(&rt, &place_for(&[], &other), &None);
    for (now, is_expired) in [(0, false), (65, false), (66, true)] {
        expect_equal(&rt, &all[0].is_expired(now), &is_expired);
    }
}
