//! Protocol numbers, and the headers of IPv4 and IPv6.

use crate::expect::{
    bytes_from, bytes_to, expect_at, expect_clone, expect_debug_text, expect_equal, expect_some,
};
use etherparse_transport::{
    IpNumber, Ipv4Header, Ipv4HeaderSlice, Ipv6Header, Ipv6HeaderSlice, ip_number,
};
use std::process::Abort;

/// The bytes 0, 1, 2 and so on, except that the first byte is this one.
fn rising_bytes(first: u8) -> [u8; 60] {
    let mut bytes = [first; 60];
    for place in 1..60u8 {
        bytes[usize::from(place)] = place;
    }
    bytes
}

/// A header with other addresses than 1.2.3.4 differs from a header with this address twice.
fn expect_other_ipv4(rt: &impl Abort, source: [u8; 4], destination: [u8; 4]) {
    let header = Ipv4Header {
        source: [1, 2, 3, 4],
        destination: [1, 2, 3, 4],
    };
    let other = Ipv4Header {
        source,
        destination,
    };
    expect_at(rt, &other, &(other == header), &false);
}

/// A header with other addresses than an address of 16 bytes 1 differs from a header with this address twice.
fn expect_other_ipv6(rt: &impl Abort, source: [u8; 16], destination: [u8; 16]) {
    let header = Ipv6Header {
        source: [1; 16],
        destination: [1; 16],
    };
    let other = Ipv6Header {
        source,
        destination,
    };
    expect_at(rt, &other, &(other == header), &false);
}

#[test]
fn every_byte_of_an_address_is_compared(rt: HostRuntime) {
    for place in 0..4usize {
        let mut address = [1, 2, 3, 4];
        address[place] = 0;
        expect_other_ipv4(&rt, address, [1, 2, 3, 4]);
        expect_other_ipv4(&rt, [1, 2, 3, 4], address);
    }
    for place in 0..16usize {
        let mut address = [1; 16];
        address[place] = 0;
        expect_other_ipv6(&rt, address, [1; 16]);
        expect_other_ipv6(&rt, [1; 16], address);
    }
}

static NUMBERS: [(IpNumber, u8); 14] = [
    (ip_number::ICMP, 1),
    (ip_number::TCP, 6),
    (ip_number::UDP, 17),
    (ip_number::IPV6_ICMP, 58),
    (ip_number::IPV6_HEADER_HOP_BY_HOP, 0),
    (ip_number::IPV6_ROUTE_HEADER, 43),
    (ip_number::IPV6_FRAGMENTATION_HEADER, 44),
    (ip_number::ENCAPSULATING_SECURITY_PAYLOAD, 50),
    (ip_number::AUTHENTICATION_HEADER, 51),
    (ip_number::IPV6_NO_NEXT_HEADER, 59),
    (ip_number::IPV6_DESTINATION_OPTIONS, 60),
    (ip_number::MOBILITY_HEADER, 135),
    (ip_number::HIP, 139),
    (ip_number::SHIM6, 140),
];

#[test]
fn protocols_have_numbers(rt: HostRuntime) {
    for (number, expected) in &NUMBERS {
        expect_equal(&rt, &number.0, expected);
    }
    let (ipv4, ipv6) = (Ipv4Header::default(), Ipv6Header::default());
    expect_equal(&rt, &ipv4.source, &[0; 4]);
    expect_equal(&rt, &ipv4.destination, &[0; 4]);
    expect_equal(&rt, &ipv6.source, &[0; 16]);
    expect_equal(&rt, &ipv6.destination, &[0; 16]);
    let ipv4 = Ipv4Header {
        source: [1, 2, 3, 4],
        destination: [5, 6, 7, 8],
    };
    expect_clone(&rt, &ipv4);
    let ipv6 = Ipv6Header {
        source: [1, 2, 3, 4, 5, 6, 7, 8, 9, 10, 11, 12, 13, 14, 15, 16],
        destination: [
            17, 18, 19, 20, 21, 22, 23, 24, 25, 26, 27, 28, 29, 30, 31, 32,
        ],
    };
    expect_clone(&rt, &ipv6);
}

/// The first byte of rising bytes, how many of them there are, and whether a header is found.
type FoundRow = (u8, usize, bool);

static FOUND_IPV4: [FoundRow; 8] = [
    (0x45, 20, true),
    (0x44, 20, false),
    (0x46, 20, false),
    (0x65, 20, false),
    (0x46, 24, true),
    (0x45, 19, false),
    (0x4F, 59, false),
    (0x4F, 60, true),
];

static FOUND_IPV6: [FoundRow; 4] = [
    (0x60, 40, true),
    (0x60, 39, false),
    (0x6F, 41, true),
    (0x45, 40, false),
];

fn expect_ipv4_found(rt: &impl Abort, row: &FoundRow) {
    let (first, len, _) = *row;
    let bytes = rising_bytes(first);
    let header = Ipv4HeaderSlice::from_slice(bytes_to(rt, &bytes, len));
    expect_equal(rt, &(first, len, header.is_some()), row);
}

fn expect_ipv6_found(rt: &impl Abort, row: &FoundRow) {
    let (first, len, _) = *row;
    let bytes = rising_bytes(first);
    let header = Ipv6HeaderSlice::from_slice(bytes_to(rt, &bytes, len));
    expect_equal(rt, &(first, len, header.is_some()), row);
}

/// The IPv4 header at the beginning of these bytes.
fn ipv4_slice<'a>(rt: &impl Abort, bytes: &'a [u8]) -> Ipv4HeaderSlice<'a> {
    expect_some(rt, Ipv4HeaderSlice::from_slice(bytes))
}

/// The IPv6 header at the beginning of these bytes.
fn ipv6_slice<'a>(rt: &impl Abort, bytes: &'a [u8]) -> Ipv6HeaderSlice<'a> {
    expect_some(rt, Ipv6HeaderSlice::from_slice(bytes))
}

#[test]
fn ipv4_headers_are_found(rt: HostRuntime) {
    for row in &FOUND_IPV4 {
        expect_ipv4_found(&rt, row);
    }
    let bytes = rising_bytes(0x46);
    let header = ipv4_slice(&rt, &bytes);
    let addresses = Ipv4Header {
        source: [12, 13, 14, 15],
        destination: [16, 17, 18, 19],
    };
    expect_equal(&rt, &header.source(), &addresses.source);
    expect_equal(&rt, &header.destination(), &addresses.destination);
    expect_equal(&rt, &Ipv4Header::from(&header), &addresses);
    expect_clone(&rt, &header);
    expect_debug_text(
        &rt,
        &header,
        "Ipv4HeaderSlice { slice: [70, 1, 2, 3, 4, 5, 6, 7, 8, 9, 10, 11, 12, 13, 14, 15, 16, 17, 18, 19, 20, 21, 22, 23] }",
    );
    expect_equal(&rt, &ipv4_slice(&rt, bytes_to(&rt, &bytes, 24)), &header);
    let mut other_bytes = bytes;
    other_bytes[23] = 0;
    let other = ipv4_slice(&rt, &other_bytes);
    expect_equal(&rt, &(other == header), &false);
}

#[test]
fn ipv6_headers_are_found(rt: HostRuntime) {
    for row in &FOUND_IPV6 {
        expect_ipv6_found(&rt, row);
    }
    let bytes = rising_bytes(0x60);
    let header = ipv6_slice(&rt, &bytes);
    let addresses = Ipv6Header {
        source: [8, 9, 10, 11, 12, 13, 14, 15, 16, 17, 18, 19, 20, 21, 22, 23],
        destination: [
            24, 25, 26, 27, 28, 29, 30, 31, 32, 33, 34, 35, 36, 37, 38, 39,
        ],
    };
    expect_equal(&rt, &header.source(), &addresses.source);
    expect_equal(&rt, &header.destination(), &addresses.destination);
    expect_equal(&rt, &Ipv6Header::from(&header), &addresses);
    expect_clone(&rt, &header);
    expect_debug_text(
        &rt,
        &header,
        "Ipv6HeaderSlice { slice: [96, 1, 2, 3, 4, 5, 6, 7, 8, 9, 10, 11, 12, 13, 14, 15, 16, 17, 18, 19, 20, 21, 22, 23, 24, 25, 26, 27, 28, 29, 30, 31, 32, 33, 34, 35, 36, 37, 38, 39] }",
    );
    expect_equal(&rt, &ipv6_slice(&rt, bytes_to(&rt, &bytes, 40)), &header);
    let mut other_bytes = bytes;
    other_bytes[39] = 0;
    let other = ipv6_slice(&rt, &other_bytes);
    expect_equal(&rt, &(other == header), &false);
}

/// A header of six words in which all fields are different, with these bytes 6 and 7.
fn full_ipv4_header(fragment_bytes: [u8; 2]) -> [u8; 24] {
    let [flags, offset] = fragment_bytes;
    [
        0x46, 0xB9, 0x12, 0x34, 0x56, 0x78, flags, offset, 0x3F, 0x84, 0x10, 0xFF, 10, 11, 12, 13,
        20, 21, 22, 23, 0x94, 4, 0, 1,
    ]
}

/// Bytes 6 and 7, the flags DF and MF, the fragment offset, and whether the packet is a fragment.
type FragmentRow = ([u8; 2], bool, bool, u16, bool);

static FRAGMENT_FIELDS: [FragmentRow; 7] = [
    ([0x00, 0x00], false, false, 0, false),
    ([0x40, 0x00], true, false, 0, false),
    ([0x80, 0x00], false, false, 0, false),
    ([0x20, 0x00], false, true, 0, true),
    ([0x00, 0x01], false, false, 1, true),
    ([0x10, 0x00], false, false, 4096, true),
    ([0x7F, 0xFF], true, true, 8191, true),
];

/// The header has the fields of the row, and a wrong checksum.
fn expect_fragment_fields(rt: &impl Abort, row: &FragmentRow) {
    let bytes = full_ipv4_header(row.0);
    let header = ipv4_slice(rt, &bytes);
    let read = (
        row.0,
        header.dont_fragment(),
        header.more_fragments(),
        header.fragments_offset(),
        header.is_fragmenting_payload(),
    );
    expect_equal(rt, &read, row);
    let is_valid = header.is_checksum_valid();
    expect_at(rt, row, &is_valid, &false);
}

#[test]
fn ipv4_fields_are_read(rt: HostRuntime) {
    let bytes = full_ipv4_header([0x2B, 0xCD]);
    let header = ipv4_slice(&rt, &bytes);
    expect_equal(
        &rt,
        &(header.version(), header.ihl(), header.dscp(), header.ecn()),
        &(4, 6, 46, 1),
    );
    expect_equal(
        &rt,
        &(
            header.total_len(),
            header.identification(),
            header.fragments_offset(),
        ),
        &(0x1234, 0x5678, 0x0BCD),
    );
    expect_equal(
        &rt,
        &(
            header.ttl(),
            header.protocol(),
            header.header_checksum(),
            header.is_checksum_valid(),
        ),
        &(0x3F, IpNumber(0x84), 0x10FF, true),
    );
    expect_equal(
        &rt,
        &(header.slice(), header.options()),
        &(bytes.as_slice(), bytes_from(&rt, &bytes, 20)),
    );
    let addresses = Ipv4Header {
        source: [10, 11, 12, 13],
        destination: [20, 21, 22, 23],
    };
    expect_equal(&rt, &header.to_header(), &addresses);
    expect_equal(&rt, &Ipv4Header::from(&header), &addresses);
    for row in &FRAGMENT_FIELDS {
        expect_fragment_fields(&rt, row);
    }
    let places = [
        Ipv4Header::MIN_LEN,
        Ipv4Header::TIME_TO_LIVE_AT,
        Ipv4Header::PROTOCOL_AT,
        Ipv4Header::CHECKSUM_AT,
        Ipv4Header::SOURCE_AT,
        Ipv4Header::DESTINATION_AT,
    ];
    expect_equal(&rt, &places, &[20, 8, 9, 10, 12, 16]);
}

#[test]
fn ipv6_fields_are_read(rt: HostRuntime) {
    let mut bytes = rising_bytes(0x6A);
    bytes[1] = 0xBC;
    let header = ipv6_slice(&rt, &bytes);
    expect_equal(
        &rt,
        &(
            header.version(),
            header.traffic_class(),
            header.flow_label(),
        ),
        &(6, 0xAB, 0xC0203),
    );
    expect_equal(
        &rt,
        &(
            header.payload_length(),
            header.next_header(),
            header.hop_limit(),
        ),
        &(0x0405, IpNumber(6), 7),
    );
    expect_equal(&rt, &header.slice(), &bytes_to(&rt, &bytes, 40));
    expect_equal(&rt, &header.to_header(), &Ipv6Header::from(&header));
    let places = [
        Ipv6Header::LEN,
        Ipv6Header::SOURCE_AT,
        Ipv6Header::DESTINATION_AT,
    ];
    expect_equal(&rt, &places, &[40, 8, 24]);
}
