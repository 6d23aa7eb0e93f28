//! Whether the checksum of a received segment is right. The checksums were computed without this crate, by the rules of RFC 1071.

use crate::expect::{bytes_to, expect_equal, expect_ok};
use etherparse_transport::TcpHeaderSlice;
use std::process::Abort;

static ZEROS: [u8; 65516] = [0; 65516];

/// The addresses over IPv4.
static CLIENT: [u8; 4] = [192, 168, 1, 1];

static SERVER: [u8; 4] = [192, 168, 1, 2];

/// 2001:db8::1 and 2001:db8::2.
static CLIENT_IPV6: [u8; 16] = [0x20, 0x01, 0x0D, 0xB8, 0, 0, 0, 0, 0, 0, 0, 0, 0, 0, 0, 1];

static SERVER_IPV6: [u8; 16] = [0x20, 0x01, 0x0D, 0xB8, 0, 0, 0, 0, 0, 0, 0, 0, 0, 0, 0, 2];

/// A SYN with two options, and with this source port, byte 12 and checksum.
fn syn_with(source_port: u16, byte_12: u8, checksum: u16) -> [u8; 28] {
    let mut bytes = [
        0, 0, 0x00, 0x50, 0, 0, 0, 1, 0, 0, 0, 0, byte_12, 0x02, 0xFF, 0xF0, 0, 0, 0, 0, 2, 4,
        0x05, 0xB4, 3, 3, 7, 0,
    ];
    bytes[..2].copy_from_slice(&source_port.to_be_bytes());
    bytes[16..18].copy_from_slice(&checksum.to_be_bytes());
    bytes
}

/// An answer without options and with this checksum.
fn answer_with(checksum: u16) -> [u8; 20] {
    let mut bytes = [
        0x00, 0x50, 0xC3, 0x50, 1, 2, 3, 4, 5, 6, 7, 8, 0x50, 0x18, 0xFF, 0xFF, 0, 0, 0, 0,
    ];
    bytes[16..18].copy_from_slice(&checksum.to_be_bytes());
    bytes
}

/// A header in which every flag is set, with forty bytes of options and this checksum.
fn longest_with(checksum: u16) -> [u8; 60] {
    let mut bytes = [
        0x00, 0x50, 0xC3, 0x50, 1, 2, 3, 4, 5, 6, 7, 8, 0xF1, 0xFF, 0xFF, 0xF0, 0, 0, 0x11, 0x12,
        0xA0, 0xA1, 0xA2, 0xA3, 0xA4, 0xA5, 0xA6, 0xA7, 0xA8, 0xA9, 0xAA, 0xAB, 0xAC, 0xAD, 0xAE,
        0xAF, 0xB0, 0xB1, 0xB2, 0xB3, 0xB4, 0xB5, 0xB6, 0xB7, 0xB8, 0xB9, 0xBA, 0xBB, 0xBC, 0xBD,
        0xBE, 0xBF, 0xC0, 0xC1, 0xC2, 0xC3, 0xC4, 0xC5, 0xC6, 0xC7,
    ];
    bytes[16..18].copy_from_slice(&checksum.to_be_bytes());
    bytes
}

/// Zeros except the data offset of a header without options, and this checksum.
fn zeros_with(checksum: u16) -> [u8; 20] {
    let mut bytes = [0; 20];
    bytes[12] = 0x50;
    bytes[16..18].copy_from_slice(&checksum.to_be_bytes());
    bytes
}

/// A payload of 23 bytes.
static ODD: &[u8] = b"an odd number of bytes.";

/// The source port, byte 12 and checksum of a SYN, and whether it is right. From the port of the last three rows the computed checksum is
/// 0.
#[rattlefmt::skip]
static SYNS_IPV4: [(u16, u8, u16, bool); 8] = [
    (0xC350, 0x70, 0x3739, true), (0xC350, 0x72, 0x3739, false), (0xC350, 0x72, 0x3539, true), (0xC350, 0x70, 0xFFFF, false),
    (0xC350, 0x70, 0x0000, false), (0xFA89, 0x70, 0x0000, true), (0xFA89, 0x70, 0xFFFF, true), (0xFA89, 0x70, 0x0001, false),
];

/// The source port, byte 12 and checksum of a SYN over IPv6, and whether the checksum is right.
#[rattlefmt::skip]
static SYNS_IPV6: [(u16, u8, u16, bool); 8] = [
    (0xC350, 0x70, 0x5F18, true), (0xC350, 0x72, 0x5F18, false), (0xC350, 0x72, 0x5D18, true), (0xC350, 0x70, 0xFFFF, false),
    (0xC350, 0x70, 0x0000, false), (0x2269, 0x70, 0x0000, true), (0x2269, 0x70, 0xFFFF, true), (0x2269, 0x70, 0x0001, false),
];

/// The checksum of an answer, the third byte of its payload, how many bytes of the payload there are, and whether it is right.
#[rattlefmt::skip]
static ANSWERS_IPV4: [(u16, u8, usize, bool); 6] = [
    (0x58C4, b'c', 0, true), (0x945E, b'c', 3, true), (0x945E, b'd', 3, false),
    (0x945E, b'c', 2, false), (0x945E, b'c', 4, false), (0x945D, b'c', 4, true),
];

#[rattlefmt::skip]
static ANSWERS_IPV6: [(u16, u8, usize, bool); 3] = [
    (0xBC3D, b'c', 3, true), (0xBC3D, b'd', 3, false), (0xBC3D, b'c', 2, false),
];

/// The checksum of the longest header, how many bytes of the payload `ODD` there are, and whether it is right.
#[rattlefmt::skip]
static LONGEST_IPV4: [(u16, usize, bool); 3] = [(0xAE28, 23, true), (0xAE29, 23, false), (0xAE28, 22, false)];

#[rattlefmt::skip]
static LONGEST_IPV6: [(u16, usize, bool); 3] = [(0xD607, 23, true), (0xD608, 23, false), (0xD607, 22, false)];

/// The call that tests the checksum over one version of IP.
#[derive(Clone, Copy)]
enum Version {
    Ipv4,
    Ipv6,
}

fn is_right(rt: &impl Abort, version: Version, header: &[u8], payload: &[u8]) -> bool {
    let header = expect_ok(rt, TcpHeaderSlice::from_slice(header));
    match version {
        Version::Ipv4 => header.is_checksum_valid_ipv4(CLIENT, SERVER, payload),
        Version::Ipv6 => header.is_checksum_valid_ipv6(CLIENT_IPV6, SERVER_IPV6, payload),
    }
}

fn expect_syn(rt: &impl Abort, version: Version, row: &(u16, u8, u16, bool)) {
    let (source_port, byte_12, checksum, expected) = *row;
    let found = is_right(rt, version, &syn_with(source_port, byte_12, checksum), &[]);
    expect_equal(
        rt,
        &(source_port, byte_12, checksum, found),
        &(source_port, byte_12, checksum, expected),
    );
}

fn expect_answer(rt: &impl Abort, version: Version, row: &(u16, u8, usize, bool)) {
    let (checksum, last, len, expected) = *row;
    let payload = [b'a', b'b', last, 0];
    let found = is_right(
        rt,
        version,
        &answer_with(checksum),
        bytes_to(rt, &payload, len),
    );
    expect_equal(
        rt,
        &(checksum, last, len, found),
        &(checksum, last, len, expected),
    );
}

fn expect_longest(rt: &impl Abort, version: Version, row: &(u16, usize, bool)) {
    let (checksum, len, expected) = *row;
    let found = is_right(rt, version, &longest_with(checksum), bytes_to(rt, ODD, len));
    expect_equal(rt, &(checksum, len, found), &(checksum, len, expected));
}

#[test]
fn received_checksums_are_tested_over_ipv4(rt: HostRuntime) {
    for row in &SYNS_IPV4 {
        expect_syn(&rt, Version::Ipv4, row);
    }
    for row in &ANSWERS_IPV4 {
        expect_answer(&rt, Version::Ipv4, row);
    }
    for row in &LONGEST_IPV4 {
        expect_longest(&rt, Version::Ipv4, row);
    }
}

#[test]
fn received_checksums_are_tested_over_ipv6(rt: HostRuntime) {
    for row in &SYNS_IPV6 {
        expect_syn(&rt, Version::Ipv6, row);
    }
    for row in &ANSWERS_IPV6 {
        expect_answer(&rt, Version::Ipv6, row);
    }
    for row in &LONGEST_IPV6 {
        expect_longest(&rt, Version::Ipv6, row);
    }
}

/// Whether a header of zeros with this checksum is right over IPv4 between zero addresses, with this many zeros as payload.
fn is_right_over_zeros(rt: &impl Abort, checksum: u16, len: usize) -> bool {
    let bytes = zeros_with(checksum);
    let header = expect_ok(rt, TcpHeaderSlice::from_slice(&bytes));
    header.is_checksum_valid_ipv4([0; 4], [0; 4], bytes_to(rt, &ZEROS, len))
}

#[test]
fn segments_that_no_pseudo_header_counts_are_never_valid(rt: HostRuntime) {
    expect_equal(&rt, &is_right_over_zeros(&rt, 0xAFF9, 65515), &true);

    // A segment of 65,536 bytes: the checksums of the length modulo 65,536, which is also that of 65,535, and of a length in two words.
    for checksum in [0xAFF9, 0xAFF8] {
        let is_right = is_right_over_zeros(&rt, checksum, 65516);
        expect_equal(&rt, &(checksum, is_right), &(checksum, false));
    }
    // Over IPv6 the length has two words.
    let bytes = zeros_with(0xAFF8);
    let header = expect_ok(&rt, TcpHeaderSlice::from_slice(&bytes));
    let is_right = header.is_checksum_valid_ipv6([0; 16], [0; 16], &ZEROS);
    expect_equal(&rt, &is_right, &true);
}
