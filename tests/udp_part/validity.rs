//! Tests whether a receiver accepts the checksum of packets, over IPv4 and over IPv6.

use crate::expect::{bytes_from, bytes_to, expect_at, expect_ok};
use etherparse_transport::UdpSlice;
use std::fmt::Debug;
use std::process::Abort;

/// From 2001:db8:1:2:3:4:5:6 to 2001:db8:a:b:c:d:e:f.
const IPV6: [[u8; 16]; 2] = [
    [0x20, 0x01, 0x0D, 0xB8, 0, 1, 0, 2, 0, 3, 0, 4, 0, 5, 0, 6],
    [
        0x20, 0x01, 0x0D, 0xB8, 0, 10, 0, 11, 0, 12, 0, 13, 0, 14, 0, 15,
    ],
];

/// The words of a packet from 192.168.1.1 to 192.168.1.2, or from and to the addresses above, its length, and whether it is valid over
/// IPv4 and over IPv6.
type ReceivedRow = (u128, usize, bool, bool);

#[rattlefmt::skip]
static RECEIVED: [ReceivedRow; 25] = [
    // The packet of the README, which has an odd length, with its checksum over IPv4, with its checksum over IPv6, and without a checksum.
    (0x0015_04D2_000B_B33A_6162_63, 11, true, false),
    (0x0015_04D2_000B_DABC_6162_63, 11, false, true),
    (0x0015_04D2_000B_0000_6162_63, 11, true, false),
    // One bit changed: in the last byte, in the checksum, and in a port.
    (0x0015_04D2_000B_B33A_6162_62, 11, false, false),
    (0x0015_04D2_000B_DABC_6162_62, 11, false, false),
    (0x0015_04D2_000B_B23A_6162_63, 11, false, false),
    (0x0015_04D2_000B_DABD_6162_63, 11, false, false),
    (0x0115_04D2_000B_B33A_6162_63, 11, false, false),
    (0x0115_04D2_000B_DABC_6162_63, 11, false, false),
    // The ports exchanged.
    (0x04D2_0015_000B_B33A_6162_63, 11, true, false),
    (0x04D2_0015_000B_DABC_6162_63, 11, false, true),
    // Cut off by a byte.
    (0x0015_04D2_000B_B33A_6162, 10, false, false),
    (0x0015_04D2_000B_DABC_6162, 10, false, false),
    // A length field of 0: the checksum of 11 bytes over IPv4, over IPv6, and of a pseudo header with that field.
    (0x0015_04D2_0000_B345_6162_63, 11, true, false),
    (0x0015_04D2_0000_DAC7_6162_63, 11, false, true),
    (0x0015_04D2_0000_B350_6162_63, 11, false, false),
    // A length field of 12: the checksum of 11 bytes, and of a pseudo header with that field.
    (0x0015_04D2_000C_B339_6162_63, 11, true, false),
    (0x0015_04D2_000C_B338_6162_63, 11, false, false),
    (0x0015_04D2_000C_DABB_6162_63, 11, false, true),
    (0x0015_04D2_000C_DABA_6162_63, 11, false, false),
    // The protocol of TCP in the pseudo header.
    (0x0015_04D2_000B_B345_6162_63, 11, false, false),
    // An even length.
    (0x0015_04D2_0010_677F_0102_0304_0506_0708, 16, true, false),
    (0x0015_04D2_0010_8F01_0102_0304_0506_0708, 16, false, true),
    // A change from 0000 to FFFF is not found.
    (0x0015_04D2_000C_1639_0000_6162, 12, true, false),
    (0x0015_04D2_000C_1639_FFFF_6162, 12, true, false),
];

/// The packet of a row is valid, or not, as the row says.
fn expect_received(rt: &impl Abort, row: &ReceivedRow) {
    let (words, len, over_ipv4, over_ipv6) = *row;
    let bytes = u128::to_be_bytes(words);
    let bytes = bytes_from(rt, &bytes, bytes.len().saturating_sub(len));
    let packet = &expect_ok(rt, UdpSlice::from_slice_lax(bytes));
    let valid = packet.is_checksum_valid_ipv4([192, 168, 1, 1], [192, 168, 1, 2]);
    expect_at(rt, row, &valid, &over_ipv4);
    let valid = packet.is_checksum_valid_ipv6(IPV6[0], IPV6[1]);
    expect_at(rt, row, &valid, &over_ipv6);
}

#[test]
fn received_checksums(rt: HostRuntime) {
    for row in &RECEIVED {
        expect_received(&rt, row);
    }
}

/// The packet is valid, or not, between addresses of zeros, over IPv4 and over IPv6.
fn expect_over_zeros<K: Debug>(
    rt: &impl Abort,
    key: &K,
    bytes: &[u8],
    over_ipv4: bool,
    over_ipv6: bool,
) {
    let packet = &expect_ok(rt, UdpSlice::from_slice(bytes));
    let valid = packet.is_checksum_valid_ipv4([0; 4], [0; 4]);
    expect_at(rt, key, &valid, &over_ipv4);
    let valid = packet.is_checksum_valid_ipv6([0; 16], [0; 16]);
    expect_at(rt, key, &valid, &over_ipv6);
}

/// A byte that is both bytes of the checksum, and whether a header whose words are otherwise all ones is valid over IPv4 and over IPv6:
/// FFDE and the length, and in the pseudo header the protocol and the length.
static HEADERS: [(u8, bool, bool); 3] = [
    (0xFF, true, true),
    (0, true, false),
    (0xFE, false, false),
];

/// The header of a row is valid, or not, as the row says.
fn expect_received_header(rt: &impl Abort, row: &(u8, bool, bool)) {
    let (checksum, over_ipv4, over_ipv6) = *row;
    let bytes = [0xFF, 0xDE, 0, 0, 0, 8, checksum, checksum];
    expect_over_zeros(rt, row, &bytes, over_ipv4, over_ipv6);
}

/// The length of a packet of zeros, its checksum, and whether it is valid over IPv4 and over IPv6. The sum has the protocol 0011, and
/// the length: FFFF, or 0001 and 0000.
type LongRow = (usize, [u8; 2], bool, bool);

static LONG: [LongRow; 5] = [
    (65535, [0xFF, 0xEE], true, true),
    (65535, [0xFF, 0xED], false, false),
    (65536, [0xFF, 0xEE], false, false),
    (65536, [0xFF, 0xED], false, true),
    (65536, [0, 0], true, false),
];

/// The packet of a row is valid, or not, as the row says.
fn expect_received_zeros(rt: &impl Abort, bytes: &mut [u8; 65536], row: &LongRow) {
    let (len, checksum, over_ipv4, over_ipv6) = *row;
    bytes[6..8].copy_from_slice(&checksum);
    expect_over_zeros(rt, row, bytes_to(rt, bytes, len), over_ipv4, over_ipv6);
}

#[test]
fn received_zeros_and_long_packets(rt: HostRuntime) {
    for row in &HEADERS {
        expect_received_header(&rt, row);
    }
    let mut bytes = [0; 65536];
    for row in &LONG {
        expect_received_zeros(&rt, &mut bytes, row);
    }
}
