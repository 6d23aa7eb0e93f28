//! Tests of the crate `ip_translation`: IPv4 addresses in IPv6 addresses, and headers. The rows of addresses are from RFC 6052, section 2.4.

use crate::expect::{
    bytes_to, expect_at, expect_bytes, expect_equal, expect_ok, expect_some, expect_text, joined,
};
use etherparse_transport::{Ipv4HeaderSlice, Ipv6Header, UdpHeader};
use ip_translation::{
    AddressError, AddressMapping, AddressMappingError, PacketTranslationError, Prefix64,
    Prefix64Error, Prefixes, TranslationError, header_to_ipv6, icmpv4_error, icmpv4_mtu,
    icmpv4_pointer, icmpv6_error, icmpv6_mtu, icmpv6_pointer, ipv4_to_ipv6, ipv6_to_ipv4,
    pseudo_header_change,
};
use std::process::Abort;

/// A prefix and its length, and the IPv6 address that contains 192.0.2.33.
struct Row {
    prefix: [u8; 16],
    len: u8,
    address: [u8; 16],
}

#[rattlefmt::skip]
static ROWS: [Row; 7] = [
    Row { prefix: [0x20, 0x01, 0x0D, 0xB8, 0, 0, 0, 0, 0, 0, 0, 0, 0, 0, 0, 0], len: 32,
        address: [0x20, 0x01, 0x0D, 0xB8, 0xC0, 0x00, 0x02, 0x21, 0, 0, 0, 0, 0, 0, 0, 0] },
    Row { prefix: [0x20, 0x01, 0x0D, 0xB8, 0x01, 0, 0, 0, 0, 0, 0, 0, 0, 0, 0, 0], len: 40,
        address: [0x20, 0x01, 0x0D, 0xB8, 0x01, 0xC0, 0x00, 0x02, 0x00, 0x21, 0, 0, 0, 0, 0, 0] },
    Row { prefix: [0x20, 0x01, 0x0D, 0xB8, 0x01, 0x22, 0, 0, 0, 0, 0, 0, 0, 0, 0, 0], len: 48,
        address: [0x20, 0x01, 0x0D, 0xB8, 0x01, 0x22, 0xC0, 0x00, 0x00, 0x02, 0x21, 0, 0, 0, 0, 0] },
    Row { prefix: [0x20, 0x01, 0x0D, 0xB8, 0x01, 0x22, 0x03, 0, 0, 0, 0, 0, 0, 0, 0, 0], len: 56,
        address: [0x20, 0x01, 0x0D, 0xB8, 0x01, 0x22, 0x03, 0xC0, 0x00, 0x00, 0x02, 0x21, 0, 0, 0, 0] },
    Row { prefix: [0x20, 0x01, 0x0D, 0xB8, 0x01, 0x22, 0x03, 0x44, 0, 0, 0, 0, 0, 0, 0, 0], len: 64,
        address: [0x20, 0x01, 0x0D, 0xB8, 0x01, 0x22, 0x03, 0x44, 0x00, 0xC0, 0x00, 0x02, 0x21, 0, 0, 0] },
    Row { prefix: [0x20, 0x01, 0x0D, 0xB8, 0x01, 0x22, 0x03, 0x44, 0, 0, 0, 0, 0, 0, 0, 0], len: 96,
        address: [0x20, 0x01, 0x0D, 0xB8, 0x01, 0x22, 0x03, 0x44, 0x00, 0, 0, 0, 0xC0, 0x00, 0x02, 0x21] },
    Row { prefix: [0x00, 0x64, 0xFF, 0x9B, 0, 0, 0, 0, 0, 0, 0, 0, 0, 0, 0, 0], len: 96,
        address: [0x00, 0x64, 0xFF, 0x9B, 0, 0, 0, 0, 0, 0, 0, 0, 0xC0, 0x00, 0x02, 0x21] },
];

const TEST_NET: [u8; 4] = [192, 0, 2, 33];

/// A row of the RFC, and the same row with another suffix, another reserved octet and another prefix.
fn expect_row(rt: &impl Abort, row: &Row) {
    let prefix = expect_ok(rt, Prefix64::new(row.prefix, row.len));
    expect_at(rt, &row.len, &prefix.len(), &row.len);
    expect_at(rt, &row.len, &prefix.address(), &row.prefix);
    expect_at(rt, &row.len, &prefix.embed(TEST_NET), &row.address);
    expect_at(rt, &row.len, &prefix.extract(&row.address), &Some(TEST_NET));
    let mut other = row.address;
    other[8] = 1;
    expect_at(rt, &row.len, &prefix.extract(&other), &None);
    let mut other = row.address;
    other[3] = 0xFE;
    expect_at(rt, &row.len, &prefix.extract(&other), &None);
    let mut other = row.address;
    other[15] = 0x21;
    expect_at(rt, &row.len, &prefix.extract(&other), &Some(TEST_NET));
}

#[test]
fn rows_of_the_rfc(rt: HostRuntime) {
    for row in &ROWS {
        expect_row(&rt, row);
    }
}

/// What is no prefix.
#[rattlefmt::skip]
static NO_PREFIXES: [(u8, [u8; 16], Prefix64Error); 6] = [
    (0, [0; 16], Prefix64Error::Len(0)),
    (72, [0; 16], Prefix64Error::Len(72)),
    (128, [1; 16], Prefix64Error::Len(128)),
    (96, [0, 0, 0, 0, 0, 0, 0, 0, 1, 0, 0, 0, 0, 0, 0, 1], Prefix64Error::ReservedOctet),
    (96, [0, 0, 0, 0, 0, 0, 0, 0, 0, 0, 0, 0, 0, 0, 0, 1], Prefix64Error::SuffixBits),
    (32, [0, 0, 0, 0, 1, 0, 0, 0, 0, 0, 0, 0, 0, 0, 0, 0], Prefix64Error::SuffixBits),
];

#[test]
fn no_prefixes(rt: HostRuntime) {
    for (len, address, error) in &NO_PREFIXES {
        expect_at(
            &rt,
            len,
            &Prefix64::new(*address, *len).err().as_ref(),
            &Some(error),
        );
    }
}

/// Addresses next to the ends of a block, and whether the well-known prefix may represent them.
#[rattlefmt::skip]
static GLOBAL: [([u8; 4], bool); 26] = [
    ([0, 255, 255, 255], false), ([1, 0, 0, 0], true), ([9, 255, 255, 255], true), ([10, 0, 0, 0], false), ([11, 0, 0, 0], true),
    ([100, 63, 255, 255], true), ([100, 64, 0, 0], false), ([100, 127, 255, 255], false), ([100, 128, 0, 0], true), ([127, 0, 0, 1], false),
    ([169, 254, 1, 1], false), ([172, 15, 255, 255], true), ([172, 16, 0, 0], false), ([172, 31, 255, 255], false), ([172, 32, 0, 0], true),
    ([192, 0, 0, 255], false), ([192, 0, 1, 0], true), ([192, 0, 2, 33], false), ([192, 88, 99, 1], false), ([192, 168, 0, 1], false),
    ([198, 19, 255, 255], false), ([198, 20, 0, 0], true), ([198, 51, 100, 7], false), ([203, 0, 113, 1], false),
    ([223, 255, 255, 255], true), ([255, 255, 255, 255], false),
];

fn expect_global(rt: &impl Abort, ipv4: [u8; 4], is_global: bool) {
    let address = Prefix64::WELL_KNOWN.embed(ipv4);
    let other = Prefix64::Bits32([0x20, 1, 0x0D, 0xB8]);
    expect_at(rt, &ipv4, &other.to_ipv6(ipv4), &Ok(other.embed(ipv4)));
    if is_global {
        expect_at(rt, &ipv4, &Prefix64::WELL_KNOWN.to_ipv6(ipv4), &Ok(address));
        expect_at(
            rt,
            &ipv4,
            &Prefix64::WELL_KNOWN.to_ipv4(&address),
            &Ok(ipv4),
        );
    } else {
        expect_at(
            rt,
            &ipv4,
            &Prefix64::WELL_KNOWN.to_ipv6(ipv4),
            &Err(AddressError::NotGlobal),
        );
        expect_at(
            rt,
            &ipv4,
            &Prefix64::WELL_KNOWN.to_ipv4(&address),
            &Err(AddressError::NotGlobal),
        );
    }
}

#[test]
fn global_addresses(rt: HostRuntime) {
    for (ipv4, is_global) in &GLOBAL {
        expect_global(&rt, *ipv4, *is_global);
    }
}

#[test]
fn errors(rt: HostRuntime) {
    let outcome = Prefix64::WELL_KNOWN.to_ipv4(&[1; 16]);
    expect_equal(&rt, &outcome, &Err(AddressError::NotEmbedded));
    expect_text(
        &rt,
        &AddressError::NotEmbedded,
        "Address Error: the IPv6 address contains no IPv4 address.",
    );
    expect_text(
        &rt,
        &AddressError::NotGlobal,
        "Address Error: the well-known prefix allows only global IPv4 addresses.",
    );
    expect_text(
        &rt,
        &Prefix64Error::Len(33),
        "Prefix Error: the length is 33 bits, and only 32, 40, 48, 56, 64 and 96 are allowed.",
    );
    expect_text(
        &rt,
        &Prefix64Error::ReservedOctet,
        "Prefix Error: bits 64 to 71 are not 0.",
    );
    expect_text(
        &rt,
        &Prefix64Error::SuffixBits,
        "Prefix Error: a bit after the prefix is not 0.",
    );
}

// ---- explicit mappings

/// A mapping with a shorter prefix, and then the example table of RFC 7757, section 3.
#[rattlefmt::skip]
static MAPPINGS: [([u8; 4], u8, [u8; 16], u8); 7] = [
    ([192, 0, 2, 0], 24, [0x20, 0x01, 0x0D, 0xB8, 0xFF, 0xFF, 0, 0, 0, 0, 0, 0, 0, 0, 0, 0], 120),
    ([192, 0, 2, 1], 32, [0x20, 0x01, 0x0D, 0xB8, 0xAA, 0xAA, 0, 0, 0, 0, 0, 0, 0, 0, 0, 0], 128),
    ([192, 0, 2, 2], 32, [0x20, 0x01, 0x0D, 0xB8, 0xBB, 0xBB, 0, 0, 0, 0, 0, 0, 0, 0, 0, 0x0B], 128),
    ([192, 0, 2, 16], 28, [0x20, 0x01, 0x0D, 0xB8, 0xCC, 0xCC, 0, 0, 0, 0, 0, 0, 0, 0, 0, 0], 124),
    ([192, 0, 2, 128], 26, [0x20, 0x01, 0x0D, 0xB8, 0xDD, 0xDD, 0, 0, 0, 0, 0, 0, 0, 0, 0, 0], 64),
    ([192, 0, 2, 192], 29, [0x20, 0x01, 0x0D, 0xB8, 0xEE, 0xEE, 0, 0x08, 0, 0, 0, 0, 0, 0, 0, 0], 62),
    ([192, 0, 2, 224], 31, [0x00, 0x64, 0xFF, 0x9B, 0, 0, 0, 0, 0, 0, 0, 0, 0, 0, 0, 0], 127),
];

/// Addresses that these mappings translate to each other. The last row has no mapping.
#[rattlefmt::skip]
static MAPPED: [([u8; 4], [u8; 16]); 9] = [
    ([192, 0, 2, 1], [0x20, 0x01, 0x0D, 0xB8, 0xAA, 0xAA, 0, 0, 0, 0, 0, 0, 0, 0, 0, 0]),
    ([192, 0, 2, 2], [0x20, 0x01, 0x0D, 0xB8, 0xBB, 0xBB, 0, 0, 0, 0, 0, 0, 0, 0, 0, 0x0B]),
    ([192, 0, 2, 24], [0x20, 0x01, 0x0D, 0xB8, 0xCC, 0xCC, 0, 0, 0, 0, 0, 0, 0, 0, 0, 0x08]),
    ([192, 0, 2, 152], [0x20, 0x01, 0x0D, 0xB8, 0xDD, 0xDD, 0, 0, 0x60, 0, 0, 0, 0, 0, 0, 0]),
    ([192, 0, 2, 191], [0x20, 0x01, 0x0D, 0xB8, 0xDD, 0xDD, 0, 0, 0xFC, 0, 0, 0, 0, 0, 0, 0]),
    ([192, 0, 2, 195], [0x20, 0x01, 0x0D, 0xB8, 0xEE, 0xEE, 0, 0x09, 0x80, 0, 0, 0, 0, 0, 0, 0]),
    ([192, 0, 2, 225], [0x00, 0x64, 0xFF, 0x9B, 0, 0, 0, 0, 0, 0, 0, 0, 0, 0, 0, 0x01]),
    ([192, 0, 2, 3], [0x20, 0x01, 0x0D, 0xB8, 0xFF, 0xFF, 0, 0, 0, 0, 0, 0, 0, 0, 0, 0x03]),
    ([198, 41, 0, 4], [0x00, 0x64, 0xFF, 0x9B, 0, 0, 0, 0, 0, 0, 0, 0, 198, 41, 0, 4]),
];

/// The mappings.
fn mappings(rt: &impl Abort) -> [AddressMapping; 7] {
    let [all, a, b, c, d, e, well_known] = MAPPINGS;
    [
        expect_ok(rt, AddressMapping::new(all.0, all.1, all.2, all.3)),
        expect_ok(rt, AddressMapping::new(a.0, a.1, a.2, a.3)),
        expect_ok(rt, AddressMapping::new(b.0, b.1, b.2, b.3)),
        expect_ok(rt, AddressMapping::new(c.0, c.1, c.2, c.3)),
        expect_ok(rt, AddressMapping::new(d.0, d.1, d.2, d.3)),
        expect_ok(rt, AddressMapping::new(e.0, e.1, e.2, e.3)),
        expect_ok(
            rt,
            AddressMapping::new(well_known.0, well_known.1, well_known.2, well_known.3),
        ),
    ]
}

#[test]
fn addresses_follow_the_longest_prefix(rt: HostRuntime) {
    let mappings = mappings(&rt);
    let prefixes = Prefixes::with_mappings(Prefix64::WELL_KNOWN, Prefix64::WELL_KNOWN, &mappings);
    let table = prefixes.source;
    for (ipv4, ipv6) in &MAPPED {
        expect_at(&rt, ipv4, &table.to_ipv6(*ipv4), &Ok(*ipv6));
        expect_at(&rt, ipv4, &table.to_ipv4(ipv6), &Ok(*ipv4));
    }
    // The bits after the suffix of six bits are ignored.
    let mut other = MAPPED[3].1;
    other[15] = 1;
    expect_equal(&rt, &table.to_ipv4(&other), &Ok(MAPPED[3].0));
    // This address has no mapping, and the well-known prefix does not embed it.
    expect_equal(
        &rt,
        &table.to_ipv6([10, 0, 0, 1]),
        &Err(AddressError::NotGlobal),
    );
    other[5] = 0;
    expect_equal(&rt, &table.to_ipv4(&other), &Err(AddressError::NotEmbedded));
}

#[test]
fn headers_follow_the_mappings(rt: HostRuntime) {
    let address = [
        0x20, 0x01, 0x0D, 0xB8, 0, 0, 0, 0, 0, 0, 0, 0, 0, 0, 0, 0x21,
    ];
    let mapping = expect_ok(&rt, AddressMapping::new([192, 0, 2, 33], 32, address, 128));
    let mappings = [mapping];
    let prefixes = Prefixes::with_mappings(
        two_prefixes().source.prefix,
        two_prefixes().destination.prefix,
        &mappings,
    );
    let header = expect_some(&rt, Ipv4HeaderSlice::from_slice(&HEADER));
    let translated = expect_ok(&rt, header_to_ipv6(&header, &prefixes));
    expect_bytes(&rt, &translated.as_slice()[8..24], &address);
    expect_bytes(&rt, &translated.as_slice()[24..40], &TRANSLATED[24..40]);
}

/// What is no mapping.
#[rattlefmt::skip]
static NO_MAPPINGS: [(u8, u8, AddressMappingError, &str); 5] = [
    (33, 128, AddressMappingError::Ipv4Len(33), "Mapping Error: the length of the IPv4 prefix is 33 bits, and at most 32 are allowed."),
    (32, 129, AddressMappingError::Ipv6Len(129), "Mapping Error: the length of the IPv6 prefix is 129 bits, and at most 128 are allowed."),
    (26, 123, AddressMappingError::Suffix, "Mapping Error: the IPv6 prefix leaves fewer bits than the IPv4 prefix."),
    (26, 122, AddressMappingError::Ipv4Bits, "Mapping Error: a bit after the IPv4 prefix is not 0."),
    (32, 127, AddressMappingError::Ipv6Bits, "Mapping Error: a bit after the IPv6 prefix is not 0."),
];

#[test]
fn no_mappings(rt: HostRuntime) {
    let address = [0x20, 0x01, 0x0D, 0xB8, 0, 0, 0, 0, 0, 0, 0, 0, 0, 0, 0, 1];
    for (ipv4_len, ipv6_len, error, text) in &NO_MAPPINGS {
        let outcome = AddressMapping::new([192, 0, 2, 33], *ipv4_len, address, *ipv6_len);
        expect_at(&rt, text, &outcome.err().as_ref(), &Some(error));
        expect_text(&rt, error, text);
    }
}

// ---- headers

/// 2001:db8::/32 for the source, and 2001:db8:122:344::/96 for the destination.
fn two_prefixes() -> Prefixes<'static> {
    Prefixes::new(
        Prefix64::Bits32([0x20, 0x01, 0x0D, 0xB8]),
        Prefix64::Bits96([0x20, 0x01, 0x0D, 0xB8, 0x01, 0x22, 0x03, 0x44, 0, 0, 0]),
    )
}

/// From 192.0.2.33 to 198.51.100.7: type of service B9, total length 31, "don't fragment", time to live 64 and protocol UDP.
static HEADER: [u8; 20] = [
    0x45, 0xB9, 0, 31, 0x12, 0x34, 0x40, 0, 64, 17, 0x3B, 0x85, 192, 0, 2, 33, 198, 51, 100, 7,
];

/// The translated header.
#[rattlefmt::skip]
static TRANSLATED: [u8; 40] = [
    0x6B, 0x90, 0, 0, 0, 11, 17, 63,
    0x20, 0x01, 0x0D, 0xB8, 192, 0, 2, 33, 0, 0, 0, 0, 0, 0, 0, 0,
    0x20, 0x01, 0x0D, 0xB8, 0x01, 0x22, 0x03, 0x44, 0, 0, 0, 0, 198, 51, 100, 7,
];

#[test]
fn headers_are_translated(rt: HostRuntime) {
    let header = expect_some(&rt, Ipv4HeaderSlice::from_slice(&HEADER));
    let translated = expect_ok(&rt, header_to_ipv6(&header, &two_prefixes()));
    expect_bytes(&rt, translated.as_slice(), &TRANSLATED);
    // ICMP, and then three options of one byte.
    let mut icmp = HEADER;
    icmp[9] = 1;
    icmp[11] = 0x95;
    let header = expect_some(&rt, Ipv4HeaderSlice::from_slice(&icmp));
    let translated = expect_ok(&rt, header_to_ipv6(&header, &two_prefixes()));
    expect_equal(&rt, &translated.as_slice()[6], &58);
    let options = [
        0x46, 0, 0, 32, 0, 0, 0, 0, 64, 6, 0x41, 0x99, 10, 1, 2, 3, 198, 51, 100, 7, 1, 1, 1, 0,
    ];
    let header = expect_some(&rt, Ipv4HeaderSlice::from_slice(&options));
    let translated = expect_ok(&rt, header_to_ipv6(&header, &two_prefixes()));
    expect_equal(&rt, &translated.as_slice()[5], &8);
}

/// What is no header of a translated packet.
#[rattlefmt::skip]
static NO_HEADERS: [(&[u8], TranslationError, &str); 10] = [
    (&[0x45, 0xB9, 0, 19, 0x12, 0x34, 0x40, 0, 64, 17, 0x3B, 0x91, 192, 0, 2, 33, 198, 51, 100, 7],
        TranslationError::TotalLength { total_len: 19, header_len: 20 },
        "Translation Error: the total length 19 is below the header length 20."),
    (&[0x45, 0xB9, 0, 31, 0x12, 0x34, 0x40, 0, 64, 17, 0x3B, 0x86, 192, 0, 2, 33, 198, 51, 100, 7],
        TranslationError::HeaderChecksum, "Translation Error: the checksum of the IPv4 header is wrong."),
    (&[0x45, 0xB9, 0, 31, 0x12, 0x34, 0x20, 0, 64, 17, 0x5B, 0x85, 192, 0, 2, 33, 198, 51, 100, 7],
        TranslationError::Fragment, "Translation Error: the packet is a fragment."),
    (&[0x45, 0xB9, 0, 31, 0x12, 0x34, 0, 1, 64, 17, 0x7B, 0x84, 192, 0, 2, 33, 198, 51, 100, 7],
        TranslationError::Fragment, "Translation Error: the packet is a fragment."),
    (&[0x47, 0, 0, 32, 0, 0, 0, 0, 64, 6, 0xB2, 0x8E, 10, 1, 2, 3, 198, 51, 100, 7, 131, 7, 7, 1, 2, 3, 4, 0],
        TranslationError::SourceRoute, "Translation Error: the IPv4 options contain a source route."),
    (&[0x45, 0xB9, 0, 31, 0x12, 0x34, 0x40, 0, 1, 17, 0x7A, 0x85, 192, 0, 2, 33, 198, 51, 100, 7],
        TranslationError::TimeExceeded, "Translation Error: the time to live is exceeded."),
    (&[0x45, 0xB9, 0, 31, 0x12, 0x34, 0x40, 0, 64, 17, 0x7C, 0x85, 127, 0, 2, 33, 198, 51, 100, 7],
        TranslationError::IllegalSource, "Translation Error: the source is no address of a host."),
    (&[0x45, 0xB9, 0, 31, 0x12, 0x34, 0x40, 0, 64, 17, 0x21, 0x85, 192, 0, 2, 33, 224, 51, 100, 7],
        TranslationError::IllegalDestination, "Translation Error: the destination is no address of a host."),
    (&[0x45, 0xB9, 0, 31, 0x12, 0x34, 0x40, 0, 64, 17, 0x3B, 0x85, 192, 0, 2, 33, 198, 51, 100, 7],
        TranslationError::Source(AddressError::NotGlobal),
        "Address Error: the well-known prefix allows only global IPv4 addresses."),
    (&[0x45, 0xB9, 0, 31, 0x12, 0x34, 0x40, 0, 64, 17, 0x3B, 0x85, 192, 0, 2, 33, 198, 51, 100, 7],
        TranslationError::Destination(AddressError::NotGlobal),
        "Address Error: the well-known prefix allows only global IPv4 addresses."),
];

/// The prefixes of a row: the last two rows have the well-known prefix.
fn prefixes_of(error: &TranslationError) -> Prefixes<'static> {
    let mut prefixes = two_prefixes();
    match error {
        TranslationError::Source(_) => prefixes.source.prefix = Prefix64::WELL_KNOWN,
        TranslationError::Destination(_) => prefixes.destination.prefix = Prefix64::WELL_KNOWN,
        _ => {}
    }
    prefixes
}

#[test]
fn headers_are_refused(rt: HostRuntime) {
    for (bytes, error, text) in &NO_HEADERS {
        let header = expect_some(&rt, Ipv4HeaderSlice::from_slice(bytes));
        let outcome = header_to_ipv6(&header, &prefixes_of(error));
        expect_at(&rt, text, &outcome.err().as_ref(), &Some(error));
        expect_text(&rt, error, text);
    }
}

/// The pointer of a source route of 7 bytes, the first byte of the checksum of its header, and whether the header is translated. A pointer
/// after the route means that the route is at its end.
#[rattlefmt::skip]
static POINTERS_OF_ROUTES: [(u8, u8, bool); 6] = [
    (0, 0xB9, false), (4, 0xB5, false), (6, 0xB3, false), (7, 0xB2, false), (8, 0xB1, true), (9, 0xB0, true),
];

#[test]
fn source_routes_at_their_end_are_ignored(rt: HostRuntime) {
    for (pointer, checksum, is_translated) in &POINTERS_OF_ROUTES {
        let bytes = [
            0x47, 0, 0, 32, 0, 0, 0, 0, 64, 6, *checksum, 0x8E, 10, 1, 2, 3, 198, 51, 100, 7, 131,
            7, *pointer, 1, 2, 3, 4, 0,
        ];
        let header = expect_some(&rt, Ipv4HeaderSlice::from_slice(&bytes));
        let outcome = header_to_ipv6(&header, &two_prefixes());
        let error = outcome.err();
        if *is_translated {
            expect_at(&rt, pointer, &error, &None);
        } else {
            expect_at(&rt, pointer, &error, &Some(TranslationError::SourceRoute));
        }
    }
}

#[test]
fn checksums_follow_the_pseudo_header(rt: HostRuntime) {
    let header = expect_some(&rt, Ipv4HeaderSlice::from_slice(&HEADER));
    let change = pseudo_header_change(&header, &two_prefixes());
    let old = UdpHeader::with_ipv4_checksum(21, 1234, &header.to_header(), b"abc");
    let addresses = Ipv6Header {
        source: two_prefixes().source.embed(header.source()),
        destination: two_prefixes().destination.embed(header.destination()),
    };
    let new = UdpHeader::with_ipv6_checksum(21, 1234, &addresses, b"abc");
    let checksum = change.apply_udp(expect_ok(&rt, old).checksum);
    expect_equal(&rt, &checksum, &expect_ok(&rt, new).checksum);
}

// ---- packets

/// Packets over IPv4, each with the translated packet: UDP, UDP without a checksum, UDP after IPv4 options, TCP, an echo
/// request, an echo reply of zeros, and ESP. A program in Python computed the checksums.
#[rattlefmt::skip]
static PACKETS: [(&[u8], &[u8]); 7] = [
    (&[
        0x45, 0xB9, 0, 0x1F, 0x12, 0x34, 0x40, 0, 0x40, 0x11, 0x3B, 0x85, 0xC0, 0, 2, 0x21, 0xC6, 0x33, 0x64, 7,
        0, 0x15, 4, 0xD2, 0, 0x0B, 0x4A, 0x32, 0x61, 0x62, 0x63,
    ], &[
        0x6B, 0x90, 0, 0, 0, 0x0B, 0x11, 0x3F, 0x20, 1, 0x0D, 0xB8, 0xC0, 0, 2, 0x21, 0, 0, 0, 0,
        0, 0, 0, 0, 0x20, 1, 0x0D, 0xB8, 1, 0x22, 3, 0x44, 0, 0, 0, 0, 0xC6, 0x33, 0x64, 7,
        0, 0x15, 4, 0xD2, 0, 0x0B, 0xEA, 0x59, 0x61, 0x62, 0x63,
    ]),
    (&[
        0x45, 0xB9, 0, 0x1F, 0x12, 0x34, 0x40, 0, 0x40, 0x11, 0x3B, 0x85, 0xC0, 0, 2, 0x21, 0xC6, 0x33, 0x64, 7,
        0, 0x15, 4, 0xD2, 0, 0x0B, 0, 0, 0x61, 0x62, 0x63,
    ], &[
        0x6B, 0x90, 0, 0, 0, 0x0B, 0x11, 0x3F, 0x20, 1, 0x0D, 0xB8, 0xC0, 0, 2, 0x21, 0, 0, 0, 0,
        0, 0, 0, 0, 0x20, 1, 0x0D, 0xB8, 1, 0x22, 3, 0x44, 0, 0, 0, 0, 0xC6, 0x33, 0x64, 7,
        0, 0x15, 4, 0xD2, 0, 0x0B, 0xEA, 0x59, 0x61, 0x62, 0x63,
    ]),
    (&[
        0x46, 0xB9, 0, 0x23, 0x12, 0x34, 0x40, 0, 0x40, 0x11, 0x38, 0x80, 0xC0, 0, 2, 0x21, 0xC6, 0x33, 0x64, 7,
        1, 1, 1, 0, 0, 0x15, 4, 0xD2, 0, 0x0B, 0x4A, 0x32, 0x61, 0x62, 0x63,
    ], &[
        0x6B, 0x90, 0, 0, 0, 0x0B, 0x11, 0x3F, 0x20, 1, 0x0D, 0xB8, 0xC0, 0, 2, 0x21, 0, 0, 0, 0,
        0, 0, 0, 0, 0x20, 1, 0x0D, 0xB8, 1, 0x22, 3, 0x44, 0, 0, 0, 0, 0xC6, 0x33, 0x64, 7,
        0, 0x15, 4, 0xD2, 0, 0x0B, 0xEA, 0x59, 0x61, 0x62, 0x63,
    ]),
    (&[
        0x45, 0xB9, 0, 0x2B, 0x12, 0x34, 0x40, 0, 0x40, 6, 0x3B, 0x84, 0xC0, 0, 2, 0x21, 0xC6, 0x33, 0x64, 7,
        0, 0x15, 4, 0xD2, 1, 2, 3, 4, 5, 6, 7, 8, 0x50, 0x18, 0x20, 0, 0xCA, 0x0F, 0, 0,
        0x61, 0x62, 0x63,
    ], &[
        0x6B, 0x90, 0, 0, 0, 0x17, 6, 0x3F, 0x20, 1, 0x0D, 0xB8, 0xC0, 0, 2, 0x21, 0, 0, 0, 0,
        0, 0, 0, 0, 0x20, 1, 0x0D, 0xB8, 1, 0x22, 3, 0x44, 0, 0, 0, 0, 0xC6, 0x33, 0x64, 7,
        0, 0x15, 4, 0xD2, 1, 2, 3, 4, 5, 6, 7, 8, 0x50, 0x18, 0x20, 0, 0x6A, 0x37, 0, 0,
        0x61, 0x62, 0x63,
    ]),
    (&[
        0x45, 0xB9, 0, 0x20, 0x12, 0x34, 0x40, 0, 0x40, 1, 0x3B, 0x94, 0xC0, 0, 2, 0x21, 0xC6, 0x33, 0x64, 7,
        8, 0, 6, 0xF4, 0x12, 0x34, 0, 7, 0x70, 0x69, 0x6E, 0x67,
    ], &[
        0x6B, 0x90, 0, 0, 0, 0x0C, 0x3A, 0x3F, 0x20, 1, 0x0D, 0xB8, 0xC0, 0, 2, 0x21, 0, 0, 0, 0,
        0, 0, 0, 0, 0x20, 1, 0x0D, 0xB8, 1, 0x22, 3, 0x44, 0, 0, 0, 0, 0xC6, 0x33, 0x64, 7,
        0x80, 0, 0x42, 0x78, 0x12, 0x34, 0, 7, 0x70, 0x69, 0x6E, 0x67,
    ]),
    (&[
        0x45, 0xB9, 0, 0x1D, 0x12, 0x34, 0x40, 0, 0x40, 1, 0x3B, 0x97, 0xC0, 0, 2, 0x21, 0xC6, 0x33, 0x64, 7,
        0, 0, 0xFF, 0xFF, 0, 0, 0, 0, 0,
    ], &[
        0x6B, 0x90, 0, 0, 0, 9, 0x3A, 0x3F, 0x20, 1, 0x0D, 0xB8, 0xC0, 0, 2, 0x21, 0, 0, 0, 0,
        0, 0, 0, 0, 0x20, 1, 0x0D, 0xB8, 1, 0x22, 3, 0x44, 0, 0, 0, 0, 0xC6, 0x33, 0x64, 7,
        0x81, 0, 0x32, 0x87, 0, 0, 0, 0, 0,
    ]),
    (&[
        0x45, 0xB9, 0, 0x18, 0x12, 0x34, 0x40, 0, 0x40, 0x32, 0x3B, 0x6B, 0xC0, 0, 2, 0x21, 0xC6, 0x33, 0x64, 7,
        0x61, 0x62, 0x63, 0x64,
    ], &[
        0x6B, 0x90, 0, 0, 0, 4, 0x32, 0x3F, 0x20, 1, 0x0D, 0xB8, 0xC0, 0, 2, 0x21, 0, 0, 0, 0,
        0, 0, 0, 0, 0x20, 1, 0x0D, 0xB8, 1, 0x22, 3, 0x44, 0, 0, 0, 0, 0xC6, 0x33, 0x64, 7,
        0x61, 0x62, 0x63, 0x64,
    ]),
];

/// The buffer has 130 bytes of 0xEE, and the bytes after the packet stay.
fn expect_translated(rt: &impl Abort, packet: &[u8], expected: &[u8]) {
    let mut buffer = [0xEE; 130];
    let len = expect_ok(rt, ipv4_to_ipv6(packet, &two_prefixes(), &mut buffer));
    expect_equal(rt, &len, &expected.len());
    expect_bytes(rt, bytes_to(rt, &buffer, len), expected);
    expect_equal(rt, &buffer[129], &0xEE);
}

/// Stops the test unless the packet is translated to this IPv4 packet, with the identification 0xBEEF if it is no fragment. The buffer has
/// 130 bytes of 0xEE, and the bytes after the packet stay.
fn expect_translated_back(rt: &impl Abort, packet: &[u8], expected: &[u8]) {
    let mut buffer = [0xEE; 130];
    let len = expect_ok(
        rt,
        ipv6_to_ipv4(packet, &two_prefixes(), 0xBEEF, &mut buffer),
    );
    expect_equal(rt, &len, &expected.len());
    expect_bytes(rt, bytes_to(rt, &buffer, len), expected);
    expect_equal(rt, &buffer[129], &0xEE);
}

#[test]
fn packets_are_translated(rt: HostRuntime) {
    for (packet, expected) in &PACKETS {
        expect_translated(&rt, packet, expected);
        // Two bytes of padding.
        let padded = joined(&rt, &[packet, &[1, 2]]);
        expect_translated(&rt, padded.as_slice(), expected);
    }
}

/// What is no translated packet. The buffer has 50 bytes, and the last row needs 51.
#[rattlefmt::skip]
static NO_PACKETS: [(&[u8], PacketTranslationError, &str); 9] = [
    (&[],
        PacketTranslationError::NoIpv4Header,
        "Translation Error: the bytes do not begin with an IPv4 header."),
    (&[
        0x6B, 0x90, 0, 0, 0, 0x0B, 0x11, 0x3F, 0x20, 1, 0x0D, 0xB8, 0xC0, 0, 2, 0x21, 0, 0, 0, 0,
        0, 0, 0, 0, 0x20, 1, 0x0D, 0xB8, 1, 0x22, 3, 0x44, 0, 0, 0, 0, 0xC6, 0x33, 0x64, 7,
        0, 0x15, 4, 0xD2, 0, 0x0B, 0xEA, 0x59, 0x61, 0x62, 0x63,
    ],
        PacketTranslationError::NoIpv4Header,
        "Translation Error: the bytes do not begin with an IPv4 header."),
    (&[
        0x45, 0xB9, 0, 0x1F, 0x12, 0x34, 0x40, 0, 1, 0x11, 0x7A, 0x85, 0xC0, 0, 2, 0x21, 0xC6, 0x33, 0x64, 7,
        0, 0x15, 4, 0xD2, 0, 0x0B, 0x4A, 0x32, 0x61, 0x62, 0x63,
    ],
        PacketTranslationError::Header(TranslationError::TimeExceeded),
        "Translation Error: the time to live is exceeded."),
    (&[
        0x45, 0xB9, 0, 0x1F, 0x12, 0x34, 0x40, 0, 0x40, 0x11, 0x3B, 0x85, 0xC0, 0, 2, 0x21, 0xC6, 0x33, 0x64, 7,
        0, 0x15, 4, 0xD2, 0, 0x0B, 0x4A, 0x32, 0x61, 0x62,
    ],
        PacketTranslationError::CutOff { total_len: 31, len: 30 },
        "Translation Error: the total length is 31, and there are 30 bytes."),
    (&[
        0x45, 0xB9, 0, 0x1C, 0x12, 0x34, 0x40, 0, 0x40, 1, 0x3B, 0x98, 0xC0, 0, 2, 0x21, 0xC6, 0x33, 0x64, 7,
        13, 0, 0xF2, 0xFF, 0, 0, 0, 0,
    ],
        PacketTranslationError::IcmpMessage { type_u8: 13, code_u8: 0 },
        "Translation Error: an ICMP message of type 13 and code 0 is not translated."),
    (&[
        0x45, 0xB9, 0, 0x1B, 0x12, 0x34, 0x40, 0, 0x40, 0x11, 0x3B, 0x89, 0xC0, 0, 2, 0x21, 0xC6, 0x33, 0x64, 7,
        0, 0x15, 4, 0xD2, 0, 0x0B, 0x4A,
    ],
        PacketTranslationError::TransportHeader { required_len: 8, len: 7 },
        "Translation Error: the transport header has 8 bytes, and there are 7."),
    (&[
        0x45, 0xB9, 0, 0x27, 0x12, 0x34, 0x40, 0, 0x40, 6, 0x3B, 0x88, 0xC0, 0, 2, 0x21, 0xC6, 0x33, 0x64, 7,
        0, 0x15, 4, 0xD2, 1, 2, 3, 4, 5, 6, 7, 8, 0x50, 0x18, 0x20, 0, 0xCA, 0x0F, 0,
    ],
        PacketTranslationError::TransportHeader { required_len: 20, len: 19 },
        "Translation Error: the transport header has 20 bytes, and there are 19."),
    (&[
        0x45, 0xB9, 0, 0x1F, 0x12, 0x34, 0x40, 0, 0x40, 0x11, 0x3B, 0x85, 0xC0, 0, 2, 0x21, 0xC6, 0x33, 0x64, 7,
        0, 0x15, 4, 0xD2, 0, 0x0C, 0, 0, 0x61, 0x62, 0x63,
    ],
        PacketTranslationError::UdpLength { length: 12, len: 11 },
        "Translation Error: a UDP packet of 11 bytes without a checksum has the length field 12."),
    (&[
        0x45, 0xB9, 0, 0x1F, 0x12, 0x34, 0x40, 0, 0x40, 0x11, 0x3B, 0x85, 0xC0, 0, 2, 0x21, 0xC6, 0x33, 0x64, 7,
        0, 0x15, 4, 0xD2, 0, 0x0B, 0x4A, 0x32, 0x61, 0x62, 0x63,
    ],
        PacketTranslationError::Space { required_len: 51, len: 50 },
        "Space Error: 51 bytes are needed, and there is room for 50."),
];

#[test]
fn packets_are_refused(rt: HostRuntime) {
    for (packet, error, text) in &NO_PACKETS {
        let mut buffer = [0xEE; 50];
        let outcome = ipv4_to_ipv6(packet, &two_prefixes(), &mut buffer);
        expect_at(&rt, text, &outcome.err().as_ref(), &Some(error));
        expect_bytes(&rt, &buffer, &[0xEE; 50]);
        expect_text(&rt, error, text);
    }
}

// ---- packets over IPv6

/// Packets over IPv6, each with the translated packet of identification BEEF: UDP, TCP, an echo request, an echo reply of
/// zeros, and ESP.
#[rattlefmt::skip]
static PACKETS_BACK: [(&[u8], &[u8]); 5] = [
    (&[
        0x6B, 0x90, 0, 0, 0, 0x0B, 0x11, 0x3F, 0x20, 1, 0x0D, 0xB8, 0xC0, 0, 2, 0x21, 0, 0, 0, 0,
        0, 0, 0, 0, 0x20, 1, 0x0D, 0xB8, 1, 0x22, 3, 0x44, 0, 0, 0, 0, 0xC6, 0x33, 0x64, 7,
        0, 0x15, 4, 0xD2, 0, 0x0B, 0xEA, 0x59, 0x61, 0x62, 0x63,
    ], &[
        0x45, 0xB9, 0, 0x1F, 0xBE, 0xEF, 0, 0, 0x3E, 0x11, 0xD0, 0xC9, 0xC0, 0, 2, 0x21, 0xC6, 0x33, 0x64, 7,
        0, 0x15, 4, 0xD2, 0, 0x0B, 0x4A, 0x32, 0x61, 0x62, 0x63,
    ]),
    (&[
        0x6B, 0x90, 0, 0, 0, 0x17, 6, 0x3F, 0x20, 1, 0x0D, 0xB8, 0xC0, 0, 2, 0x21, 0, 0, 0, 0,
        0, 0, 0, 0, 0x20, 1, 0x0D, 0xB8, 1, 0x22, 3, 0x44, 0, 0, 0, 0, 0xC6, 0x33, 0x64, 7,
        0, 0x15, 4, 0xD2, 1, 2, 3, 4, 5, 6, 7, 8, 0x50, 0x18, 0x20, 0, 0x6A, 0x37, 0, 0,
        0x61, 0x62, 0x63,
    ], &[
        0x45, 0xB9, 0, 0x2B, 0xBE, 0xEF, 0, 0, 0x3E, 6, 0xD0, 0xC8, 0xC0, 0, 2, 0x21, 0xC6, 0x33, 0x64, 7,
        0, 0x15, 4, 0xD2, 1, 2, 3, 4, 5, 6, 7, 8, 0x50, 0x18, 0x20, 0, 0xCA, 0x0F, 0, 0,
        0x61, 0x62, 0x63,
    ]),
    (&[
        0x6B, 0x90, 0, 0, 0, 0x0C, 0x3A, 0x3F, 0x20, 1, 0x0D, 0xB8, 0xC0, 0, 2, 0x21, 0, 0, 0, 0,
        0, 0, 0, 0, 0x20, 1, 0x0D, 0xB8, 1, 0x22, 3, 0x44, 0, 0, 0, 0, 0xC6, 0x33, 0x64, 7,
        0x80, 0, 0x42, 0x78, 0x12, 0x34, 0, 7, 0x70, 0x69, 0x6E, 0x67,
    ], &[
        0x45, 0xB9, 0, 0x20, 0xBE, 0xEF, 0, 0, 0x3E, 1, 0xD0, 0xD8, 0xC0, 0, 2, 0x21, 0xC6, 0x33, 0x64, 7,
        8, 0, 6, 0xF4, 0x12, 0x34, 0, 7, 0x70, 0x69, 0x6E, 0x67,
    ]),
    (&[
        0x6B, 0x90, 0, 0, 0, 9, 0x3A, 0x3F, 0x20, 1, 0x0D, 0xB8, 0xC0, 0, 2, 0x21, 0, 0, 0, 0,
        0, 0, 0, 0, 0x20, 1, 0x0D, 0xB8, 1, 0x22, 3, 0x44, 0, 0, 0, 0, 0xC6, 0x33, 0x64, 7,
        0x81, 0, 0x32, 0x87, 0, 0, 0, 0, 0,
    ], &[
        0x45, 0xB9, 0, 0x1D, 0xBE, 0xEF, 0, 0, 0x3E, 1, 0xD0, 0xDB, 0xC0, 0, 2, 0x21, 0xC6, 0x33, 0x64, 7,
        0, 0, 0xFF, 0xFF, 0, 0, 0, 0, 0,
    ]),
    (&[
        0x6B, 0x90, 0, 0, 0, 4, 0x32, 0x3F, 0x20, 1, 0x0D, 0xB8, 0xC0, 0, 2, 0x21, 0, 0, 0, 0,
        0, 0, 0, 0, 0x20, 1, 0x0D, 0xB8, 1, 0x22, 3, 0x44, 0, 0, 0, 0, 0xC6, 0x33, 0x64, 7,
        0x61, 0x62, 0x63, 0x64,
    ], &[
        0x45, 0xB9, 0, 0x18, 0xBE, 0xEF, 0, 0, 0x3E, 0x32, 0xD0, 0xAF, 0xC0, 0, 2, 0x21, 0xC6, 0x33, 0x64, 7,
        0x61, 0x62, 0x63, 0x64,
    ]),
];

#[test]
fn packets_are_translated_back(rt: HostRuntime) {
    for (packet, expected) in &PACKETS_BACK {
        let padded = joined(&rt, &[packet, &[1, 2]]);
        let mut buffer = [0xEE; 80];
        let len = expect_ok(
            &rt,
            ipv6_to_ipv4(padded.as_slice(), &two_prefixes(), 0xBEEF, &mut buffer),
        );
        expect_bytes(&rt, bytes_to(&rt, &buffer, len), expected);
        expect_equal(&rt, &buffer[79], &0xEE);
    }
}

/// The UDP packet of `PACKETS_BACK` after hop-by-hop options of 8 bytes, a routing header of 24 bytes, and destination options of 8 bytes.
#[rattlefmt::skip]
static EXTENDED: [u8; 91] = [
    0x6B, 0x90, 0, 0, 0, 0x33, 0, 0x3F, 0x20, 1, 0x0D, 0xB8, 0xC0, 0, 2, 0x21, 0, 0, 0, 0,
    0, 0, 0, 0, 0x20, 1, 0x0D, 0xB8, 1, 0x22, 3, 0x44, 0, 0, 0, 0, 0xC6, 0x33, 0x64, 7,
    43, 0, 1, 4, 0, 0, 0, 0,
    60, 2, 0, 0, 0, 0, 0, 0, 0xFE, 0x80, 0, 0, 0, 0, 0, 0, 0, 0, 0, 0, 0, 0, 0, 1,
    0x11, 0, 1, 4, 0, 0, 0, 0,
    0, 0x15, 4, 0xD2, 0, 0x0B, 0xEA, 0x59, 0x61, 0x62, 0x63,
];

#[test]
fn extension_headers_are_skipped(rt: HostRuntime) {
    let mut buffer = [0xEE; 80];
    let len = expect_ok(
        &rt,
        ipv6_to_ipv4(&EXTENDED, &two_prefixes(), 0xBEEF, &mut buffer),
    );
    expect_bytes(&rt, bytes_to(&rt, &buffer, len), PACKETS_BACK[0].1);
    expect_equal(&rt, &buffer[79], &0xEE);
}

/// The rows of `PACKETS` that the way back restores, each with the row of `PACKETS_BACK` that contains the packet after the way back: UDP,
/// TCP, an echo request, an echo reply of zeros, and ESP.
static RESTORED: [(usize, usize); 5] = [(0, 0), (3, 1), (4, 2), (5, 3), (6, 4)];

#[test]
fn packets_are_restored(rt: HostRuntime) {
    for (row, row_back) in &RESTORED {
        let padded = joined(&rt, &[PACKETS[*row].0, &[1, 2]]);
        let mut there = [0xEE; 80];
        let len = expect_ok(
            &rt,
            ipv4_to_ipv6(padded.as_slice(), &two_prefixes(), &mut there),
        );
        let mut back = [0xEE; 80];
        let len = expect_ok(
            &rt,
            ipv6_to_ipv4(&there[..len], &two_prefixes(), 0xBEEF, &mut back),
        );
        expect_bytes(&rt, bytes_to(&rt, &back, len), PACKETS_BACK[*row_back].1);
    }
}

/// After the way back, the packet is the expected packet, but its hop limit is lower by 2.
fn expect_restored(rt: &(impl Abort + AllocGlobal), packet: &[u8], expected: &[u8]) {
    let padded = joined(rt, &[packet, &[1, 2]]);
    let mut there = [0xEE; 100];
    let len = expect_ok(
        rt,
        ipv6_to_ipv4(padded.as_slice(), &two_prefixes(), 0xBEEF, &mut there),
    );
    let mut back = [0xEE; 100];
    let len = expect_ok(rt, ipv4_to_ipv6(&there[..len], &two_prefixes(), &mut back));
    let hops = [expected[7] - 2];
    let lowered = joined(rt, &[&expected[..7], &hops, &expected[8..]]);
    expect_bytes(rt, bytes_to(rt, &back, len), lowered.as_slice());
}

#[test]
fn packets_are_restored_over_ipv6(rt: HostRuntime) {
    for (packet, _) in &PACKETS_BACK {
        expect_restored(&rt, packet, packet);
    }
    // The flow label and the extension headers are left out.
    let mut labelled = EXTENDED;
    labelled[1] = 0x91;
    labelled[2] = 0x23;
    labelled[3] = 0x45;
    expect_restored(&rt, &labelled, PACKETS_BACK[0].0);
}

/// Changes of `EXTENDED` that are refused: the place of a byte, and its new value.
#[rattlefmt::skip]
static NO_EXTENDED: [(usize, u8, PacketTranslationError, &str); 5] = [
    (51, 1, PacketTranslationError::SegmentsLeft { pointer: 51 },
        "Translation Error: a routing header has segments left at byte 51."),
    (49, 5, PacketTranslationError::ExtensionHeaderCutOff { number: 43, required_len: 48, len: 43 },
        "Translation Error: the IPv6 extension header 43 has 48 bytes, and there are 43."),
    (5, 0x23, PacketTranslationError::ExtensionHeaderCutOff { number: 60, required_len: 8, len: 3 },
        "Translation Error: the IPv6 extension header 60 has 8 bytes, and there are 3."),
    (40, 44, PacketTranslationError::Header(TranslationError::ExtensionHeader(60)),
        "Translation Error: the IPv6 extension header 60 is not translated."),
    (5, 0x34, PacketTranslationError::CutOff { total_len: 92, len: 91 },
        "Translation Error: the total length is 92, and there are 91 bytes."),
];

#[test]
fn extension_headers_are_refused(rt: HostRuntime) {
    for (place, value, error, text) in &NO_EXTENDED {
        let mut packet = EXTENDED;
        packet[*place] = *value;
        let mut buffer = [0xEE; 80];
        let outcome = ipv6_to_ipv4(&packet, &two_prefixes(), 0, &mut buffer);
        expect_at(&rt, text, &outcome.err().as_ref(), &Some(error));
        expect_bytes(&rt, &buffer, &[0xEE; 80]);
        expect_text(&rt, error, text);
    }
}

/// The payload of a packet of another protocol has at most 65,515 bytes. Extension headers do not count.
#[test]
fn long_payloads_are_refused(rt: HostRuntime) {
    let mut packet = [0; 65_556];
    packet[..40].copy_from_slice(&TRANSLATED);
    packet[4..7].copy_from_slice(&[0xFF, 0xEC, 50]);
    let mut buffer = [0; 65_535];
    let outcome = ipv6_to_ipv4(&packet, &two_prefixes(), 0, &mut buffer);
    let error = PacketTranslationError::Header(TranslationError::PayloadLength(65_516));
    expect_equal(&rt, &outcome, &Err(error));
    packet[6] = 60;
    packet[40] = 50;
    expect_equal(
        &rt,
        &ipv6_to_ipv4(&packet, &two_prefixes(), 0, &mut buffer),
        &Ok(65_528),
    );
}

/// What is no translated packet. The buffer has 30 bytes, and the last row needs 31.
#[rattlefmt::skip]
static NO_PACKETS_BACK: [(&[u8], PacketTranslationError, &str); 10] = [
    (&[
        0x45, 0xB9, 0, 0x1F, 0xBE, 0xEF, 0, 0, 0x3E, 0x11, 0xD0, 0xC9, 0xC0, 0, 2, 0x21, 0xC6, 0x33, 0x64, 7,
        0, 0x15, 4, 0xD2, 0, 0x0B, 0x4A, 0x32, 0x61, 0x62, 0x63,
    ],
        PacketTranslationError::NoIpv6Header,
        "Translation Error: the bytes do not begin with an IPv6 header."),
    (&[
        0x6B, 0x90, 0, 0, 0, 0x0B, 0x2C, 0x3F, 0x20, 1, 0x0D, 0xB8, 0xC0, 0, 2, 0x21, 0, 0, 0, 0,
        0, 0, 0, 0, 0x20, 1, 0x0D, 0xB8, 1, 0x22, 3, 0x44, 0, 0, 0, 0, 0xC6, 0x33, 0x64, 7,
        0, 0x15, 4, 0xD2, 0, 0x0B, 0xEA, 0x59, 0x61, 0x62, 0x63,
    ],
        PacketTranslationError::Header(TranslationError::ExtensionHeader(0)),
        "Translation Error: the IPv6 extension header 0 is not translated."),
    (&[
        0x6B, 0x90, 0, 0, 0, 0x0B, 0x11, 1, 0x20, 1, 0x0D, 0xB8, 0xC0, 0, 2, 0x21, 0, 0, 0, 0,
        0, 0, 0, 0, 0x20, 1, 0x0D, 0xB8, 1, 0x22, 3, 0x44, 0, 0, 0, 0, 0xC6, 0x33, 0x64, 7,
        0, 0x15, 4, 0xD2, 0, 0x0B, 0xEA, 0x59, 0x61, 0x62, 0x63,
    ],
        PacketTranslationError::Header(TranslationError::TimeExceeded),
        "Translation Error: the time to live is exceeded."),
    (&[
        0x6B, 0x90, 0, 0, 0, 0x0B, 0x11, 0x3F, 0x21, 1, 0x0D, 0xB8, 0xC0, 0, 2, 0x21, 0, 0, 0, 0,
        0, 0, 0, 0, 0x20, 1, 0x0D, 0xB8, 1, 0x22, 3, 0x44, 0, 0, 0, 0, 0xC6, 0x33, 0x64, 7,
        0, 0x15, 4, 0xD2, 0, 0x0B, 0xEA, 0x59, 0x61, 0x62, 0x63,
    ],
        PacketTranslationError::Header(TranslationError::Source(AddressError::NotEmbedded)),
        "Address Error: the IPv6 address contains no IPv4 address."),
    (&[
        0x6B, 0x90, 0, 0, 0, 0x0B, 0x11, 0x3F, 0x20, 1, 0x0D, 0xB8, 0xC0, 0, 2, 0x21, 0, 0, 0, 0,
        0, 0, 0, 0, 0x20, 1, 0x0D, 0xB8, 1, 0x22, 3, 0x44, 0, 0, 0, 0, 0xE0, 0x33, 0x64, 7,
        0, 0x15, 4, 0xD2, 0, 0x0B, 0xEA, 0x59, 0x61, 0x62, 0x63,
    ],
        PacketTranslationError::Header(TranslationError::IllegalDestination),
        "Translation Error: the destination is no address of a host."),
    (&[
        0x6B, 0x90, 0, 0, 0, 0x0B, 0x11, 0x3F, 0x20, 1, 0x0D, 0xB8, 0xC0, 0, 2, 0x21, 0, 0, 0, 0,
        0, 0, 0, 0, 0x20, 1, 0x0D, 0xB8, 1, 0x22, 3, 0x44, 0, 0, 0, 0, 0xC6, 0x33, 0x64, 7,
        0, 0x15, 4, 0xD2, 0, 0x0B, 0xEA, 0x59, 0x61, 0x62,
    ],
        PacketTranslationError::CutOff { total_len: 51, len: 50 },
        "Translation Error: the total length is 51, and there are 50 bytes."),
    (&[
        0x6B, 0x90, 0, 0, 0, 0x0B, 0x3A, 0x3F, 0x20, 1, 0x0D, 0xB8, 0xC0, 0, 2, 0x21, 0, 0, 0, 0,
        0, 0, 0, 0, 0x20, 1, 0x0D, 0xB8, 1, 0x22, 3, 0x44, 0, 0, 0, 0, 0xC6, 0x33, 0x64, 7,
        0, 0x15, 4, 0xD2, 0, 0x0B, 0xEA, 0x59, 0x61, 0x62, 0x63,
    ],
        PacketTranslationError::IcmpMessage { type_u8: 0, code_u8: 21 },
        "Translation Error: an ICMP message of type 0 and code 21 is not translated."),
    (&[
        0x6B, 0x90, 0, 0, 0, 0x0B, 6, 0x3F, 0x20, 1, 0x0D, 0xB8, 0xC0, 0, 2, 0x21, 0, 0, 0, 0,
        0, 0, 0, 0, 0x20, 1, 0x0D, 0xB8, 1, 0x22, 3, 0x44, 0, 0, 0, 0, 0xC6, 0x33, 0x64, 7,
        0, 0x15, 4, 0xD2, 0, 0x0B, 0xEA, 0x59, 0x61, 0x62, 0x63,
    ],
        PacketTranslationError::TransportHeader { required_len: 20, len: 11 },
        "Translation Error: the transport header has 20 bytes, and there are 11."),
    (&[
        0x6B, 0x90, 0, 0, 0, 0x0B, 0x11, 0x3F, 0x20, 1, 0x0D, 0xB8, 0xC0, 0, 2, 0x21, 0, 0, 0, 0,
        0, 0, 0, 0, 0x20, 1, 0x0D, 0xB8, 1, 0x22, 3, 0x44, 0, 0, 0, 0, 0xC6, 0x33, 0x64, 7,
        0, 0x15, 4, 0xD2, 0, 0x0B, 0, 0, 0x61, 0x62, 0x63,
    ],
        PacketTranslationError::NoUdpChecksum,
        "Translation Error: a UDP packet over IPv6 has no checksum."),
    (&[
        0x6B, 0x90, 0, 0, 0, 0x0B, 0x11, 0x3F, 0x20, 1, 0x0D, 0xB8, 0xC0, 0, 2, 0x21, 0, 0, 0, 0,
        0, 0, 0, 0, 0x20, 1, 0x0D, 0xB8, 1, 0x22, 3, 0x44, 0, 0, 0, 0, 0xC6, 0x33, 0x64, 7,
        0, 0x15, 4, 0xD2, 0, 0x0B, 0xEA, 0x59, 0x61, 0x62, 0x63,
    ],
        PacketTranslationError::Space { required_len: 31, len: 30 },
        "Space Error: 31 bytes are needed, and there is room for 30."),
];

#[test]
fn packets_are_refused_back(rt: HostRuntime) {
    for (packet, error, text) in &NO_PACKETS_BACK {
        let mut buffer = [0xEE; 30];
        let outcome = ipv6_to_ipv4(packet, &two_prefixes(), 0, &mut buffer);
        expect_at(&rt, text, &outcome.err().as_ref(), &Some(error));
        expect_bytes(&rt, &buffer, &[0xEE; 30]);
        expect_text(&rt, error, text);
    }
}

/// "Don't fragment" is set from 1261 bytes on.
#[test]
fn long_packets_are_not_fragmented(rt: HostRuntime) {
    let mut packet = [0; 1281];
    packet[..40].copy_from_slice(&TRANSLATED);
    packet[6] = 50;
    let mut buffer = [0; 1261];
    for (payload_len, flags) in [(1240u16, 0), (1241, 0x40)] {
        packet[4..6].copy_from_slice(&payload_len.to_be_bytes());
        let outcome = ipv6_to_ipv4(&packet, &two_prefixes(), 1, &mut buffer);
        expect_ok(&rt, outcome);
        expect_at(&rt, &payload_len, &buffer[6], &flags);
    }
}

// ---- fragments

/// Fragments over IPv4, each with the translated fragment: the first and the last fragment of a UDP packet, a fragment of ESP, and the first
/// fragment of a TCP segment. A program in Python computed the checksums.
#[rattlefmt::skip]
static FRAGMENTS: [(&[u8], &[u8]); 4] = [
    (&[
        0x45, 0xB9, 0, 0x24, 0x12, 0x34, 0x20, 0, 0x40, 0x11, 0x5B, 0x80, 0xC0, 0, 2, 0x21, 0xC6, 0x33, 0x64, 7,
        0, 0x15, 4, 0xD2, 0, 0x18, 0xCB, 0x2F, 0x61, 0x62, 0x63, 0x64, 0x65, 0x66, 0x67, 0x68,
    ], &[
        0x6B, 0x90, 0, 0, 0, 0x18, 0x2C, 0x3F, 0x20, 1, 0x0D, 0xB8, 0xC0, 0, 2, 0x21, 0, 0, 0, 0,
        0, 0, 0, 0, 0x20, 1, 0x0D, 0xB8, 1, 0x22, 3, 0x44, 0, 0, 0, 0, 0xC6, 0x33, 0x64, 7,
        0x11, 0, 0, 1, 0, 0, 0x12, 0x34, 0, 0x15, 4, 0xD2, 0, 0x18, 0x6B, 0x57, 0x61, 0x62, 0x63, 0x64,
        0x65, 0x66, 0x67, 0x68,
    ]),
    (&[
        0x45, 0xB9, 0, 0x1C, 0x12, 0x34, 0, 2, 0x40, 0x11, 0x7B, 0x86, 0xC0, 0, 2, 0x21, 0xC6, 0x33, 0x64, 7,
        0x69, 0x6A, 0x6B, 0x6C, 0x6D, 0x6E, 0x6F, 0x70,
    ], &[
        0x6B, 0x90, 0, 0, 0, 0x10, 0x2C, 0x3F, 0x20, 1, 0x0D, 0xB8, 0xC0, 0, 2, 0x21, 0, 0, 0, 0,
        0, 0, 0, 0, 0x20, 1, 0x0D, 0xB8, 1, 0x22, 3, 0x44, 0, 0, 0, 0, 0xC6, 0x33, 0x64, 7,
        0x11, 0, 0, 0x10, 0, 0, 0x12, 0x34, 0x69, 0x6A, 0x6B, 0x6C, 0x6D, 0x6E, 0x6F, 0x70,
    ]),
    (&[
        0x45, 0xB9, 0, 0x1C, 0xFF, 0xFF, 0x3F, 0xFF, 0x40, 0x32, 0x4D, 0x9C, 0xC0, 0, 2, 0x21, 0xC6, 0x33, 0x64, 7,
        0x31, 0x32, 0x33, 0x34, 0x35, 0x36, 0x37, 0x38,
    ], &[
        0x6B, 0x90, 0, 0, 0, 0x10, 0x2C, 0x3F, 0x20, 1, 0x0D, 0xB8, 0xC0, 0, 2, 0x21, 0, 0, 0, 0,
        0, 0, 0, 0, 0x20, 1, 0x0D, 0xB8, 1, 0x22, 3, 0x44, 0, 0, 0, 0, 0xC6, 0x33, 0x64, 7,
        0x32, 0, 0xFF, 0xF9, 0, 0, 0xFF, 0xFF, 0x31, 0x32, 0x33, 0x34, 0x35, 0x36, 0x37, 0x38,
    ]),
    (&[
        0x45, 0xB9, 0, 0x2C, 0x12, 0x34, 0x20, 0, 0x40, 6, 0x5B, 0x83, 0xC0, 0, 2, 0x21, 0xC6, 0x33, 0x64, 7,
        0, 0x15, 4, 0xD2, 1, 2, 3, 4, 5, 6, 7, 8, 0x50, 0x18, 0x20, 0, 0xB8, 0x8D, 0, 0,
        0x61, 0x62, 0x63, 0x64,
    ], &[
        0x6B, 0x90, 0, 0, 0, 0x20, 0x2C, 0x3F, 0x20, 1, 0x0D, 0xB8, 0xC0, 0, 2, 0x21, 0, 0, 0, 0,
        0, 0, 0, 0, 0x20, 1, 0x0D, 0xB8, 1, 0x22, 3, 0x44, 0, 0, 0, 0, 0xC6, 0x33, 0x64, 7,
        6, 0, 0, 1, 0, 0, 0x12, 0x34, 0, 0x15, 4, 0xD2, 1, 2, 3, 4, 5, 6, 7, 8,
        0x50, 0x18, 0x20, 0, 0x58, 0xB5, 0, 0, 0x61, 0x62, 0x63, 0x64,
    ]),
];

/// The same fragments over IPv6, two atomic fragments (UDP and an echo request), and a fragment after hop-by-hop options.
#[rattlefmt::skip]
static FRAGMENTS_BACK: [(&[u8], &[u8]); 7] = [
    (&[
        0x6B, 0x90, 0, 0, 0, 0x18, 0x2C, 0x3F, 0x20, 1, 0x0D, 0xB8, 0xC0, 0, 2, 0x21, 0, 0, 0, 0,
        0, 0, 0, 0, 0x20, 1, 0x0D, 0xB8, 1, 0x22, 3, 0x44, 0, 0, 0, 0, 0xC6, 0x33, 0x64, 7,
        0x11, 0, 0, 1, 0xAB, 0xCD, 0x12, 0x34, 0, 0x15, 4, 0xD2, 0, 0x18, 0x6B, 0x57, 0x61, 0x62, 0x63, 0x64,
        0x65, 0x66, 0x67, 0x68,
    ], &[
        0x45, 0xB9, 0, 0x24, 0x12, 0x34, 0x20, 0, 0x3E, 0x11, 0x5D, 0x80, 0xC0, 0, 2, 0x21, 0xC6, 0x33, 0x64, 7,
        0, 0x15, 4, 0xD2, 0, 0x18, 0xCB, 0x2F, 0x61, 0x62, 0x63, 0x64, 0x65, 0x66, 0x67, 0x68,
    ]),
    (&[
        0x6B, 0x90, 0, 0, 0, 0x10, 0x2C, 0x3F, 0x20, 1, 0x0D, 0xB8, 0xC0, 0, 2, 0x21, 0, 0, 0, 0,
        0, 0, 0, 0, 0x20, 1, 0x0D, 0xB8, 1, 0x22, 3, 0x44, 0, 0, 0, 0, 0xC6, 0x33, 0x64, 7,
        0x11, 0, 0, 0x10, 0xAB, 0xCD, 0x12, 0x34, 0x69, 0x6A, 0x6B, 0x6C, 0x6D, 0x6E, 0x6F, 0x70,
    ], &[
        0x45, 0xB9, 0, 0x1C, 0x12, 0x34, 0, 2, 0x3E, 0x11, 0x7D, 0x86, 0xC0, 0, 2, 0x21, 0xC6, 0x33, 0x64, 7,
        0x69, 0x6A, 0x6B, 0x6C, 0x6D, 0x6E, 0x6F, 0x70,
    ]),
    (&[
        0x6B, 0x90, 0, 0, 0, 0x10, 0x2C, 0x3F, 0x20, 1, 0x0D, 0xB8, 0xC0, 0, 2, 0x21, 0, 0, 0, 0,
        0, 0, 0, 0, 0x20, 1, 0x0D, 0xB8, 1, 0x22, 3, 0x44, 0, 0, 0, 0, 0xC6, 0x33, 0x64, 7,
        0x32, 0, 0xFF, 0xF9, 0, 0x10, 0xFF, 0xFF, 0x31, 0x32, 0x33, 0x34, 0x35, 0x36, 0x37, 0x38,
    ], &[
        0x45, 0xB9, 0, 0x1C, 0xFF, 0xFF, 0x3F, 0xFF, 0x3E, 0x32, 0x4F, 0x9C, 0xC0, 0, 2, 0x21, 0xC6, 0x33, 0x64, 7,
        0x31, 0x32, 0x33, 0x34, 0x35, 0x36, 0x37, 0x38,
    ]),
    (&[
        0x6B, 0x90, 0, 0, 0, 0x20, 0x2C, 0x3F, 0x20, 1, 0x0D, 0xB8, 0xC0, 0, 2, 0x21, 0, 0, 0, 0,
        0, 0, 0, 0, 0x20, 1, 0x0D, 0xB8, 1, 0x22, 3, 0x44, 0, 0, 0, 0, 0xC6, 0x33, 0x64, 7,
        6, 0, 0, 1, 0, 0, 0x12, 0x34, 0, 0x15, 4, 0xD2, 1, 2, 3, 4, 5, 6, 7, 8,
        0x50, 0x18, 0x20, 0, 0x58, 0xB5, 0, 0, 0x61, 0x62, 0x63, 0x64,
    ], &[
        0x45, 0xB9, 0, 0x2C, 0x12, 0x34, 0x20, 0, 0x3E, 6, 0x5D, 0x83, 0xC0, 0, 2, 0x21, 0xC6, 0x33, 0x64, 7,
        0, 0x15, 4, 0xD2, 1, 2, 3, 4, 5, 6, 7, 8, 0x50, 0x18, 0x20, 0, 0xB8, 0x8D, 0, 0,
        0x61, 0x62, 0x63, 0x64,
    ]),
    (&[
        0x6B, 0x90, 0, 0, 0, 0x20, 0x2C, 0x3F, 0x20, 1, 0x0D, 0xB8, 0xC0, 0, 2, 0x21, 0, 0, 0, 0,
        0, 0, 0, 0, 0x20, 1, 0x0D, 0xB8, 1, 0x22, 3, 0x44, 0, 0, 0, 0, 0xC6, 0x33, 0x64, 7,
        0x11, 0, 0, 0, 0, 0, 0, 0x77, 0, 0x15, 4, 0xD2, 0, 0x18, 0x6B, 0x57, 0x61, 0x62, 0x63, 0x64,
        0x65, 0x66, 0x67, 0x68, 0x69, 0x6A, 0x6B, 0x6C, 0x6D, 0x6E, 0x6F, 0x70,
    ], &[
        0x45, 0xB9, 0, 0x2C, 0, 0x77, 0, 0, 0x3E, 0x11, 0x8F, 0x35, 0xC0, 0, 2, 0x21, 0xC6, 0x33, 0x64, 7,
        0, 0x15, 4, 0xD2, 0, 0x18, 0xCB, 0x2F, 0x61, 0x62, 0x63, 0x64, 0x65, 0x66, 0x67, 0x68, 0x69, 0x6A, 0x6B, 0x6C,
        0x6D, 0x6E, 0x6F, 0x70,
    ]),
    (&[
        0x6B, 0x90, 0, 0, 0, 0x14, 0x2C, 0x3F, 0x20, 1, 0x0D, 0xB8, 0xC0, 0, 2, 0x21, 0, 0, 0, 0,
        0, 0, 0, 0, 0x20, 1, 0x0D, 0xB8, 1, 0x22, 3, 0x44, 0, 0, 0, 0, 0xC6, 0x33, 0x64, 7,
        0x3A, 0, 0, 0, 0, 0, 0, 0x77, 0x80, 0, 0x42, 0x78, 0x12, 0x34, 0, 7, 0x70, 0x69, 0x6E, 0x67,
    ], &[
        0x45, 0xB9, 0, 0x20, 0, 0x77, 0, 0, 0x3E, 1, 0x8F, 0x51, 0xC0, 0, 2, 0x21, 0xC6, 0x33, 0x64, 7,
        8, 0, 6, 0xF4, 0x12, 0x34, 0, 7, 0x70, 0x69, 0x6E, 0x67,
    ]),
    (&[
        0x6B, 0x90, 0, 0, 0, 0x18, 0, 0x3F, 0x20, 1, 0x0D, 0xB8, 0xC0, 0, 2, 0x21, 0, 0, 0, 0,
        0, 0, 0, 0, 0x20, 1, 0x0D, 0xB8, 1, 0x22, 3, 0x44, 0, 0, 0, 0, 0xC6, 0x33, 0x64, 7,
        0x2C, 0, 1, 4, 0, 0, 0, 0, 0x11, 0, 0, 0x10, 0xAB, 0xCD, 0x12, 0x34, 0x69, 0x6A, 0x6B, 0x6C,
        0x6D, 0x6E, 0x6F, 0x70,
    ], &[
        0x45, 0xB9, 0, 0x1C, 0x12, 0x34, 0, 2, 0x3E, 0x11, 0x7D, 0x86, 0xC0, 0, 2, 0x21, 0xC6, 0x33, 0x64, 7,
        0x69, 0x6A, 0x6B, 0x6C, 0x6D, 0x6E, 0x6F, 0x70,
    ]),
];

#[test]
fn fragments_are_translated(rt: HostRuntime) {
    for (packet, expected) in &FRAGMENTS {
        expect_translated(&rt, packet, expected);
    }
}

#[test]
fn fragments_are_translated_back(rt: HostRuntime) {
    for (packet, expected) in &FRAGMENTS_BACK {
        expect_translated_back(&rt, packet, expected);
    }
}

/// Changes of the first fragment of UDP over IPv6 that are refused: the place of a byte, and its new value.
#[rattlefmt::skip]
static NO_FRAGMENTS_BACK: [(usize, u8, PacketTranslationError); 5] = [
    (40, 58, PacketTranslationError::IcmpFragment),
    (40, 51, PacketTranslationError::Header(TranslationError::ExtensionHeader(51))),
    (5, 7, PacketTranslationError::ExtensionHeaderCutOff { number: 44, required_len: 8, len: 7 }),
    (5, 15, PacketTranslationError::TransportHeader { required_len: 8, len: 7 }),
    (7, 1, PacketTranslationError::Header(TranslationError::TimeExceeded)),
];

#[test]
fn fragments_are_refused(rt: HostRuntime) {
    for (place, value, error) in &NO_FRAGMENTS_BACK {
        let mut packet = joined(&rt, &[FRAGMENTS_BACK[0].0]);
        packet.as_mut_slice()[*place] = *value;
        let mut buffer = [0xEE; 80];
        let outcome = ipv6_to_ipv4(packet.as_slice(), &two_prefixes(), 0, &mut buffer);
        expect_at(&rt, place, &outcome.err().as_ref(), &Some(error));
        expect_bytes(&rt, &buffer, &[0xEE; 80]);
    }
    let mut buffer = [0xEE; 63];
    let outcome = ipv4_to_ipv6(FRAGMENTS[0].0, &two_prefixes(), &mut buffer);
    let error = PacketTranslationError::Space {
        required_len: 64,
        len: 63,
    };
    expect_equal(&rt, &outcome, &Err(error));
    let mut udp = joined(&rt, &[FRAGMENTS[0].0]);
    udp.as_mut_slice()[26..28].copy_from_slice(&[0, 0]);
    let outcome = ipv4_to_ipv6(udp.as_slice(), &two_prefixes(), &mut buffer);
    expect_equal(
        &rt,
        &outcome,
        &Err(PacketTranslationError::FragmentChecksum),
    );
    // ICMP, with the checksum of the header.
    udp.as_mut_slice()[9..12].copy_from_slice(&[1, 0x5B, 0x90]);
    let outcome = ipv4_to_ipv6(udp.as_slice(), &two_prefixes(), &mut buffer);
    expect_equal(&rt, &outcome, &Err(PacketTranslationError::IcmpFragment));
    expect_bytes(&rt, &buffer, &[0xEE; 63]);
    expect_text(
        &rt,
        &PacketTranslationError::IcmpFragment,
        "Translation Error: a fragment of an ICMP message is not translated.",
    );
    expect_text(
        &rt,
        &PacketTranslationError::FragmentChecksum,
        "Translation Error: a fragment of a UDP packet has no checksum.",
    );
}

// ---- ICMP errors

/// The rows of RFC 7915, section 4.2: type and code over IPv4, and over IPv6. "Time exceeded" keeps its code.
#[rattlefmt::skip]
static ERRORS: [((u8, u8), (u8, u8)); 19] = [
    ((3, 0), (1, 0)), ((3, 1), (1, 0)), ((3, 2), (4, 1)), ((3, 3), (1, 4)), ((3, 4), (2, 0)), ((3, 5), (1, 0)), ((3, 6), (1, 0)),
    ((3, 7), (1, 0)), ((3, 8), (1, 0)), ((3, 9), (1, 1)), ((3, 10), (1, 1)), ((3, 11), (1, 0)), ((3, 12), (1, 0)), ((3, 13), (1, 1)),
    ((3, 15), (1, 1)), ((11, 0), (3, 0)), ((11, 1), (3, 1)), ((12, 0), (4, 0)), ((12, 2), (4, 0)),
];

/// The rows of RFC 7915, section 5.2: type and code over IPv6, and over IPv4.
#[rattlefmt::skip]
static ERRORS_BACK: [((u8, u8), (u8, u8)); 10] = [
    ((1, 0), (3, 1)), ((1, 1), (3, 10)), ((1, 2), (3, 1)), ((1, 3), (3, 1)), ((1, 4), (3, 3)), ((2, 0), (3, 4)), ((3, 0), (11, 0)),
    ((3, 1), (11, 1)), ((4, 0), (12, 0)), ((4, 1), (3, 2)),
];

#[test]
fn rows_of_icmp_errors(rt: HostRuntime) {
    for (from, to) in &ERRORS {
        expect_at(&rt, from, &icmpv6_error(from.0, from.1), &Some(*to));
    }
    for (from, to) in &ERRORS_BACK {
        expect_at(&rt, from, &icmpv4_error(from.0, from.1), &Some(*to));
    }
}

/// The type and code of a row, or `None` if there is no row for this type and code.
fn row_of(rows: &[((u8, u8), (u8, u8))], kind: (u8, u8)) -> Option<(u8, u8)> {
    for (from, to) in rows {
        if *from == kind {
            return Some(*to);
        }
    }
    None
}

/// Type and code over IPv6. "Time exceeded", type 11, keeps any code.
fn expected_over_ipv6(type_u8: u8, code_u8: u8) -> Option<(u8, u8)> {
    if type_u8 == 11 {
        return Some((3, code_u8));
    }
    row_of(&ERRORS, (type_u8, code_u8))
}

/// Type and code over IPv4. "Packet too big", type 2, may have any code, and "time exceeded", type 3, keeps any code.
fn expected_over_ipv4(type_u8: u8, code_u8: u8) -> Option<(u8, u8)> {
    match type_u8 {
        2 => Some((3, 4)),
        3 => Some((11, code_u8)),
        _ => row_of(&ERRORS_BACK, (type_u8, code_u8)),
    }
}

/// Each pair of type and code is a row or dropped. Over IPv4 there are rows for 15 codes of type 3, all of type 11, and 2 of type 12. Over
/// IPv6 there are rows for 5 codes of type 1, all of types 2 and 3, and 2 of type 4.
#[test]
fn all_types_and_codes(rt: HostRuntime) {
    let mut to_ipv6 = 0;
    let mut to_ipv4 = 0;
    for type_u8 in 0..=u8::MAX {
        for code_u8 in 0..=u8::MAX {
            let kind = (type_u8, code_u8);
            let over_ipv6 = icmpv6_error(type_u8, code_u8);
            expect_at(
                &rt,
                &kind,
                &over_ipv6,
                &expected_over_ipv6(type_u8, code_u8),
            );
            let over_ipv4 = icmpv4_error(type_u8, code_u8);
            expect_at(
                &rt,
                &kind,
                &over_ipv4,
                &expected_over_ipv4(type_u8, code_u8),
            );
            to_ipv6 += usize::from(over_ipv6.is_some());
            to_ipv4 += usize::from(over_ipv4.is_some());
        }
    }
    expect_equal(&rt, &to_ipv6, &273);
    expect_equal(&rt, &to_ipv4, &519);
}

/// The pointer for each of the 20 bytes of an IPv4 header (RFC 7915, figure 3), and for one byte more.
#[rattlefmt::skip]
static POINTERS: [Option<u8>; 21] = [
    Some(0), Some(1), Some(4), Some(4), None, None, None, None, Some(7), Some(6), None, None, Some(8), Some(8), Some(8), Some(8), Some(24),
    Some(24), Some(24), Some(24), None,
];

/// Pointers into an IPv6 header, and into an IPv4 header (RFC 7915, figure 6).
#[rattlefmt::skip]
static POINTERS_BACK: [(u32, Option<u8>); 14] = [
    (0, Some(0)), (1, Some(1)), (2, None), (3, None), (4, Some(2)), (5, Some(2)), (6, Some(9)), (7, Some(8)), (8, Some(12)), (23, Some(12)),
    (24, Some(16)), (39, Some(16)), (40, None), (u32::MAX, None),
];

#[test]
fn pointers(rt: HostRuntime) {
    for pointer in 0..21 {
        expect_at(
            &rt,
            &pointer,
            &icmpv6_pointer(pointer),
            &POINTERS[usize::from(pointer)],
        );
    }
    for (pointer, place) in &POINTERS_BACK {
        expect_at(&rt, pointer, &icmpv4_pointer(*pointer), place);
    }
}

/// The MTU over IPv4, the total length of the packet that was too big, and the MTU over IPv6. An MTU of 0 is replaced by a plateau of RFC
/// 1191, section 7.1.
#[rattlefmt::skip]
static MTUS: [(u16, u16, u32); 10] = [
    (1500, 1501, 1520), (1260, 1300, 1280), (1261, 1300, 1281), (68, 576, 1280), (u16::MAX, u16::MAX, 65555), (0, 1500, 1512),
    (0, 1492, 1280), (0, 2003, 2022), (0, u16::MAX, 32020), (0, 68, 1280),
];

/// The MTU over IPv6, and the MTU over IPv4.
static MTUS_BACK: [(u32, u16); 6] = [
    (1280, 1260),
    (1500, 1480),
    (65555, 65535),
    (65556, 65535),
    (u32::MAX, 65535),
    (19, 0),
];

#[test]
fn mtus(rt: HostRuntime) {
    for (mtu, total_len, translated) in &MTUS {
        expect_at(&rt, mtu, &icmpv6_mtu(*mtu, *total_len), translated);
    }
    for (mtu, translated) in &MTUS_BACK {
        expect_at(&rt, mtu, &icmpv4_mtu(*mtu), translated);
    }
}

/// ICMP errors, each with the translated packet: port unreachable with a UDP packet, time exceeded with 8 bytes of a TCP segment,
/// fragmentation needed with a TCP segment, a parameter problem with an echo request, and protocol unreachable with ESP. A program in Python
/// computed the checksums.
#[rattlefmt::skip]
static ERROR_PACKETS: [(&[u8], &[u8]); 5] = [
    (&[
        0x45, 0, 0, 0x3B, 0x12, 0x34, 0x40, 0, 0x40, 1, 0x3C, 0x32, 0xC0, 0, 2, 0x21, 0xC6, 0x33, 0x64, 7,
        3, 3, 0xE9, 0x75, 0, 0, 0, 0, 0x45, 0, 0, 0x1F, 0xAB, 0xCD, 0x40, 0, 1, 0x11, 0xE1, 0xA4,
        0xC6, 0x33, 0x64, 7, 0xC0, 0, 2, 0x21, 4, 0xD2, 0, 0x15, 0, 0x0B, 0x4A, 0x32, 0x61, 0x62, 0x63,
    ], &[
        0x60, 0, 0, 0, 0, 0x3B, 0x3A, 0x3F, 0x20, 1, 0x0D, 0xB8, 0xC0, 0, 2, 0x21, 0, 0, 0, 0,
        0, 0, 0, 0, 0x20, 1, 0x0D, 0xB8, 1, 0x22, 3, 0x44, 0, 0, 0, 0, 0xC6, 0x33, 0x64, 7,
        1, 4, 0x41, 0x61, 0, 0, 0, 0, 0x60, 0, 0, 0, 0, 0x0B, 0x11, 1, 0x20, 1, 0x0D, 0xB8,
        1, 0x22, 3, 0x44, 0, 0, 0, 0, 0xC6, 0x33, 0x64, 7, 0x20, 1, 0x0D, 0xB8, 0xC0, 0, 2, 0x21,
        0, 0, 0, 0, 0, 0, 0, 0, 4, 0xD2, 0, 0x15, 0, 0x0B, 0xEA, 0x59, 0x61, 0x62, 0x63,
    ]),
    (&[
        0x45, 0, 0, 0x38, 0x12, 0x34, 0x40, 0, 0x40, 1, 0x3C, 0x35, 0xC0, 0, 2, 0x21, 0xC6, 0x33, 0x64, 7,
        0x0B, 0, 0xEC, 0x12, 0, 0, 0, 0, 0x45, 0, 0, 0x2B, 0xAB, 0xCD, 0x40, 0, 1, 6, 0xE1, 0xA3,
        0xC6, 0x33, 0x64, 7, 0xC0, 0, 2, 0x21, 4, 0xD2, 0, 0x15, 1, 2, 3, 4,
    ], &[
        0x60, 0, 0, 0, 0, 0x38, 0x3A, 0x3F, 0x20, 1, 0x0D, 0xB8, 0xC0, 0, 2, 0x21, 0, 0, 0, 0,
        0, 0, 0, 0, 0x20, 1, 0x0D, 0xB8, 1, 0x22, 3, 0x44, 0, 0, 0, 0, 0xC6, 0x33, 0x64, 7,
        3, 0, 0xF5, 0x1D, 0, 0, 0, 0, 0x60, 0, 0, 0, 0, 0x17, 6, 1, 0x20, 1, 0x0D, 0xB8,
        1, 0x22, 3, 0x44, 0, 0, 0, 0, 0xC6, 0x33, 0x64, 7, 0x20, 1, 0x0D, 0xB8, 0xC0, 0, 2, 0x21,
        0, 0, 0, 0, 0, 0, 0, 0, 4, 0xD2, 0, 0x15, 1, 2, 3, 4,
    ]),
    (&[
        0x45, 0, 0, 0x47, 0x12, 0x34, 0x40, 0, 0x40, 1, 0x3C, 0x26, 0xC0, 0, 2, 0x21, 0xC6, 0x33, 0x64, 7,
        3, 4, 0xE3, 0xFD, 0, 0, 5, 0x78, 0x45, 0, 0, 0x2B, 0xAB, 0xCD, 0x40, 0, 1, 6, 0xE1, 0xA3,
        0xC6, 0x33, 0x64, 7, 0xC0, 0, 2, 0x21, 4, 0xD2, 0, 0x15, 1, 2, 3, 4, 5, 6, 7, 8,
        0x50, 0x18, 0x20, 0, 0xCA, 0x0F, 0, 0, 0x61, 0x62, 0x63,
    ], &[
        0x60, 0, 0, 0, 0, 0x47, 0x3A, 0x3F, 0x20, 1, 0x0D, 0xB8, 0xC0, 0, 2, 0x21, 0, 0, 0, 0,
        0, 0, 0, 0, 0x20, 1, 0x0D, 0xB8, 1, 0x22, 3, 0x44, 0, 0, 0, 0, 0xC6, 0x33, 0x64, 7,
        2, 0, 0x45, 0xC2, 0, 0, 5, 0x8C, 0x60, 0, 0, 0, 0, 0x17, 6, 1, 0x20, 1, 0x0D, 0xB8,
        1, 0x22, 3, 0x44, 0, 0, 0, 0, 0xC6, 0x33, 0x64, 7, 0x20, 1, 0x0D, 0xB8, 0xC0, 0, 2, 0x21,
        0, 0, 0, 0, 0, 0, 0, 0, 4, 0xD2, 0, 0x15, 1, 2, 3, 4, 5, 6, 7, 8,
        0x50, 0x18, 0x20, 0, 0x6A, 0x37, 0, 0, 0x61, 0x62, 0x63,
    ]),
    (&[
        0x45, 0, 0, 0x3C, 0x12, 0x34, 0x40, 0, 0x40, 1, 0x3C, 0x31, 0xC0, 0, 2, 0x21, 0xC6, 0x33, 0x64, 7,
        0x0C, 0, 0xEA, 0xFF, 9, 0, 0, 0, 0x45, 0, 0, 0x20, 0xAB, 0xCD, 0x40, 0, 1, 1, 0xE1, 0xB3,
        0xC6, 0x33, 0x64, 7, 0xC0, 0, 2, 0x21, 8, 0, 6, 0xF4, 0x12, 0x34, 0, 7, 0x70, 0x69, 0x6E, 0x67,
    ], &[
        0x60, 0, 0, 0, 0, 0x3C, 0x3A, 0x3F, 0x20, 1, 0x0D, 0xB8, 0xC0, 0, 2, 0x21, 0, 0, 0, 0,
        0, 0, 0, 0, 0x20, 1, 0x0D, 0xB8, 1, 0x22, 3, 0x44, 0, 0, 0, 0, 0xC6, 0x33, 0x64, 7,
        4, 0, 0x15, 0x87, 0, 0, 0, 6, 0x60, 0, 0, 0, 0, 0x0C, 0x3A, 1, 0x20, 1, 0x0D, 0xB8,
        1, 0x22, 3, 0x44, 0, 0, 0, 0, 0xC6, 0x33, 0x64, 7, 0x20, 1, 0x0D, 0xB8, 0xC0, 0, 2, 0x21,
        0, 0, 0, 0, 0, 0, 0, 0, 0x80, 0, 0x42, 0x78, 0x12, 0x34, 0, 7, 0x70, 0x69, 0x6E, 0x67,
    ]),
    (&[
        0x45, 0, 0, 0x34, 0x12, 0x34, 0x40, 0, 0x40, 1, 0x3C, 0x39, 0xC0, 0, 2, 0x21, 0xC6, 0x33, 0x64, 7,
        3, 2, 0x38, 0x37, 0, 0, 0, 0, 0x45, 0xB9, 0, 0x18, 0xAB, 0xCD, 0x40, 0, 1, 0x32, 0xE0, 0xD1,
        0xC6, 0x33, 0x64, 7, 0xC0, 0, 2, 0x21, 0x61, 0x62, 0x63, 0x64,
    ], &[
        0x60, 0, 0, 0, 0, 0x34, 0x3A, 0x3F, 0x20, 1, 0x0D, 0xB8, 0xC0, 0, 2, 0x21, 0, 0, 0, 0,
        0, 0, 0, 0, 0x20, 1, 0x0D, 0xB8, 1, 0x22, 3, 0x44, 0, 0, 0, 0, 0xC6, 0x33, 0x64, 7,
        4, 1, 0, 0xC4, 0, 0, 0, 6, 0x6B, 0x90, 0, 0, 0, 4, 0x32, 1, 0x20, 1, 0x0D, 0xB8,
        1, 0x22, 3, 0x44, 0, 0, 0, 0, 0xC6, 0x33, 0x64, 7, 0x20, 1, 0x0D, 0xB8, 0xC0, 0, 2, 0x21,
        0, 0, 0, 0, 0, 0, 0, 0, 0x61, 0x62, 0x63, 0x64,
    ]),
];

/// ICMPv6 errors, each with the translated packet of identification BEEF: prohibited with a UDP packet, time exceeded with 8 bytes of a TCP
/// segment, packet too big with a TCP segment, a parameter problem with an echo request, and an unrecognized next header with ESP.
#[rattlefmt::skip]
static ERROR_PACKETS_BACK: [(&[u8], &[u8]); 5] = [
    (&[
        0x60, 0, 0, 0, 0, 0x3B, 0x3A, 0x3F, 0x20, 1, 0x0D, 0xB8, 0xC0, 0, 2, 0x21, 0, 0, 0, 0,
        0, 0, 0, 0, 0x20, 1, 0x0D, 0xB8, 1, 0x22, 3, 0x44, 0, 0, 0, 0, 0xC6, 0x33, 0x64, 7,
        1, 1, 0x41, 0x64, 0, 0, 0, 0, 0x60, 0, 0, 0, 0, 0x0B, 0x11, 1, 0x20, 1, 0x0D, 0xB8,
        1, 0x22, 3, 0x44, 0, 0, 0, 0, 0xC6, 0x33, 0x64, 7, 0x20, 1, 0x0D, 0xB8, 0xC0, 0, 2, 0x21,
        0, 0, 0, 0, 0, 0, 0, 0, 4, 0xD2, 0, 0x15, 0, 0x0B, 0xEA, 0x59, 0x61, 0x62, 0x63,
    ], &[
        0x45, 0, 0, 0x3B, 0xBE, 0xEF, 0, 0, 0x3E, 1, 0xD1, 0x76, 0xC0, 0, 2, 0x21, 0xC6, 0x33, 0x64, 7,
        3, 0x0A, 0xE9, 0x6E, 0, 0, 0, 0, 0x45, 0, 0, 0x1F, 0, 0, 0, 0, 1, 0x11, 0xCD, 0x72,
        0xC6, 0x33, 0x64, 7, 0xC0, 0, 2, 0x21, 4, 0xD2, 0, 0x15, 0, 0x0B, 0x4A, 0x32, 0x61, 0x62, 0x63,
    ]),
    (&[
        0x60, 0, 0, 0, 0, 0x38, 0x3A, 0x3F, 0x20, 1, 0x0D, 0xB8, 0xC0, 0, 2, 0x21, 0, 0, 0, 0,
        0, 0, 0, 0, 0x20, 1, 0x0D, 0xB8, 1, 0x22, 3, 0x44, 0, 0, 0, 0, 0xC6, 0x33, 0x64, 7,
        3, 1, 0xF5, 0x1C, 0, 0, 0, 0, 0x60, 0, 0, 0, 0, 0x17, 6, 1, 0x20, 1, 0x0D, 0xB8,
        1, 0x22, 3, 0x44, 0, 0, 0, 0, 0xC6, 0x33, 0x64, 7, 0x20, 1, 0x0D, 0xB8, 0xC0, 0, 2, 0x21,
        0, 0, 0, 0, 0, 0, 0, 0, 4, 0xD2, 0, 0x15, 1, 2, 3, 4,
    ], &[
        0x45, 0, 0, 0x38, 0xBE, 0xEF, 0, 0, 0x3E, 1, 0xD1, 0x79, 0xC0, 0, 2, 0x21, 0xC6, 0x33, 0x64, 7,
        0x0B, 1, 0xEC, 0x11, 0, 0, 0, 0, 0x45, 0, 0, 0x2B, 0, 0, 0, 0, 1, 6, 0xCD, 0x71,
        0xC6, 0x33, 0x64, 7, 0xC0, 0, 2, 0x21, 4, 0xD2, 0, 0x15, 1, 2, 3, 4,
    ]),
    (&[
        0x60, 0, 0, 0, 0, 0x47, 0x3A, 0x3F, 0x20, 1, 0x0D, 0xB8, 0xC0, 0, 2, 0x21, 0, 0, 0, 0,
        0, 0, 0, 0, 0x20, 1, 0x0D, 0xB8, 1, 0x22, 3, 0x44, 0, 0, 0, 0, 0xC6, 0x33, 0x64, 7,
        2, 0, 0x45, 0xC2, 0, 0, 5, 0x8C, 0x60, 0, 0, 0, 0, 0x17, 6, 1, 0x20, 1, 0x0D, 0xB8,
        1, 0x22, 3, 0x44, 0, 0, 0, 0, 0xC6, 0x33, 0x64, 7, 0x20, 1, 0x0D, 0xB8, 0xC0, 0, 2, 0x21,
        0, 0, 0, 0, 0, 0, 0, 0, 4, 0xD2, 0, 0x15, 1, 2, 3, 4, 5, 6, 7, 8,
        0x50, 0x18, 0x20, 0, 0x6A, 0x37, 0, 0, 0x61, 0x62, 0x63,
    ], &[
        0x45, 0, 0, 0x47, 0xBE, 0xEF, 0, 0, 0x3E, 1, 0xD1, 0x6A, 0xC0, 0, 2, 0x21, 0xC6, 0x33, 0x64, 7,
        3, 4, 0xE3, 0xFD, 0, 0, 5, 0x78, 0x45, 0, 0, 0x2B, 0, 0, 0, 0, 1, 6, 0xCD, 0x71,
        0xC6, 0x33, 0x64, 7, 0xC0, 0, 2, 0x21, 4, 0xD2, 0, 0x15, 1, 2, 3, 4, 5, 6, 7, 8,
        0x50, 0x18, 0x20, 0, 0xCA, 0x0F, 0, 0, 0x61, 0x62, 0x63,
    ]),
    (&[
        0x60, 0, 0, 0, 0, 0x3C, 0x3A, 0x3F, 0x20, 1, 0x0D, 0xB8, 0xC0, 0, 2, 0x21, 0, 0, 0, 0,
        0, 0, 0, 0, 0x20, 1, 0x0D, 0xB8, 1, 0x22, 3, 0x44, 0, 0, 0, 0, 0xC6, 0x33, 0x64, 7,
        4, 0, 0x15, 0x86, 0, 0, 0, 7, 0x60, 0, 0, 0, 0, 0x0C, 0x3A, 1, 0x20, 1, 0x0D, 0xB8,
        1, 0x22, 3, 0x44, 0, 0, 0, 0, 0xC6, 0x33, 0x64, 7, 0x20, 1, 0x0D, 0xB8, 0xC0, 0, 2, 0x21,
        0, 0, 0, 0, 0, 0, 0, 0, 0x80, 0, 0x42, 0x78, 0x12, 0x34, 0, 7, 0x70, 0x69, 0x6E, 0x67,
    ], &[
        0x45, 0, 0, 0x3C, 0xBE, 0xEF, 0, 0, 0x3E, 1, 0xD1, 0x75, 0xC0, 0, 2, 0x21, 0xC6, 0x33, 0x64, 7,
        0x0C, 0, 0xEB, 0xFF, 8, 0, 0, 0, 0x45, 0, 0, 0x20, 0, 0, 0, 0, 1, 1, 0xCD, 0x81,
        0xC6, 0x33, 0x64, 7, 0xC0, 0, 2, 0x21, 8, 0, 6, 0xF4, 0x12, 0x34, 0, 7, 0x70, 0x69, 0x6E, 0x67,
    ]),
    (&[
        0x60, 0, 0, 0, 0, 0x34, 0x3A, 0x3F, 0x20, 1, 0x0D, 0xB8, 0xC0, 0, 2, 0x21, 0, 0, 0, 0,
        0, 0, 0, 0, 0x20, 1, 0x0D, 0xB8, 1, 0x22, 3, 0x44, 0, 0, 0, 0, 0xC6, 0x33, 0x64, 7,
        4, 1, 0, 0xC4, 0, 0, 0, 6, 0x6B, 0x90, 0, 0, 0, 4, 0x32, 1, 0x20, 1, 0x0D, 0xB8,
        1, 0x22, 3, 0x44, 0, 0, 0, 0, 0xC6, 0x33, 0x64, 7, 0x20, 1, 0x0D, 0xB8, 0xC0, 0, 2, 0x21,
        0, 0, 0, 0, 0, 0, 0, 0, 0x61, 0x62, 0x63, 0x64,
    ], &[
        0x45, 0, 0, 0x34, 0xBE, 0xEF, 0, 0, 0x3E, 1, 0xD1, 0x7D, 0xC0, 0, 2, 0x21, 0xC6, 0x33, 0x64, 7,
        3, 2, 0x38, 0x37, 0, 0, 0, 0, 0x45, 0xB9, 0, 0x18, 0, 0, 0, 0, 1, 0x32, 0xCC, 0x9F,
        0xC6, 0x33, 0x64, 7, 0xC0, 0, 2, 0x21, 0x61, 0x62, 0x63, 0x64,
    ]),
];

#[test]
fn icmp_errors_are_translated(rt: HostRuntime) {
    for (packet, expected) in &ERROR_PACKETS {
        expect_translated(&rt, packet, expected);
    }
}

#[test]
fn icmp_errors_are_translated_back(rt: HostRuntime) {
    for (packet, expected) in &ERROR_PACKETS_BACK {
        expect_translated_back(&rt, packet, expected);
    }
}

/// ICMP errors about fragments, each with the translated packet: the first fragment of a UDP packet, four bytes of its last fragment, and
/// the first fragment of a TCP segment. A program in Python computed the checksums.
#[rattlefmt::skip]
static QUOTED_FRAGMENTS: [(&[u8], &[u8]); 3] = [
    (&[
        0x45, 0, 0, 0x40, 0x12, 0x34, 0x40, 0, 0x40, 1, 0x3C, 0x2D, 0xC0, 0, 2, 0x21, 0xC6, 0x33, 0x64, 7,
        3, 3, 0x9B, 0x38, 0, 0, 0, 0, 0x45, 0, 0, 0x24, 0xAB, 0xCD, 0x20, 0, 1, 0x11, 1, 0xA0,
        0xC6, 0x33, 0x64, 7, 0xC0, 0, 2, 0x21, 4, 0xD2, 0, 0x15, 0, 0x18, 0xCB, 0x2F, 0x61, 0x62, 0x63, 0x64,
        0x65, 0x66, 0x67, 0x68,
    ], &[
        0x60, 0, 0, 0, 0, 0x48, 0x3A, 0x3F, 0x20, 1, 0x0D, 0xB8, 0xC0, 0, 2, 0x21, 0, 0, 0, 0,
        0, 0, 0, 0, 0x20, 1, 0x0D, 0xB8, 1, 0x22, 3, 0x44, 0, 0, 0, 0, 0xC6, 0x33, 0x64, 7,
        1, 4, 0x1B, 0x3B, 0, 0, 0, 0, 0x60, 0, 0, 0, 0, 0x18, 0x2C, 1, 0x20, 1, 0x0D, 0xB8,
        1, 0x22, 3, 0x44, 0, 0, 0, 0, 0xC6, 0x33, 0x64, 7, 0x20, 1, 0x0D, 0xB8, 0xC0, 0, 2, 0x21,
        0, 0, 0, 0, 0, 0, 0, 0, 0x11, 0, 0, 1, 0, 0, 0xAB, 0xCD, 4, 0xD2, 0, 0x15,
        0, 0x18, 0x6B, 0x57, 0x61, 0x62, 0x63, 0x64, 0x65, 0x66, 0x67, 0x68,
    ]),
    (&[
        0x45, 0, 0, 0x34, 0x12, 0x34, 0x40, 0, 0x40, 1, 0x3C, 0x39, 0xC0, 0, 2, 0x21, 0xC6, 0x33, 0x64, 7,
        0x0B, 0, 0x20, 0x29, 0, 0, 0, 0, 0x45, 0, 0, 0x1C, 0xAB, 0xCD, 0, 2, 1, 0x11, 0x21, 0xA6,
        0xC6, 0x33, 0x64, 7, 0xC0, 0, 2, 0x21, 0x69, 0x6A, 0x6B, 0x6C,
    ], &[
        0x60, 0, 0, 0, 0, 0x3C, 0x3A, 0x3F, 0x20, 1, 0x0D, 0xB8, 0xC0, 0, 2, 0x21, 0, 0, 0, 0,
        0, 0, 0, 0, 0x20, 1, 0x0D, 0xB8, 1, 0x22, 3, 0x44, 0, 0, 0, 0, 0xC6, 0x33, 0x64, 7,
        3, 0, 0x46, 0x59, 0, 0, 0, 0, 0x60, 0, 0, 0, 0, 0x10, 0x2C, 1, 0x20, 1, 0x0D, 0xB8,
        1, 0x22, 3, 0x44, 0, 0, 0, 0, 0xC6, 0x33, 0x64, 7, 0x20, 1, 0x0D, 0xB8, 0xC0, 0, 2, 0x21,
        0, 0, 0, 0, 0, 0, 0, 0, 0x11, 0, 0, 0x10, 0, 0, 0xAB, 0xCD, 0x69, 0x6A, 0x6B, 0x6C,
    ]),
    (&[
        0x45, 0, 0, 0x48, 0x12, 0x34, 0x40, 0, 0x40, 1, 0x3C, 0x25, 0xC0, 0, 2, 0x21, 0xC6, 0x33, 0x64, 7,
        3, 4, 0x62, 0x8F, 0, 0, 5, 0x78, 0x45, 0, 0, 0x2C, 0xAB, 0xCD, 0x20, 0, 1, 6, 1, 0xA3,
        0xC6, 0x33, 0x64, 7, 0xC0, 0, 2, 0x21, 4, 0xD2, 0, 0x15, 1, 2, 3, 4, 5, 6, 7, 8,
        0x50, 0x18, 0x20, 0, 0x4B, 0x1A, 0, 0, 0x61, 0x62, 0x63, 0x64,
    ], &[
        0x60, 0, 0, 0, 0, 0x50, 0x3A, 0x3F, 0x20, 1, 0x0D, 0xB8, 0xC0, 0, 2, 0x21, 0, 0, 0, 0,
        0, 0, 0, 0, 0x20, 1, 0x0D, 0xB8, 1, 0x22, 3, 0x44, 0, 0, 0, 0, 0xC6, 0x33, 0x64, 7,
        2, 0, 0xEC, 0x72, 0, 0, 5, 0x8C, 0x60, 0, 0, 0, 0, 0x20, 0x2C, 1, 0x20, 1, 0x0D, 0xB8,
        1, 0x22, 3, 0x44, 0, 0, 0, 0, 0xC6, 0x33, 0x64, 7, 0x20, 1, 0x0D, 0xB8, 0xC0, 0, 2, 0x21,
        0, 0, 0, 0, 0, 0, 0, 0, 6, 0, 0, 1, 0, 0, 0xAB, 0xCD, 4, 0xD2, 0, 0x15,
        1, 2, 3, 4, 5, 6, 7, 8, 0x50, 0x18, 0x20, 0, 0xEB, 0x41, 0, 0, 0x61, 0x62, 0x63, 0x64,
    ]),
];

/// ICMPv6 errors about packets with extension headers, each with the translated packet of identification BEEF. The first three packets are
/// fragments: the first fragment of a UDP packet, four bytes of its last fragment, and an atomic fragment. A UDP packet follows hop-by-hop
/// options. Four bytes of a later fragment follow hop-by-hop options and a routing header. An echo request of 24 bytes follows destination
/// options, and the quote ends after 12 bytes of the request.
#[rattlefmt::skip]
static QUOTED_EXTENSION_HEADERS: [(&[u8], &[u8]); 6] = [
    (&[
        0x60, 0, 0, 0, 0, 0x48, 0x3A, 0x3F, 0x20, 1, 0x0D, 0xB8, 0xC0, 0, 2, 0x21, 0, 0, 0, 0,
        0, 0, 0, 0, 0x20, 1, 0x0D, 0xB8, 1, 0x22, 3, 0x44, 0, 0, 0, 0, 0xC6, 0x33, 0x64, 7,
        1, 4, 9, 7, 0, 0, 0, 0, 0x60, 0, 0, 0, 0, 0x18, 0x2C, 1, 0x20, 1, 0x0D, 0xB8,
        1, 0x22, 3, 0x44, 0, 0, 0, 0, 0xC6, 0x33, 0x64, 7, 0x20, 1, 0x0D, 0xB8, 0xC0, 0, 2, 0x21,
        0, 0, 0, 0, 0, 0, 0, 0, 0x11, 0, 0, 1, 0xAB, 0xCD, 0x12, 0x34, 4, 0xD2, 0, 0x15,
        0, 0x18, 0x6B, 0x57, 0x61, 0x62, 0x63, 0x64, 0x65, 0x66, 0x67, 0x68,
    ], &[
        0x45, 0, 0, 0x40, 0xBE, 0xEF, 0, 0, 0x3E, 1, 0xD1, 0x71, 0xC0, 0, 2, 0x21, 0xC6, 0x33, 0x64, 7,
        3, 3, 0x9B, 0x38, 0, 0, 0, 0, 0x45, 0, 0, 0x24, 0x12, 0x34, 0x20, 0, 1, 0x11, 0x9B, 0x39,
        0xC6, 0x33, 0x64, 7, 0xC0, 0, 2, 0x21, 4, 0xD2, 0, 0x15, 0, 0x18, 0xCB, 0x2F, 0x61, 0x62, 0x63, 0x64,
        0x65, 0x66, 0x67, 0x68,
    ]),
    (&[
        0x60, 0, 0, 0, 0, 0x3C, 0x3A, 0x3F, 0x20, 1, 0x0D, 0xB8, 0xC0, 0, 2, 0x21, 0, 0, 0, 0,
        0, 0, 0, 0, 0x20, 1, 0x0D, 0xB8, 1, 0x22, 3, 0x44, 0, 0, 0, 0, 0xC6, 0x33, 0x64, 7,
        3, 1, 0x34, 0x24, 0, 0, 0, 0, 0x60, 0, 0, 0, 0, 0x10, 0x2C, 1, 0x20, 1, 0x0D, 0xB8,
        1, 0x22, 3, 0x44, 0, 0, 0, 0, 0xC6, 0x33, 0x64, 7, 0x20, 1, 0x0D, 0xB8, 0xC0, 0, 2, 0x21,
        0, 0, 0, 0, 0, 0, 0, 0, 0x11, 0, 0, 0x10, 0xAB, 0xCD, 0x12, 0x34, 0x69, 0x6A, 0x6B, 0x6C,
    ], &[
        0x45, 0, 0, 0x34, 0xBE, 0xEF, 0, 0, 0x3E, 1, 0xD1, 0x7D, 0xC0, 0, 2, 0x21, 0xC6, 0x33, 0x64, 7,
        0x0B, 1, 0x20, 0x28, 0, 0, 0, 0, 0x45, 0, 0, 0x1C, 0x12, 0x34, 0, 2, 1, 0x11, 0xBB, 0x3F,
        0xC6, 0x33, 0x64, 7, 0xC0, 0, 2, 0x21, 0x69, 0x6A, 0x6B, 0x6C,
    ]),
    (&[
        0x60, 0, 0, 0, 0, 0x43, 0x3A, 0x3F, 0x20, 1, 0x0D, 0xB8, 0xC0, 0, 2, 0x21, 0, 0, 0, 0,
        0, 0, 0, 0, 0x20, 1, 0x0D, 0xB8, 1, 0x22, 3, 0x44, 0, 0, 0, 0, 0xC6, 0x33, 0x64, 7,
        1, 4, 0x57, 0x4F, 0, 0, 0, 0, 0x60, 0, 0, 0, 0, 0x13, 0x2C, 1, 0x20, 1, 0x0D, 0xB8,
        1, 0x22, 3, 0x44, 0, 0, 0, 0, 0xC6, 0x33, 0x64, 7, 0x20, 1, 0x0D, 0xB8, 0xC0, 0, 2, 0x21,
        0, 0, 0, 0, 0, 0, 0, 0, 0x11, 0, 0, 0, 0xAB, 0xCD, 0x12, 0x34, 4, 0xD2, 0, 0x15,
        0, 0x0B, 0xEA, 0x59, 0x61, 0x62, 0x63,
    ], &[
        0x45, 0, 0, 0x3B, 0xBE, 0xEF, 0, 0, 0x3E, 1, 0xD1, 0x76, 0xC0, 0, 2, 0x21, 0xC6, 0x33, 0x64, 7,
        3, 3, 0xE9, 0x75, 0, 0, 0, 0, 0x45, 0, 0, 0x1F, 0x12, 0x34, 0, 0, 1, 0x11, 0xBB, 0x3E,
        0xC6, 0x33, 0x64, 7, 0xC0, 0, 2, 0x21, 4, 0xD2, 0, 0x15, 0, 0x0B, 0x4A, 0x32, 0x61, 0x62, 0x63,
    ]),
    (&[
        0x60, 0, 0, 0, 0, 0x43, 0x3A, 0x3F, 0x20, 1, 0x0D, 0xB8, 0xC0, 0, 2, 0x21, 0, 0, 0, 0,
        0, 0, 0, 0, 0x20, 1, 0x0D, 0xB8, 1, 0x22, 3, 0x44, 0, 0, 0, 0, 0xC6, 0x33, 0x64, 7,
        1, 4, 0x40, 0x4D, 0, 0, 0, 0, 0x60, 0, 0, 0, 0, 0x13, 0, 1, 0x20, 1, 0x0D, 0xB8,
        1, 0x22, 3, 0x44, 0, 0, 0, 0, 0xC6, 0x33, 0x64, 7, 0x20, 1, 0x0D, 0xB8, 0xC0, 0, 2, 0x21,
        0, 0, 0, 0, 0, 0, 0, 0, 0x11, 0, 1, 4, 0, 0, 0, 0, 4, 0xD2, 0, 0x15,
        0, 0x0B, 0xEA, 0x59, 0x61, 0x62, 0x63,
    ], &[
        0x45, 0, 0, 0x3B, 0xBE, 0xEF, 0, 0, 0x3E, 1, 0xD1, 0x76, 0xC0, 0, 2, 0x21, 0xC6, 0x33, 0x64, 7,
        3, 3, 0xE9, 0x75, 0, 0, 0, 0, 0x45, 0, 0, 0x1F, 0, 0, 0, 0, 1, 0x11, 0xCD, 0x72,
        0xC6, 0x33, 0x64, 7, 0xC0, 0, 2, 0x21, 4, 0xD2, 0, 0x15, 0, 0x0B, 0x4A, 0x32, 0x61, 0x62, 0x63,
    ]),
    (&[
        0x60, 0, 0, 0, 0, 0x4C, 0x3A, 0x3F, 0x20, 1, 0x0D, 0xB8, 0xC0, 0, 2, 0x21, 0, 0, 0, 0,
        0, 0, 0, 0, 0x20, 1, 0x0D, 0xB8, 1, 0x22, 3, 0x44, 0, 0, 0, 0, 0xC6, 0x33, 0x64, 7,
        3, 0, 8, 0, 0, 0, 0, 0, 0x60, 0, 0, 0, 0, 0x20, 0, 1, 0x20, 1, 0x0D, 0xB8,
        1, 0x22, 3, 0x44, 0, 0, 0, 0, 0xC6, 0x33, 0x64, 7, 0x20, 1, 0x0D, 0xB8, 0xC0, 0, 2, 0x21,
        0, 0, 0, 0, 0, 0, 0, 0, 0x2B, 0, 1, 4, 0, 0, 0, 0, 0x2C, 0, 0, 0,
        0, 0, 0, 0, 0x11, 0, 0, 0x11, 0xAB, 0xCD, 0x12, 0x34, 0x69, 0x6A, 0x6B, 0x6C,
    ], &[
        0x45, 0, 0, 0x34, 0xBE, 0xEF, 0, 0, 0x3E, 1, 0xD1, 0x7D, 0xC0, 0, 2, 0x21, 0xC6, 0x33, 0x64, 7,
        0x0B, 0, 0x20, 0x29, 0, 0, 0, 0, 0x45, 0, 0, 0x1C, 0x12, 0x34, 0x20, 2, 1, 0x11, 0x9B, 0x3F,
        0xC6, 0x33, 0x64, 7, 0xC0, 0, 2, 0x21, 0x69, 0x6A, 0x6B, 0x6C,
    ]),
    (&[
        0x60, 0, 0, 0, 0, 0x44, 0x3A, 0x3F, 0x20, 1, 0x0D, 0xB8, 0xC0, 0, 2, 0x21, 0, 0, 0, 0,
        0, 0, 0, 0, 0x20, 1, 0x0D, 0xB8, 1, 0x22, 3, 0x44, 0, 0, 0, 0, 0xC6, 0x33, 0x64, 7,
        4, 0, 0x56, 0xF6, 0, 0, 0, 7, 0x60, 0, 0, 0, 0, 0x20, 0x3C, 1, 0x20, 1, 0x0D, 0xB8,
        1, 0x22, 3, 0x44, 0, 0, 0, 0, 0xC6, 0x33, 0x64, 7, 0x20, 1, 0x0D, 0xB8, 0xC0, 0, 2, 0x21,
        0, 0, 0, 0, 0, 0, 0, 0, 0x3A, 0, 1, 4, 0, 0, 0, 0, 0x80, 0, 0xDD, 0xF1,
        0x12, 0x34, 0, 7, 0x61, 0x62, 0x63, 0x64,
    ], &[
        0x45, 0, 0, 0x3C, 0xBE, 0xEF, 0, 0, 0x3E, 1, 0xD1, 0x75, 0xC0, 0, 2, 0x21, 0xC6, 0x33, 0x64, 7,
        0x0C, 0, 0x6A, 0x84, 8, 0, 0, 0, 0x45, 0, 0, 0x2C, 0, 0, 0, 0, 1, 1, 0xCD, 0x75,
        0xC6, 0x33, 0x64, 7, 0xC0, 0, 2, 0x21, 8, 0, 0xA2, 0x79, 0x12, 0x34, 0, 7, 0x61, 0x62, 0x63, 0x64,
    ]),
];

#[test]
fn quoted_fragments_are_translated(rt: HostRuntime) {
    for (packet, expected) in &QUOTED_FRAGMENTS {
        expect_translated(&rt, packet, expected);
    }
}

#[test]
fn quoted_extension_headers_are_translated(rt: HostRuntime) {
    for (packet, expected) in &QUOTED_EXTENSION_HEADERS {
        expect_translated_back(&rt, packet, expected);
    }
}

/// Changes of the quoted packets with extension headers that are refused: the number of the row, the place of a byte and its new value.
#[rattlefmt::skip]
static NO_QUOTED_EXTENSION_HEADERS: [(usize, usize, u8, PacketTranslationError); 9] = [
    // A fragment of ICMPv6, also a later one. Other extension headers after the fragment header. Half a fragment header.
    (0, 88, 58, PacketTranslationError::IcmpFragment),
    (1, 88, 58, PacketTranslationError::IcmpFragment),
    (0, 88, 60, PacketTranslationError::QuotedHeader(TranslationError::ExtensionHeader(44))),
    (0, 88, 51, PacketTranslationError::QuotedHeader(TranslationError::ExtensionHeader(44))),
    (0, 53, 7, PacketTranslationError::QuotedHeader(TranslationError::ExtensionHeader(44))),
    // Hop-by-hop options after the end, and segments left. The error names the first extension header.
    (3, 89, 2, PacketTranslationError::QuotedHeader(TranslationError::ExtensionHeader(0))),
    (4, 99, 1, PacketTranslationError::QuotedHeader(TranslationError::ExtensionHeader(0))),
    // Seven bytes of the first fragment, and of a whole packet.
    (0, 53, 15, PacketTranslationError::TransportHeader { required_len: 8, len: 7 }),
    (3, 53, 15, PacketTranslationError::TransportHeader { required_len: 8, len: 7 }),
];

#[test]
fn quoted_extension_headers_are_refused(rt: HostRuntime) {
    for (row, place, value, error) in &NO_QUOTED_EXTENSION_HEADERS {
        let mut packet = joined(&rt, &[QUOTED_EXTENSION_HEADERS[*row].0]);
        packet.as_mut_slice()[*place] = *value;
        let mut buffer = [0xEE; 80];
        let outcome = ipv6_to_ipv4(packet.as_slice(), &two_prefixes(), 0, &mut buffer);
        expect_at(&rt, row, &outcome.err().as_ref(), &Some(error));
        expect_bytes(&rt, &buffer, &[0xEE; 80]);
    }
}

/// A quote of 1,300 bytes is cut, so that the ICMPv6 error has 1280 bytes.
#[test]
fn long_quotes_are_cut(rt: HostRuntime) {
    let mut packet = [0; 1328];
    packet[..59].copy_from_slice(ERROR_PACKETS[0].0);
    packet[2..4].copy_from_slice(&[5, 0x30]);
    packet[10..12].copy_from_slice(&[0x37, 0x3D]);
    packet[30..32].copy_from_slice(&[5, 0xDC]);
    let mut buffer = [0xEE; 1400];
    let outcome = ipv4_to_ipv6(&packet, &two_prefixes(), &mut buffer);
    expect_equal(&rt, &outcome, &Ok(1280));
    // The payload lengths of the error and of the quoted packet.
    expect_bytes(&rt, &buffer[4..6], &[4, 0xD8]);
    expect_bytes(&rt, &buffer[52..54], &[5, 0xC8]);
    expect_equal(&rt, &buffer[1280], &0xEE);
    // A fragment has 8 bytes more of headers.
    packet[34] = 0x20;
    let outcome = ipv4_to_ipv6(&packet, &two_prefixes(), &mut buffer);
    expect_equal(&rt, &outcome, &Ok(1280));
    expect_bytes(&rt, &buffer[52..54], &[5, 0xD0]);
    expect_equal(&rt, &buffer[1280], &0xEE);
}

/// "Time exceeded" about a UDP packet, which zeros extend to 128 bytes, before an extension.
#[rattlefmt::skip]
static WITH_EXTENSION: [u8; 59] = [
    0x45, 0, 0, 0xA8, 0x12, 0x34, 0x40, 0, 0x40, 1, 0x3B, 0xC5, 0xC0, 0, 2, 0x21, 0xC6, 0x33, 0x64, 7,
    0x0B, 0, 0xE1, 0x58, 0, 0x20, 0, 0, 0x45, 0, 0, 0x1F, 0xAB, 0xCD, 0x40, 0, 1, 0x11, 0xE1, 0xA4,
    0xC6, 0x33, 0x64, 7, 0xC0, 0, 2, 0x21, 4, 0xD2, 0, 0x15, 0, 0x0B, 0x4A, 0x32, 0x61, 0x62, 0x63,
];

/// The same error over IPv6. Its length field counts units of 8 bytes.
#[rattlefmt::skip]
static WITH_EXTENSION_IPV6: [u8; 99] = [
    0x60, 0, 0, 0, 0, 0x94, 0x3A, 0x3F, 0x20, 1, 0x0D, 0xB8, 0xC0, 0, 2, 0x21, 0, 0, 0, 0,
    0, 0, 0, 0, 0x20, 1, 0x0D, 0xB8, 1, 0x22, 3, 0x44, 0, 0, 0, 0, 0xC6, 0x33, 0x64, 7,
    3, 0, 0x2F, 0x0C, 0x10, 0, 0, 0, 0x60, 0, 0, 0, 0, 0x0B, 0x11, 1, 0x20, 1, 0x0D, 0xB8,
    1, 0x22, 3, 0x44, 0, 0, 0, 0, 0xC6, 0x33, 0x64, 7, 0x20, 1, 0x0D, 0xB8, 0xC0, 0, 2, 0x21,
    0, 0, 0, 0, 0, 0, 0, 0, 4, 0xD2, 0, 0x15, 0, 0x0B, 0xEA, 0x59, 0x61, 0x62, 0x63,
];

/// The error over IPv4 that it becomes, of identification BEEF.
#[rattlefmt::skip]
static WITH_EXTENSION_BACK: [u8; 59] = [
    0x45, 0, 0, 0xA8, 0xBE, 0xEF, 0, 0, 0x3E, 1, 0xD1, 9, 0xC0, 0, 2, 0x21, 0xC6, 0x33, 0x64, 7,
    0x0B, 0, 0xE1, 0x58, 0, 0x20, 0, 0, 0x45, 0, 0, 0x1F, 0, 0, 0, 0, 1, 0x11, 0xCD, 0x72,
    0xC6, 0x33, 0x64, 7, 0xC0, 0, 2, 0x21, 4, 0xD2, 0, 0x15, 0, 0x0B, 0x4A, 0x32, 0x61, 0x62, 0x63,
];

/// An MPLS label in an extension (RFC 4950, section 3).
static EXTENSION: [u8; 12] = [0x20, 0, 0x9D, 0xEF, 0, 8, 1, 1, 0, 6, 0x41, 1];

#[test]
fn extensions_are_kept(rt: HostRuntime) {
    let packet = joined(&rt, &[&WITH_EXTENSION, &[0; 97], &EXTENSION]);
    let over_ipv6 = joined(&rt, &[&WITH_EXTENSION_IPV6, &[0; 77], &EXTENSION]);
    let back = joined(&rt, &[&WITH_EXTENSION_BACK, &[0; 97], &EXTENSION]);
    let mut buffer = [0xEE; 200];
    let len = expect_ok(
        &rt,
        ipv4_to_ipv6(packet.as_slice(), &two_prefixes(), &mut buffer),
    );
    expect_bytes(&rt, bytes_to(&rt, &buffer, len), over_ipv6.as_slice());
    let outcome = ipv6_to_ipv4(over_ipv6.as_slice(), &two_prefixes(), 0xBEEF, &mut buffer);
    let len = expect_ok(&rt, outcome);
    expect_bytes(&rt, bytes_to(&rt, &buffer, len), back.as_slice());
    // A length field that counts one unit more than the message has.
    let mut wrong = joined(&rt, &[packet.as_slice()]);
    wrong.as_mut_slice()[25] = 36;
    let outcome = ipv4_to_ipv6(wrong.as_slice(), &two_prefixes(), &mut buffer);
    expect_equal(
        &rt,
        &outcome,
        &Err(PacketTranslationError::IcmpExtension(36)),
    );
}

/// "Packet too big" has no length field, so an extension is left out.
#[test]
fn extensions_are_left_out(rt: HostRuntime) {
    let mut packet = joined(&rt, &[&WITH_EXTENSION, &[0; 97], &EXTENSION]);
    packet.as_mut_slice()[20..22].copy_from_slice(&[3, 4]);
    let mut buffer = [0xEE; 200];
    let outcome = ipv4_to_ipv6(packet.as_slice(), &two_prefixes(), &mut buffer);
    expect_equal(&rt, &outcome, &Ok(99));
    expect_bytes(&rt, &buffer[40..42], &[2, 0]);
}

/// ICMP errors that are refused: the number of the row, the place of a byte, and its new value.
#[rattlefmt::skip]
static NO_ERRORS: [(usize, usize, u8, PacketTranslationError, &str); 10] = [
    (0, 21, 14, PacketTranslationError::IcmpMessage { type_u8: 3, code_u8: 14 },
        "Translation Error: an ICMP message of type 3 and code 14 is not translated."),
    (0, 20, 5, PacketTranslationError::IcmpMessage { type_u8: 5, code_u8: 3 },
        "Translation Error: an ICMP message of type 5 and code 3 is not translated."),
    (0, 25, 8, PacketTranslationError::IcmpExtension(8),
        "Translation Error: the length field 8 of an ICMP error with an extension is wrong."),
    (0, 28, 0x60, PacketTranslationError::NoQuotedHeader, "Translation Error: an ICMP error does not quote an IP header."),
    (3, 34, 0x20, PacketTranslationError::IcmpFragment, "Translation Error: a fragment of an ICMP message is not translated."),
    (0, 31, 19, PacketTranslationError::QuotedHeader(TranslationError::TotalLength { total_len: 19, header_len: 20 }),
        "Translation Error: the total length 19 is below the header length 20."),
    (0, 40, 127, PacketTranslationError::QuotedHeader(TranslationError::IllegalSource),
        "Translation Error: the source is no address of a host."),
    (0, 31, 27, PacketTranslationError::TransportHeader { required_len: 8, len: 7 },
        "Translation Error: the transport header has 8 bytes, and there are 7."),
    (0, 37, 1, PacketTranslationError::QuotedIcmp { type_u8: 4, code_u8: 210 },
        "Translation Error: an ICMP error quotes an ICMP message of type 4 and code 210."),
    (3, 24, 10, PacketTranslationError::IcmpPointer(10), "Translation Error: the pointer 10 has no translation."),
];

#[test]
fn icmp_errors_are_refused(rt: HostRuntime) {
    for (row, place, value, error, text) in &NO_ERRORS {
        let mut packet = joined(&rt, &[ERROR_PACKETS[*row].0]);
        packet.as_mut_slice()[*place] = *value;
        let mut buffer = [0xEE; 120];
        let outcome = ipv4_to_ipv6(packet.as_slice(), &two_prefixes(), &mut buffer);
        expect_at(&rt, text, &outcome.err().as_ref(), &Some(error));
        expect_bytes(&rt, &buffer, &[0xEE; 120]);
        expect_text(&rt, error, text);
    }
    let mut buffer = [0xEE; 98];
    let outcome = ipv4_to_ipv6(ERROR_PACKETS[0].0, &two_prefixes(), &mut buffer);
    let error = PacketTranslationError::Space {
        required_len: 99,
        len: 98,
    };
    expect_equal(&rt, &outcome, &Err(error));
}

/// ICMPv6 errors that are refused.
#[rattlefmt::skip]
static NO_ERRORS_BACK: [(usize, usize, u8, PacketTranslationError); 9] = [
    (0, 41, 5, PacketTranslationError::IcmpMessage { type_u8: 1, code_u8: 5 }),
    (0, 40, 130, PacketTranslationError::IcmpMessage { type_u8: 130, code_u8: 1 }),
    (0, 44, 1, PacketTranslationError::IcmpExtension(1)),
    (0, 48, 0x45, PacketTranslationError::NoQuotedHeader),
    (0, 54, 43, PacketTranslationError::QuotedHeader(TranslationError::ExtensionHeader(43))),
    (0, 56, 0x21, PacketTranslationError::QuotedHeader(TranslationError::Source(AddressError::NotEmbedded))),
    (0, 53, 7, PacketTranslationError::TransportHeader { required_len: 8, len: 7 }),
    (0, 54, 58, PacketTranslationError::QuotedIcmp { type_u8: 4, code_u8: 210 }),
    (3, 47, 2, PacketTranslationError::IcmpPointer(2)),
];

#[test]
fn icmp_errors_are_refused_back(rt: HostRuntime) {
    for (row, place, value, error) in &NO_ERRORS_BACK {
        let mut packet = joined(&rt, &[ERROR_PACKETS_BACK[*row].0]);
        packet.as_mut_slice()[*place] = *value;
        let mut buffer = [0xEE; 80];
        let outcome = ipv6_to_ipv4(packet.as_slice(), &two_prefixes(), 0, &mut buffer);
        expect_at(&rt, place, &outcome.err().as_ref(), &Some(error));
        expect_bytes(&rt, &buffer, &[0xEE; 80]);
    }
    let mut buffer = [0xEE; 58];
    let outcome = ipv6_to_ipv4(ERROR_PACKETS_BACK[0].0, &two_prefixes(), 0, &mut buffer);
    let error = PacketTranslationError::Space {
        required_len: 59,
        len: 58,
    };
    expect_equal(&rt, &outcome, &Err(error));
}

/// The number of pairs of type and code of a packet that are translated: in addition to the errors, echo requests and replies with any code.
/// A parameter problem has pointer 9, or over IPv6 pointer 7.
#[test]
fn all_messages(rt: HostRuntime) {
    let mut over_ipv4 = joined(&rt, &[ERROR_PACKETS[3].0]);
    let mut over_ipv6 = joined(&rt, &[ERROR_PACKETS_BACK[3].0]);
    let mut to_ipv6 = 0;
    let mut to_ipv4 = 0;
    let mut buffer = [0; 120];
    for type_u8 in 0..=u8::MAX {
        for code_u8 in 0..=u8::MAX {
            over_ipv4.as_mut_slice()[20..22].copy_from_slice(&[type_u8, code_u8]);
            over_ipv6.as_mut_slice()[40..42].copy_from_slice(&[type_u8, code_u8]);
            let outcome = ipv4_to_ipv6(over_ipv4.as_slice(), &two_prefixes(), &mut buffer);
            to_ipv6 += usize::from(outcome.is_ok());
            let outcome = ipv6_to_ipv4(over_ipv6.as_slice(), &two_prefixes(), 0, &mut buffer);
            to_ipv4 += usize::from(outcome.is_ok());
        }
    }
    expect_equal(&rt, &to_ipv6, &785);
    expect_equal(&rt, &to_ipv4, &1031);
}
