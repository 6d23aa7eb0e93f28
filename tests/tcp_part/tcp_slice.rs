use crate::expect::{bytes_from, bytes_to, expect_bytes, expect_clone, expect_equal, expect_ok};
use crate::tcp_part::tcp_header::flag_at;
use etherparse_transport::err::tcp::HeaderSliceError;
use etherparse_transport::err::{Layer, LenError, LenSource};
use etherparse_transport::{TcpHeader, TcpOptionElement, TcpOptionsIterator, TcpSlice};
use std::process::Abort;

/// From ports 1 to 2, sequence number 3, SYN, window 4, the maximum segment size 1460, and three bytes of payload, with this checksum.
fn segment_with(checksum: u16) -> [u8; 27] {
    let mut bytes = [
        0x00, 0x01, 0x00, 0x02, 0, 0, 0, 3, 0, 0, 0, 0, 0x60, 0x02, 0, 4, 0, 0, 0, 0, 2, 4, 0x05,
        0xB4, 97, 98, 99,
    ];
    bytes[16..18].copy_from_slice(&checksum.to_be_bytes());
    bytes
}

/// The slice of the segment.
fn segment_of<'a>(rt: &impl Abort, bytes: &'a [u8]) -> TcpSlice<'a> {
    expect_ok(rt, TcpSlice::from_slice(bytes))
}

/// The numbers of `segment_with(0x1234)`.
fn expect_numbers(rt: &impl Abort, segment: &TcpSlice<'_>) {
    expect_equal(
        rt,
        &(
            segment.source_port(),
            segment.destination_port(),
            segment.sequence_number(),
            segment.acknowledgment_number(),
        ),
        &(1, 2, 3, 0),
    );
    expect_equal(
        rt,
        &(
            segment.data_offset(),
            segment.window_size(),
            segment.checksum(),
            segment.urgent_pointer(),
        ),
        &(6, 4, 0x1234, 0),
    );
}

/// The first option is the maximum segment size 1460.
fn expect_first_element(rt: &impl Abort, items: TcpOptionsIterator<'_>) {
    let mut items = items;
    let size = TcpOptionElement::MaximumSegmentSize(1460);
    expect_equal(rt, &items.next(), &Some(Ok(size)));
}

/// The options of `segment_with`.
fn expect_options(rt: &impl Abort, segment: &TcpSlice<'_>) {
    expect_first_element(rt, segment.options_iterator());
    expect_equal(rt, &segment.raw_options_iterator().next().is_some(), &true);
}

/// The segment has the header and the payload that the header is read with.
fn expect_header_and_payload(rt: &impl Abort, segment: &TcpSlice<'_>, bytes: &[u8]) {
    let (header, payload) = expect_ok(rt, TcpHeader::from_slice(bytes));
    expect_equal(rt, &segment.to_header(), &header);
    expect_bytes(rt, segment.payload(), payload);
}

/// The slices of the segment with these bytes. Its header is the first 24 bytes.
fn expect_slices(rt: &impl Abort, segment: &TcpSlice<'_>, bytes: &[u8]) {
    let header = bytes_to(rt, bytes, 24);
    expect_bytes(rt, segment.slice(), bytes);
    expect_bytes(rt, segment.header_slice(), header);
    expect_equal(rt, &segment.header_len(), &24);
    expect_bytes(rt, segment.options(), bytes_from(rt, header, 20));
}

#[test]
fn segments_are_header_and_payload(rt: HostRuntime) {
    let bytes = &segment_with(0x1234);
    let segment = &segment_of(&rt, bytes);
    expect_header_and_payload(&rt, segment, bytes);
    expect_slices(&rt, segment, bytes);
    expect_numbers(&rt, segment);
    expect_options(&rt, segment);
    expect_clone(&rt, segment);
}

/// Bytes 12 and 13 of a segment with one flag, in the order of the flags.
#[rattlefmt::skip]
static FLAG_BITS: [(u8, u8); 9] = [
    (0x51, 0), (0x50, 0x01), (0x50, 0x02), (0x50, 0x04), (0x50, 0x08), (0x50, 0x10), (0x50, 0x20), (0x50, 0x40), (0x50, 0x80),
];

/// The flags of a segment, in this order.
fn flags_of(segment: &TcpSlice<'_>) -> [bool; 9] {
    [
        segment.ns(),
        segment.fin(),
        segment.syn(),
        segment.rst(),
        segment.psh(),
        segment.ack(),
        segment.urg(),
        segment.ece(),
        segment.cwr(),
    ]
}

/// The segment with these bytes 12 and 13 has only the flag that is at this place.
fn expect_flag(rt: &impl Abort, place: usize, byte_12: u8, byte_13: u8) {
    let mut bytes = [0; 20];
    bytes[12] = byte_12;
    bytes[13] = byte_13;
    let flags = flags_of(&segment_of(rt, &bytes));
    expect_equal(rt, &flags, &flag_at(place));
}

#[test]
fn flags_of_segments(rt: HostRuntime) {
    for (place, (byte_12, byte_13)) in FLAG_BITS.iter().enumerate() {
        expect_flag(&rt, place, *byte_12, *byte_13);
    }
}

#[rattlefmt::skip]
static ADDRESSES_IPV6: [[u8; 16]; 2] = [
    [0x20, 0x01, 0x0D, 0xB8, 0, 0, 0, 0, 0, 0, 0, 0, 0, 0, 0, 1],
    [0x20, 0x01, 0x0D, 0xB8, 0, 0, 0, 0, 0, 0, 0, 0, 0, 0, 0, 2],
];

/// A checksum, and whether it is valid over IPv4 and over IPv6.
#[rattlefmt::skip]
static VALIDITY: [(u16, bool, bool); 3] = [(0x5063, true, false), (0x7842, false, true), (0x0000, false, false)];

fn expect_validity_ipv4(rt: &impl Abort, segment: &TcpSlice<'_>, expected: bool) {
    let (client, server) = ([192, 168, 1, 1], [192, 168, 1, 2]);
    let is_valid = segment.is_checksum_valid_ipv4(client, server);
    expect_equal(rt, &is_valid, &expected);
    let checksum = expect_ok(rt, segment.calc_checksum_ipv4(client, server));
    expect_equal(rt, &checksum, &0x5063);
}

fn expect_validity_ipv6(rt: &impl Abort, segment: &TcpSlice<'_>, expected: bool) {
    let [client, server] = ADDRESSES_IPV6;
    let is_valid = segment.is_checksum_valid_ipv6(client, server);
    expect_equal(rt, &is_valid, &expected);
    let checksum = expect_ok(rt, segment.calc_checksum_ipv6(client, server));
    expect_equal(rt, &checksum, &0x7842);
}

fn expect_validity(rt: &impl Abort, row: &(u16, bool, bool)) {
    let (checksum, over_ipv4, over_ipv6) = *row;
    let bytes = segment_with(checksum);
    let segment = &segment_of(rt, &bytes);
    expect_validity_ipv4(rt, segment, over_ipv4);
    expect_validity_ipv6(rt, segment, over_ipv6);
}

#[test]
fn segments_are_tested(rt: HostRuntime) {
    for row in &VALIDITY {
        expect_validity(&rt, row);
    }
}

/// A length, and the length that is required.
static SHORT: [(usize, usize); 4] = [(0, 20), (19, 20), (20, 24), (23, 24)];

fn expect_short(rt: &impl Abort, len: usize, required_len: usize) {
    let bytes = segment_with(0);
    let error = HeaderSliceError::Len(LenError {
        required_len,
        len,
        len_source: LenSource::Slice,
        layer: Layer::TcpHeader,
        layer_start_offset: 0,
    });
    expect_equal(
        rt,
        &TcpSlice::from_slice(bytes_to(rt, &bytes, len)).err(),
        &Some(error),
    );
}

#[test]
fn segments_without_a_header_are_refused(rt: HostRuntime) {
    for (len, required_len) in &SHORT {
        expect_short(&rt, *len, *required_len);
    }
}
