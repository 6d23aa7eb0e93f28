//! Tests of the crate `udp_part`.

mod sweeps;
mod translation;
mod validity;

use crate::expect::{
    bytes_between, bytes_from, bytes_to, expect_at, expect_bytes, expect_clone, expect_debug_text,
    expect_equal, expect_ok, expect_some,
};
use etherparse_transport::err::{Layer, LenError, ValueTooBigError, ValueType};
use etherparse_transport::{
    Ipv4Header, Ipv4HeaderSlice, Ipv6Header, Ipv6HeaderSlice, LenSource, UdpHeader, UdpHeaderSlice,
    UdpSlice,
};
use std::process::Abort;

static TOO_LONG: [u8; 65528] = [0; 65528];

/// From 192.168.1.1 to 192.168.1.2.
static ADDRESSES: Ipv4Header = Ipv4Header {
    source: [192, 168, 1, 1],
    destination: [192, 168, 1, 2],
};

fn with_length_8() -> UdpHeader {
    UdpHeader {
        length: 8,
        ..UdpHeader::default()
    }
}

/// Ten bytes that are all different, with this length field.
fn packet(length: u8) -> [u8; 10] {
    [11, 12, 13, 14, 0, length, 17, 18, 19, 20]
}

fn len_error(required_len: usize, len: usize, len_source: LenSource, layer: Layer) -> LenError {
    LenError {
        required_len,
        len,
        len_source,
        layer,
        layer_start_offset: 0,
    }
}

/// Whether the checksum of a packet from 192.168.1.1 to 192.168.1.2 is right.
fn is_right(rt: &impl Abort, bytes: &[u8]) -> bool {
    let packet = expect_ok(rt, UdpSlice::from_slice(bytes));
    packet.is_checksum_valid_ipv4(ADDRESSES.source, ADDRESSES.destination)
}

#[test]
fn a_packet_is_made_and_sliced(rt: HostRuntime) {
    let payload = [1, 2, 3, 4, 5, 6, 7, 8];
    let made = UdpHeader::with_ipv4_checksum(21, 1234, &ADDRESSES, &payload);
    let header = expect_ok(&rt, made);
    expect_equal(
        &rt,
        &header.to_bytes(),
        &[0x00, 0x15, 0x04, 0xD2, 0x00, 0x10, 0x67, 0x7F],
    );

    let mut packet = [0; 16];
    packet[..8].copy_from_slice(&header.to_bytes());
    packet[8..].copy_from_slice(&payload);
    let slice = expect_ok(&rt, UdpSlice::from_slice(&packet));
    expect_equal(&rt, &slice.source_port(), &21);
    expect_equal(&rt, &slice.payload(), &payload.as_slice());
    expect_equal(&rt, &is_right(&rt, &packet), &true);
}

#[test]
fn the_example_of_the_root_file(rt: HostRuntime) {
    // An IPv4 header in which only the addresses matter, a UDP packet, and two bytes of padding.
    let mut frame = [
        0x45, 0, 0, 0, 0, 0, 0, 0, 0, 17, 0, 0, 192, 168, 1, 1, 192, 168, 1, 2, // IPv4
        0x00, 0x15, 0x04, 0xD2, 0x00, 0x10, 0x67, 0x7F, // UDP
        1, 2, 3, 4, 5, 6, 7, 8, 0xAA, 0xBB,
    ];
    let ip_header = expect_some(&rt, Ipv4HeaderSlice::from_slice(&frame));
    expect_equal(
        &rt,
        &(ip_header.source(), ip_header.destination()),
        &(ADDRESSES.source, ADDRESSES.destination),
    );
    let whole = is_right(&rt, bytes_from(&rt, &frame, 20));
    let without_padding = is_right(&rt, bytes_between(&rt, &frame, 20, 36));
    expect_equal(&rt, &(whole, without_padding), &(true, true));
    frame[35] = 9;
    let changed = is_right(&rt, bytes_from(&rt, &frame, 20));
    frame[26] = 0;
    frame[27] = 0;
    let without_checksum = is_right(&rt, bytes_from(&rt, &frame, 20));
    expect_equal(&rt, &(changed, without_checksum), &(false, true));
}

#[test]
fn headers_are_read_and_written(rt: HostRuntime) {
    let bytes = [0x00, 0x35, 0x04, 0xD2, 0x00, 0x08, 0x00, 0x00, 0xAA];
    let (header, rest) = expect_ok(&rt, UdpHeader::from_slice(&bytes));
    let expected = UdpHeader {
        source_port: 53,
        destination_port: 1234,
        length: 8,
        checksum: 0,
    };
    expect_equal(&rt, &header, &expected);
    expect_equal(&rt, &rest, &[0xAA].as_slice());
    expect_equal(
        &rt,
        &header.to_bytes().as_slice(),
        &bytes_to(&rt, &bytes, 8),
    );
    let (older, older_rest) = expect_ok(&rt, UdpHeader::read_from_slice(&bytes));
    expect_equal(&rt, &older, &header);
    expect_equal(&rt, &older_rest, &rest);
    let from_bytes = UdpHeader::from_bytes([0x00, 0x35, 0x04, 0xD2, 0x00, 0x08, 0x00, 0x00]);
    expect_equal(&rt, &from_bytes, &header);
    expect_equal(&rt, &header.header_len(), &8);
    expect_equal(&rt, &header.header_len_u16(), &8);
    let summed = UdpHeader {
        checksum: 0x1234,
        ..expected
    };
    expect_clone(&rt, &header);
    expect_clone(&rt, &summed);
    expect_equal(&rt, &(summed == header), &false);
    expect_debug_text(
        &rt,
        &summed,
        "UdpHeader { source_port: 53, destination_port: 1234, length: 8, checksum: 4660 }",
    );
    expect_equal(
        &rt,
        &(
            UdpHeader::LEN,
            UdpHeader::LEN_U16,
            UdpHeader::SERIALIZED_SIZE,
        ),
        &(8, 8, 8),
    );
    expect_equal(
        &rt,
        &(
            UdpHeader::SOURCE_PORT_AT,
            UdpHeader::DESTINATION_PORT_AT,
            UdpHeader::CHECKSUM_AT,
        ),
        &(0, 2, 6),
    );
    expect_equal(&rt, &UdpHeader::default().to_bytes(), &[0; 8]);
}

#[test]
fn short_headers_are_refused(rt: HostRuntime) {
    let short = &[0; 7];
    expect_short(&rt, UdpHeader::from_slice(short).err());
    expect_short(&rt, UdpHeader::read_from_slice(short).err());
    expect_short(&rt, UdpHeaderSlice::from_slice(short).err());
    expect_short(&rt, UdpSlice::from_slice(short).err());
    expect_short(&rt, UdpSlice::from_slice_lax(short).err());
}

/// The call refused seven bytes.
fn expect_short(rt: &impl Abort, error: Option<LenError>) {
    let expected = len_error(8, 7, LenSource::Slice, Layer::UdpHeader);
    expect_equal(rt, &expect_some(rt, error), &expected);
}

/// The header is written to a slice of at least 8 bytes, and a shorter one is refused and stays as it was.
fn expect_written(rt: &impl Abort, header: &UdpHeader, len: usize) {
    let mut whole = [0xAA; 10];
    whole[..8].copy_from_slice(&header.to_bytes());
    let mut buffer = [0xAA; 10];
    let written = header.write_to_slice(expect_some(rt, buffer.get_mut(..len)));
    if len < 8 {
        let short = len_error(8, len, LenSource::Slice, Layer::UdpHeader);
        expect_at(rt, &len, &written, &Err(short));
        expect_at(rt, &len, &buffer, &[0xAA; 10]);
    } else {
        expect_at(rt, &len, &written, &Ok(8));
        expect_at(rt, &len, &buffer, &whole);
    }
}

#[test]
fn headers_are_written_to_slices(rt: HostRuntime) {
    let header = with_length_8();
    for len in 0..11 {
        expect_written(&rt, &header, len);
    }
}

/// The fields of the header in `slices_are_cut_by_the_length_field`.
static SLICED: UdpHeader = UdpHeader {
    source_port: 53,
    destination_port: 1234,
    length: 8,
    checksum: 0x1234,
};

#[test]
fn slices_are_cut_by_the_length_field(rt: HostRuntime) {
    let bytes = &[0x00, 0x35, 0x04, 0xD2, 0x00, 0x08, 0x12, 0x34, 0xAA];
    let front = bytes_to(&rt, bytes, 8);
    let packet = &expect_ok(&rt, UdpSlice::from_slice(bytes));
    expect_sliced_packet(&rt, packet, front);
    expect_clone(&rt, packet);
    expect_debug_text(
        &rt,
        packet,
        "UdpSlice { slice: [0, 53, 4, 210, 0, 8, 18, 52] }",
    );
    let header = &expect_ok(&rt, UdpHeaderSlice::from_slice(bytes));
    expect_sliced_header(&rt, header, front);
    expect_clone(&rt, header);
    expect_debug_text(
        &rt,
        header,
        "UdpHeaderSlice { slice: [0, 53, 4, 210, 0, 8, 18, 52] }",
    );
}

/// The packet is a header without a payload, which has these bytes and the fields of `SLICED`.
fn expect_sliced_packet(rt: &impl Abort, packet: &UdpSlice<'_>, front: &[u8]) {
    expect_bytes(rt, packet.slice(), front);
    expect_bytes(rt, packet.header_slice(), front);
    expect_bytes(rt, packet.payload(), &[]);
    expect_equal(rt, &packet.payload_len_source(), &LenSource::UdpHeaderLen);
    let fields = [
        packet.source_port(),
        packet.destination_port(),
        packet.length(),
        packet.checksum(),
        packet.header_len_u16(),
    ];
    expect_equal(rt, &fields, &[53, 1234, 8, 0x1234, 8]);
    expect_equal(rt, &packet.header_len(), &8);
    expect_equal(rt, &packet.to_header(), &SLICED);
}

/// The header has these bytes and the fields of `SLICED`.
fn expect_sliced_header(rt: &impl Abort, header: &UdpHeaderSlice<'_>, front: &[u8]) {
    expect_bytes(rt, header.slice(), front);
    let fields = [
        header.source_port(),
        header.destination_port(),
        header.length(),
        header.checksum(),
    ];
    expect_equal(rt, &fields, &[53, 1234, 8, 0x1234]);
    expect_equal(rt, &header.to_header(), &SLICED);
}

/// The length field, the number of bytes, and what the error states: the required length, the length, the source of the length, and the
/// layer.
type RefusedRow = (u8, usize, usize, usize, LenSource, Layer);

static REFUSED: [RefusedRow; 4] = [
    (7, 8, 8, 7, LenSource::UdpHeaderLen, Layer::UdpHeader),
    (3, 8, 8, 3, LenSource::UdpHeaderLen, Layer::UdpHeader),
    (1, 10, 8, 1, LenSource::UdpHeaderLen, Layer::UdpHeader),
    (9, 8, 9, 8, LenSource::Slice, Layer::UdpPayload),
];

/// The packet of a row is refused.
fn expect_refused(rt: &impl Abort, row: &RefusedRow) {
    let (length, len, required_len, error_len, source, layer) = *row;
    let bytes = packet(length);
    let error = UdpSlice::from_slice(bytes_to(rt, &bytes, len)).err();
    let expected = len_error(required_len, error_len, source, layer);
    expect_at(rt, row, &expect_some(rt, error), &expected);
}

#[test]
fn strict_slices_are_refused_by_the_length_field(rt: HostRuntime) {
    for row in &REFUSED {
        expect_refused(&rt, row);
    }
    let error = UdpSlice::from_slice(&[0, 0, 0, 0, 0xFF, 0xFF, 0, 0]).err();
    let expected = Some(len_error(65535, 8, LenSource::Slice, Layer::UdpPayload));
    expect_equal(&rt, &error, &expected);
}

/// The length field, the number of bytes present, the number of bytes kept, and the source of this number.
type KeptRow = (u8, usize, usize, LenSource);

static KEPT: [KeptRow; 6] = [
    (0, 10, 10, LenSource::Slice),
    (7, 10, 10, LenSource::Slice),
    (8, 10, 8, LenSource::UdpHeaderLen),
    (9, 10, 9, LenSource::UdpHeaderLen),
    (10, 10, 10, LenSource::UdpHeaderLen),
    (9, 8, 8, LenSource::Slice),
];

/// The lax call keeps the bytes of a row, and so does the strict one if it accepts the length field.
fn expect_kept(rt: &impl Abort, row: &KeptRow) {
    let (length, len, kept, source) = *row;
    let bytes = packet(length);
    let front = bytes_to(rt, &bytes, len);
    let packet = &expect_ok(rt, UdpSlice::from_slice_lax(front));
    expect_clone(rt, packet);
    let kept = bytes_to(rt, &bytes, kept);
    expect_at(rt, row, &packet.slice(), &kept);
    expect_bytes(rt, packet.header_slice(), bytes_to(rt, &bytes, 8));
    expect_bytes(rt, packet.payload(), bytes_from(rt, kept, 8));
    expect_equal(rt, &packet.payload_len_source(), &source);
    if length == 0 || (length >= 8 && usize::from(length) <= len) {
        expect_strict(rt, front, packet);
    }
}

/// The strict call makes the same slice of these bytes.
fn expect_strict(rt: &impl Abort, bytes: &[u8], packet: &UdpSlice<'_>) {
    expect_equal(rt, &expect_ok(rt, UdpSlice::from_slice(bytes)), packet);
}

#[test]
fn strict_and_lax_slices_keep(rt: HostRuntime) {
    for row in &KEPT {
        expect_kept(&rt, row);
    }
}

/// The source port, the payload, and the checksum over IPv4 from 0.0.0.0 to 0.0.0.0 with length 8.
type ChecksumRow = (u16, &'static [u8], u16);

static OVER_ZEROS: [ChecksumRow; 3] = [(0, &[], 0xFFDE), (0xFFDE, &[], 0xFFFF), (0, &[1], 0xFEDE)];

/// Both calls compute the checksum of a row.
fn expect_checksum(rt: &impl Abort, row: &ChecksumRow) {
    let (source_port, payload, expected) = *row;
    let header = UdpHeader {
        source_port,
        ..with_length_8()
    };
    let raw = expect_ok(rt, header.calc_checksum_ipv4_raw([0; 4], [0; 4], payload));
    expect_at(rt, row, &raw, &expected);
    let calculated = header.calc_checksum_ipv4(&Ipv4Header::default(), payload);
    expect_equal(rt, &expect_ok(rt, calculated), &expected);
}

#[test]
fn checksums_over_ipv4(rt: HostRuntime) {
    for row in &OVER_ZEROS {
        expect_checksum(&rt, row);
    }
    let payload = [1, 2, 3, 4, 5, 6, 7, 8];
    let made = UdpHeader::with_ipv4_checksum(21, 1234, &ADDRESSES, &payload);
    let header = expect_ok(&rt, made);
    expect_equal(
        &rt,
        &header.to_bytes(),
        &[0x00, 0x15, 0x04, 0xD2, 0x00, 0x10, 0x67, 0x7F],
    );
    let checksum = expect_ok(&rt, header.calc_checksum_ipv4(&ADDRESSES, &payload));
    expect_equal(&rt, &checksum, &0x677F);
    let longest = UdpHeader {
        source_port: 1,
        destination_port: 2,
        length: 65535,
        checksum: 0,
    };
    let made = expect_ok(&rt, UdpHeader::without_ipv4_checksum(1, 2, 65527));
    expect_equal(&rt, &made, &longest);
}

/// From 2001:db8:1:2:3:4:5:6 to 2001:db8:a:b:c:d:e:f.
#[rattlefmt::skip]
static IPV6_HEADER: [u8; 40] = [
    0x60, 0, 0, 0, 0, 11, 17, 64, // version, payload length, next header, hop limit
    0x20, 0x01, 0x0D, 0xB8, 0, 1, 0, 2, 0, 3, 0, 4, 0, 5, 0, 6, // source
    0x20, 0x01, 0x0D, 0xB8, 0, 10, 0, 11, 0, 12, 0, 13, 0, 14, 0, 15, // destination
];

#[test]
fn checksums_over_ipv6(rt: HostRuntime) {
    let header = with_length_8();
    let nothing = Ipv6Header::default();
    let raw = header.calc_checksum_ipv6_raw([0; 16], [0; 16], &[]);
    let calculated = header.calc_checksum_ipv6(&nothing, &[]);
    // The length field is summed. The length of the payload is not, since the field can't state it.
    let too_long = header.calc_checksum_ipv6_raw([0; 16], [0; 16], &TOO_LONG);
    expect_equal(&rt, &expect_ok(&rt, raw), &0xFFDE);
    expect_equal(&rt, &expect_ok(&rt, calculated), &0xFFDE);
    expect_equal(&rt, &expect_ok(&rt, too_long), &0xFFDE);
    // From port 5353 to port 53: the words of the source add up to 2DCE, those of the destination to 2E04, the length twice to 0016, the
    // protocol is 0011, the ports add up to 151E, the payload to C462: 13579 in all, 357A folded, and CA85 its complement.
    let ip_header = expect_some(&rt, Ipv6HeaderSlice::from_slice(&IPV6_HEADER));
    let addresses = Ipv6Header {
        source: ip_header.source(),
        destination: ip_header.destination(),
    };
    let made = UdpHeader::with_ipv6_checksum(5353, 53, &addresses, b"abc");
    let query = expect_ok(&rt, made);
    expect_equal(
        &rt,
        &query.to_bytes(),
        &[0x14, 0xE9, 0x00, 0x35, 0x00, 0x0B, 0xCA, 0x85],
    );
    let checksum = expect_ok(&rt, query.calc_checksum_ipv6(&addresses, b"abc"));
    expect_equal(&rt, &checksum, &0xCA85);
    let made = expect_ok(&rt, UdpHeader::with_ipv6_checksum(0, 0, &nothing, &[]));
    let expected = UdpHeader {
        checksum: 0xFFDE,
        ..with_length_8()
    };
    expect_equal(&rt, &made, &expected);
}

/// The call refused a payload of 65,528 bytes.
fn expect_too_big(rt: &impl Abort, error: Option<ValueTooBigError<usize>>, value_type: ValueType) {
    let expected = ValueTooBigError {
        actual: 65528,
        max_allowed: 65527,
        value_type,
    };
    expect_equal(rt, &expect_some(rt, error), &expected);
}

#[test]
fn long_payloads_are_refused(rt: HostRuntime) {
    let header = with_length_8();
    let nothing = &Ipv4Header::default();
    let over_ipv4 = ValueType::UdpPayloadLengthIpv4;
    let without = UdpHeader::without_ipv4_checksum(1, 2, 65528);
    expect_too_big(&rt, without.err(), over_ipv4);
    let with = UdpHeader::with_ipv4_checksum(1, 2, nothing, &TOO_LONG);
    expect_too_big(&rt, with.err(), over_ipv4);
    let raw = header.calc_checksum_ipv4_raw([0; 4], [0; 4], &TOO_LONG);
    expect_too_big(&rt, raw.err(), over_ipv4);
    let calculated = header.calc_checksum_ipv4(nothing, &TOO_LONG);
    expect_too_big(&rt, calculated.err(), over_ipv4);
    let with = UdpHeader::with_ipv6_checksum(0, 0, &Ipv6Header::default(), &TOO_LONG);
    expect_too_big(&rt, with.err(), ValueType::UdpPayloadLengthIpv6);
}

#[rattlefmt::skip]
static HEADER: UdpHeader = UdpHeader { source_port: 0x8001, destination_port: 0x8002, length: 0x8003, checksum: 0x8004 };

/// In each header another field differs from `HEADER`.
#[rattlefmt::skip]
static OTHER_HEADERS: [UdpHeader; 4] = [
    UdpHeader { source_port: 1, destination_port: 0x8002, length: 0x8003, checksum: 0x8004 },
    UdpHeader { source_port: 0x8001, destination_port: 2, length: 0x8003, checksum: 0x8004 },
    UdpHeader { source_port: 0x8001, destination_port: 0x8002, length: 3, checksum: 0x8004 },
    UdpHeader { source_port: 0x8001, destination_port: 0x8002, length: 0x8003, checksum: 4 },
];

#[test]
fn one_field_makes_a_difference(rt: HostRuntime) {
    expect_clone(&rt, &HEADER);
    for other in &OTHER_HEADERS {
        expect_at(&rt, other, &(HEADER == *other), &false);
    }
}
