use crate::expect::{
    bytes_from, bytes_to, expect_bytes, expect_clone, expect_debug_text, expect_equal, expect_ok,
    expect_some,
};
use etherparse_transport::TcpOptionElement::{MaximumSegmentSize, Noop, Timestamp};
use etherparse_transport::err::tcp::{HeaderError, HeaderSliceError};
use etherparse_transport::err::{Layer, LenError, ValueTooBigError, ValueType};
use etherparse_transport::{
    Ipv4Header, Ipv4HeaderSlice, Ipv6Header, Ipv6HeaderSlice, LenSource, TcpHeader, TcpHeaderSlice,
    TcpOptionElement, TcpOptionWriteError, TcpOptions, TcpOptionsIterator,
};
use std::hash::{DefaultHasher, Hash, Hasher};
use std::process::Abort;

static ZEROS: [u8; 65516] = [0; 65516];

/// From ports 1 to 2, sequence number 3, SYN, window 4, and the maximum segment size 1460.
#[rattlefmt::skip]
static SEGMENT: [u8; 24] = [0, 1, 0, 2, 0, 0, 0, 3, 0, 0, 0, 0, 0x60, 0x02, 0, 4, 0, 0, 0, 0, 2, 4, 0x05, 0xB4];

/// Zeros except bytes 12 and 13.
fn zeros_with(offset_byte: u8, flags_byte: u8) -> [u8; 20] {
    let mut bytes = [0; 20];
    bytes[12] = offset_byte;
    bytes[13] = flags_byte;
    bytes
}

/// The header of `SEGMENT`.
fn segment_header(rt: &impl Abort) -> TcpHeader {
    let mut header = TcpHeader::new(1, 2, 3, 4);
    header.syn = true;
    expect_ok(rt, header.set_options(&[MaximumSegmentSize(1460)]));
    header
}

/// A header in which every field differs from its default.
fn full_header() -> TcpHeader {
    TcpHeader {
        source_port: 0x0102,
        destination_port: 0x0304,
        sequence_number: 0x0506_0708,
        acknowledgment_number: 0x090A_0B0C,
        ns: true,
        fin: true,
        syn: true,
        rst: true,
        psh: true,
        ack: true,
        urg: true,
        ece: true,
        cwr: true,
        window_size: 0x0D0E,
        checksum: 0x0F10,
        urgent_pointer: 0x1112,
        options: TcpOptions::from([3, 3, 7, 0]),
    }
}

/// The bytes of `full_header`.
#[rattlefmt::skip]
static FULL_BYTES: [u8; 24] = [1, 2, 3, 4, 5, 6, 7, 8, 9, 10, 11, 12, 0x61, 0xFF, 13, 14, 15, 16, 17, 18, 3, 3, 7, 0];

fn too_short(required_len: usize, len: usize) -> HeaderSliceError {
    HeaderSliceError::Len(LenError {
        required_len,
        len,
        len_source: LenSource::Slice,
        layer: Layer::TcpHeader,
        layer_start_offset: 0,
    })
}

fn too_big(actual: usize, max_allowed: usize) -> ValueTooBigError<usize> {
    ValueTooBigError {
        actual,
        max_allowed,
        value_type: ValueType::TcpPayloadLengthIpv4,
    }
}

fn hash_of(header: &TcpHeader) -> u64 {
    let mut state = DefaultHasher::new();
    header.hash(&mut state);
    state.finish()
}

/// The slice of the header at the front of these bytes.
fn header_slice<'a>(rt: &impl Abort, bytes: &'a [u8]) -> TcpHeaderSlice<'a> {
    expect_ok(rt, TcpHeaderSlice::from_slice(bytes))
}

/// The header at the front of these bytes.
fn header_of(rt: &impl Abort, bytes: &[u8]) -> TcpHeader {
    expect_ok(rt, TcpHeader::from_slice(bytes)).0
}

/// The header is written as these bytes.
fn expect_header_bytes(rt: &impl Abort, header: &TcpHeader, bytes: &[u8]) {
    expect_bytes(rt, &header.to_bytes(), bytes);
}

/// The header and the bytes after it are these.
fn expect_pair(rt: &impl Abort, read: &(TcpHeader, &[u8]), header: &TcpHeader, after: &[u8]) {
    expect_equal(rt, &read.0, header);
    expect_bytes(rt, read.1, after);
}

/// The header and these bytes after it are read from the packet, by both calls.
fn expect_read(rt: &impl Abort, packet: &[u8], header: &TcpHeader, after: &[u8]) {
    let read = expect_ok(rt, TcpHeader::from_slice(packet));
    expect_pair(rt, &read, header, after);
    let read = expect_ok(rt, TcpHeader::read_from_slice(packet));
    expect_pair(rt, &read, header, after);
}

/// The checksum, or the error of a payload that is too long.
type Sum = Result<u16, ValueTooBigError<usize>>;

/// The checksum is computed, and is this one.
fn expect_sum(rt: &impl Abort, sum: Sum, expected: u16) {
    expect_equal(rt, &sum, &Ok(expected));
}

/// The first element is this one.
fn expect_first_element(
    rt: &impl Abort,
    items: TcpOptionsIterator<'_>,
    expected: TcpOptionElement,
) {
    let mut items = items;
    expect_equal(rt, &items.next(), &Some(Ok(expected)));
}

/// The slice of the header of `SEGMENT` with its checksum between these addresses.
fn expect_segment_slice(
    rt: &impl Abort,
    slice: &TcpHeaderSlice<'_>,
    source: [u8; 4],
    destination: [u8; 4],
) {
    expect_equal(rt, &slice.syn(), &true);
    let sum = slice.calc_checksum_ipv4_raw(source, destination, &[]);
    expect_sum(rt, sum, slice.checksum());
    expect_first_element(rt, slice.options_iterator(), MaximumSegmentSize(1460));
}

#[test]
fn a_segment_is_read_tested_and_written(rt: HostRuntime) {
    let (source, destination) = ([10, 0, 0, 1], [10, 0, 0, 2]);
    let mut header = segment_header(&rt);
    header.checksum = expect_ok(&rt, header.calc_checksum_ipv4_raw(source, destination, &[]));
    let bytes = &header.to_bytes();
    expect_bytes(
        &rt,
        bytes_to(&rt, bytes_from(&rt, bytes, 16), 2),
        &[0x84, 0x1A],
    );
    expect_segment_slice(&rt, &header_slice(&rt, bytes), source, destination);
}

/// Byte 12, a length, and the data offset that is too small.
static TOO_SMALL: [(u8, usize, u8); 2] = [(0x40, 20, 4), (0x0F, 20, 0)];

/// Byte 12, a length, and the length that is required.
#[rattlefmt::skip]
static CUT_OFF: [(u8, usize, usize); 5] = [(0xF0, 20, 60), (0x60, 20, 24), (0x40, 19, 20), (0xF0, 19, 20), (0x50, 0, 20)];

/// The call returned this error.
fn expect_error(rt: &impl Abort, error: Option<HeaderSliceError>, expected: &HeaderSliceError) {
    expect_equal(rt, &expect_some(rt, error), expected);
}

/// Zeros except byte 12 are refused by each of three calls.
fn expect_refused(rt: &impl Abort, offset_byte: u8, len: usize, expected: &HeaderSliceError) {
    let bytes = zeros_with(offset_byte, 0);
    let slice = bytes_to(rt, &bytes, len);
    expect_error(rt, TcpHeader::from_slice(slice).err(), expected);
    expect_error(rt, TcpHeader::read_from_slice(slice).err(), expected);
    expect_error(rt, TcpHeaderSlice::from_slice(slice).err(), expected);
}

#[test]
fn headers_that_are_not_whole_are_refused(rt: HostRuntime) {
    for (offset_byte, len, data_offset) in &TOO_SMALL {
        let error = HeaderError::DataOffsetTooSmall {
            data_offset: *data_offset,
        };
        expect_refused(&rt, *offset_byte, *len, &HeaderSliceError::Content(error));
    }
    for (offset_byte, len, required_len) in &CUT_OFF {
        expect_refused(&rt, *offset_byte, *len, &too_short(*required_len, *len));
    }
}

#[test]
fn headers_are_read_and_written(rt: HostRuntime) {
    let header = segment_header(&rt);
    expect_header_bytes(&rt, &header, &SEGMENT);
    expect_header_bytes(&rt, &full_header(), &FULL_BYTES);
    expect_equal(&rt, &TcpHeader::default(), &TcpHeader::new(0, 0, 0, 0));
    expect_header_bytes(&rt, &TcpHeader::default(), &zeros_with(0x50, 0));

    let mut packet = [0xAA; 26];
    packet[..24].copy_from_slice(&SEGMENT);
    expect_read(&rt, &packet, &header, &[0xAA, 0xAA]);
    expect_read(&rt, &FULL_BYTES, &full_header(), &[]);
    expect_lengths_and_options(&rt, &header);
}

/// The lengths and options of the header of `SEGMENT`.
fn expect_lengths_and_options(rt: &impl Abort, header: &TcpHeader) {
    expect_equal(
        rt,
        &(
            header.data_offset(),
            header.header_len(),
            header.header_len_u16(),
            header.options_len(),
        ),
        &(6, 24, 24, 4),
    );
    expect_bytes(rt, header.options(), &[2, 4, 0x05, 0xB4]);
    let mut elements = header.options_iterator();
    expect_equal(rt, &elements.next(), &Some(Ok(MaximumSegmentSize(1460))));
    expect_equal(rt, &elements.next(), &None);
}

/// `full_header` with one of its fields changed, by their order in the struct. After the fields come forty bytes of options.
fn changed(field: usize) -> TcpHeader {
    let mut header = full_header();
    match field {
        0 => header.source_port = 0x8102,
        1 => header.destination_port = 0x8304,
        2 => header.sequence_number = 0x8506_0708,
        3 => header.acknowledgment_number = 0x890A_0B0C,
        4 => header.ns = false,
        5 => header.fin = false,
        6 => header.syn = false,
        7 => header.rst = false,
        8 => header.psh = false,
        9 => header.ack = false,
        10 => header.urg = false,
        11 => header.ece = false,
        12 => header.cwr = false,
        13 => header.window_size = 0x8D0E,
        14 => header.checksum = 0x8F10,
        15 => header.urgent_pointer = 0x9112,
        16 => header.options = TcpOptions::from([3, 3, 8, 0]),
        _ => header.options = TcpOptions::from([0xFF; 40]),
    }
    header
}

/// The header and its hash differ from the full one, and those of its clone don't differ from its own.
fn expect_changed(rt: &impl Abort, field: usize, header: &TcpHeader) {
    let full = full_header();
    let is_same = (*header == full, hash_of(header) == hash_of(&full));
    expect_equal(rt, &(field, is_same), &(field, (false, false)));
    let copy = expect_ok(rt, header.clone());
    expect_equal(rt, &copy, header);
    expect_equal(rt, &hash_of(&copy), &hash_of(header));
    expect_header_bytes(rt, &copy, &header.to_bytes());
}

/// The slice of these bytes differs from that of the full header, and its clone has the bytes.
fn expect_changed_slice(rt: &impl Abort, field: usize, bytes: &[u8]) {
    let slice = header_slice(rt, bytes);
    expect_bytes(rt, expect_ok(rt, slice.clone()).slice(), bytes);
    let is_same = slice == header_slice(rt, &FULL_BYTES);
    expect_equal(rt, &(field, is_same), &(field, false));
}

#[test]
fn every_field_is_compared_hashed_and_cloned(rt: HostRuntime) {
    for field in 0..18 {
        let header = changed(field);
        expect_changed(&rt, field, &header);
        expect_changed_slice(&rt, field, &header.to_bytes());
    }
}

/// The slice has the numbers of `FULL_BYTES`.
fn expect_full_numbers(rt: &impl Abort, header: &TcpHeaderSlice<'_>) {
    expect_equal(
        rt,
        &(
            header.source_port(),
            header.destination_port(),
            header.sequence_number(),
            header.acknowledgment_number(),
        ),
        &(0x0102, 0x0304, 0x0506_0708, 0x090A_0B0C),
    );
    expect_equal(
        rt,
        &(
            header.data_offset(),
            header.window_size(),
            header.checksum(),
            header.urgent_pointer(),
        ),
        &(6, 0x0D0E, 0x0F10, 0x1112),
    );
}

/// The slice has the options of `FULL_BYTES`, and is compared.
fn expect_full_slice(rt: &impl Abort, header: &TcpHeaderSlice<'_>) {
    expect_bytes(rt, header.options(), &[3, 3, 7, 0]);
    expect_first_element(
        rt,
        header.options_iterator(),
        TcpOptionElement::WindowScale(7),
    );
    expect_equal(rt, &header.to_header(), &full_header());
    expect_clone(rt, header);
    expect_same_slice(rt, header, &FULL_BYTES, true);
    expect_same_slice(rt, header, &SEGMENT, false);
}

/// Whether the slice is equal to the slice of these bytes.
fn expect_same_slice(rt: &impl Abort, header: &TcpHeaderSlice<'_>, bytes: &[u8], expected: bool) {
    let is_same = *header == header_slice(rt, bytes);
    expect_equal(rt, &is_same, &expected);
}

#[test]
fn slices_keep_the_header(rt: HostRuntime) {
    let mut packet = [0xAA; 26];
    packet[..24].copy_from_slice(&FULL_BYTES);
    let packet = &packet;
    let header = &header_slice(&rt, packet);
    expect_bytes(&rt, header.slice(), &FULL_BYTES);
    expect_full_numbers(&rt, header);
    expect_full_slice(&rt, header);

    // The slice of the options lives as long as the input, and longer than the struct.
    let bytes = header_slice(&rt, packet).slice();
    expect_bytes(&rt, bytes, &FULL_BYTES);
    expect_shown(&rt);
}

/// The debug texts of a slice and of a header.
fn expect_shown(rt: &(impl Abort + AllocGlobal)) {
    expect_debug_text(
        rt,
        &header_slice(rt, &zeros_with(0x50, 0)),
        "TcpHeaderSlice { slice: [0, 0, 0, 0, 0, 0, 0, 0, 0, 0, 0, 0, 80, 0, 0, 0, 0, 0, 0, 0] }",
    );
    expect_debug_text(
        rt,
        &segment_header(rt),
        "TcpHeader { source_port: 1, destination_port: 2, sequence_number: 3, acknowledgment_number: 0, ns: false, fin: false, syn: true, rst: false, psh: false, ack: false, urg: false, ece: false, cwr: false, window_size: 4, checksum: 0, urgent_pointer: 0, options: [MaximumSegmentSize(1460)] }",
    );
}

/// Bytes 12 and 13 of a header with one flag, and the place of the flag in the struct.
#[rattlefmt::skip]
static FLAG_BITS: [(u8, u8, usize); 9] = [
    (0x51, 0x00, 0), (0x50, 0x01, 1), (0x50, 0x02, 2), (0x50, 0x04, 3), (0x50, 0x08, 4),
    (0x50, 0x10, 5), (0x50, 0x20, 6), (0x50, 0x40, 7), (0x50, 0x80, 8),
];

/// The header with the one flag that is at this place in the struct.
fn header_with_flag(set: usize) -> TcpHeader {
    TcpHeader {
        ns: set == 0,
        fin: set == 1,
        syn: set == 2,
        rst: set == 3,
        psh: set == 4,
        ack: set == 5,
        urg: set == 6,
        ece: set == 7,
        cwr: set == 8,
        ..TcpHeader::default()
    }
}

/// The nine flags. Only the flag at this place is set.
pub fn flag_at(place: usize) -> [bool; 9] {
    let mut flags = [false; 9];
    if place < 9 {
        flags[place] = true;
    }
    flags
}

/// The flags of a slice, in the order of the struct.
fn flags_of(slice: &TcpHeaderSlice<'_>) -> [bool; 9] {
    [
        slice.ns(),
        slice.fin(),
        slice.syn(),
        slice.rst(),
        slice.psh(),
        slice.ack(),
        slice.urg(),
        slice.ece(),
        slice.cwr(),
    ]
}

/// The header with this flag is written as the bytes, and read from them.
fn expect_flag(rt: &impl Abort, bytes: &[u8], set: usize) {
    let header = &header_with_flag(set);
    expect_header_bytes(rt, header, bytes);
    expect_equal(rt, &header_of(rt, bytes), header);
    expect_equal(rt, &flags_of(&header_slice(rt, bytes)), &flag_at(set));
}

#[test]
fn flags_have_their_bits(rt: HostRuntime) {
    for (offset_byte, flags_byte, set) in &FLAG_BITS {
        expect_flag(&rt, &zeros_with(*offset_byte, *flags_byte), *set);
    }
}

/// Byte 12, the checksum of the bytes, and the checksum of the header read from them.
#[rattlefmt::skip]
static SUMS: [(u8, u16, u16); 16] = [
    (0x50, 0xAFE5, 0xAFE5), (0x51, 0xAEE5, 0xAEE5), (0x52, 0xADE5, 0xAFE5), (0x53, 0xACE5, 0xAEE5),
    (0x54, 0xABE5, 0xAFE5), (0x55, 0xAAE5, 0xAEE5), (0x56, 0xA9E5, 0xAFE5), (0x57, 0xA8E5, 0xAEE5),
    (0x58, 0xA7E5, 0xAFE5), (0x59, 0xA6E5, 0xAEE5), (0x5A, 0xA5E5, 0xAFE5), (0x5B, 0xA4E5, 0xAEE5),
    (0x5C, 0xA3E5, 0xAFE5), (0x5D, 0xA2E5, 0xAEE5), (0x5E, 0xA1E5, 0xAFE5), (0x5F, 0xA0E5, 0xAEE5),
];

/// The checksums of a row, over IPv4 and over IPv6.
fn expect_sums(rt: &impl Abort, row: &(u8, u16, u16)) {
    let (offset_byte, of_bytes, of_header) = *row;
    let bytes = zeros_with(offset_byte, 0);
    let slice = &header_slice(rt, &bytes);
    expect_slice_sums(rt, slice, of_bytes);
    expect_header_sums(rt, &slice.to_header(), of_header);
}

/// The checksum of a slice, over IPv4 and over IPv6.
fn expect_slice_sums(rt: &impl Abort, slice: &TcpHeaderSlice<'_>, expected: u16) {
    expect_sum(
        rt,
        slice.calc_checksum_ipv4_raw([0; 4], [0; 4], &[]),
        expected,
    );
    expect_sum(
        rt,
        slice.calc_checksum_ipv6_raw([0; 16], [0; 16], &[]),
        expected,
    );
}

/// The checksum of a header, over IPv4 and over IPv6.
fn expect_header_sums(rt: &impl Abort, header: &TcpHeader, expected: u16) {
    expect_sum(
        rt,
        header.calc_checksum_ipv4_raw([0; 4], [0; 4], &[]),
        expected,
    );
    expect_sum(
        rt,
        header.calc_checksum_ipv6_raw([0; 16], [0; 16], &[]),
        expected,
    );
}

#[test]
fn unused_bits_are_summed_by_slices_alone(rt: HostRuntime) {
    let header = header_of(&rt, &zeros_with(0x5F, 0));
    expect_equal(&rt, &header.ns, &true);
    expect_header_bytes(&rt, &header, &zeros_with(0x51, 0));
    for row in &SUMS {
        expect_sums(&rt, row);
    }
}

/// Each call over IPv4 returns the checksum of `SEGMENT`.
fn expect_sums_over_ipv4(rt: &impl Abort, header: &TcpHeader, slice: &TcpHeaderSlice<'_>) {
    let (source, destination) = ([10, 0, 0, 1], [10, 0, 0, 2]);
    let mut bytes = [0; 20];
    bytes[0] = 0x45;
    bytes[12..].copy_from_slice(&[10, 0, 0, 1, 10, 0, 0, 2]);
    let ip = expect_some(rt, Ipv4HeaderSlice::from_slice(&bytes));
    expect_sum(rt, slice.calc_checksum_ipv4(&ip, &[]), 0x841A);
    expect_sum(
        rt,
        slice.calc_checksum_ipv4_raw(source, destination, &[]),
        0x841A,
    );
    expect_sum(
        rt,
        header.calc_checksum_ipv4_raw(source, destination, &[]),
        0x841A,
    );
    let ip = Ipv4Header {
        source,
        destination,
    };
    expect_sum(rt, header.calc_checksum_ipv4(&ip, &[]), 0x841A);
}

/// Each call over IPv6 returns the checksum of `SEGMENT`.
fn expect_sums_over_ipv6(rt: &impl Abort, header: &TcpHeader, slice: &TcpHeaderSlice<'_>) {
    let mut bytes = [0; 40];
    bytes[0] = 0x60;
    let ip = expect_some(rt, Ipv6HeaderSlice::from_slice(&bytes));
    expect_sum(rt, slice.calc_checksum_ipv6(&ip, &[]), 0x981D);
    expect_sum(
        rt,
        slice.calc_checksum_ipv6_raw([0; 16], [0; 16], &[]),
        0x981D,
    );
    expect_sum(
        rt,
        header.calc_checksum_ipv6_raw([0; 16], [0; 16], &[]),
        0x981D,
    );
    let ip = Ipv6Header::default();
    expect_sum(rt, header.calc_checksum_ipv6(&ip, &[]), 0x981D);
}

#[test]
fn checksums_of_headers(rt: HostRuntime) {
    let header = &segment_header(&rt);
    let slice = &header_slice(&rt, &SEGMENT);
    expect_sums_over_ipv4(&rt, header, slice);
    expect_sums_over_ipv6(&rt, header, slice);
    let sum = TcpHeader::default().calc_checksum_ipv4_raw([0; 4], [0; 4], &[1]);
    expect_sum(&rt, sum, 0xAEE4);
}

/// The header is written to a slice of this length, or the slice stays as it was.
fn expect_written(rt: &impl Abort, header: &TcpHeader, bytes: &[u8], len: usize) {
    let mut buffer = [0xAA; 64];
    let written = header.write_to_slice(expect_some(rt, buffer.get_mut(..len)));
    let mut expected = [0xAA; 64];
    let result = if len < bytes.len() {
        Err(LenError {
            required_len: bytes.len(),
            len,
            len_source: LenSource::Slice,
            layer: Layer::TcpHeader,
            layer_start_offset: 0,
        })
    } else {
        if let Some(front) = expected.get_mut(..bytes.len()) {
            front.copy_from_slice(bytes);
        }
        Ok(bytes.len())
    };
    expect_equal(rt, &(len, written, buffer), &(len, result, expected));
}

#[test]
fn headers_are_written_to_slices(rt: HostRuntime) {
    for options_len in [0, 4, 12, 40] {
        let mut header = segment_header(&rt);
        expect_ok(
            &rt,
            header.set_options_raw(bytes_to(&rt, &[0x01; 40], options_len)),
        );
        let bytes = header.to_bytes();
        for len in 0..65 {
            expect_written(&rt, &header, &bytes, len);
        }
    }
}

/// The checksum over IPv4 with this many zeros as payload.
fn sum_of_zeros(rt: &impl Abort, header: &TcpHeader, len: usize) -> Sum {
    header.calc_checksum_ipv4_raw([0; 4], [0; 4], bytes_to(rt, &ZEROS, len))
}

/// The checksum over IPv4 of the slice of a header, with this number of zeros as payload.
fn slice_sum_of_zeros(rt: &impl Abort, header: &[u8], len: usize) -> Sum {
    header_slice(rt, header).calc_checksum_ipv4_raw([0; 4], [0; 4], bytes_to(rt, &ZEROS, len))
}

/// A payload of this length is refused.
fn expect_too_big(rt: &impl Abort, sum: Sum, actual: usize, max_allowed: usize) {
    expect_equal(rt, &sum, &Err(too_big(actual, max_allowed)));
}

#[test]
fn long_payloads_are_refused(rt: HostRuntime) {
    let mut header = TcpHeader::default();
    expect_sum(&rt, sum_of_zeros(&rt, &header, 65515), 0xAFF9);
    expect_too_big(&rt, sum_of_zeros(&rt, &header, 65516), 65516, 65515);
    // Over IPv6, this length is below the limit. It is 65536, and its two words add 1 to the sum.
    let checksum = header.calc_checksum_ipv6_raw([0; 16], [0; 16], &ZEROS);
    expect_sum(&rt, checksum, 0xAFF8);

    expect_ok(&rt, header.set_options_raw(&[0; 40]));
    expect_sum(&rt, sum_of_zeros(&rt, &header, 65475), 0x0FF9);
    expect_too_big(&rt, sum_of_zeros(&rt, &header, 65476), 65476, 65475);

    let bytes = &zeros_with(0x50, 0);
    expect_sum(&rt, slice_sum_of_zeros(&rt, bytes, 65515), 0xAFF9);
    expect_too_big(&rt, slice_sum_of_zeros(&rt, bytes, 65516), 65516, 65515);
}

/// The options are refused, since there is no room for their 41 bytes.
fn expect_no_space(rt: &impl Abort, outcome: Result<(), TcpOptionWriteError>) {
    expect_equal(rt, &outcome, &Err(TcpOptionWriteError::NotEnoughSpace(41)));
}

/// `full_header` with the bytes 1, 0, 0 and 0 as options.
fn header_with_noop() -> TcpHeader {
    let mut header = full_header();
    header.options = TcpOptions::from([1, 0, 0, 0]);
    header
}

#[test]
fn options_are_replaced_or_kept(rt: HostRuntime) {
    let too_many = [
        Timestamp(1, 2),
        Timestamp(1, 2),
        Timestamp(1, 2),
        Timestamp(1, 2),
        Noop,
    ];
    let header = &mut full_header();
    expect_ok(&rt, header.set_options_raw(&[1]));
    expect_equal(&rt, header, &header_with_noop());
    expect_equal(&rt, &header.data_offset(), &6);
    expect_no_space(&rt, header.set_options_raw(&[0; 41]));
    expect_equal(&rt, header, &header_with_noop());
    expect_no_space(&rt, header.set_options(&too_many));
    expect_equal(&rt, header, &header_with_noop());
    expect_ok(&rt, header.set_options(expect_some(&rt, too_many.get(..4))));
    let lengths = [
        header.options_len(),
        usize::from(header.data_offset()),
        header.header_len(),
    ];
    expect_equal(&rt, &lengths, &[40, 15, TcpHeader::MAX_LEN]);
}
