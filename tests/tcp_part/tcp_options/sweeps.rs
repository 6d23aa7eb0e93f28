//! Reads TCP headers with every length up to 60 bytes and every data offset, and with every accepted value of byte 12. Reads options with
//! every kind and every length byte. The results are compared with plain functions, which were written from the format tables, not from the
//! library.

use super::TcpOptionElement::{
    MaximumSegmentSize, Noop, SelectiveAcknowledgement, SelectiveAcknowledgementPermitted,
    Timestamp, WindowScale,
};
use super::{end_of_slice, wrong_size};
use crate::expect::{
    bytes_from, bytes_to, expect_at, expect_bytes, expect_equal, expect_ok, expect_some,
};
use etherparse_transport::err::tcp::{HeaderError, HeaderSliceError};
use etherparse_transport::err::{Layer, LenError};
use etherparse_transport::{
    LenSource, TcpHeader, TcpHeaderSlice, TcpOptionElement, TcpOptionReadError, TcpOptionsIterator,
};
use std::process::Abort;

/// Returns sixty bytes. Byte 12 has this value, and all other bytes differ from each other.
fn header_bytes(byte_12: u8) -> [u8; 60] {
    [
        1, 2, 3, 4, 5, 6, 7, 8, 9, 10, 11, 12, byte_12, 14, 15, 16, 17, 18, 19, 20, 21, 22, 23, 24,
        25, 26, 27, 28, 29, 30, 31, 32, 33, 34, 35, 36, 37, 38, 39, 40, 41, 42, 43, 44, 45, 46, 47,
        48, 49, 50, 51, 52, 53, 54, 55, 56, 57, 58, 59, 60,
    ]
}

/// Returns the length of the header at the front of `len` bytes.
fn header_len(len: usize, data_offset: u8) -> Result<usize, HeaderSliceError> {
    if len < 20 {
        return Err(too_short(20, len));
    }
    if data_offset < 5 {
        return Err(HeaderSliceError::Content(HeaderError::DataOffsetTooSmall { data_offset }));
    }
    let header_len = usize::from(data_offset) * 4;
    if len < header_len {
        return Err(too_short(header_len, len));
    }
    Ok(header_len)
}

fn too_short(required_len: usize, len: usize) -> HeaderSliceError {
    HeaderSliceError::Len(LenError {
        required_len,
        len,
        len_source: LenSource::Slice,
        layer: Layer::TcpHeader,
        layer_start_offset: 0,
    })
}

/// Returns whether the header has the fields of `header_bytes` and these options. Byte 13 is 0E, which sets the flags syn, rst and psh.
fn has_fields(header: &TcpHeader, ns: bool, options: &[u8]) -> bool {
    header.source_port == 0x0102
        && header.destination_port == 0x0304
        && header.sequence_number == 0x0506_0708
        && header.acknowledgment_number == 0x090A_0B0C
        && header.ns == ns
        && (header.syn && header.rst && header.psh)
        && !(header.fin || header.ack || header.urg || header.ece || header.cwr)
        && header.window_size == 0x0F10
        && header.checksum == 0x1112
        && header.urgent_pointer == 0x1314
        && header.options() == options
}

/// Tests that `from_slice`, `read_from_slice` and `TcpHeaderSlice` read the same header. Writing the header returns the bytes that were
/// read.
fn expect_accepted(rt: &impl Abort, slice: &[u8], header_len: usize) {
    let (front, after) = expect_some(rt, slice.split_at_checked(header_len));
    let (header, rest) = expect_ok(rt, TcpHeader::from_slice(slice));
    expect_fields(rt, &header, false, front);
    expect_bytes(rt, rest, after);
    expect_bytes(rt, &header.to_bytes(), front);
    expect_slice(rt, slice, front);
    expect_read(rt, slice, &header, after);
}

/// Tests that the header has the fields of `header_bytes`, and the options in `front`, the bytes of the header.
fn expect_fields(rt: &impl Abort, header: &TcpHeader, ns: bool, front: &[u8]) {
    let has_fields = has_fields(header, ns, bytes_from(rt, front, 20));
    expect_at(rt, header, &has_fields, &true);
}

/// Tests that `TcpHeaderSlice` keeps only the header `front` of these bytes.
fn expect_slice(rt: &impl Abort, bytes: &[u8], front: &[u8]) {
    expect_bytes(
        rt,
        expect_ok(rt, TcpHeaderSlice::from_slice(bytes)).slice(),
        front,
    );
}

/// Tests that `read_from_slice` reads the same header, and returns the bytes after it.
fn expect_read(rt: &impl Abort, bytes: &[u8], header: &TcpHeader, after: &[u8]) {
    let (read, rest) = expect_ok(rt, TcpHeader::read_from_slice(bytes));
    expect_equal(rt, &read, header);
    expect_bytes(rt, rest, after);
}

/// Tests that each call refuses the slice with this error.
fn expect_refused(rt: &impl Abort, slice: &[u8], data_offset: u8, expected: &HeaderSliceError) {
    let key = &(data_offset, slice.len());
    expect_error(rt, key, TcpHeader::from_slice(slice).err(), expected);
    expect_error(rt, key, TcpHeader::read_from_slice(slice).err(), expected);
    expect_error(rt, key, TcpHeaderSlice::from_slice(slice).err(), expected);
}

/// Tests that the call returned this error. The key consists of the data offset and the length of the slice.
fn expect_error(
    rt: &impl Abort,
    key: &(u8, usize),
    error: Option<HeaderSliceError>,
    expected: &HeaderSliceError,
) {
    expect_at(rt, key, &expect_some(rt, error), expected);
}

/// The numbers of slices with each result: too short, a data offset that is too small, cut off, and accepted.
type Counts = (usize, usize, usize, usize);

/// Returns the counts after a slice of this length with this result.
fn counted(counts: Counts, len: usize, outcome: &Result<usize, HeaderSliceError>) -> Counts {
    let (short, offset_too_small, cut_off, accepted) = counts;
    match outcome {
        Ok(_) => (short, offset_too_small, cut_off, accepted.saturating_add(1)),
        Err(HeaderSliceError::Content(_)) => (
            short,
            offset_too_small.saturating_add(1),
            cut_off,
            accepted,
        ),
        Err(HeaderSliceError::Len(_)) if len < 20 => (
            short.saturating_add(1),
            offset_too_small,
            cut_off,
            accepted,
        ),
        Err(HeaderSliceError::Len(_)) => (
            short,
            offset_too_small,
            cut_off.saturating_add(1),
            accepted,
        ),
    }
}

/// Reads the header with this data offset at the front of `len` bytes, and returns the expected result.
fn expect_outcome(rt: &impl Abort, len: usize, data_offset: u8) -> Result<usize, HeaderSliceError> {
    let bytes = header_bytes(data_offset.saturating_mul(16));
    let slice = bytes_to(rt, &bytes, len);
    let outcome = header_len(len, data_offset);
    match &outcome {
        Ok(header_len) => expect_accepted(rt, slice, *header_len),
        Err(expected) => expect_refused(rt, slice, data_offset, expected),
    }
    outcome
}

#[test]
fn every_length_and_data_offset_is_read_or_refused(rt: HostRuntime) {
    let mut counts = (0, 0, 0, 0);
    for len in 0..61usize {
        for data_offset in 0..16u8 {
            counts = counted(counts, len, &expect_outcome(&rt, len, data_offset));
        }
    }
    expect_equal(&rt, &counts, &(320, 205, 220, 231));
}

/// Tests that a header with this byte 12 is written without its reserved bits. `TcpHeaderSlice` keeps the received bytes.
fn expect_byte_12(rt: &impl Abort, byte_12: u8) {
    let bytes = header_bytes(byte_12);
    let header_len = usize::from(byte_12 >> 4) * 4;
    let front = bytes_to(rt, &bytes, header_len);
    let (header, rest) = expect_ok(rt, TcpHeader::from_slice(&bytes));
    let header = &header;
    expect_fields(rt, header, byte_12 & 1 == 1, front);
    expect_bytes(rt, rest, bytes_from(rt, &bytes, header_len));
    let canonical = header_bytes(byte_12 & 0xF1);
    expect_bytes(rt, &header.to_bytes(), bytes_to(rt, &canonical, header_len));
    expect_slice(rt, &bytes, front);
    expect_header_of_slice(rt, &bytes, header);
}

/// Tests that the slice of these bytes contains this header.
fn expect_header_of_slice(rt: &impl Abort, bytes: &[u8], header: &TcpHeader) {
    let slice = expect_ok(rt, TcpHeaderSlice::from_slice(bytes));
    expect_equal(rt, &slice.to_header(), header);
}

#[test]
fn every_byte_12_loses_its_unused_bits(rt: HostRuntime) {
    let mut accepted = 0usize;
    for byte_12 in 0x50..=u8::MAX {
        expect_byte_12(&rt, byte_12);
        accepted = accepted.saturating_add(1);
    }
    expect_equal(&rt, &accepted, &176);
}

/// Returns the expected first item of the options `kind`, `size` and 38 zeros.
fn first_item(kind: u8, size: u8) -> Option<Result<TcpOptionElement, TcpOptionReadError>> {
    let absent = [None, None, None];
    let element = match (kind, size) {
        (0, _) => return None,
        (1, _) => Noop,
        (2, 4) => MaximumSegmentSize(0),
        (3, 3) => WindowScale(0),
        (4, 2) => SelectiveAcknowledgementPermitted,
        (5, 10) => SelectiveAcknowledgement((0, 0), absent),
        (5, 18) => SelectiveAcknowledgement((0, 0), [Some((0, 0)), None, None]),
        (5, 26) => SelectiveAcknowledgement((0, 0), [Some((0, 0)), Some((0, 0)), None]),
        (5, 34) => SelectiveAcknowledgement((0, 0), [Some((0, 0)), Some((0, 0)), Some((0, 0))]),
        (8, 10) => Timestamp(0, 0),
        (2..=5 | 8, _) => return Some(Err(wrong_size(kind, size))),
        _ => return Some(Err(TcpOptionReadError::UnknownId(kind))),
    };
    Some(Ok(element))
}

/// An item of the options, or the end of the list.
type Item = Option<Result<TcpOptionElement, TcpOptionReadError>>;

/// Returns the counts of ends, elements, wrong sizes and unknown kinds after this item.
fn counted_item(counts: Counts, item: &Item) -> Counts {
    let (ends, elements, sizes, unknown) = counts;
    match item {
        None => (ends.saturating_add(1), elements, sizes, unknown),
        Some(Ok(_)) => (ends, elements.saturating_add(1), sizes, unknown),
        Some(Err(TcpOptionReadError::UnexpectedSize { .. })) => (
            ends,
            elements,
            sizes.saturating_add(1),
            unknown,
        ),
        Some(Err(_)) => (ends, elements, sizes, unknown.saturating_add(1)),
    }
}

/// Returns how many of the forty bytes are read: the bytes of an element, or all bytes.
fn read_len(item: &Item, kind: u8, size: u8) -> usize {
    match item {
        Some(Ok(_)) if kind == 1 => 1,
        Some(Ok(_)) => usize::from(size),
        _ => 40,
    }
}

/// Reads the first option, which has this kind and size, and returns the expected item.
fn expect_first_item(rt: &impl Abort, kind: u8, size: u8) -> Item {
    let mut bytes = [0; 40];
    bytes[0] = kind;
    bytes[1] = size;
    let mut items = TcpOptionsIterator::from_slice(&bytes);
    let expected = first_item(kind, size);
    expect_at(rt, &(kind, size), &items.next(), &expected);
    let read = read_len(&expected, kind, size);
    expect_bytes(rt, items.rest(), bytes_from(rt, &bytes, read));
    expected
}

#[test]
fn every_option_kind_and_size_is_read_or_refused(rt: HostRuntime) {
    let mut counts = (0, 0, 0, 0);
    for kind in 0..=u8::MAX {
        for size in 0..=u8::MAX {
            counts = counted_item(counts, &expect_first_item(&rt, kind, size));
        }
    }
    expect_equal(&rt, &counts, &(256, 264, 1272, 63744));
}

/// The known kinds of options with a length byte, with each size that the kind can have.
#[rattlefmt::skip]
static WHOLE: [(u8, u8); 8] = [(2, 4), (3, 3), (4, 2), (5, 10), (5, 18), (5, 26), (5, 34), (8, 10)];

/// Tests an option that is cut off after `len` bytes. If only the kind 5 is present, the error requires two bytes. Otherwise it requires
/// the size of the option.
fn expect_cut_off(rt: &impl Abort, kind: u8, size: u8, len: usize) {
    let mut bytes = [0; 40];
    bytes[0] = kind;
    bytes[1] = size;
    let required = if kind == 5 && len == 1 { 2 } else { size };
    let mut items = TcpOptionsIterator::from_slice(bytes_to(rt, &bytes, len));
    let fault = Some(Err(end_of_slice(kind, required, len)));
    expect_at(rt, &(kind, len), &items.next(), &fault);
    expect_bytes(rt, items.rest(), &[]);
}

#[test]
fn every_option_is_read_up_to_where_it_is_cut_off(rt: HostRuntime) {
    let mut cut_off = 0usize;
    for (kind, size) in &WHOLE {
        for len in 1..usize::from(*size) {
            expect_cut_off(&rt, *kind, *size, len);
            cut_off = cut_off.saturating_add(1);
        }
    }
    expect_equal(&rt, &cut_off, &99);
}
