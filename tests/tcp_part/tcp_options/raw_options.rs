//! Options of every kind, known or unknown. Some rows contain bytes and items. Options with every kind and every length byte are compared
//! with a plain function.

use super::TcpOptionElement::{
    MaximumSegmentSize, Noop, SelectiveAcknowledgement, SelectiveAcknowledgementPermitted,
    Timestamp, WindowScale,
};
use crate::expect::{
    bytes_from, bytes_to, expect_at, expect_bytes, expect_clone, expect_debug_text, expect_equal,
    expect_ok, expect_some, expect_text,
};
use etherparse_transport::TcpOptionReadError::{UnexpectedSize, UnknownId};
use etherparse_transport::{
    TcpHeader, TcpHeaderSlice, TcpOptionElement, TcpOptionReadError, TcpOptions,
    TcpOptionsIterator, TcpRawOption, TcpRawOptionError, TcpRawOptionsIterator, tcp_option,
};
use std::process::Abort;

/// An option, or a fault.
type Item = Result<TcpRawOption<'static>, TcpRawOptionError>;

fn option(kind: u8, value: &'static [u8]) -> Item {
    Ok(TcpRawOption { kind, value })
}

fn no_length_byte(kind: u8) -> Item {
    Err(TcpRawOptionError::NoLengthByte { kind })
}

fn length_below_two(kind: u8, len: u8) -> Item {
    Err(TcpRawOptionError::LengthBelowTwo { kind, len })
}

fn length_beyond_end(kind: u8, len: u8, available: usize) -> Item {
    Err(TcpRawOptionError::LengthBeyondEnd {
        kind,
        len,
        available,
    })
}

/// The kind and value of an option, or a fault.
type Row = Result<(u8, &'static [u8]), TcpRawOptionError>;

/// Option bytes, and their first and second item. Kind 34 is Fast Open, kind 30 is Multipath TCP, and kind 254 is one of the two kinds for
/// experiments.
#[rattlefmt::skip]
static ITEMS: [(&[u8], Option<Row>, Option<Row>); 8] = [
    (&[0x22, 2], Some(Ok((34, &[]))), None),
    (&[0x1E, 4, 0xAA, 0xBB, 1, 0], Some(Ok((30, &[0xAA, 0xBB]))), Some(Ok((1, &[])))),
    (&[0xFE, 2], Some(Ok((254, &[]))), None),
    (&[0xFE, 1], Some(Err(TcpRawOptionError::LengthBelowTwo { kind: 254, len: 1 })), None),
    (&[0xFE], Some(Err(TcpRawOptionError::NoLengthByte { kind: 254 })), None),
    (&[3, 3, 7, 0xFE, 5, 1, 2], Some(Ok((3, &[7]))), Some(Err(TcpRawOptionError::LengthBeyondEnd { kind: 254, len: 5, available: 4 }))),
    (&[0, 0xFF, 0xFF], None, None),
    (&[], None, None),
];

/// Returns the item of a row.
fn item(rt: &impl Abort, row: &Option<Row>) -> Option<Item> {
    match row {
        Some(Ok((kind, value))) => Some(option(*kind, value)),
        Some(Err(error)) => Some(Err(expect_ok(rt, error.clone()))),
        None => None,
    }
}

/// Tests that the bytes contain these two items and no other item.
fn expect_items(
    rt: &impl Abort,
    bytes: &'static [u8],
    first: &Option<Item>,
    second: &Option<Item>,
) {
    let mut read = TcpRawOptionsIterator::from_slice(bytes);
    expect_bytes(rt, read.rest(), bytes);
    expect_item(rt, &mut read, first);
    expect_item(rt, &mut read, second);
    expect_item(rt, &mut read, &None);
    expect_bytes(rt, read.rest(), &[]);
}

/// Tests that the next item is `expected`. If `expected` is `None`, no item is left.
fn expect_item(rt: &impl Abort, read: &mut TcpRawOptionsIterator<'_>, expected: &Option<Item>) {
    expect_equal(rt, &read.next(), expected);
}

/// Tests that the next item is this option.
fn expect_option(
    rt: &impl Abort,
    read: &mut TcpRawOptionsIterator<'_>,
    kind: u8,
    value: &'static [u8],
) {
    expect_item(rt, read, &Some(option(kind, value)));
}

fn expect_row(rt: &impl Abort, row: &(&'static [u8], Option<Row>, Option<Row>)) {
    expect_items(rt, row.0, &item(rt, &row.1), &item(rt, &row.2));
}

/// Tests that forty no-operation options are forty items.
fn expect_forty_items(rt: &impl Abort, noops: &[u8; 40]) {
    let mut read = TcpRawOptionsIterator::from_slice(noops);
    for left in 0..40usize {
        expect_bytes(rt, read.rest(), bytes_from(rt, noops, left));
        expect_option(rt, &mut read, 1, &[]);
    }
    expect_item(rt, &mut read, &None);
}

#[test]
fn options_of_every_kind_are_read(rt: HostRuntime) {
    for row in &ITEMS {
        expect_row(&rt, row);
    }
    expect_forty_items(&rt, &[tcp_option::KIND_NOOP; 40]);
}

/// Tests that the items are a maximum segment size, Fast Open, a user timeout and a window scale. Then the list ends.
fn expect_known_and_unknown(rt: &impl Abort, options: TcpRawOptionsIterator<'_>) {
    let mut options = options;
    let read = &mut options;
    expect_option(rt, read, 2, &[0x05, 0xB4]);
    expect_option(rt, read, 34, &[]);
    expect_option(rt, read, 28, &[0x80, 0x05]);
    expect_option(rt, read, 3, &[7]);
    expect_bytes(rt, read.rest(), &[0, 0, 0]);
    expect_item(rt, read, &None);
}

/// Tests that the list of elements ends with an error at the unknown option.
fn expect_one_element(rt: &impl Abort, elements: TcpOptionsIterator<'_>) {
    let mut elements = elements;
    let size = TcpOptionElement::MaximumSegmentSize(1460);
    let unknown = TcpOptionReadError::UnknownId(34);
    expect_equal(rt, &elements.next(), &Some(Ok(size)));
    expect_equal(rt, &elements.next(), &Some(Err(unknown)));
    expect_equal(rt, &elements.next(), &None);
}

#[test]
fn an_unknown_option_hides_no_later_one(rt: HostRuntime) {
    let bytes = [2, 4, 0x05, 0xB4, 34, 2, 28, 4, 0x80, 0x05, 3, 3, 7, 0, 0, 0];
    let mut header = TcpHeader::new(1, 2, 3, 4);
    header.options = TcpOptions::from(bytes);
    expect_known_and_unknown(&rt, header.raw_options_iterator());
    expect_one_element(&rt, header.options_iterator());
    let written = header.to_bytes();
    let slice = expect_ok(&rt, TcpHeaderSlice::from_slice(&written));
    expect_known_and_unknown(&rt, slice.raw_options_iterator());
}

/// Returns the expected first item in the first `left` of the bytes `kind`, `len`, A0, 01, 00 and A3.
fn first_item(kind: u8, len: u8, left: usize) -> Option<Item> {
    let item = match (kind, len, left) {
        (_, _, 0) | (0, _, _) => return None,
        (1, _, _) => option(1, &[]),
        (_, _, 1) => no_length_byte(kind),
        (_, 0 | 1, _) => length_below_two(kind, len),
        (_, 2, 2..) => option(kind, &[]),
        (_, 3, 3..) => option(kind, &[0xA0]),
        (_, 4, 4..) => option(kind, &[0xA0, 1]),
        (_, 5, 5..) => option(kind, &[0xA0, 1, 0]),
        (_, 6, 6..) => option(kind, &[0xA0, 1, 0, 0xA3]),
        _ => length_beyond_end(kind, len, left),
    };
    Some(item)
}

/// Returns how many of the bytes are read: the bytes of a whole option, or all bytes.
fn read_len(item: &Option<Item>, kind: u8, len: u8, left: usize) -> usize {
    match item {
        Some(Ok(_)) if kind == 1 => 1,
        Some(Ok(_)) => usize::from(len),
        _ => left,
    }
}

/// Returns the counts of ends, options and faults after this item.
fn counted(counts: (usize, usize, usize), item: &Option<Item>) -> (usize, usize, usize) {
    let (ends, options, faults) = counts;
    match item {
        None => (ends.saturating_add(1), options, faults),
        Some(Ok(_)) => (ends, options.saturating_add(1), faults),
        Some(Err(_)) => (ends, options, faults.saturating_add(1)),
    }
}

/// Tests the first item in the first `left` bytes, and returns the expected item.
fn expect_first_item(rt: &impl Abort, kind: u8, len: u8, left: usize) -> Option<Item> {
    let bytes = [kind, len, 0xA0, 1, 0, 0xA3];
    let slice = bytes_to(rt, &bytes, left);
    let mut items = TcpRawOptionsIterator::from_slice(slice);
    let expected = first_item(kind, len, left);
    expect_at(rt, &(kind, len, left), &items.next(), &expected);
    let read = read_len(&expected, kind, len, left);
    expect_bytes(rt, items.rest(), bytes_from(rt, slice, read));
    expected
}

#[test]
fn every_kind_and_length_byte_is_read_or_refused(rt: HostRuntime) {
    let mut counts = (0, 0, 0);
    for kind in 0..=u8::MAX {
        for len in 0..=u8::MAX {
            for left in 0..=6usize {
                counts = counted(counts, &expect_first_item(&rt, kind, len, left));
            }
        }
    }
    expect_equal(&rt, &counts, &(67_072, 5_346, 386_334));
}

/// The numbers 1 to 8 of 32 bits each, and one more byte.
#[rattlefmt::skip]
static NUMBERS: [u8; 33] = [
    0, 0, 0, 1, 0, 0, 0, 2, 0, 0, 0, 3, 0, 0, 0, 4, 0, 0, 0, 5, 0, 0, 0, 6, 0, 0, 0, 7, 0, 0, 0, 8, 0,
];

/// More bytes than a length byte can count.
static LONG: [u8; 300] = [0; 300];

/// A kind and a value that are not an element, and the error.
#[rattlefmt::skip]
static NO_ELEMENTS: [(u8, &[u8], TcpOptionReadError); 10] = [
    (2, &[0x05], UnexpectedSize { option_id: 2, size: 3 }),
    (2, &[0x05, 0xB4, 0], UnexpectedSize { option_id: 2, size: 5 }),
    (3, &[], UnexpectedSize { option_id: 3, size: 2 }),
    (3, &[7, 7], UnexpectedSize { option_id: 3, size: 4 }),
    (4, &[0], UnexpectedSize { option_id: 4, size: 3 }),
    (5, &[], UnexpectedSize { option_id: 5, size: 2 }),
    (0, &[], UnknownId(0)),
    (6, &[], UnknownId(6)),
    (7, &[1, 2], UnknownId(7)),
    (255, &[], UnknownId(255)),
];

/// A kind, the length of its value, and the error. The value is the first bytes of `NUMBERS`.
#[rattlefmt::skip]
static NO_ELEMENTS_OF_NUMBERS: [(u8, usize, TcpOptionReadError); 5] = [
    (5, 7, UnexpectedSize { option_id: 5, size: 9 }),
    (5, 9, UnexpectedSize { option_id: 5, size: 11 }),
    (5, 33, UnexpectedSize { option_id: 5, size: 35 }),
    (8, 7, UnexpectedSize { option_id: 8, size: 9 }),
    (8, 9, UnexpectedSize { option_id: 8, size: 11 }),
];

/// A kind, the length of its value, and the error. The value is the first bytes of `LONG`.
#[rattlefmt::skip]
static NO_ELEMENTS_OF_LONG: [(u8, usize, TcpOptionReadError); 3] = [
    (2, 253, UnexpectedSize { option_id: 2, size: 255 }),
    (4, 300, UnexpectedSize { option_id: 4, size: 255 }),
    (34, 300, UnknownId(34)),
];

fn expect_no_element(rt: &impl Abort, kind: u8, value: &[u8], expected: &TcpOptionReadError) {
    let element = TcpRawOption { kind, value }.element();
    let key = (kind, value.len());
    expect_at(rt, &key, &expect_some(rt, element.err()), expected);
}

fn expect_element(rt: &impl Abort, kind: u8, value: &[u8], expected: TcpOptionElement) {
    let element = TcpRawOption { kind, value }.element();
    let key = (kind, value.len());
    expect_at(rt, &key, &element, &Ok(expected));
}

/// Tests an option of kind 5, whose value is the first `len` bytes of `NUMBERS`. The blocks after the first block are `others`.
fn expect_blocks(rt: &impl Abort, len: usize, others: [Option<(u32, u32)>; 3]) {
    let value = bytes_to(rt, &NUMBERS, len);
    expect_element(rt, 5, value, SelectiveAcknowledgement((1, 2), others));
}

#[test]
fn elements_of_options_are_read_or_refused(rt: HostRuntime) {
    expect_element(&rt, 1, &[], Noop);
    expect_element(&rt, 1, &[7], Noop);
    expect_element(&rt, 2, &[0x05, 0xB4], MaximumSegmentSize(1460));
    expect_element(&rt, 3, &[7], WindowScale(7));
    expect_element(&rt, 4, &[], SelectiveAcknowledgementPermitted);
    expect_blocks(&rt, 8, [None, None, None]);
    expect_blocks(&rt, 16, [Some((3, 4)), None, None]);
    expect_blocks(&rt, 24, [Some((3, 4)), Some((5, 6)), None]);
    expect_blocks(&rt, 32, [Some((3, 4)), Some((5, 6)), Some((7, 8))]);
    expect_element(&rt, 8, bytes_to(&rt, &NUMBERS, 8), Timestamp(1, 2));
    for row in &NO_ELEMENTS {
        expect_no_element(&rt, row.0, row.1, &row.2);
    }
    expect_no_elements_of(&rt, &NUMBERS, &NO_ELEMENTS_OF_NUMBERS);
    expect_no_elements_of(&rt, &LONG, &NO_ELEMENTS_OF_LONG);
}

/// Tests the rows of a kind, a length and an error. The first bytes of `value` with this length are not an element of this kind.
fn expect_no_elements_of(rt: &impl Abort, value: &[u8], rows: &[(u8, usize, TcpOptionReadError)]) {
    for row in rows {
        expect_no_element(rt, row.0, bytes_to(rt, value, row.1), &row.2);
    }
}

/// Tests that both iterators read the same first element, or that neither reads an element. Returns whether there is an element.
fn expect_same_element(rt: &impl Abort, kind: u8, len: u8) -> bool {
    let mut bytes = [0xA5; 35];
    bytes[0] = kind;
    bytes[1] = len;
    let item = match TcpRawOptionsIterator::from_slice(&bytes).next() {
        Some(option) => Some(expect_ok(rt, option).element()),
        None => None,
    };
    let is_element = match &item {
        Some(Ok(_)) => true,
        _ => false,
    };
    let other = TcpOptionsIterator::from_slice(&bytes).next();
    expect_at(rt, &(kind, len), &item, &other);
    is_element
}

#[test]
fn elements_of_options_are_those_of_the_other_iterator(rt: HostRuntime) {
    let mut elements = 0usize;
    for kind in 0..=u8::MAX {
        for len in 2..=35u8 {
            elements = elements.saturating_add(usize::from(expect_same_element(&rt, kind, len)));
        }
    }
    // Kind 1 with each length byte, four lengths of kind 5, and one length of each of the four other kinds.
    expect_equal(&rt, &elements, &42);
}

static SHOWN: [u8; 7] = [1, 34, 4, 7, 8, 254, 1];

/// Kinds and values that differ from the second option of `SHOWN`.
static UNLIKE: [(u8, &[u8]); 3] = [(34, &[7, 9]), (35, &[7, 8]), (34, &[7])];

#[rattlefmt::skip]
static TEXTS: [(TcpRawOptionError, &str); 3] = [
    (TcpRawOptionError::NoLengthByte { kind: 254 }, "TcpRawOptionError: The option of kind 254 has no length byte."),
    (TcpRawOptionError::LengthBelowTwo { kind: 254, len: 1 }, "TcpRawOptionError: The length of the option of kind 254 is 1, which is below 2."),
    (TcpRawOptionError::LengthBeyondEnd { kind: 254, len: 5, available: 4 }, "TcpRawOptionError: The length of the option of kind 254 is 5, and only 4 bytes are left."),
];

#[test]
fn raw_options_are_cloned_compared_and_shown(rt: HostRuntime) {
    let mut read = TcpRawOptionsIterator::from_slice(&SHOWN);
    expect_equal(&rt, &read.size_hint(), &(0, None));
    expect_debug_text(
        &rt,
        &read,
        "[TcpRawOption { kind: 1, value: [] }, TcpRawOption { kind: 34, value: [7, 8] }, Err(LengthBelowTwo { kind: 254, len: 1 })]",
    );
    let copy = expect_ok(&rt, read.clone());
    expect_equal(&rt, &copy, &read);
    expect_option(&rt, &mut read, 1, &[]);
    expect_equal(&rt, &(copy == read), &false);
    expect_unlike(&rt, &expect_ok(&rt, expect_some(&rt, read.next())));
    for row in &TEXTS {
        expect_error_text(&rt, &row.0, row.1);
    }
}

/// Tests that the option equals its clone, and differs from each option in `UNLIKE`.
fn expect_unlike(rt: &impl Abort, cookie: &TcpRawOption<'_>) {
    expect_clone(rt, cookie);
    for (kind, value) in &UNLIKE {
        let other = TcpRawOption { kind: *kind, value };
        expect_equal(rt, &(other == *cookie), &false);
    }
}

/// Tests that the error equals its clone, and that both calls show it as this text.
fn expect_error_text(rt: &(impl Abort + AllocGlobal), error: &TcpRawOptionError, expected: &str) {
    expect_clone(rt, error);
    expect_text(rt, error, expected);
    expect_text(rt, &error.text(), expected);
}
