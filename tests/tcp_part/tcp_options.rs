mod raw_options;
mod sweeps;

use crate::expect::{
    bytes_from, bytes_to, expect_at, expect_bytes, expect_clone, expect_debug_text, expect_equal,
    expect_ok, expect_some,
};
use etherparse_transport::TcpOptionElement::{
    MaximumSegmentSize, Noop, SelectiveAcknowledgement, SelectiveAcknowledgementPermitted,
    Timestamp, WindowScale,
};
use etherparse_transport::TcpOptionReadError::{UnexpectedEndOfSlice, UnexpectedSize, UnknownId};
use etherparse_transport::err::{Layer, LenError, LenSource};
use etherparse_transport::{
    TcpOptionElement, TcpOptionReadError, TcpOptionWriteError, TcpOptions, TcpOptionsIterator,
    tcp_option,
};
use std::hash::{DefaultHasher, Hash, Hasher};
use std::process::Abort;

/// The options of these bytes.
fn options_of(rt: &impl Abort, bytes: &[u8]) -> TcpOptions {
    expect_ok(rt, TcpOptions::try_from_slice(bytes))
}

/// The options with these elements.
fn options_with(rt: &impl Abort, elements: &[TcpOptionElement]) -> TcpOptions {
    expect_ok(rt, TcpOptions::try_from_elements(elements))
}

/// The iteration gives these elements, and then the end.
fn expect_elements(rt: &impl Abort, options: &TcpOptions, elements: &[TcpOptionElement]) {
    let mut items = options.elements_iter();
    for element in elements {
        expect_element(rt, &mut items, element);
    }
    expect_end(rt, &mut items);
}

/// The next item is this element.
fn expect_element(rt: &impl Abort, items: &mut TcpOptionsIterator<'_>, element: &TcpOptionElement) {
    expect_equal(rt, &expect_ok(rt, expect_some(rt, items.next())), element);
}

/// There is no next item, and no bytes are left after it.
fn expect_end(rt: &impl Abort, items: &mut TcpOptionsIterator<'_>) {
    expect_equal(rt, &items.next(), &None);
    expect_bytes(rt, items.rest(), &[]);
}

#[test]
fn the_example_of_tcp_options(rt: HostRuntime) {
    let elements = [MaximumSegmentSize(1460), Noop, WindowScale(7)];
    let options = options_with(&rt, &elements);
    expect_equal(
        &rt,
        &options.as_slice(),
        &[2, 4, 0x05, 0xB4, 1, 3, 3, 7].as_slice(),
    );
    expect_equal(&rt, &options.data_offset(), &7);
    expect_elements(&rt, &options, &elements);
}

/// A slice, the bytes of its options, and the data offset.
#[rattlefmt::skip]
static PADDED: [(&[u8], &[u8], u8); 5] = [
    (&[1], &[1, 0, 0, 0], 6),
    (&[], &[], 5),
    (&[1, 2, 3, 4, 5, 6, 7, 8], &[1, 2, 3, 4, 5, 6, 7, 8], 7),
    (&[9, 9, 9, 9, 9], &[9, 9, 9, 9, 9, 0, 0, 0], 7),
    (&[0; 40], &[0; 40], 15),
];

fn expect_padded(rt: &impl Abort, row: &(&[u8], &[u8], u8)) {
    let (slice, bytes, data_offset) = *row;
    let options = &options_of(rt, slice);
    let lengths = [options.len(), usize::from(options.len_u8())];
    expect_equal(rt, &lengths, &[bytes.len(), bytes.len()]);
    expect_equal(rt, &options.is_empty(), &bytes.is_empty());
    expect_equal(rt, &options.data_offset(), &data_offset);
    expect_bytes(rt, options.as_slice(), bytes);
    expect_bytes(rt, options.elements_iter().rest(), bytes);
    expect_equal(rt, &expect_ok(rt, TcpOptions::try_from(slice)), options);
    expect_clone(rt, options);
}

#[test]
fn slices_are_padded(rt: HostRuntime) {
    for row in &PADDED {
        expect_padded(&rt, row);
    }
    expect_too_long(&rt, &[0; 41]);
    expect_clone(&rt, &TcpOptionWriteError::NotEnoughSpace(41));
    expect_bytes(&rt, TcpOptions::new().as_slice(), &[]);
    expect_equal(&rt, &TcpOptions::default(), &TcpOptions::new());
}

/// Both calls refuse a slice of 41 bytes.
fn expect_too_long(rt: &impl Abort, slice: &[u8]) {
    expect_refused(rt, TcpOptions::try_from_slice(slice), 41);
    expect_refused(rt, TcpOptions::try_from(slice), 41);
}

/// The call refuses options of this many bytes.
fn expect_refused(
    rt: &impl Abort,
    outcome: Result<TcpOptions, TcpOptionWriteError>,
    needed: usize,
) {
    expect_equal(
        rt,
        &outcome,
        &Err(TcpOptionWriteError::NotEnoughSpace(needed)),
    );
}

/// The options have this length, and each byte is the length.
fn expect_filled(rt: &impl Abort, options: &TcpOptions, len: u8) {
    let is_filled = options.as_slice().iter().all(|&byte| byte == len);
    expect_equal(rt, &(options.len_u8(), is_filled), &(len, true));
}

#[test]
fn arrays_are_options(rt: HostRuntime) {
    expect_filled(&rt, &TcpOptions::from([4; 4]), 4);
    expect_filled(&rt, &TcpOptions::from([8; 8]), 8);
    expect_filled(&rt, &TcpOptions::from([12; 12]), 12);
    expect_filled(&rt, &TcpOptions::from([16; 16]), 16);
    expect_filled(&rt, &TcpOptions::from([20; 20]), 20);
    expect_filled(&rt, &TcpOptions::from([24; 24]), 24);
    expect_filled(&rt, &TcpOptions::from([28; 28]), 28);
    expect_filled(&rt, &TcpOptions::from([32; 32]), 32);
    expect_filled(&rt, &TcpOptions::from([36; 36]), 36);
    expect_filled(&rt, &TcpOptions::from([40; 40]), 40);
    let mut options = TcpOptions::from([1, 2, 3, 4]);
    options.as_mut_slice()[0] = 5;
    expect_equal(&rt, &options.as_slice(), &[5, 2, 3, 4].as_slice());
    expect_equal(&rt, &options.len(), &4);
}

/// These two options compare as their places do.
fn expect_order(rt: &impl Abort, places: (usize, usize), first: &TcpOptions, second: &TcpOptions) {
    let (i, j) = places;
    let order = (
        first.cmp(second),
        first.partial_cmp(second),
        *first < *second,
    );
    expect_equal(
        rt,
        &(places, order),
        &(places, (i.cmp(&j), Some(i.cmp(&j)), i < j)),
    );
    let is_same = (*first == *second, hash_of(first) == hash_of(second));
    expect_equal(rt, &(places, is_same), &(places, (i == j, i == j)));
}

#[test]
fn options_are_ordered_by_their_bytes(rt: HostRuntime) {
    let rising = [
        TcpOptions::new(),
        TcpOptions::from([1, 0, 0, 0]),
        TcpOptions::from([1, 0, 0, 0, 0, 0, 0, 0]),
        TcpOptions::from([2, 0, 0, 0]),
    ];
    for (i, first) in rising.iter().enumerate() {
        for (j, second) in rising.iter().enumerate() {
            expect_order(&rt, (i, j), first, second);
        }
    }
}

fn hash_of(options: &TcpOptions) -> u64 {
    let mut state = DefaultHasher::new();
    options.hash(&mut state);
    state.finish()
}

/// The elements are written as the bytes, and read back.
fn expect_written(rt: &impl Abort, elements: &[TcpOptionElement], bytes: &[u8]) {
    let options = options_with(rt, elements);
    expect_equal(rt, &options.as_slice(), &bytes);
    expect_equal(rt, &expect_ok(rt, TcpOptions::try_from(elements)), &options);
    expect_elements(rt, &options, elements);
}

#[test]
fn elements_are_written_and_read_back(rt: HostRuntime) {
    expect_written(&rt, &[], &[]);
    expect_written(
        &rt,
        &[WindowScale(123), Noop, Noop],
        &[3, 3, 123, 1, 1, 0, 0, 0],
    );
    // The options that a common kernel sends.
    expect_written(
        &rt,
        &[
            MaximumSegmentSize(1460),
            SelectiveAcknowledgementPermitted,
            Timestamp(1, 0),
            Noop,
            WindowScale(7),
        ],
        &[
            2, 4, 0x05, 0xB4, 4, 2, 8, 10, 0, 0, 0, 1, 0, 0, 0, 0, 1, 3, 3, 7,
        ],
    );
    expect_written(
        &rt,
        &[Timestamp(30, 31)],
        &[8, 10, 0, 0, 0, 30, 0, 0, 0, 31, 0, 0],
    );
    expect_written(
        &rt,
        &[SelectiveAcknowledgement((1, 2), [None, None, None])],
        &[5, 10, 0, 0, 0, 1, 0, 0, 0, 2, 0, 0],
    );
    expect_written(
        &rt,
        &[SelectiveAcknowledgement((1, 2), [Some((3, 4)), None, None])],
        &[5, 18, 0, 0, 0, 1, 0, 0, 0, 2, 0, 0, 0, 3, 0, 0, 0, 4, 0, 0],
    );
    expect_written(
        &rt,
        &[SelectiveAcknowledgement((1, 2), [Some((3, 4)), Some((5, 6)), None])],
        &[
            5, 26, 0, 0, 0, 1, 0, 0, 0, 2, 0, 0, 0, 3, 0, 0, 0, 4, 0, 0, 0, 5, 0, 0, 0, 6, 0, 0,
        ],
    );
    expect_written(
        &rt,
        &[SelectiveAcknowledgement(
            (1, 2),
            [Some((3, 4)), Some((5, 6)), Some((0xFFFF_FFFF, 0x0102_0304))],
        )],
        &[
            5, 34, 0, 0, 0, 1, 0, 0, 0, 2, 0, 0, 0, 3, 0, 0, 0, 4, 0, 0, 0, 5, 0, 0, 0, 6, 255,
            255, 255, 255, 1, 2, 3, 4, 0, 0,
        ],
    );
}

/// The elements need this many bytes, and are refused by both calls.
fn expect_no_space(rt: &impl Abort, elements: &[TcpOptionElement], needed: usize) {
    expect_refused(rt, TcpOptions::try_from_elements(elements), needed);
    expect_refused(rt, TcpOptions::try_from(elements), needed);
}

#[test]
fn elements_fill_all_forty_bytes(rt: HostRuntime) {
    let timestamps = [
        Timestamp(1, 2),
        Timestamp(1, 2),
        Timestamp(1, 2),
        Timestamp(1, 2),
        Noop,
    ];
    let options = options_with(&rt, expect_some(&rt, timestamps.get(..4)));
    expect_equal(&rt, &options.len(), &40);
    let last = bytes_from(&rt, options.as_slice(), 30);
    expect_equal(&rt, &last, &[8, 10, 0, 0, 0, 1, 0, 0, 0, 2].as_slice());
    expect_no_space(&rt, &timestamps, 41);
    expect_forty_noops(&rt, &[const { Noop }; 41]);
    let blocks = [
        SelectiveAcknowledgement((1, 2), [Some((3, 4)), Some((5, 6)), Some((7, 8))]),
        SelectiveAcknowledgement((1, 2), [Some((3, 4)), Some((5, 6)), Some((7, 8))]),
    ];
    expect_no_space(&rt, &blocks, 68);
}

/// There is room for the first forty elements, each of one byte.
fn expect_forty_noops(rt: &impl Abort, elements: &[TcpOptionElement; 41]) {
    let noops = options_with(rt, expect_some(rt, elements.get(..40)));
    expect_equal(rt, &noops, &TcpOptions::from([tcp_option::KIND_NOOP; 40]));
    expect_no_space(rt, elements, 41);
}

#[test]
fn absent_blocks_are_read_back_last(rt: HostRuntime) {
    let options = options_with(
        &rt,
        &[SelectiveAcknowledgement((1, 2), [None, Some((3, 4)), None])],
    );
    expect_equal(
        &rt,
        &options.as_slice(),
        &[5, 18, 0, 0, 0, 1, 0, 0, 0, 2, 0, 0, 0, 3, 0, 0, 0, 4, 0, 0].as_slice(),
    );
    let read = [SelectiveAcknowledgement((1, 2), [Some((3, 4)), None, None])];
    let first = options.elements_iter().next();
    expect_equal(&rt, &first, &Some(Ok(expect_ok(&rt, read[0].clone()))));
    expect_equal(&rt, &options_with(&rt, &read), &options);
}

/// Bytes that are read as one Noop.
#[rattlefmt::skip]
static ONE_NOOP: [&[u8]; 4] = [&[1, 0, 0, 0], &[1, 0, 7, 7], &[1, 0, 0, 0, 0, 0, 0, 0], &[1, 0, 7, 7, 9, 9, 9, 9]];

/// Bytes from which no element is read.
static NO_ELEMENT: [&[u8]; 2] = [&[], &[0, 0, 0, 0]];

/// The bytes are read as these elements, and are not below the least options of these elements.
fn expect_spelling(
    rt: &impl Abort,
    bytes: &[u8],
    elements: &[TcpOptionElement],
    least: &TcpOptions,
) {
    let options = &options_of(rt, bytes);
    expect_elements(rt, options, elements);
    expect_equal(rt, &(*least <= *options), &true);
}

#[test]
fn elements_have_one_least_spelling(rt: HostRuntime) {
    let one_noop = options_with(&rt, &[Noop]);
    expect_equal(&rt, &one_noop.as_slice(), &[1, 0, 0, 0].as_slice());
    for bytes in &ONE_NOOP {
        expect_spelling(&rt, bytes, &[Noop], &one_noop);
    }
    let none = options_with(&rt, &[]);
    expect_equal(&rt, &none.is_empty(), &true);
    for bytes in &NO_ELEMENT {
        expect_spelling(&rt, bytes, &[], &none);
    }
}

fn end_of_slice(option_id: u8, expected_len: u8, actual_len: usize) -> TcpOptionReadError {
    TcpOptionReadError::UnexpectedEndOfSlice {
        option_id,
        expected_len,
        actual_len,
    }
}

fn wrong_size(option_id: u8, size: u8) -> TcpOptionReadError {
    TcpOptionReadError::UnexpectedSize { option_id, size }
}

/// The options are written to a slice of this length, or the slice stays as it was.
fn expect_in_slice(rt: &impl Abort, options: &TcpOptions, bytes: &[u8], len: usize) {
    let mut buffer = [0xAA; 41];
    let written = options.write_to_slice(expect_some(rt, buffer.get_mut(..len)));
    let mut expected = [0xAA; 41];
    let result = if len < bytes.len() {
        Err(LenError {
            required_len: bytes.len(),
            len,
            len_source: LenSource::Slice,
            layer: Layer::TcpHeader,
            layer_start_offset: 0,
        })
    } else {
        if let Some(front) = expected.get_mut(..bytes.len()) {
            front.copy_from_slice(bytes);
        }
        Ok(bytes.len())
    };
    expect_at(rt, &len, &written, &result);
    expect_at(rt, &len, &buffer, &expected);
}

#[test]
fn options_are_written_to_slices(rt: HostRuntime) {
    let ones = [0x01; 40];
    for options_len in [0, 4, 12, 40] {
        let bytes = bytes_to(&rt, &ones, options_len);
        let options = options_of(&rt, bytes);
        for len in 0..42 {
            expect_in_slice(&rt, &options, bytes, len);
        }
    }
}

#[rattlefmt::skip]
static FAULTS: [(&[u8], TcpOptionReadError); 13] = [
    (&[2, 3, 0], UnexpectedEndOfSlice { option_id: 2, expected_len: 4, actual_len: 3 }),
    (&[2, 3, 0, 0], UnexpectedSize { option_id: 2, size: 3 }),
    (&[5], UnexpectedEndOfSlice { option_id: 5, expected_len: 2, actual_len: 1 }),
    (&[5, 11], UnexpectedSize { option_id: 5, size: 11 }),
    (&[5, 10, 0], UnexpectedEndOfSlice { option_id: 5, expected_len: 10, actual_len: 3 }),
    (&[5, 42, 0], UnexpectedSize { option_id: 5, size: 42 }),
    (&[4], UnexpectedEndOfSlice { option_id: 4, expected_len: 2, actual_len: 1 }),
    (&[4, 3], UnexpectedSize { option_id: 4, size: 3 }),
    (&[3, 3], UnexpectedEndOfSlice { option_id: 3, expected_len: 3, actual_len: 2 }),
    (&[8, 10, 0, 0, 0, 0, 0, 0, 0], UnexpectedEndOfSlice { option_id: 8, expected_len: 10, actual_len: 9 }),
    (&[8, 9, 0, 0, 0, 0, 0, 0, 0, 0], UnexpectedSize { option_id: 8, size: 9 }),
    (&[255, 2], UnknownId(255)),
    (&[6, 6, 0, 0, 0, 0], UnknownId(6)),
];

/// The fault is the first item, and no bytes are left after it.
fn expect_fault(rt: &impl Abort, bytes: &[u8], fault: &TcpOptionReadError) {
    let mut items = TcpOptionsIterator::from_slice(bytes);
    expect_bytes(rt, items.rest(), bytes);
    expect_read_error(rt, bytes, items.next(), fault);
    expect_bytes(rt, items.rest(), &[]);
    expect_end(rt, &mut items);
}

/// The item of these bytes is this fault.
fn expect_read_error(
    rt: &impl Abort,
    bytes: &[u8],
    item: Option<Result<TcpOptionElement, TcpOptionReadError>>,
    fault: &TcpOptionReadError,
) {
    let error = expect_some(rt, expect_some(rt, item).err());
    expect_at(rt, &bytes, &error, fault);
}

#[test]
fn faults_end_the_reading(rt: HostRuntime) {
    for (bytes, fault) in &FAULTS {
        expect_fault(&rt, bytes, fault);
    }
}

#[test]
fn the_end_ends_the_reading(rt: HostRuntime) {
    let mut items = TcpOptionsIterator::from_slice(&[1, 0, 7, 7]);
    expect_element(&rt, &mut items, &Noop);
    expect_end_ahead(&rt, &items);
    expect_end(&rt, &mut items);
    expect_equal(&rt, &items.next(), &None);
    expect_equal(&rt, &items, &TcpOptionsIterator::from_slice(&[]));

    let mut items = TcpOptionsIterator::from_slice(&[8, 10, 0, 0, 0, 30, 0, 0, 0, 31]);
    expect_element(&rt, &mut items, &Timestamp(30, 31));
    expect_end(&rt, &mut items);
}

/// The bytes 0, 7 and 7 are left.
fn expect_end_ahead(rt: &impl Abort, items: &TcpOptionsIterator<'_>) {
    expect_bytes(rt, items.rest(), &[0, 7, 7]);
    expect_clone(rt, items);
    expect_equal(rt, &(*items == TcpOptionsIterator::from_slice(&[])), &false);
}

/// Elements of every kind, their numbers with the high bit set, and each with one number or block changed.
#[rattlefmt::skip]
const DIFFERENT: [TcpOptionElement; 18] = [
    Noop,
    MaximumSegmentSize(0x8000),
    MaximumSegmentSize(0x8001),
    WindowScale(0x80),
    WindowScale(0x81),
    SelectiveAcknowledgementPermitted,
    SelectiveAcknowledgement((0x8000_0000, 1), [Some((0x8000_0000, 2)), Some((3, 0x8000_0000)), Some((0x8000_0000, 4))]),
    SelectiveAcknowledgement((0x8000_0000, 9), [Some((0x8000_0000, 2)), Some((3, 0x8000_0000)), Some((0x8000_0000, 4))]),
    SelectiveAcknowledgement((9, 1), [Some((0x8000_0000, 2)), Some((3, 0x8000_0000)), Some((0x8000_0000, 4))]),
    SelectiveAcknowledgement((0x8000_0000, 1), [Some((0x8000_0000, 9)), Some((3, 0x8000_0000)), Some((0x8000_0000, 4))]),
    SelectiveAcknowledgement((0x8000_0000, 1), [Some((0x8000_0000, 2)), Some((9, 0x8000_0000)), Some((0x8000_0000, 4))]),
    SelectiveAcknowledgement((0x8000_0000, 1), [Some((0x8000_0000, 2)), Some((3, 0x8000_0000)), Some((0x8000_0000, 9))]),
    SelectiveAcknowledgement((0x8000_0000, 1), [None, Some((3, 0x8000_0000)), Some((0x8000_0000, 4))]),
    SelectiveAcknowledgement((0x8000_0000, 1), [Some((0x8000_0000, 2)), None, Some((0x8000_0000, 4))]),
    SelectiveAcknowledgement((0x8000_0000, 1), [Some((0x8000_0000, 2)), Some((3, 0x8000_0000)), None]),
    Timestamp(0x8000_0000, 0x8000_0000),
    Timestamp(0x8000_0000, 9),
    Timestamp(9, 0x8000_0000),
];

/// A clone of the element is the same, and its options are.
fn expect_cloned_element(rt: &impl Abort, element: &TcpOptionElement) {
    let copy = expect_ok(rt, element.clone());
    expect_equal(rt, &copy, element);
    let options = options_with(rt, &[expect_ok(rt, element.clone())]);
    expect_equal(rt, &options_with(rt, &[copy]), &options);
    let items = expect_ok(rt, options.elements_iter().clone());
    expect_equal(rt, &items.rest(), &options.as_slice());
}

#[test]
fn every_number_of_an_element_is_compared_and_cloned(rt: HostRuntime) {
    let elements = DIFFERENT;
    for (place, element) in elements.iter().enumerate() {
        expect_different(&rt, &elements, place, element);
        expect_cloned_element(&rt, element);
    }
}

/// The element is the one at this place, and differs from the others.
fn expect_different(
    rt: &impl Abort,
    elements: &[TcpOptionElement],
    place: usize,
    element: &TcpOptionElement,
) {
    for (other_place, other) in elements.iter().enumerate() {
        let is_same = *element == *other;
        expect_at(rt, &(place, other_place), &is_same, &(place == other_place));
    }
}

#[test]
fn no_count_of_items_is_promised(rt: HostRuntime) {
    let items = TcpOptionsIterator::from_slice(&[1, 1, 1, 0]);
    expect_equal(&rt, &items.size_hint(), &(0, None));
}

#[test]
fn debug_texts_are_lists_of_items(rt: HostRuntime) {
    let bytes = [2, 4, 0, 0, 3, 0, 0, 0];
    let expected = "[MaximumSegmentSize(0), Err(UnexpectedSize { option_id: 3, size: 0 })]";
    expect_debug_text(&rt, &TcpOptionsIterator::from_slice(&bytes), expected);
    expect_debug_text(&rt, &TcpOptions::from(bytes), expected);

    let blocks = SelectiveAcknowledgement((1, 2), [Some((3, 4)), Some((5, 6)), Some((7, 8))]);
    let longest = options_with(
        &rt,
        &[
            blocks,
            SelectiveAcknowledgementPermitted,
            Noop,
            WindowScale(7),
        ],
    );
    expect_equal(&rt, &longest.len(), &40);
    expect_debug_text(
        &rt,
        &longest,
        "[SelectiveAcknowledgement((1, 2), [Some((3, 4)), Some((5, 6)), Some((7, 8))]), SelectiveAcknowledgementPermitted, Noop, WindowScale(7)]",
    );
}
