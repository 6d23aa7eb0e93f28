//! Errors of TCP headers and of TCP options.

use crate::expect::{
    expect_at, expect_clone, expect_debug_text, expect_equal, expect_ok, expect_text,
};
use etherparse_transport::err::tcp::{HeaderError, HeaderSliceError};
use etherparse_transport::err::{Layer, LenError};
use etherparse_transport::{LenSource, TcpOptionReadError, TcpOptionWriteError};
use std::hash::{DefaultHasher, Hash, Hasher};
use std::process::Abort;

fn hash_of<T: Hash>(value: &T) -> u64 {
    let mut state = DefaultHasher::new();
    value.hash(&mut state);
    state.finish()
}

fn too_small(data_offset: u8) -> HeaderError {
    HeaderError::DataOffsetTooSmall { data_offset }
}

/// A length error of the TCP header.
fn cut_off() -> HeaderSliceError {
    HeaderSliceError::Len(LenError {
        required_len: 20,
        len: 19,
        len_source: LenSource::Slice,
        layer: Layer::TcpHeader,
        layer_start_offset: 14,
    })
}

/// The values differ, and their hashes do.
fn expect_unlike<T: PartialEq + Hash>(rt: &impl Abort, first: &T, second: &T) {
    let is_same = (*first == *second, hash_of(first) == hash_of(second));
    expect_equal(rt, &is_same, &(false, false));
}

#[test]
fn errors_of_a_tcp_header(rt: HostRuntime) {
    let text =
        "TCP Header Error: 'data offset' too small (4). The 'data offset' must be at least 5 so the data is not overlapping with the TCP header itself.";
    expect_text(&rt, &too_small(4), text);
    expect_text(&rt, &too_small(4).text(), text);
    expect_clone(&rt, &too_small(4));
    let content = HeaderSliceError::Content(too_small(4));
    expect_text(&rt, &content, text);
    expect_text(&rt, &content.text(), text);
    expect_debug_text(
        &rt,
        &content,
        "Content(DataOffsetTooSmall { data_offset: 4 })",
    );

    let len = cut_off();
    expect_text(
        &rt,
        &len,
        "Length Error: layer TcpHeader at offset 14 requires length 20, the length is 19 (from Slice).",
    );
    let copy = expect_ok(&rt, len.clone());
    expect_equal(&rt, &copy, &len);
    expect_equal(&rt, &hash_of(&copy), &hash_of(&len));
    expect_unlike(&rt, &len, &content);
    expect_unlike(&rt, &too_small(3), &too_small(4));
}

#[test]
fn offsets_are_added_to_lengths_alone(rt: HostRuntime) {
    let error = LenError {
        required_len: 1,
        len: 2,
        len_source: LenSource::Slice,
        layer: Layer::Icmpv4,
        layer_start_offset: 3,
    };
    let moved = LenError {
        required_len: 1,
        len: 2,
        len_source: LenSource::Slice,
        layer: Layer::Icmpv4,
        layer_start_offset: 203,
    };
    expect_equal(
        &rt,
        &HeaderSliceError::Len(error).add_slice_offset(200),
        &HeaderSliceError::Len(moved),
    );
    let content = HeaderError::DataOffsetTooSmall { data_offset: 4 };
    expect_equal(
        &rt,
        &HeaderSliceError::Content(content).add_slice_offset(usize::MAX),
        &HeaderSliceError::Content(HeaderError::DataOffsetTooSmall { data_offset: 4 }),
    );
}

/// Pairs of errors that differ.
#[rattlefmt::skip]
static OPTION_ERRORS: [[TcpOptionReadError; 2]; 8] = [
    [
        TcpOptionReadError::UnexpectedEndOfSlice { option_id: 2, expected_len: 4, actual_len: 3 },
        TcpOptionReadError::UnexpectedEndOfSlice { option_id: 3, expected_len: 4, actual_len: 3 },
    ],
    [
        TcpOptionReadError::UnexpectedEndOfSlice { option_id: 2, expected_len: 4, actual_len: 3 },
        TcpOptionReadError::UnexpectedEndOfSlice { option_id: 2, expected_len: 5, actual_len: 3 },
    ],
    [
        TcpOptionReadError::UnexpectedEndOfSlice { option_id: 2, expected_len: 4, actual_len: 3 },
        TcpOptionReadError::UnexpectedEndOfSlice { option_id: 2, expected_len: 4, actual_len: 1 },
    ],
    [TcpOptionReadError::UnexpectedSize { option_id: 2, size: 3 }, TcpOptionReadError::UnexpectedSize { option_id: 3, size: 3 }],
    [TcpOptionReadError::UnexpectedSize { option_id: 2, size: 3 }, TcpOptionReadError::UnexpectedSize { option_id: 2, size: 5 }],
    [
        TcpOptionReadError::UnexpectedSize { option_id: 2, size: 3 },
        TcpOptionReadError::UnexpectedEndOfSlice { option_id: 2, expected_len: 4, actual_len: 3 },
    ],
    [TcpOptionReadError::UnknownId(2), TcpOptionReadError::UnknownId(3)],
    [TcpOptionReadError::UnknownId(2), TcpOptionReadError::UnexpectedSize { option_id: 2, size: 3 }],
];

#[test]
fn every_field_of_an_option_error_is_compared(rt: HostRuntime) {
    for pair in &OPTION_ERRORS {
        expect_at(&rt, pair, &(pair[0] == pair[1]), &false);
    }
    let (error, other) = (
        TcpOptionWriteError::NotEnoughSpace(41),
        TcpOptionWriteError::NotEnoughSpace(42),
    );
    expect_equal(&rt, &(error == other), &false);
}

#[rattlefmt::skip]
static OPTION_ERROR_TEXTS: [(TcpOptionReadError, &str); 3] = [
    (
        TcpOptionReadError::UnexpectedEndOfSlice { option_id: 2, expected_len: 4, actual_len: 3 },
        "TcpOptionReadError: Not enough memory left in slice to read option of kind 2 (expected at least 4 bytes, only 3 bytes available).",
    ),
    (
        TcpOptionReadError::UnexpectedSize { option_id: 5, size: 11 },
        "TcpOptionReadError: Length value of the option of kind 5 had unexpected value 11.",
    ),
    (TcpOptionReadError::UnknownId(255), "TcpOptionReadError: Unknown tcp option kind value 255."),
];

#[test]
fn option_errors_have_their_texts(rt: HostRuntime) {
    for (error, expected) in &OPTION_ERROR_TEXTS {
        expect_text(&rt, error, expected);
        expect_text(&rt, &error.text(), expected);
        expect_clone(&rt, error);
    }
    let error = TcpOptionWriteError::NotEnoughSpace(41);
    let expected =
        "TcpOptionWriteError: Not enough memory to store all options in the options section of a tcp header (maximum 40 bytes can be stored, the options would have needed 41 bytes).";
    expect_text(&rt, &error, expected);
    expect_text(&rt, &error.text(), expected);
    expect_debug_text(&rt, &error, "NotEnoughSpace(41)");
    expect_clone(&rt, &error);
}
