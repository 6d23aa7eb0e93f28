//! The comparisons of tests, and the functions that build their bytes.

use std::alloc::{AllocError, Global};
use std::fmt::{Debug, Display};
use std::process::Abort;

/// Stops the test unless the value is the expected one.
pub fn expect_equal<T: PartialEq + Debug>(rt: &impl Abort, value: &T, expected: &T) {
    assert_eq!(rt; value, expected);
}

/// Stops the test unless the value is the expected one. The message names the key, such as the row of a table.
pub fn expect_at<K: Debug, T: PartialEq + Debug>(
    rt: &impl Abort,
    key: &K,
    value: &T,
    expected: &T,
) {
    assert_eq!(rt; value, expected, "at {key:?}");
}

/// Stops the test unless these are the expected bytes.
pub fn expect_bytes(rt: &impl Abort, bytes: &[u8], expected: &[u8]) {
    if !are_same(bytes, expected) {
        expect_equal(rt, &bytes, &expected);
    }
}

/// Whether both are the same bytes. In a checked build `==` makes several calls for each byte, and the sweeps compare many bytes.
pub fn are_same(bytes: &[u8], others: &[u8]) -> bool {
    let len = bytes.len();
    if len != others.len() {
        return false;
    }
    let mut place = 0;
    while place < len {
        if bytes[place] != others[place] {
            return false;
        }
        place += 1;
    }
    true
}

/// Stops the test unless the value is displayed as this text.
pub fn expect_text<T: Display>(rt: &(impl Abort + AllocGlobal), value: &T, expected: &str) {
    let text = expect_ok(rt, format!(in rt.alloc(); "{value}"));
    expect_equal(rt, &text.as_str(), &expected);
}

/// Stops the test unless this is the debug text of the value.
pub fn expect_debug_text<T: Debug>(rt: &(impl Abort + AllocGlobal), value: &T, expected: &str) {
    let text = expect_ok(rt, format!(in rt.alloc(); "{value:?}"));
    expect_equal(rt, &text.as_str(), &expected);
}

/// Stops the test unless these bytes are the expected text.
pub fn expect_written(rt: &impl Abort, bytes: &[u8], expected: &str) {
    let text = expect_ok(rt, std::str::from_utf8(bytes));
    expect_equal(rt, &text, &expected);
}

/// Stops the test unless these bytes are the expected texts, one after the other.
pub fn expect_all_written(rt: &(impl Abort + AllocGlobal), bytes: &[u8], expected: &[&str]) {
    let text = joined_texts(rt, expected);
    expect_written(rt, bytes, expect_ok(rt, std::str::from_utf8(&text)));
}

/// Stops the test unless a clone of the value is Ok and the same value.
pub fn expect_clone<T: Clone + PartialEq + Debug + Drop>(rt: &impl Abort, value: &T) {
    let copy = expect_ok(rt, value.clone());
    expect_equal(rt, &copy, value);
}

/// Returns the value. Stops the test if the option is `None`.
pub fn expect_some<T>(rt: &impl Abort, value: Option<T>) -> T {
    value.expect(rt, "there is no value")
}

/// Returns the value of a result. Stops the test if it is an error.
pub fn expect_ok<T, E: Debug>(rt: &impl Abort, outcome: Result<T, E>) -> T {
    outcome.expect(rt, "there is an error")
}

/// Returns the bytes from this place on. Stops the test if there are fewer.
pub fn bytes_from<'a>(rt: &impl Abort, bytes: &'a [u8], start: usize) -> &'a [u8] {
    expect_some(rt, bytes.get(start..))
}

/// Returns the first `end` bytes. Stops the test if there are fewer.
pub fn bytes_to<'a>(rt: &impl Abort, bytes: &'a [u8], end: usize) -> &'a [u8] {
    expect_some(rt, bytes.get(..end))
}

/// Returns the bytes from the one place to the other. Stops the test if there are fewer.
pub fn bytes_between<'a>(rt: &impl Abort, bytes: &'a [u8], start: usize, end: usize) -> &'a [u8] {
    expect_some(rt, bytes.get(start..end))
}

/// Appends these bytes.
pub fn append(rt: &impl Abort, bytes: &mut Vec<u8>, part: &[u8]) {
    expect_ok(rt, bytes.extend_from_slice(part));
}

/// Returns the parts, one after the other. Stops the test if no memory is left.
pub fn joined(rt: &(impl Abort + AllocGlobal), parts: &[&[u8]]) -> Vec<u8> {
    expect_ok(rt, joined_in(rt.alloc(), parts))
}

/// Returns the parts, one after the other.
pub fn joined_in(alloc: Global, parts: &[&[u8]]) -> Result<Vec<u8>, AllocError> {
    let mut bytes = Vec::new(alloc);
    for part in parts {
        bytes.extend_from_slice(part)?;
    }
    Ok(bytes)
}

/// Returns the bytes of these texts, one after the other.
pub fn joined_texts(rt: &(impl Abort + AllocGlobal), texts: &[&str]) -> Vec<u8> {
    let mut bytes = Vec::new(rt.alloc());
    for text in texts {
        append(rt, &mut bytes, text.as_bytes());
    }
    bytes
}
