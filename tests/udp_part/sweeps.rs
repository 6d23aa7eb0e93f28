//! Reads UDP packets of every length up to 12 bytes, with every length field up to 13. The results are compared with plain functions, which
//! were written from the format tables, not from the library.

use super::len_error;
use crate::expect::{
    bytes_from, bytes_to, expect_at, expect_bytes, expect_equal, expect_ok, expect_some,
};
use etherparse_transport::err::{Layer, LenError};
use etherparse_transport::{LenSource, UdpHeader, UdpHeaderSlice, UdpSlice};
use std::process::Abort;

/// Returns the error for fewer bytes than a header has.
fn short(len: usize) -> LenError {
    len_error(8, len, LenSource::Slice, Layer::UdpHeader)
}

/// Returns how many of `len` bytes the strict call keeps if the length field is `length`. There are at least the 8 bytes of the header.
fn kept_by_strict(len: usize, length: u8) -> Result<usize, LenError> {
    let field = usize::from(length);
    if field > len {
        return Err(len_error(field, len, LenSource::Slice, Layer::UdpPayload));
    }
    match field {
        0 => Ok(len),
        1..=7 => Err(len_error(8, field, LenSource::UdpHeaderLen, Layer::UdpHeader)),
        _ => Ok(field),
    }
}

/// Returns how many of `len` bytes the lax call keeps if the length field is `length`. There are at least the 8 bytes of the header.
fn kept_by_lax(len: usize, length: u8) -> usize {
    let field = usize::from(length);
    if (8..=len).contains(&field) {
        field
    } else {
        len
    }
}

/// Returns twelve bytes that all differ, with this length field.
fn packet(length: u8) -> [u8; 12] {
    [11, 12, 13, 14, 0, length, 17, 18, 19, 20, 21, 22]
}

/// Tests that the call returned this error. The key consists of the length field and the length of the slice.
fn expect_error(rt: &impl Abort, key: &(u8, usize), error: Option<LenError>, expected: &LenError) {
    expect_at(rt, key, &expect_some(rt, error), expected);
}

/// Tests that each of the five calls refuses these bytes, which are shorter than a header.
fn expect_short(rt: &impl Abort, slice: &[u8]) {
    let key = &(8, slice.len());
    let expected = &short(slice.len());
    expect_error(rt, key, UdpHeader::from_slice(slice).err(), expected);
    expect_error(rt, key, UdpHeader::read_from_slice(slice).err(), expected);
    expect_error(rt, key, UdpHeaderSlice::from_slice(slice).err(), expected);
    expect_error(rt, key, UdpSlice::from_slice(slice).err(), expected);
    expect_error(rt, key, UdpSlice::from_slice_lax(slice).err(), expected);
}

#[test]
fn every_length_below_the_header_is_refused(rt: HostRuntime) {
    let bytes = packet(8);
    let mut refused = 0usize;
    for len in 0..8usize {
        expect_short(&rt, bytes_to(&rt, &bytes, len));
        refused = refused.saturating_add(1);
    }
    expect_equal(&rt, &refused, &8);
}

/// Tests that the strict call keeps this many bytes.
fn expect_kept(rt: &impl Abort, slice: &[u8], kept: usize) {
    let strict = expect_ok(rt, UdpSlice::from_slice(slice));
    expect_bytes(rt, strict.slice(), bytes_to(rt, slice, kept));
}

/// Tests the strict call. Returns the expected result: the number of kept bytes, or the error.
fn expect_strict(rt: &impl Abort, slice: &[u8], length: u8) -> Result<usize, LenError> {
    let expected = kept_by_strict(slice.len(), length);
    match &expected {
        Ok(kept) => expect_kept(rt, slice, *kept),
        Err(error) => {
            let key = &(length, slice.len());
            expect_error(rt, key, UdpSlice::from_slice(slice).err(), error);
        }
    }
    expected
}

/// Tests that the lax call keeps the bytes that the length field counts. If the length field is invalid, the call keeps all bytes.
fn expect_lax(rt: &impl Abort, slice: &[u8], length: u8) {
    let kept = kept_by_lax(slice.len(), length);
    let front = bytes_to(rt, slice, kept);
    let lax = &expect_ok(rt, UdpSlice::from_slice_lax(slice));
    expect_bytes(rt, lax.slice(), front);
    expect_bytes(rt, lax.payload(), bytes_from(rt, front, 8));
    let source = if kept == usize::from(length) {
        LenSource::UdpHeaderLen
    } else {
        LenSource::Slice
    };
    expect_equal(rt, &lax.payload_len_source(), &source);
}

/// Tests that the header contains the fields of `packet`, whatever the length field is.
fn expect_header(rt: &impl Abort, slice: &[u8], length: u8) {
    let expected = UdpHeader {
        source_port: 0x0B0C,
        destination_port: 0x0D0E,
        length: u16::from(length),
        checksum: 0x1112,
    };
    let (header, rest) = expect_ok(rt, UdpHeader::from_slice(slice));
    expect_equal(rt, &header, &expected);
    expect_bytes(rt, rest, bytes_from(rt, slice, 8));
}

/// The numbers of packets with each result: accepted, a length field below the length of the header, and a length field above the length of
/// the slice.
type Counts = (usize, usize, usize);

/// Returns the counts after a packet with this expected result.
fn counted(counts: Counts, expected: &Result<usize, LenError>) -> Counts {
    let (accepted, below_header, above_slice) = counts;
    match expected {
        Ok(_) => (accepted.saturating_add(1), below_header, above_slice),
        Err(error) => match error.layer {
            Layer::UdpPayload => (accepted, below_header, above_slice.saturating_add(1)),
            _ => (accepted, below_header.saturating_add(1), above_slice),
        },
    }
}

#[test]
fn every_length_field_is_kept_or_refused(rt: HostRuntime) {
    let mut counts = (0, 0, 0);
    let mut accepted_lax = 0usize;
    for len in 8..13usize {
        for length in 0..14u8 {
            let bytes = packet(length);
            let slice = bytes_to(&rt, &bytes, len);
            counts = counted(counts, &expect_strict(&rt, slice, length));
            expect_lax(&rt, slice, length);
            expect_header(&rt, slice, length);
            accepted_lax = accepted_lax.saturating_add(1);
        }
    }
    expect_equal(&rt, &counts, &(20, 35, 15));
    expect_equal(&rt, &accepted_lax, &70);
}
