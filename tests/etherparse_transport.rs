//! Tests of the crate `etherparse_transport`: all public names, and the four protocols as one.

mod borrows;
mod built_packets;
mod clones;
mod echo_replies;
mod flows;
mod fragments;
mod hop_limits;
mod icmp_errors;
mod readme;
mod replies_to_requests;
mod segment_sizes;
mod surface;
mod sweeps;
mod translations;
mod transport_header;
mod validity;
mod written_checksums;

use crate::expect::{bytes_from, expect_at, expect_bytes, expect_ok, expect_some};
use etherparse_transport::err::tcp::{HeaderError, HeaderSliceError};
use etherparse_transport::err::{Layer, LenError};
use etherparse_transport::{LenSource, Proto, canonical_header};
use std::process::Abort;

/// The error of a slice of `len` bytes where `required_len` are needed.
fn len_error(required_len: usize, len: usize, layer: Layer) -> HeaderSliceError {
    HeaderSliceError::Len(LenError {
        required_len,
        len,
        len_source: LenSource::Slice,
        layer,
        layer_start_offset: 0,
    })
}

/// The protocol, a packet, its canonical header, and how many bytes come after it.
#[rattlefmt::skip]
static CANONICAL: [(Proto, &[u8], &[u8], usize); 9] = [
    (Proto::Udp, &[0, 53, 4, 210, 0, 8, 0, 0, 0xAA], &[0, 53, 4, 210, 0, 8, 0, 0], 1),
    (Proto::Udp, &[0xFF; 8], &[0xFF; 8], 0),
    (
        Proto::Tcp,
        &[0, 0, 0, 0, 0, 0, 0, 0, 0, 0, 0, 0, 0x5F, 0, 0, 0, 0, 0, 0, 0],
        &[0, 0, 0, 0, 0, 0, 0, 0, 0, 0, 0, 0, 0x51, 0, 0, 0, 0, 0, 0, 0],
        0,
    ),
    (Proto::Tcp, &[0xFF; 80], &[
        0xFF, 0xFF, 0xFF, 0xFF, 0xFF, 0xFF, 0xFF, 0xFF, 0xFF, 0xFF, 0xFF, 0xFF, 0xF1, 0xFF, 0xFF, 0xFF, 0xFF, 0xFF, 0xFF, 0xFF,
        0xFF, 0xFF, 0xFF, 0xFF, 0xFF, 0xFF, 0xFF, 0xFF, 0xFF, 0xFF, 0xFF, 0xFF, 0xFF, 0xFF, 0xFF, 0xFF, 0xFF, 0xFF, 0xFF, 0xFF,
        0xFF, 0xFF, 0xFF, 0xFF, 0xFF, 0xFF, 0xFF, 0xFF, 0xFF, 0xFF, 0xFF, 0xFF, 0xFF, 0xFF, 0xFF, 0xFF, 0xFF, 0xFF, 0xFF, 0xFF,
    ], 20),
    (Proto::Icmpv4, &[3, 4, 0, 0, 1, 2, 5, 0xDC], &[3, 4, 0, 0, 0, 0, 5, 0xDC], 0),
    (Proto::Icmpv4, &[12, 0, 0, 0, 7, 1, 1, 1, 9], &[12, 0, 0, 0, 7, 0, 0, 0], 1),
    (Proto::Icmpv4, &[3, 16, 0, 0, 1, 2, 3, 4], &[3, 16, 0, 0, 1, 2, 3, 4], 0),
    (Proto::Icmpv6, &[0x88, 0, 0, 0, 0xFF, 0xFF, 0xFF, 0xFF], &[0x88, 0, 0, 0, 0xE0, 0, 0, 0], 0),
    (Proto::Icmpv6, &[0x85, 0, 0, 0, 1, 2, 3, 4, 0xAA], &[0x85, 0, 0, 0, 0, 0, 0, 0], 1),
];

#[test]
fn canonical_headers(rt: HostRuntime) {
    for row in &CANONICAL {
        expect_canonical(&rt, row);
    }
}

/// The packet of a row has the canonical header of the row, and as many bytes after it.
fn expect_canonical(rt: &impl Abort, row: &(Proto, &[u8], &[u8], usize)) {
    let (protocol, packet, expected, rest_len) = *row;
    let (header, rest) = expect_ok(rt, canonical_header(protocol, packet));
    expect_at(rt, row, &header.as_slice(), &expected);
    expect_at(rt, row, &rest.len(), &rest_len);
    expect_bytes(rt, rest, bytes_from(rt, packet, expected.len()));
}

/// The protocol, a packet, how many bytes are needed, how many are there, and the layer of the error.
#[rattlefmt::skip]
static TOO_SHORT: [(Proto, &[u8], usize, usize, Layer); 6] = [
    (Proto::Udp, &[0; 7], 8, 7, Layer::UdpHeader),
    (Proto::Tcp, &[0, 0, 0, 0, 0, 0, 0, 0, 0, 0, 0, 0, 0x40, 0, 0, 0, 0, 0, 0], 20, 19, Layer::TcpHeader),
    (Proto::Tcp, &[0, 0, 0, 0, 0, 0, 0, 0, 0, 0, 0, 0, 0xF0, 0, 0, 0, 0, 0, 0, 0], 60, 20, Layer::TcpHeader),
    (Proto::Icmpv4, &[13, 0], 8, 2, Layer::Icmpv4),
    (Proto::Icmpv4, &[13, 0, 0, 0, 0, 0, 0, 0, 0, 0, 0, 0, 0, 0, 0, 0, 0, 0, 0, 0, 0], 20, 21, Layer::Icmpv4Timestamp),
    (Proto::Icmpv6, &[0x88; 7], 8, 7, Layer::Icmpv6),
];

static FOUR_WORDS: [u8; 20] = [
    0, 0, 0, 0, 0, 0, 0, 0, 0, 0, 0, 0, 0x40, 0, 0, 0, 0, 0, 0, 0,
];

/// The packet is refused by this error.
fn expect_refused(rt: &impl Abort, protocol: Proto, packet: &[u8], expected: HeaderSliceError) {
    let error = expect_some(rt, canonical_header(protocol, packet).err());
    expect_at(rt, &(protocol, packet), &error, &expected);
}

#[test]
fn packets_are_refused(rt: HostRuntime) {
    for (protocol, packet, required_len, len, layer) in &TOO_SHORT {
        let expected = len_error(*required_len, *len, *layer);
        expect_refused(&rt, *protocol, packet, expected);
    }
    let below_five = HeaderSliceError::Content(HeaderError::DataOffsetTooSmall { data_offset: 4 });
    expect_refused(&rt, Proto::Tcp, &FOUR_WORDS, below_five);
}
