//! Writes the right checksum into packets. The bytes were computed without this crate, by the rules of RFC 768, RFC 791, RFC 8200 and RFC
//! 1071.

use crate::expect::{expect_equal, expect_ok, expect_some, expect_text};
use etherparse_transport::err::packet::WriteChecksumError;
use etherparse_transport::err::tcp::{HeaderError, HeaderSliceError};
use etherparse_transport::err::{Layer, LenError};
use etherparse_transport::ip::{
    IpError, Ipv4Translation, checksum_verdict, is_checksum_partial, translate_ipv4,
    transport_in_ip, transport_slice, write_checksum,
};
use etherparse_transport::{ChecksumVerdict, LenSource, Untested};
use std::process::Abort;

/// A packet, the packet with the right checksum, and that checksum.
type Written = (&'static [u8], &'static [u8], u16);

#[rattlefmt::skip]
static WRITTEN: [Written; 13] = [
    // UDP over IPv4, wrong
    (&[
        0x45, 0, 0, 0x1F, 0, 0, 0, 0, 0x40, 0x11, 0xF7, 0x7A, 0xC0, 0xA8, 1, 1, 0xC0, 0xA8, 1, 2, 0, 0x15, 4, 0xD2, 0, 0x0B, 0x12, 0x34,
        0x61, 0x62, 0x63,
    ], &[
        0x45, 0, 0, 0x1F, 0, 0, 0, 0, 0x40, 0x11, 0xF7, 0x7A, 0xC0, 0xA8, 1, 1, 0xC0, 0xA8, 1, 2, 0, 0x15, 4, 0xD2, 0, 0x0B, 0xB3, 0x3A,
        0x61, 0x62, 0x63,
    ], 0xB33A),
    // a right checksum stays
    (&[
        0x45, 0, 0, 0x1F, 0, 0, 0, 0, 0x40, 0x11, 0xF7, 0x7A, 0xC0, 0xA8, 1, 1, 0xC0, 0xA8, 1, 2, 0, 0x15, 4, 0xD2, 0, 0x0B, 0xB3, 0x3A,
        0x61, 0x62, 0x63,
    ], &[
        0x45, 0, 0, 0x1F, 0, 0, 0, 0, 0x40, 0x11, 0xF7, 0x7A, 0xC0, 0xA8, 1, 1, 0xC0, 0xA8, 1, 2, 0, 0x15, 4, 0xD2, 0, 0x0B, 0xB3, 0x3A,
        0x61, 0x62, 0x63,
    ], 0xB33A),
    // no checksum
    (&[
        0x45, 0, 0, 0x1F, 0, 0, 0, 0, 0x40, 0x11, 0xF7, 0x7A, 0xC0, 0xA8, 1, 1, 0xC0, 0xA8, 1, 2, 0, 0x15, 4, 0xD2, 0, 0x0B, 0, 0, 0x61,
        0x62, 0x63,
    ], &[
        0x45, 0, 0, 0x1F, 0, 0, 0, 0, 0x40, 0x11, 0xF7, 0x7A, 0xC0, 0xA8, 1, 1, 0xC0, 0xA8, 1, 2, 0, 0x15, 4, 0xD2, 0, 0x0B, 0xB3, 0x3A,
        0x61, 0x62, 0x63,
    ], 0xB33A),
    // the sum of only the pseudo header, and padding
    (&[
        0x45, 0, 0, 0x20, 0, 0, 0, 0, 0x40, 0x11, 0xF7, 0x79, 0xC0, 0xA8, 1, 1, 0xC0, 0xA8, 1, 2, 0, 0x15, 4, 0xD2, 0, 0x0C, 0x83, 0x71,
        0x61, 0x62, 0x63, 0x64, 0xEE, 0xEE,
    ], &[
        0x45, 0, 0, 0x20, 0, 0, 0, 0, 0x40, 0x11, 0xF7, 0x79, 0xC0, 0xA8, 1, 1, 0xC0, 0xA8, 1, 2, 0, 0x15, 4, 0xD2, 0, 0x0C, 0xB2, 0xD4,
        0x61, 0x62, 0x63, 0x64, 0xEE, 0xEE,
    ], 0xB2D4),
    // a checksum of 0 is stored as FFFF
    (&[
        0x45, 0, 0, 0x1E, 0, 0, 0, 0, 0x40, 0x11, 0xF7, 0x7B, 0xC0, 0xA8, 1, 1, 0xC0, 0xA8, 1, 2, 0, 0x15, 4, 0xD2, 0, 0x0A, 0x12, 0x34,
        0x77, 0x9F,
    ], &[
        0x45, 0, 0, 0x1E, 0, 0, 0, 0, 0x40, 0x11, 0xF7, 0x7B, 0xC0, 0xA8, 1, 1, 0xC0, 0xA8, 1, 2, 0, 0x15, 4, 0xD2, 0, 0x0A, 0xFF, 0xFF,
        0x77, 0x9F,
    ], 0xFFFF),
    // a length field below the IP payload: only the counted bytes are covered
    (&[
        0x45, 0, 0, 0x21, 0, 0, 0, 0, 0x40, 0x11, 0xF7, 0x78, 0xC0, 0xA8, 1, 1, 0xC0, 0xA8, 1, 2, 0, 0x15, 4, 0xD2, 0, 0x0B, 0x12, 0x34,
        0x61, 0x62, 0x63, 0x7A, 0x7A,
    ], &[
        0x45, 0, 0, 0x21, 0, 0, 0, 0, 0x40, 0x11, 0xF7, 0x78, 0xC0, 0xA8, 1, 1, 0xC0, 0xA8, 1, 2, 0, 0x15, 4, 0xD2, 0, 0x0B, 0xB3, 0x3A,
        0x61, 0x62, 0x63, 0x7A, 0x7A,
    ], 0xB33A),
    // TCP over IPv4 with IP options and TCP options, partial
    (&[
        0x46, 0, 0, 0x35, 0, 0, 0, 0, 0x40, 6, 0xF4, 0x6E, 0xC0, 0xA8, 1, 1, 0xC0, 0xA8, 1, 2, 1, 1, 1, 0, 0, 0x50, 0x0F, 0xA0, 0, 0, 0,
        1, 0, 0, 0, 2, 0x60, 0x18, 2, 0, 0x83, 0x77, 0, 0, 2, 4, 5, 0xB4, 0x68, 0x65, 0x6C, 0x6C, 0x6F,
    ], &[
        0x46, 0, 0, 0x35, 0, 0, 0, 0, 0x40, 6, 0xF4, 0x6E, 0xC0, 0xA8, 1, 1, 0xC0, 0xA8, 1, 2, 1, 1, 1, 0, 0, 0x50, 0x0F, 0xA0, 0, 0, 0,
        1, 0, 0, 0, 2, 0x60, 0x18, 2, 0, 0xBE, 0xF2, 0, 0, 2, 4, 5, 0xB4, 0x68, 0x65, 0x6C, 0x6C, 0x6F,
    ], 0xBEF2),
    // TCP, whose right checksum is 0
    (&[
        0x45, 0, 0, 0x2A, 0, 0, 0, 0, 0x40, 6, 0xF7, 0x7A, 0xC0, 0xA8, 1, 1, 0xC0, 0xA8, 1, 2, 0, 0x50, 0x0F, 0xA0, 0, 0, 0, 1, 0, 0, 0,
        2, 0x50, 0x18, 2, 0, 0x12, 0x34, 0, 0, 0x1A, 0x84,
    ], &[
        0x45, 0, 0, 0x2A, 0, 0, 0, 0, 0x40, 6, 0xF7, 0x7A, 0xC0, 0xA8, 1, 1, 0xC0, 0xA8, 1, 2, 0, 0x50, 0x0F, 0xA0, 0, 0, 0, 1, 0, 0, 0,
        2, 0x50, 0x18, 2, 0, 0, 0, 0, 0, 0x1A, 0x84,
    ], 0x0000),
    // TCP: FFFF stays if 0 is right, since it is right too
    (&[
        0x45, 0, 0, 0x2A, 0, 0, 0, 0, 0x40, 6, 0xF7, 0x7A, 0xC0, 0xA8, 1, 1, 0xC0, 0xA8, 1, 2, 0, 0x50, 0x0F, 0xA0, 0, 0, 0, 1, 0, 0, 0,
        2, 0x50, 0x18, 2, 0, 0xFF, 0xFF, 0, 0, 0x1A, 0x84,
    ], &[
        0x45, 0, 0, 0x2A, 0, 0, 0, 0, 0x40, 6, 0xF7, 0x7A, 0xC0, 0xA8, 1, 1, 0xC0, 0xA8, 1, 2, 0, 0x50, 0x0F, 0xA0, 0, 0, 0, 1, 0, 0, 0,
        2, 0x50, 0x18, 2, 0, 0xFF, 0xFF, 0, 0, 0x1A, 0x84,
    ], 0xFFFF),
    // ICMPv4
    (&[
        0x45, 0, 0, 0x20, 0, 0, 0, 0, 0x40, 1, 0xF7, 0x89, 0xC0, 0xA8, 1, 1, 0xC0, 0xA8, 1, 2, 8, 0, 0x12, 0x34, 0xAB, 0xCD, 0, 7, 0x70,
        0x69, 0x6E, 0x67,
    ], &[
        0x45, 0, 0, 0x20, 0, 0, 0, 0, 0x40, 1, 0xF7, 0x89, 0xC0, 0xA8, 1, 1, 0xC0, 0xA8, 1, 2, 8, 0, 0x6D, 0x5A, 0xAB, 0xCD, 0, 7, 0x70,
        0x69, 0x6E, 0x67,
    ], 0x6D5A),
    // an atomic fragment of UDP over IPv6, whose checksum of 0 is wrong
    (&[
        0x60, 0, 0, 0, 0, 0x13, 0x2C, 0x40, 0x20, 1, 0x0D, 0xB8, 0, 0, 0, 0, 0, 0, 0, 0, 0, 0, 0, 1, 0x20, 1, 0x0D, 0xB8, 0, 0, 0, 0, 0,
        0, 0, 0, 0, 0, 0, 2, 0x11, 0, 0, 0, 0, 0, 0, 9, 0, 0x15, 4, 0xD2, 0, 0x0B, 0, 0, 0x61, 0x62, 0x63,
    ], &[
        0x60, 0, 0, 0, 0, 0x13, 0x2C, 0x40, 0x20, 1, 0x0D, 0xB8, 0, 0, 0, 0, 0, 0, 0, 0, 0, 0, 0, 1, 0x20, 1, 0x0D, 0xB8, 0, 0, 0, 0, 0,
        0, 0, 0, 0, 0, 0, 2, 0x11, 0, 0, 0, 0, 0, 0, 9, 0, 0x15, 4, 0xD2, 0, 0x0B, 0xDB, 0x19, 0x61, 0x62, 0x63,
    ], 0xDB19),
    // TCP over IPv6 after destination options
    (&[
        0x60, 0, 0, 0, 0, 0x1E, 0x3C, 0x40, 0x20, 1, 0x0D, 0xB8, 0, 0, 0, 0, 0, 0, 0, 0, 0, 0, 0, 1, 0x20, 1, 0x0D, 0xB8, 0, 0, 0, 0, 0,
        0, 0, 0, 0, 0, 0, 2, 6, 0, 1, 4, 0, 0, 0, 0, 0, 0x50, 0x0F, 0xA0, 0, 0, 0, 1, 0, 0, 0, 2, 0x50, 0x18, 2, 0, 0x12, 0x34, 0, 0,
        0x68, 0x69,
    ], &[
        0x60, 0, 0, 0, 0, 0x1E, 0x3C, 0x40, 0x20, 1, 0x0D, 0xB8, 0, 0, 0, 0, 0, 0, 0, 0, 0, 0, 0, 1, 0x20, 1, 0x0D, 0xB8, 0, 0, 0, 0, 0,
        0, 0, 0, 0, 0, 0, 2, 6, 0, 1, 4, 0, 0, 0, 0, 0, 0x50, 0x0F, 0xA0, 0, 0, 0, 1, 0, 0, 0, 2, 0x50, 0x18, 2, 0, 0xD9, 0xF9, 0, 0,
        0x68, 0x69,
    ], 0xD9F9),
    // ICMPv6 after a routing header, over the final destination
    (&[
        0x60, 0, 0, 0, 0, 0x24, 0x2B, 0x40, 0x20, 1, 0x0D, 0xB8, 0, 0, 0, 0, 0, 0, 0, 0, 0, 0, 0, 1, 0x20, 1, 0x0D, 0xB8, 0, 0, 0, 0, 0,
        0, 0, 0, 0, 0, 0, 2, 0x3A, 2, 0, 1, 0, 0, 0, 0, 0x20, 1, 0x0D, 0xB8, 0, 0, 0, 0, 0, 0, 0, 0, 0, 0, 0, 3, 0x80, 0, 0x12, 0x34,
        0xAB, 0xCD, 0, 7, 0x70, 0x69, 0x6E, 0x67,
    ], &[
        0x60, 0, 0, 0, 0, 0x24, 0x2B, 0x40, 0x20, 1, 0x0D, 0xB8, 0, 0, 0, 0, 0, 0, 0, 0, 0, 0, 0, 1, 0x20, 1, 0x0D, 0xB8, 0, 0, 0, 0, 0,
        0, 0, 0, 0, 0, 0, 2, 0x3A, 2, 0, 1, 0, 0, 0, 0, 0x20, 1, 0x0D, 0xB8, 0, 0, 0, 0, 0, 0, 0, 0, 0, 0, 0, 3, 0x80, 0, 0x99, 0x9D,
        0xAB, 0xCD, 0, 7, 0x70, 0x69, 0x6E, 0x67,
    ], 0x999D),
];

/// The length field counts one byte more than the packet contains.
const UDP_CUT_OFF: LenError = LenError {
    required_len: 12,
    len: 11,
    len_source: LenSource::Slice,
    layer: Layer::UdpPayload,
    layer_start_offset: 0,
};

#[rattlefmt::skip]
static REFUSALS: [(WriteChecksumError, &[u8]); 11] = [
    (WriteChecksumError::Ip(IpError::HeaderCutOff { required_len: 1, len: 0 }), &[]),
    (WriteChecksumError::Ip(IpError::PacketCutOff { required_len: 31, len: 30 }), &[
        0x45, 0, 0, 0x1F, 0, 0, 0, 0, 0x40, 0x11, 0xF7, 0x7A, 0xC0, 0xA8, 1, 1, 0xC0, 0xA8, 1, 2, 0, 0x15, 4, 0xD2, 0, 0x0B, 0, 0, 0x61,
        0x62,
    ]),
    (WriteChecksumError::Ip(IpError::TotalLength { total_len: 0, header_len: 20 }), &[
        0x45, 0, 0, 0, 0, 0, 0, 0, 0x40, 0x11, 0xF7, 0x99, 0xC0, 0xA8, 1, 1, 0xC0, 0xA8, 1, 2, 0, 0x15, 4, 0xD2, 0, 0x0B, 0, 0, 0x61,
        0x62, 0x63,
    ]),
    (WriteChecksumError::Transport(HeaderSliceError::Len(UDP_CUT_OFF)), &[
        0x45, 0, 0, 0x1F, 0, 0, 0, 0, 0x40, 0x11, 0xF7, 0x7A, 0xC0, 0xA8, 1, 1, 0xC0, 0xA8, 1, 2, 0, 0x15, 4, 0xD2, 0, 0x0C, 0, 0, 0x61,
        0x62, 0x63,
    ]),
    (WriteChecksumError::Transport(HeaderSliceError::Content(HeaderError::DataOffsetTooSmall { data_offset: 4 })), &[
        0x45, 0, 0, 0x28, 0, 0, 0, 0, 0x40, 6, 0xF7, 0x7C, 0xC0, 0xA8, 1, 1, 0xC0, 0xA8, 1, 2, 0, 0x50, 0x0F, 0xA0, 0, 0, 0, 1, 0, 0, 0,
        2, 0x40, 0x18, 2, 0, 0, 0, 0, 0,
    ]),
    (WriteChecksumError::Untested(Untested::Fragment), &[
        0x45, 0, 0, 0x24, 0, 0, 0x20, 0, 0x40, 0x11, 0xD7, 0x75, 0xC0, 0xA8, 1, 1, 0xC0, 0xA8, 1, 2, 0, 0x15, 4, 0xD2, 0, 0x10, 0, 0,
        0x61, 0x62, 0x63, 0x64, 0x65, 0x66, 0x67, 0x68,
    ]),
    (WriteChecksumError::Untested(Untested::Fragment), &[
        0x60, 0, 0, 0, 0, 0x13, 0x2C, 0x40, 0x20, 1, 0x0D, 0xB8, 0, 0, 0, 0, 0, 0, 0, 0, 0, 0, 0, 1, 0x20, 1, 0x0D, 0xB8, 0, 0, 0, 0, 0,
        0, 0, 0, 0, 0, 0, 2, 0x11, 0, 0, 8, 0, 0, 0, 9, 0, 0x15, 4, 0xD2, 0, 0x0B, 0, 0, 0x61, 0x62, 0x63,
    ]),
    (WriteChecksumError::Untested(Untested::OtherProtocol), &[
        0x45, 0, 0, 0x1C, 0, 0, 0, 0, 0x40, 0x3A, 0xF7, 0x54, 0xC0, 0xA8, 1, 1, 0xC0, 0xA8, 1, 2, 0x80, 0, 0, 0, 0, 1, 0, 1,
    ]),
    (WriteChecksumError::Untested(Untested::OtherProtocol), &[
        0x60, 0, 0, 0, 0, 0, 0x3B, 0x40, 0x20, 1, 0x0D, 0xB8, 0, 0, 0, 0, 0, 0, 0, 0, 0, 0, 0, 1, 0x20, 1, 0x0D, 0xB8, 0, 0, 0, 0, 0, 0,
        0, 0, 0, 0, 0, 2,
    ]),
    (WriteChecksumError::Untested(Untested::ZeroLength), &[
        0x45, 0, 0, 0x1F, 0, 0, 0, 0, 0x40, 0x11, 0xF7, 0x7A, 0xC0, 0xA8, 1, 1, 0xC0, 0xA8, 1, 2, 0, 0x15, 4, 0xD2, 0, 0, 0, 0, 0x61,
        0x62, 0x63,
    ]),
    (WriteChecksumError::Untested(Untested::UnknownDestination), &[
        0x60, 0, 0, 0, 0, 0x23, 0x2B, 0x40, 0x20, 1, 0x0D, 0xB8, 0, 0, 0, 0, 0, 0, 0, 0, 0, 0, 0, 1, 0x20, 1, 0x0D, 0xB8, 0, 0, 0, 0, 0,
        0, 0, 0, 0, 0, 0, 2, 0x11, 2, 3, 1, 0, 0, 0, 0, 0x20, 1, 0x0D, 0xB8, 0, 0, 0, 0, 0, 0, 0, 0, 0, 0, 0, 3, 0, 0x15, 4, 0xD2, 0,
        0x0B, 0, 0, 0x61, 0x62, 0x63,
    ]),
];

/// The longest packet of the tables, in bytes.
const ROOM: usize = 96;

/// A buffer that begins with these bytes, and zeros after them.
fn buffer_with(bytes: &[u8]) -> [u8; ROOM] {
    let mut buffer = [0; ROOM];
    for (place, byte) in buffer.iter_mut().zip(bytes) {
        *place = *byte;
    }
    buffer
}

/// The result of the call for this packet, and the buffer after it.
fn written(rt: &impl Abort, packet: &[u8]) -> (Result<u16, WriteChecksumError>, [u8; ROOM]) {
    let mut buffer = buffer_with(packet);
    let front = expect_some(rt, buffer.get_mut(..packet.len()));
    (write_checksum(front), buffer)
}

#[test]
fn the_right_checksum_is_written(rt: HostRuntime) {
    for (packet, expected, checksum) in &WRITTEN {
        let (result, buffer) = written(&rt, packet);
        expect_equal(&rt, &result, &Ok(*checksum));
        expect_equal(&rt, &buffer, &buffer_with(expected));
    }
}

#[test]
fn the_written_checksum_is_right(rt: HostRuntime) {
    for (_, packet, checksum) in &WRITTEN {
        let found = expect_ok(&rt, transport_in_ip(packet));
        let verdict = expect_ok(&rt, checksum_verdict(&found));
        expect_equal(&rt, &verdict, &ChecksumVerdict::Right);
        let transport = expect_some(&rt, expect_ok(&rt, transport_slice(&found)));
        expect_equal(&rt, &transport.stored_checksum(), checksum);
    }
}

#[test]
fn a_slice_has_its_right_checksum(rt: HostRuntime) {
    for (packet, _, checksum) in &WRITTEN {
        let found = expect_ok(&rt, transport_in_ip(packet));
        let transport = expect_some(&rt, expect_ok(&rt, transport_slice(&found)));
        expect_equal(
            &rt,
            &transport.right_checksum(found.addresses),
            &Ok(*checksum),
        );
    }
}

#[test]
fn the_place_of_a_checksum(rt: HostRuntime) {
    for (row, place) in [(0, 6), (6, 16), (9, 2), (12, 2)] {
        let (packet, _, _) = expect_some(&rt, WRITTEN.get(row));
        let found = expect_ok(&rt, transport_in_ip(packet));
        let transport = expect_some(&rt, expect_ok(&rt, transport_slice(&found)));
        expect_equal(&rt, &transport.checksum_place(), &place);
    }
}

#[test]
fn packets_without_a_tested_checksum_stay_as_they_are(rt: HostRuntime) {
    for (error, packet) in &REFUSALS {
        let (result, buffer) = written(&rt, packet);
        expect_equal(&rt, &expect_some(&rt, result.err()), error);
        expect_equal(&rt, &buffer, &buffer_with(packet));
    }
}

/// The packets of the table whose checksum is partial.
static PARTIAL: [usize; 2] = [3, 6];

#[test]
fn a_partial_checksum_is_the_sum_of_the_pseudo_header(rt: HostRuntime) {
    for (row, (packet, _, _)) in WRITTEN.iter().enumerate() {
        let found = expect_ok(&rt, transport_in_ip(packet));
        let transport = expect_some(&rt, expect_ok(&rt, transport_slice(&found)));
        let is_partial = transport.is_checksum_partial(found.addresses);
        expect_equal(&rt, &is_partial, &PARTIAL.contains(&row));
        expect_equal(&rt, &is_checksum_partial(packet), &is_partial);
        let stored = Some(transport.stored_checksum());
        let is_stored = transport.partial_checksum(found.addresses) == stored;
        expect_equal(&rt, &is_stored, &is_partial);
    }
}

/// Source and source port of a packet of the tables are replaced.
#[rattlefmt::skip]
const OUTBOUND: Ipv4Translation = Ipv4Translation {
    source: Some([203, 0, 113, 7]),
    destination: None,
    source_port: Some(40000),
    destination_port: None,
};

/// The packets of the table over IPv4, each with its partial checksum after this translation. ICMPv4 has none.
static TRANSLATED: [(usize, Option<u16>); 3] = [(3, Some(0xFDCF)), (6, Some(0xFDD5)), (9, None)];

#[test]
fn a_partial_checksum_is_stored_after_a_translation(rt: HostRuntime) {
    for (row, partial) in TRANSLATED {
        let (packet, _, _) = expect_some(&rt, WRITTEN.get(row));
        expect_partial(&rt, packet, partial);
    }
}

/// The translated packet has this partial checksum, and is partial if it contains it.
fn expect_partial(rt: &impl Abort, packet: &[u8], partial: Option<u16>) {
    let mut buffer = buffer_with(packet);
    let packet = expect_some(rt, buffer.get_mut(..packet.len()));
    expect_ok(rt, translate_ipv4(packet, &OUTBOUND));
    let found = expect_ok(rt, transport_in_ip(packet));
    let transport = expect_some(rt, expect_ok(rt, transport_slice(&found)));
    expect_equal(rt, &transport.partial_checksum(found.addresses), &partial);
    expect_equal(rt, &transport.is_checksum_partial(found.addresses), &false);
    let place = found.payload_offset + transport.checksum_place();
    let Some(checksum) = partial else {
        return;
    };
    packet[place..place + 2].copy_from_slice(&checksum.to_be_bytes());
    let found = expect_ok(rt, transport_in_ip(packet));
    let transport = expect_some(rt, expect_ok(rt, transport_slice(&found)));
    expect_equal(rt, &transport.is_checksum_partial(found.addresses), &true);
}

#[rattlefmt::skip]
static TEXTS: [(WriteChecksumError, &str); 8] = [
    (WriteChecksumError::Ip(IpError::Version { version: 5 }), "IP Error: the version is 5."),
    (WriteChecksumError::Transport(HeaderSliceError::Content(HeaderError::DataOffsetTooSmall { data_offset: 4 })), "TCP Header Error: 'data offset' too small (4). The 'data offset' must be at least 5 so the data is not overlapping with the TCP header itself."),
    (WriteChecksumError::Untested(Untested::Fragment), "Checksum Error: the packet is a fragment."),
    (WriteChecksumError::Untested(Untested::CutOff), "Checksum Error: the packet is cut off."),
    (WriteChecksumError::Untested(Untested::UnknownDestination), "Checksum Error: the final destination is unknown."),
    (WriteChecksumError::Untested(Untested::OtherProtocol), "Checksum Error: the protocol has no known checksum."),
    (WriteChecksumError::Untested(Untested::ZeroLength), "Checksum Error: the length field of the UDP packet is 0."),
    (WriteChecksumError::Untested(Untested::TooLong), "Checksum Error: the packet is too long for its pseudo header."),
];

#[test]
fn texts_of_a_packet_without_a_written_checksum(rt: HostRuntime) {
    for (error, text) in &TEXTS {
        expect_text(&rt, error, text);
        expect_text(&rt, &error.text(), text);
    }
}
