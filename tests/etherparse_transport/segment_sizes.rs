//! Lowered maximum segment sizes. The bytes were computed apart from this crate, by RFC 791, RFC 1071, RFC 8200 and RFC 9293.

use crate::expect::{expect_bytes, expect_equal, expect_some, expect_text};
use etherparse_transport::err::packet::LowerMaximumSegmentSizeError as Error;
use etherparse_transport::err::tcp::{HeaderError, HeaderSliceError};
use etherparse_transport::err::{Layer, LenError};
use etherparse_transport::ip::{IpError, lower_maximum_segment_size};
use etherparse_transport::{LenSource, TcpRawOptionError, ip_number};
use std::process::Abort;

/// The greatest size that is wanted, the size of a packet, the packet, and the packet afterwards.
type Lowered = (u16, u16, &'static [u8], &'static [u8]);

#[rattlefmt::skip]
static LOWERED: [Lowered; 16] = [
    // a SYN over IPv4
    (
        1360, 1460,
        &[
            0x45, 0, 0, 44, 0, 0, 0, 0, 64, 6, 0xF7, 0x78, 192, 168, 1, 1, 192, 168, 1, 2, 0xC3, 0x50, 0, 0x50, 0, 0, 0, 1, 0, 0,
            0, 0, 0x60, 2, 0x20, 0, 0x31, 0x31, 0, 0, 2, 4, 5, 0xB4,
        ],
        &[
            0x45, 0, 0, 44, 0, 0, 0, 0, 64, 6, 0xF7, 0x78, 192, 168, 1, 1, 192, 168, 1, 2, 0xC3, 0x50, 0, 0x50, 0, 0, 0, 1, 0, 0,
            0, 0, 0x60, 2, 0x20, 0, 0x31, 0x95, 0, 0, 2, 4, 5, 0x50,
        ],
    ),
    // a size that is low enough stays
    (
        1460, 1460,
        &[
            0x45, 0, 0, 44, 0, 0, 0, 0, 64, 6, 0xF7, 0x78, 192, 168, 1, 1, 192, 168, 1, 2, 0xC3, 0x50, 0, 0x50, 0, 0, 0, 1, 0, 0,
            0, 0, 0x60, 2, 0x20, 0, 0x31, 0x31, 0, 0, 2, 4, 5, 0xB4,
        ],
        &[
            0x45, 0, 0, 44, 0, 0, 0, 0, 64, 6, 0xF7, 0x78, 192, 168, 1, 1, 192, 168, 1, 2, 0xC3, 0x50, 0, 0x50, 0, 0, 0, 1, 0, 0,
            0, 0, 0x60, 2, 0x20, 0, 0x31, 0x31, 0, 0, 2, 4, 5, 0xB4,
        ],
    ),
    // the size above `most` by one
    (
        1459, 1460,
        &[
            0x45, 0, 0, 44, 0, 0, 0, 0, 64, 6, 0xF7, 0x78, 192, 168, 1, 1, 192, 168, 1, 2, 0xC3, 0x50, 0, 0x50, 0, 0, 0, 1, 0, 0,
            0, 0, 0x60, 2, 0x20, 0, 0x31, 0x31, 0, 0, 2, 4, 5, 0xB4,
        ],
        &[
            0x45, 0, 0, 44, 0, 0, 0, 0, 64, 6, 0xF7, 0x78, 192, 168, 1, 1, 192, 168, 1, 2, 0xC3, 0x50, 0, 0x50, 0, 0, 0, 1, 0, 0,
            0, 0, 0x60, 2, 0x20, 0, 0x31, 0x32, 0, 0, 2, 4, 5, 0xB3,
        ],
    ),
    // the lowest size
    (
        0, 1460,
        &[
            0x45, 0, 0, 44, 0, 0, 0, 0, 64, 6, 0xF7, 0x78, 192, 168, 1, 1, 192, 168, 1, 2, 0xC3, 0x50, 0, 0x50, 0, 0, 0, 1, 0, 0,
            0, 0, 0x60, 2, 0x20, 0, 0x31, 0x31, 0, 0, 2, 4, 5, 0xB4,
        ],
        &[
            0x45, 0, 0, 44, 0, 0, 0, 0, 64, 6, 0xF7, 0x78, 192, 168, 1, 1, 192, 168, 1, 2, 0xC3, 0x50, 0, 0x50, 0, 0, 0, 1, 0, 0,
            0, 0, 0x60, 2, 0x20, 0, 0x36, 0xE5, 0, 0, 2, 4, 0, 0,
        ],
    ),
    // an odd place, after an option "no operation", and a payload of odd length
    (
        1360, 1460,
        &[
            0x45, 0, 0, 51, 0, 0, 0, 0, 64, 6, 0xF7, 0x71, 192, 168, 1, 1, 192, 168, 1, 2, 0xC3, 0x50, 0, 0x50, 0, 0, 0, 1, 0, 0,
            0, 0, 0x70, 2, 0x20, 0, 0xAA, 0x75, 0, 0, 1, 2, 4, 5, 0xB4, 1, 1, 1, 0x61, 0x62, 0x63,
        ],
        &[
            0x45, 0, 0, 51, 0, 0, 0, 0, 64, 6, 0xF7, 0x71, 192, 168, 1, 1, 192, 168, 1, 2, 0xC3, 0x50, 0, 0x50, 0, 0, 0, 1, 0, 0,
            0, 0, 0x70, 2, 0x20, 0, 0x0E, 0x76, 0, 0, 1, 2, 4, 5, 0x50, 1, 1, 1, 0x61, 0x62, 0x63,
        ],
    ),
    // an odd place, and both bytes of the size change
    (
        536, 9000,
        &[
            0x45, 0, 0, 48, 0, 0, 0, 0, 64, 6, 0xF7, 0x74, 192, 168, 1, 1, 192, 168, 1, 2, 0xC3, 0x50, 0, 0x50, 0, 0, 0, 1, 0, 0,
            0, 0, 0x70, 0x12, 0x20, 0, 0xF2, 0xAB, 0, 0, 3, 3, 7, 2, 4, 0x23, 0x28, 1,
        ],
        &[
            0x45, 0, 0, 48, 0, 0, 0, 0, 64, 6, 0xF7, 0x74, 192, 168, 1, 1, 192, 168, 1, 2, 0xC3, 0x50, 0, 0x50, 0, 0, 0, 1, 0, 0,
            0, 0, 0x70, 0x12, 0x20, 0, 2, 0xCD, 0, 0, 3, 3, 7, 2, 4, 2, 0x18, 1,
        ],
    ),
    // only the first size counts
    (
        1360, 1460,
        &[
            0x45, 0, 0, 48, 0, 0, 0, 0, 64, 6, 0xF7, 0x74, 192, 168, 1, 1, 192, 168, 1, 2, 0xC3, 0x50, 0, 0x50, 0, 0, 0, 1, 0, 0,
            0, 0, 0x70, 2, 0x20, 0, 0xFC, 0, 0, 0, 2, 4, 5, 0xB4, 2, 4, 0x23, 0x28,
        ],
        &[
            0x45, 0, 0, 48, 0, 0, 0, 0, 64, 6, 0xF7, 0x74, 192, 168, 1, 1, 192, 168, 1, 2, 0xC3, 0x50, 0, 0x50, 0, 0, 0, 1, 0, 0,
            0, 0, 0x70, 2, 0x20, 0, 0xFC, 0x64, 0, 0, 2, 4, 5, 0x50, 2, 4, 0x23, 0x28,
        ],
    ),
    // a low first size, and a second size that is not read
    (
        1360, 536,
        &[
            0x45, 0, 0, 48, 0, 0, 0, 0, 64, 6, 0xF7, 0x74, 192, 168, 1, 1, 192, 168, 1, 2, 0xC3, 0x50, 0, 0x50, 0, 0, 0, 1, 0, 0,
            0, 0, 0x70, 2, 0x20, 0, 0xFF, 0x9C, 0, 0, 2, 4, 2, 0x18, 2, 4, 0x23, 0x28,
        ],
        &[
            0x45, 0, 0, 48, 0, 0, 0, 0, 64, 6, 0xF7, 0x74, 192, 168, 1, 1, 192, 168, 1, 2, 0xC3, 0x50, 0, 0x50, 0, 0, 0, 1, 0, 0,
            0, 0, 0x70, 2, 0x20, 0, 0xFF, 0x9C, 0, 0, 2, 4, 2, 0x18, 2, 4, 0x23, 0x28,
        ],
    ),
    // an option that can't be read after the size
    (
        1360, 1460,
        &[
            0x45, 0, 0, 48, 0, 0, 0, 0, 64, 6, 0xF7, 0x74, 192, 168, 1, 1, 192, 168, 1, 2, 0xC3, 0x50, 0, 0x50, 0, 0, 0, 1, 0, 0,
            0, 0, 0x70, 2, 0x20, 0, 0x1F, 0x24, 0, 0, 2, 4, 5, 0xB4, 2, 9, 0, 0,
        ],
        &[
            0x45, 0, 0, 48, 0, 0, 0, 0, 64, 6, 0xF7, 0x74, 192, 168, 1, 1, 192, 168, 1, 2, 0xC3, 0x50, 0, 0x50, 0, 0, 0, 1, 0, 0,
            0, 0, 0x70, 2, 0x20, 0, 0x1F, 0x88, 0, 0, 2, 4, 5, 0x50, 2, 9, 0, 0,
        ],
    ),
    // a SYN/ACK with options of unknown kinds (34, Fast Open, RFC 7413)
    (
        1360, 1460,
        &[
            0x45, 0, 0, 52, 0, 0, 0, 0, 64, 6, 0xF7, 0x70, 192, 168, 1, 1, 192, 168, 1, 2, 0xC3, 0x50, 0, 0x50, 0, 0, 0, 1, 0, 0,
            0, 0, 0x80, 0x12, 0x20, 0, 0x32, 0xBF, 0, 0, 0x22, 2, 3, 3, 7, 4, 2, 2, 4, 5, 0xB4, 1,
        ],
        &[
            0x45, 0, 0, 52, 0, 0, 0, 0, 64, 6, 0xF7, 0x70, 192, 168, 1, 1, 192, 168, 1, 2, 0xC3, 0x50, 0, 0x50, 0, 0, 0, 1, 0, 0,
            0, 0, 0x80, 0x12, 0x20, 0, 0x96, 0xBF, 0, 0, 0x22, 2, 3, 3, 7, 4, 2, 2, 4, 5, 0x50, 1,
        ],
    ),
    // a wrong checksum stays wrong by the same number
    (
        1360, 1460,
        &[
            0x45, 0, 0, 44, 0, 0, 0, 0, 64, 6, 0xF7, 0x78, 192, 168, 1, 1, 192, 168, 1, 2, 0xC3, 0x50, 0, 0x50, 0, 0, 0, 1, 0, 0,
            0, 0, 0x60, 2, 0x20, 0, 0x31, 0x32, 0, 0, 2, 4, 5, 0xB4,
        ],
        &[
            0x45, 0, 0, 44, 0, 0, 0, 0, 64, 6, 0xF7, 0x78, 192, 168, 1, 1, 192, 168, 1, 2, 0xC3, 0x50, 0, 0x50, 0, 0, 0, 1, 0, 0,
            0, 0, 0x60, 2, 0x20, 0, 0x31, 0x96, 0, 0, 2, 4, 5, 0x50,
        ],
    ),
    // a first fragment, whose checksum covers the other fragments too
    (
        1360, 1460,
        &[
            0x45, 0, 0, 44, 0, 0, 0x20, 0, 64, 6, 0xD7, 0x78, 192, 168, 1, 1, 192, 168, 1, 2, 0xC3, 0x50, 0, 0x50, 0, 0, 0, 1, 0,
            0, 0, 0, 0x60, 2, 0x20, 0, 0x9F, 0x93, 0, 0, 2, 4, 5, 0xB4,
        ],
        &[
            0x45, 0, 0, 44, 0, 0, 0x20, 0, 64, 6, 0xD7, 0x78, 192, 168, 1, 1, 192, 168, 1, 2, 0xC3, 0x50, 0, 0x50, 0, 0, 0, 1, 0,
            0, 0, 0, 0x60, 2, 0x20, 0, 0x9F, 0xF7, 0, 0, 2, 4, 5, 0x50,
        ],
    ),
    // a packet that is cut off after its header
    (
        1360, 1460,
        &[
            0x45, 0, 0, 48, 0, 0, 0, 0, 64, 6, 0xF7, 0x74, 192, 168, 1, 1, 192, 168, 1, 2, 0xC3, 0x50, 0, 0x50, 0, 0, 0, 1, 0, 0,
            0, 0, 0x60, 2, 0x20, 0, 0x6C, 0x66, 0, 0, 2, 4, 5, 0xB4,
        ],
        &[
            0x45, 0, 0, 48, 0, 0, 0, 0, 64, 6, 0xF7, 0x74, 192, 168, 1, 1, 192, 168, 1, 2, 0xC3, 0x50, 0, 0x50, 0, 0, 0, 1, 0, 0,
            0, 0, 0x60, 2, 0x20, 0, 0x6C, 0xCA, 0, 0, 2, 4, 5, 0x50,
        ],
    ),
    // padding after the packet
    (
        1360, 1460,
        &[
            0x45, 0, 0, 44, 0, 0, 0, 0, 64, 6, 0xF7, 0x78, 192, 168, 1, 1, 192, 168, 1, 2, 0xC3, 0x50, 0, 0x50, 0, 0, 0, 1, 0, 0,
            0, 0, 0x60, 2, 0x20, 0, 0x31, 0x31, 0, 0, 2, 4, 5, 0xB4, 0xAA, 0xBB,
        ],
        &[
            0x45, 0, 0, 44, 0, 0, 0, 0, 64, 6, 0xF7, 0x78, 192, 168, 1, 1, 192, 168, 1, 2, 0xC3, 0x50, 0, 0x50, 0, 0, 0, 1, 0, 0,
            0, 0, 0x60, 2, 0x20, 0, 0x31, 0x95, 0, 0, 2, 4, 5, 0x50, 0xAA, 0xBB,
        ],
    ),
    // IPv6
    (
        1360, 1460,
        &[
            0x60, 0, 0, 0, 0, 0x18, 6, 64, 0x20, 1, 0x0D, 0xB8, 0, 0, 0, 0, 0, 0, 0, 0, 0, 0, 0, 1, 0x20, 1, 0x0D, 0xB8, 0, 0, 0,
            0, 0, 0, 0, 0, 0, 0, 0, 2, 0xC3, 0x50, 0, 0x50, 0, 0, 0, 1, 0, 0, 0, 0, 0x60, 2, 0x20, 0, 0x59, 0x10, 0, 0, 2, 4, 5,
            0xB4,
        ],
        &[
            0x60, 0, 0, 0, 0, 0x18, 6, 64, 0x20, 1, 0x0D, 0xB8, 0, 0, 0, 0, 0, 0, 0, 0, 0, 0, 0, 1, 0x20, 1, 0x0D, 0xB8, 0, 0, 0,
            0, 0, 0, 0, 0, 0, 0, 0, 2, 0xC3, 0x50, 0, 0x50, 0, 0, 0, 1, 0, 0, 0, 0, 0x60, 2, 0x20, 0, 0x59, 0x74, 0, 0, 2, 4, 5,
            0x50,
        ],
    ),
    // IPv6 with destination options
    (
        1360, 1460,
        &[
            0x60, 0, 0, 0, 0, 0x24, 0x3C, 64, 0x20, 1, 0x0D, 0xB8, 0, 0, 0, 0, 0, 0, 0, 0, 0, 0, 0, 1, 0x20, 1, 0x0D, 0xB8, 0, 0,
            0, 0, 0, 0, 0, 0, 0, 0, 0, 2, 6, 0, 1, 4, 0, 0, 0, 0, 0xC3, 0x50, 0, 0x50, 0, 0, 0, 1, 0, 0, 0, 0, 0x70, 2, 0x20, 0,
            0x96, 0xBA, 0, 0, 1, 2, 4, 5, 0xB4, 1, 1, 1,
        ],
        &[
            0x60, 0, 0, 0, 0, 0x24, 0x3C, 64, 0x20, 1, 0x0D, 0xB8, 0, 0, 0, 0, 0, 0, 0, 0, 0, 0, 0, 1, 0x20, 1, 0x0D, 0xB8, 0, 0,
            0, 0, 0, 0, 0, 0, 0, 0, 0, 2, 6, 0, 1, 4, 0, 0, 0, 0, 0xC3, 0x50, 0, 0x50, 0, 0, 0, 1, 0, 0, 0, 0, 0x70, 2, 0x20, 0,
            0xFA, 0xBA, 0, 0, 1, 2, 4, 5, 0x50, 1, 1, 1,
        ],
    ),
];

/// The longest packet of the tables, in bytes.
const ROOM: usize = 80;

/// The result of the call for this packet, and the buffer after it.
fn lowered(rt: &impl Abort, packet: &[u8], most: u16) -> (Result<u16, Error>, [u8; ROOM]) {
    let mut buffer = [0; ROOM];
    let front = expect_some(rt, buffer.get_mut(..packet.len()));
    front.copy_from_slice(packet);
    (lower_maximum_segment_size(front, most), buffer)
}

#[test]
fn the_maximum_segment_size_is_lowered(rt: HostRuntime) {
    for (most, size, packet, expected) in &LOWERED {
        let (result, buffer) = lowered(&rt, packet, *most);
        expect_equal(&rt, &result, &Ok(*size));
        expect_bytes(&rt, expect_some(&rt, buffer.get(..packet.len())), expected);
    }
}

#[rattlefmt::skip]
static REFUSALS: [(Error, &[u8]); 12] = [
    (Error::Ip(IpError::HeaderCutOff { required_len: 1, len: 0 }), &[]),
    (Error::Protocol(ip_number::UDP), &[
        0x45, 0, 0, 28, 0, 0, 0, 0, 64, 17, 0xF7, 0x7D, 192, 168, 1, 1, 192, 168, 1, 2, 0, 7, 0, 8, 0, 8, 0, 0,
    ]),
    (Error::LaterFragment, &[
        0x45, 0, 0, 44, 0, 0, 0x20, 1, 64, 6, 0xD7, 0x77, 192, 168, 1, 1, 192, 168, 1, 2, 0xC3, 0x50, 0, 0x50, 0, 0, 0, 1, 0, 0,
        0, 0, 0x60, 2, 0x20, 0, 0x31, 0x31, 0, 0, 2, 4, 5, 0xB4,
    ]),
    (Error::Header(HeaderSliceError::Len(LenError { required_len: 24, len: 23, len_source: LenSource::Slice, layer: Layer::TcpHeader, layer_start_offset: 0 })), &[
        0x45, 0, 0, 43, 0, 0, 0, 0, 64, 6, 0xF7, 0x79, 192, 168, 1, 1, 192, 168, 1, 2, 0xC3, 0x50, 0, 0x50, 0, 0, 0, 1, 0, 0, 0,
        0, 0x60, 2, 0x20, 0, 0x31, 0x31, 0, 0, 2, 4, 5,
    ]),
    (Error::Header(HeaderSliceError::Content(HeaderError::DataOffsetTooSmall { data_offset: 4 })), &[
        0x45, 0, 0, 44, 0, 0, 0, 0, 64, 6, 0xF7, 0x78, 192, 168, 1, 1, 192, 168, 1, 2, 0xC3, 0x50, 0, 0x50, 0, 0, 0, 1, 0, 0, 0,
        0, 0x40, 2, 0x20, 0, 0x31, 0x31, 0, 0, 2, 4, 5, 0xB4,
    ]),
    (Error::NoSyn, &[
        0x45, 0, 0, 44, 0, 0, 0, 0, 64, 6, 0xF7, 0x78, 192, 168, 1, 1, 192, 168, 1, 2, 0xC3, 0x50, 0, 0x50, 0, 0, 0, 1, 0, 0, 0,
        0, 0x60, 0x10, 0x20, 0, 0x31, 0x23, 0, 0, 2, 4, 5, 0xB4,
    ]),
    (Error::Options(TcpRawOptionError::LengthBelowTwo { kind: 3, len: 1 }), &[
        0x45, 0, 0, 48, 0, 0, 0, 0, 64, 6, 0xF7, 0x74, 192, 168, 1, 1, 192, 168, 1, 2, 0xC3, 0x50, 0, 0x50, 0, 0, 0, 1, 0, 0, 0,
        0, 0x70, 2, 0x20, 0, 0x17, 0x2B, 0, 0, 3, 1, 7, 1, 2, 4, 5, 0xB4,
    ]),
    (Error::Options(TcpRawOptionError::LengthBeyondEnd { kind: 2, len: 4, available: 3 }), &[
        0x45, 0, 0, 44, 0, 0, 0, 0, 64, 6, 0xF7, 0x78, 192, 168, 1, 1, 192, 168, 1, 2, 0xC3, 0x50, 0, 0x50, 0, 0, 0, 1, 0, 0, 0,
        0, 0x60, 2, 0x20, 0, 0x33, 0xE2, 0, 0, 1, 2, 4, 5,
    ]),
    (Error::Options(TcpRawOptionError::NoLengthByte { kind: 2 }), &[
        0x45, 0, 0, 44, 0, 0, 0, 0, 64, 6, 0xF7, 0x78, 192, 168, 1, 1, 192, 168, 1, 2, 0xC3, 0x50, 0, 0x50, 0, 0, 0, 1, 0, 0, 0,
        0, 0x60, 2, 0x20, 0, 0x36, 0xE6, 0, 0, 1, 1, 1, 2,
    ]),
    (Error::OptionLength { len: 3 }, &[
        0x45, 0, 0, 48, 0, 0, 0, 0, 64, 6, 0xF7, 0x74, 192, 168, 1, 1, 192, 168, 1, 2, 0xC3, 0x50, 0, 0x50, 0, 0, 0, 1, 0, 0, 0,
        0, 0x70, 2, 0x20, 0, 0x69, 0xD9, 0, 0, 2, 3, 5, 2, 4, 5, 0xB4, 1,
    ]),
    (Error::NoOption, &[
        0x45, 0, 0, 48, 0, 0, 0, 0, 64, 6, 0xF7, 0x74, 192, 168, 1, 1, 192, 168, 1, 2, 0xC3, 0x50, 0, 0x50, 0, 0, 0, 1, 0, 0, 0,
        0, 0x70, 2, 0x20, 0, 0x70, 0xDD, 0, 0, 0, 2, 4, 5, 0xB4, 0, 0, 0,
    ]),
    (Error::NoOption, &[
        0x45, 0, 0, 40, 0, 0, 0, 0, 64, 6, 0xF7, 0x7C, 192, 168, 1, 1, 192, 168, 1, 2, 0xC3, 0x50, 0, 0x50, 0, 0, 0, 1, 0, 0, 0,
        0, 0x50, 2, 0x20, 0, 0x48, 0xED, 0, 0,
    ]),
];

#[test]
fn packets_without_a_size_stay_as_they_are(rt: HostRuntime) {
    for (error, packet) in &REFUSALS {
        let (result, buffer) = lowered(&rt, packet, 1360);
        expect_equal(&rt, &expect_some(&rt, result.err()), error);
        expect_bytes(&rt, expect_some(&rt, buffer.get(..packet.len())), packet);
    }
}

#[rattlefmt::skip]
static TEXTS: [(Error, &str); 8] = [
    (Error::Ip(IpError::Version { version: 5 }), "IP Error: the version is 5."),
    (Error::Protocol(ip_number::UDP), "Maximum Segment Size Error: the protocol 17 is not TCP."),
    (Error::LaterFragment, "Maximum Segment Size Error: the packet is a later fragment."),
    (Error::Header(HeaderSliceError::Content(HeaderError::DataOffsetTooSmall { data_offset: 4 })), "TCP Header Error: 'data offset' too small (4). The 'data offset' must be at least 5 so the data is not overlapping with the TCP header itself."),
    (Error::NoSyn, "Maximum Segment Size Error: the segment is not a SYN."),
    (Error::Options(TcpRawOptionError::NoLengthByte { kind: 2 }), "TcpRawOptionError: The option of kind 2 has no length byte."),
    (Error::OptionLength { len: 3 }, "Maximum Segment Size Error: the length of the option is 3."),
    (Error::NoOption, "Maximum Segment Size Error: the segment contains no maximum segment size."),
];

#[test]
fn texts_of_a_maximum_segment_size_that_is_not_lowered(rt: HostRuntime) {
    for (error, text) in &TEXTS {
        expect_text(&rt, error, text);
        expect_text(&rt, &error.text(), text);
    }
}
