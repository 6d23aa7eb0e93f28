//! A header of any of the four protocols. The checksums were computed without this crate, by the rules of RFC 1071.

use crate::expect::{bytes_from, expect_equal, expect_ok, expect_some, expect_text};
use etherparse_transport::err::packet::TransportChecksumError;
use etherparse_transport::err::{Layer, LenError, ValueTooBigError, ValueType};
use etherparse_transport::{Ipv4Header, Ipv6Header, LenSource, Proto, TransportHeader};
use std::process::Abort;

static IPV4: Ipv4Header = Ipv4Header {
    source: [10, 0, 0, 1],
    destination: [10, 0, 0, 2],
};

static IPV6: Ipv6Header = Ipv6Header {
    source: [0x20, 1, 0x0D, 0xB8, 0, 0, 0, 0, 0, 0, 0, 0, 0, 0, 0, 1],
    destination: [0x20, 1, 0x0D, 0xB8, 0, 0, 0, 0, 0, 0, 0, 0, 0, 0, 0, 2],
};

fn read<'a>(rt: &impl Abort, protocol: Proto, packet: &'a [u8]) -> (TransportHeader, &'a [u8]) {
    expect_ok(rt, TransportHeader::from_slice(protocol, packet))
}

/// The two bytes of a header at this place.
fn number_at(rt: &impl Abort, header: &TransportHeader, place: usize) -> Option<u16> {
    match bytes_from(rt, header.to_bytes().as_slice(), place) {
        [high, low, ..] => Some(u16::from_be_bytes([*high, *low])),
        _ => None,
    }
}

/// The protocol, a packet without its checksum, the length of the header, where the checksum is, and which one it is over IPv4 and IPv6.
type Row = (Proto, &'static [u8], usize, usize, Option<u16>, u16);

#[rattlefmt::skip]
static ROWS: [Row; 4] = [
    (Proto::Udp, &[0, 53, 4, 210, 0, 11, 0, 0, 97, 98, 99], 8, 6, Some(0x226C), 0xDAF9),
    (
        Proto::Tcp, &[0, 80, 4, 210, 0, 0, 0, 1, 0, 0, 0, 0, 0x50, 0x12, 0x20, 0, 0, 0, 0, 0, 97, 98, 99],
        20, 16, Some(0xB247), 0x6AD5,
    ),
    (Proto::Icmpv4, &[8, 0, 0, 0, 0, 1, 0, 2, 97], 8, 2, Some(0x96FC), 0x96FC),
    (Proto::Icmpv6, &[128, 0, 0, 0, 0, 1, 0, 2, 97], 8, 2, None, 0xC343),
];

/// Updates the checksum of a header over IPv4 and then over IPv6.
fn expect_updates(rt: &impl Abort, header: &mut TransportHeader, payload: &[u8], row: &Row) {
    let (protocol, _, _, place, over_ipv4, over_ipv6) = row;
    let (refusal, stored) = match over_ipv4 {
        Some(checksum) => (Ok(()), *checksum),
        None => (Err(TransportChecksumError::Icmpv6InIpv4), 0),
    };
    let updated = header.update_checksum_ipv4(&IPV4, payload);
    expect_equal(rt, &(protocol, updated), &(protocol, refusal));
    let number = number_at(rt, header, *place);
    expect_equal(rt, &(protocol, number), &(protocol, Some(stored)));
    expect_ok(rt, header.update_checksum_ipv6(&IPV6, payload));
    let number = number_at(rt, header, *place);
    expect_equal(rt, &(protocol, number), &(protocol, Some(*over_ipv6)));
}

#[test]
fn headers_are_read_written_and_updated(rt: HostRuntime) {
    for row in &ROWS {
        let (protocol, packet, len, ..) = row;
        let (mut header, payload) = read(&rt, *protocol, packet);
        expect_equal(
            &rt,
            &(header.proto(), header.header_len()),
            &(*protocol, *len),
        );
        let parts = expect_some(&rt, packet.split_at_checked(*len));
        expect_equal(&rt, &(header.to_bytes().as_slice(), payload), &parts);
        expect_updates(&rt, &mut header, payload, row);
    }
}

#[test]
fn payloads_that_are_too_long_leave_the_header(rt: HostRuntime) {
    let payload = [0; 65_536];
    let packet = [0x50; 20];
    for (protocol, max_allowed, value_type) in [
        (Proto::Udp, 65_527, ValueType::UdpPayloadLengthIpv4),
        (Proto::Tcp, 65_515, ValueType::TcpPayloadLengthIpv4),
    ] {
        let (mut header, _) = read(&rt, protocol, &packet);
        let expected = TransportChecksumError::PayloadLen(ValueTooBigError {
            actual: 65_536,
            max_allowed,
            value_type,
        });
        let updated = header.update_checksum_ipv4(&IPV4, &payload);
        expect_equal(&rt, &updated, &Err(expected));
        let (unchanged, _) = read(&rt, protocol, &packet);
        expect_equal(&rt, &header, &unchanged);
    }
}

#[rattlefmt::skip]
static TEXTS: [(TransportChecksumError, &str); 2] = [
    (
        TransportChecksumError::PayloadLen(ValueTooBigError {
            actual: 65_528, max_allowed: 65_527, value_type: ValueType::UdpPayloadLengthIpv4,
        }),
        "Value Error: UdpPayloadLengthIpv4 65528 is above 65527.",
    ),
    (TransportChecksumError::Icmpv6InIpv4, "ICMPv6 Error: a checksum over IPv4 does not exist."),
];

#[test]
fn texts_of_a_checksum_that_is_not_calculated(rt: HostRuntime) {
    for (error, expected) in &TEXTS {
        expect_text(&rt, error, expected);
        expect_text(&rt, &error.text(), expected);
    }
}

/// The protocol, a header, and the layer of the error.
#[rattlefmt::skip]
static HEADERS: [(Proto, &[u8], Layer); 5] = [
    (Proto::Udp, &[1, 2, 3, 4, 5, 6, 7, 8], Layer::UdpHeader),
    (Proto::Tcp, &[1, 2, 3, 4, 5, 6, 7, 8, 9, 10, 11, 12, 0x61, 13, 14, 15, 16, 17, 18, 19, 2, 4, 5, 0xB4], Layer::TcpHeader),
    (Proto::Icmpv4, &[8, 0, 3, 4, 5, 6, 7, 8], Layer::Icmpv4),
    (Proto::Icmpv4, &[13, 0, 3, 4, 5, 6, 7, 8, 9, 10, 11, 12, 13, 14, 15, 16, 17, 18, 19, 20], Layer::Icmpv4),
    (Proto::Icmpv6, &[128, 0, 3, 4, 5, 6, 7, 8], Layer::Icmpv6),
];

/// Writes these bytes as a header to the first `len` bytes of a slice of 25 bytes.
fn expect_written(
    rt: &impl Abort,
    header: &TransportHeader,
    bytes: &[u8],
    layer: Layer,
    len: usize,
) {
    let mut slice = [0xEE; 25];
    let mut expected = slice;
    let written = header.write_to_slice(expect_some(rt, slice.get_mut(..len)));
    let mut outcome = Err(LenError {
        required_len: bytes.len(),
        len,
        len_source: LenSource::Slice,
        layer,
        layer_start_offset: 0,
    });
    if bytes.len() <= len && len <= 25 {
        outcome = Ok(bytes.len());
        expected[..bytes.len()].copy_from_slice(bytes);
    }
    expect_equal(
        rt,
        &(bytes, len, written, slice),
        &(bytes, len, outcome, expected),
    );
}

#[test]
fn headers_are_written_to_slices(rt: HostRuntime) {
    for (protocol, bytes, layer) in &HEADERS {
        let (header, _) = read(&rt, *protocol, bytes);
        for len in 0..=25 {
            expect_written(&rt, &header, bytes, *layer, len);
        }
    }
}
