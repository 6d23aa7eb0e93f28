//! Copies of the functions in docs/EXAMPLES.md, and their results.

use crate::expect::{bytes_from, bytes_to, expect_bytes, expect_equal, expect_ok, expect_some};
use etherparse_transport::ChecksumVerdict::{Absent, Right};
use etherparse_transport::err::ValueTooBigError;
use etherparse_transport::err::packet::{BuildSliceWriteError, TranslateError};
use etherparse_transport::ip::{
    IpAddresses, Ipv4Translation, Prefix64, Prefixes, answer_echo, checksum_verdict, flow,
    ipv4_to_ipv6, ipv6_to_ipv4, is_reply_to, translate_ipv4, transport_in_ip, transport_slice,
    write_packet_ipv4,
};
use etherparse_transport::{
    Ipv4Header, TcpHeader, TcpHeaderSlice, TcpOptionElement, TcpOptionWriteError, TransportHeader,
    TransportSlice, UdpHeader, UdpSlice, ip_number,
};
use std::process::Abort;

/// The UDP packet in an IP packet of either version, unless its checksum is wrong or can't be tested.
fn received_udp(captured: &[u8]) -> Option<UdpSlice<'_>> {
    let found = transport_in_ip(captured).ok()?;
    let verdict = checksum_verdict(&found).ok()?;
    match transport_slice(&found).ok()?? {
        TransportSlice::Udp(packet) if matches!(verdict, Right | Absent) => Some(packet),
        _ => None,
    }
}

/// The header of a UDP packet with this payload, to port 1234.
fn write_udp(addresses: &Ipv4Header, payload: &[u8]) -> Result<[u8; 8], ValueTooBigError<usize>> {
    let header = UdpHeader::with_ipv4_checksum(21, 1234, addresses, payload)?;
    Ok(header.to_bytes())
}

/// Writes a UDP packet over IPv4 with this payload to the front of the slice, and returns its length.
fn build_udp(slice: &mut [u8], payload: &[u8]) -> Result<usize, BuildSliceWriteError> {
    let header = TransportHeader::Udp(UdpHeader {
        source_port: 21,
        destination_port: 1234,
        ..UdpHeader::default()
    });
    let (source, destination) = ([192, 168, 1, 1], [192, 168, 1, 2]);
    write_packet_ipv4(slice, source, destination, 64, &header, payload)
}

#[test]
fn the_example_of_the_readme_udp(rt: HostRuntime) {
    let addresses = Ipv4Header {
        source: [192, 168, 1, 1],
        destination: [192, 168, 1, 2],
    };
    // An IPv4 packet, and two bytes of padding.
    let mut captured = [
        0x45, 0, 0, 36, 0, 0, 0, 0, 64, 17, 0, 0, 192, 168, 1, 1, 192, 168, 1, 2, 0x00, 0x15, 0x04,
        0xD2, 0x00, 0x10, 0x67, 0x7F, 1, 2, 3, 4, 5, 6, 7, 8, 0, 0,
    ];
    let packet = expect_some(&rt, received_udp(&captured));
    expect_equal(
        &rt,
        &(packet.source_port(), packet.destination_port()),
        &(21, 1234),
    );
    expect_equal(&rt, &packet.payload(), &[1, 2, 3, 4, 5, 6, 7, 8].as_slice());
    expect_equal(
        &rt,
        &expect_ok(&rt, write_udp(&addresses, b"abc")),
        &[0x00, 0x15, 0x04, 0xD2, 0x00, 0x0B, 0xB3, 0x3A],
    );
    let mut slice = [0xEE; 32];
    expect_equal(&rt, &(build_udp(&mut slice, b"abc")), &Ok(31));
    let built = [
        0x45, 0, 0, 31, 0, 0, 0x40, 0, 64, 17, 0xB7, 0x7A, 192, 168, 1, 1, 192, 168, 1, 2, 0x00,
        0x15, 0x04, 0xD2, 0x00, 0x0B, 0xB3, 0x3A, b'a', b'b', b'c', 0xEE,
    ];
    expect_equal(&rt, &slice, &built);
    captured[35] = 9;
    expect_equal(&rt, &received_udp(&captured).is_none(), &true);
    captured[26] = 0;
    captured[27] = 0;
    expect_equal(&rt, &received_udp(&captured).is_some(), &true);
    expect_equal(
        &rt,
        &received_udp(bytes_to(&rt, &captured, 35)).is_none(),
        &true,
    );
}

/// The header and the payload of the TCP segment in an IPv4 packet, if its checksum is right.
fn received_tcp(captured: &[u8]) -> Option<(TcpHeader, &[u8])> {
    let transport = transport_in_ip(captured).ok()?;
    let IpAddresses::Ipv4 {
        source,
        destination,
    } = transport.addresses
    else {
        return None;
    };
    if transport.protocol != ip_number::TCP || transport.is_fragment {
        return None;
    }
    let (header, payload) = TcpHeader::from_slice(transport.payload).ok()?;
    let bytes = TcpHeaderSlice::from_slice(transport.payload).ok()?;
    let is_right = bytes.is_checksum_valid_ipv4(*source, *destination, payload);
    is_right.then_some((header, payload))
}

/// The largest segment that the sender of this header accepts, if the header states it.
fn maximum_segment_size(header: &TcpHeader) -> Option<u16> {
    for option in header.options_iterator() {
        if let Ok(TcpOptionElement::MaximumSegmentSize(size)) = option {
            return Some(size);
        }
    }
    None
}

/// The reply to the first packet of a connection, without its checksum.
fn reply_to(request: &TcpHeader) -> Result<TcpHeader, TcpOptionWriteError> {
    let mut reply = TcpHeader::new(request.destination_port, request.source_port, 7, 65535);
    reply.acknowledgment_number = request.sequence_number.wrapping_add(1);
    reply.syn = true;
    reply.ack = true;
    reply.set_options(&[TcpOptionElement::MaximumSegmentSize(1460)])?;
    Ok(reply)
}

#[test]
fn the_example_of_the_readme_tcp(rt: HostRuntime) {
    // An IPv4 packet: a TCP segment with two options and no payload.
    let mut captured = [
        0x45, 0, 0, 48, 0, 0, 0, 0, 64, 6, 0, 0, 192, 168, 1, 1, 192, 168, 1, 2, 0xC3, 0x50, 0x00,
        0x50, 0, 0, 0, 1, 0, 0, 0, 0, 0x70, 0x02, 0xFF, 0xF0, 0x37, 0x39, 0, 0, 2, 4, 0x05, 0xB4,
        3, 3, 7, 0,
    ];
    let (header, payload) = expect_some(&rt, received_tcp(&captured));
    expect_equal(
        &rt,
        &(header.source_port, header.destination_port),
        &(50000, 80),
    );
    expect_equal(
        &rt,
        &(header.syn && !header.ack && payload.is_empty()),
        &true,
    );
    expect_equal(&rt, &maximum_segment_size(&header), &Some(1460));

    let mut reply = expect_ok(&rt, reply_to(&header));
    expect_equal(
        &rt,
        &(reply.source_port, reply.destination_port),
        &(80, 50000),
    );
    expect_equal(&rt, &reply.acknowledgment_number, &2);
    expect_equal(&rt, &(reply.syn && reply.ack), &true);
    let checksum = reply.calc_checksum_ipv4_raw([192, 168, 1, 2], [192, 168, 1, 1], &[]);
    reply.checksum = expect_ok(&rt, checksum);
    let bytes = reply.to_bytes();
    expect_equal(&rt, &bytes.len(), &24);
    let (read, _) = expect_ok(&rt, TcpHeader::from_slice(&bytes));
    expect_equal(&rt, &maximum_segment_size(&read), &Some(1460));
    expect_equal(&rt, &read, &reply);

    // A bit of byte 12 that has no meaning is summed too.
    captured[32] = 0x72;
    expect_equal(&rt, &received_tcp(&captured).is_none(), &true);
}

/// The echo reply to the request in a packet of either version, written over the request. `None` for any other packet.
fn echo_reply(packet: &mut [u8]) -> Option<&[u8]> {
    let len = answer_echo(packet, 64).ok()?;
    packet.get(..len)
}

/// The first received packet that is the reply to the echo request that was sent.
fn first_reply<'a>(sent: &[u8], received: &[&'a [u8]]) -> Option<&'a [u8]> {
    received
        .iter()
        .copied()
        .find(|packet| is_reply_to(sent, packet))
}

/// An echo request over IPv4, and over IPv6.
#[rattlefmt::skip]
static ECHO_REQUESTS: [&[u8]; 2] = [
    &[
        0x45, 0, 0, 32, 0, 0, 0, 0, 64, 1, 0xF7, 0x89, 192, 168, 1, 1, 192, 168, 1, 2,
        0x08, 0x00, 0x19, 0x2C, 0x00, 0x01, 0x00, 0x02, b'p', b'i', b'n', b'g',
    ],
    &[
        0x60, 0, 0, 0, 0, 12, 58, 64, 0x20, 0x01, 0x0D, 0xB8, 0, 0, 0, 0, 0, 0, 0, 0, 0, 0, 0, 1,
        0x20, 0x01, 0x0D, 0xB8, 0, 0, 0, 0, 0, 0, 0, 0, 0, 0, 0, 2,
        0x80, 0x00, 0x45, 0x70, 0x00, 0x01, 0x00, 0x02, b'p', b'i', b'n', b'g',
    ],
];

/// Stops the test unless the request has a reply, which is found among other packets. A changed request has no reply.
fn expect_reply(rt: &impl Abort, request: &[u8]) {
    let mut buffer = [0; 52];
    for (place, byte) in buffer.iter_mut().zip(request) {
        *place = *byte;
    }
    let reply = expect_some(rt, echo_reply(&mut buffer));
    expect_equal(rt, &reply.len(), &request.len());
    expect_equal(rt, &first_reply(request, &[request, reply]), &Some(reply));
    expect_equal(rt, &first_reply(reply, &[request, reply]), &None);
    expect_equal(rt, &echo_reply(&mut buffer).is_none(), &true);
}

#[test]
fn the_example_of_the_readme_echo(rt: HostRuntime) {
    for request in &ECHO_REQUESTS {
        expect_reply(&rt, request);
    }
}

/// The source port of the packet that an ICMP error is about, or the identifier of an echo request. `None` if there is none.
fn port_in_error(captured: &[u8]) -> Option<u16> {
    flow(captured).ok()?.quoted?.source_port
}

/// A time exceeded message from 203.0.113.1 to 192.0.2.1, about the first 8 bytes of a UDP packet from 192.0.2.1, port 49152, to
/// 198.51.100.7, port 33434.
static TIME_EXCEEDED: [u8; 56] = [
    0x45, 0, 0, 56, 0, 0, 0, 0, 64, 1, 0, 0, 203, 0, 113, 1, 192, 0, 2, 1, // IPv4
    11, 0, 0, 0, 0, 0, 0, 0, // ICMPv4
    0x45, 0, 0, 60, 0, 0, 0, 0, 1, 17, 0, 0, 192, 0, 2, 1, 198, 51, 100, 7, // the quoted packet
    0xC0, 0, 0x82, 0x9A, 0, 40, 0, 0,
];

/// This byte at this place of the message, and the port that is found then.
static CHANGED_ERRORS: [(usize, u8, Option<u16>); 7] = [
    (0, 0x45, Some(49152)),
    (37, 6, Some(49152)),
    (37, 1, None),
    (35, 1, None),
    (20, 8, None),
    (25, 5, Some(49152)),
    (25, 6, Some(49152)),
];

/// Stops the test unless this port is found if a byte is changed.
fn expect_port(rt: &impl Abort, row: &(usize, u8, Option<u16>)) {
    let (place, byte, port) = row;
    let mut captured = TIME_EXCEEDED;
    if *place < captured.len() {
        captured[*place] = *byte;
    }
    expect_equal(rt, &port_in_error(&captured), port);
}

#[test]
fn the_example_of_the_readme_errors(rt: HostRuntime) {
    for row in &CHANGED_ERRORS {
        expect_port(&rt, row);
    }
}

/// Translates a packet that a host behind the translator sent: 192.168.1.2, port 5000, becomes 203.0.113.7, port 40000.
fn translate_outbound(packet: &mut [u8]) -> Result<(), TranslateError> {
    let new = Ipv4Translation {
        source: Some([203, 0, 113, 7]),
        source_port: Some(40_000),
        ..Ipv4Translation::default()
    };
    translate_ipv4(packet, &new)
}

/// Translates a packet that came for the host: an answer, or an ICMP error about a packet that the host sent.
fn translate_inbound(packet: &mut [u8]) -> Result<(), TranslateError> {
    let new = Ipv4Translation {
        destination: Some([192, 168, 1, 2]),
        destination_port: Some(5_000),
        ..Ipv4Translation::default()
    };
    translate_ipv4(packet, &new)
}

/// A UDP packet that the host sent to 198.51.100.7, port 33434, with a time to live of 1.
static SENT: [u8; 28] = [
    0x45, 0, 0, 28, 0, 0, 0, 0, 1, 17, 0xCD, 0xEC, 192, 168, 1, 2, 198, 51, 100, 7, // IPv4
    0x13, 0x88, 0x82, 0x9A, 0, 8, 0x7D, 0xD6, // UDP
];

/// The time exceeded message of the router 198.51.100.1 about the translated packet.
static RETURNED: [u8; 56] = [
    0x45, 0, 0, 56, 0, 0, 0, 0, 64, 1, 0x14, 0x89, 198, 51, 100, 1, 203, 0, 113, 7, // IPv4
    11, 0, 0x5B, 0x5C, 0, 0, 0, 0, // ICMPv4
    0x45, 0, 0, 28, 0, 0, 0, 0, 1, 17, 0x53, 0x8F, 203, 0, 113, 7, 198, 51, 100, 7, // the quoted packet
    0x9C, 0x40, 0x82, 0x9A, 0, 8, 0x7A, 0xC0,
];

/// The beginning of the message that the host receives. The quoted packet after it is the packet that the host sent.
static RECEIVED: [u8; 28] = [
    0x45, 0, 0, 56, 0, 0, 0, 0, 64, 1, 0x8E, 0xE6, 198, 51, 100, 1, 192, 168, 1, 2, // IPv4
    11, 0, 0xE0, 0xFE, 0, 0, 0, 0, // ICMPv4
];

#[test]
fn the_example_of_the_readme_translation(rt: HostRuntime) {
    let mut packet = SENT;
    let mut error = RETURNED;
    expect_ok(&rt, translate_outbound(&mut packet));
    expect_equal(&rt, &packet.as_slice(), &bytes_from(&rt, &error, 28));
    expect_ok(&rt, translate_inbound(&mut error));
    expect_equal(&rt, &bytes_to(&rt, &error, 28), &RECEIVED.as_slice());
    expect_equal(&rt, &bytes_from(&rt, &error, 28), &SENT.as_slice());
    let refused = Err(TranslateError::HeaderCutOff {
        required_len: 8,
        len: 0,
    });
    expect_equal(&rt, &translate_outbound(&mut error[..20]), &refused);
}

/// Translates a packet, and returns its new length. `out` has the prefixes of the host and of the NAT64, and `back` has them exchanged.
fn translate(packet: &[u8], out: &Prefixes, back: &Prefixes, buffer: &mut [u8]) -> Option<usize> {
    match packet.first()? >> 4 {
        4 => ipv4_to_ipv6(packet, out, buffer).ok(),
        _ => ipv6_to_ipv4(packet, back, 0, buffer).ok(),
    }
}

/// UDP from 192.168.1.1 to 192.168.1.2.
static DATAGRAM: [u8; 31] = [
    0x45, 0, 0, 31, 0, 7, 0, 0, 64, 17, 0xF7, 0x73, 192, 168, 1, 1, 192, 168, 1, 2, // IPv4
    0, 21, 4, 210, 0, 11, 0xB3, 0x3A, b'a', b'b', b'c', // UDP
];

/// The prefix 2001:db8::/96 with another last byte.
fn prefix_with(rt: &impl Abort, last: u8) -> Prefix64 {
    let address = [0x20, 1, 0x0D, 0xB8, 0, 0, 0, 0, 0, 0, 0, last, 0, 0, 0, 0];
    expect_ok(rt, Prefix64::new(address, 96))
}

/// The verdict on the packet is that its checksum is right.
fn expect_right(rt: &impl Abort, packet: &[u8]) {
    let found = expect_ok(rt, transport_in_ip(packet));
    expect_equal(rt, &expect_ok(rt, checksum_verdict(&found)), &Right);
}

#[test]
fn the_example_of_the_readme_between_versions(rt: HostRuntime) {
    let (source, destination) = (prefix_with(&rt, 1), prefix_with(&rt, 2));
    let out = Prefixes::new(source, destination);
    let back = Prefixes::new(destination, source);
    let mut sent = [0; 51];
    expect_equal(
        &rt,
        &translate(&DATAGRAM, &out, &back, &mut sent),
        &Some(51),
    );
    expect_equal(&rt, &[sent[0], sent[19], sent[35]], &[0x60, 1, 2]);
    expect_right(&rt, &sent);
    // The answer goes from the destination to the source, with the same ports.
    let mut answer = sent;
    answer[8..24].copy_from_slice(&sent[24..40]);
    answer[24..40].copy_from_slice(&sent[8..24]);
    let mut received = [0; 31];
    expect_equal(
        &rt,
        &translate(&answer, &out, &back, &mut received),
        &Some(31),
    );
    expect_bytes(&rt, &received[12..20], &[192, 168, 1, 2, 192, 168, 1, 1]);
    expect_right(&rt, &received);
    expect_equal(&rt, &translate(&answer, &back, &out, &mut received), &None);
    expect_equal(&rt, &translate(&[], &out, &back, &mut received), &None);
}
