//! Packets in frames of PPPoE, whose header contains the length of its payload.

use super::packet::{CUT_OFF, OTHER_PROTOCOL, RIGHT};
use crate::expect::{expect_at, expect_equal, joined};
use crate::packets::{IPV4_UDP, UDP_OVER_IPV4};
use capture_file::{ByteOrder, LinkType};
use capture_packet::{Content, Refusal, Verdict, read_packet};
use etherparse_transport::ip::IpError;
use std::process::Abort;

/// The link types of PPPoE frames, and the bytes before the PPPoE header.
static BEFORE_SESSION: [(LinkType, &[u8]); 2] = [
    (
        LinkType::Ethernet,
        &[2, 0, 0, 0, 0, 2, 2, 0, 0, 0, 0, 1, 0x88, 0x64],
    ),
    (LinkType::PppOverEthernet, &[]),
];

/// The length in a PPPoE header, and the verdict on the frame. After the PPP protocol number it has a UDP packet of 31 bytes, and four
/// bytes of padding.
#[rattlefmt::skip]
static PAYLOAD_LENS: [(u8, Verdict); 8] = [
    (0, OTHER_PROTOCOL),
    (1, OTHER_PROTOCOL),
    (2, Verdict::Refused(Refusal::Ip(IpError::HeaderCutOff { required_len: 1, len: 0 }))),
    (21, Verdict::Refused(Refusal::Ip(IpError::HeaderCutOff { required_len: 20, len: 19 }))),
    (32, CUT_OFF),
    (33, RIGHT),
    (37, RIGHT),
    (38, RIGHT),
];

/// Stops the test unless this is the verdict on a frame with this length in its PPPoE header, after these bytes.
fn expect_verdict(
    rt: &(impl Abort + AllocGlobal),
    link_type: LinkType,
    before: &[u8],
    len: u8,
    is_cut: bool,
    expected: &Verdict,
) {
    let header = [0x11, 0, 0, 1, 0, len, 0, 0x21];
    let parts: [&[u8]; 5] = [before, &header, &IPV4_UDP, &UDP_OVER_IPV4, &[0xEE; 4]];
    let frame = joined(rt, &parts);
    let packet = read_packet(link_type, ByteOrder::BigEndian, &frame, is_cut, false);
    expect_at(rt, &len, &packet.verdict, expected);
}

/// Stops the test unless this is the verdict on the frames of each link type with this length, whether the capture cut them or not.
fn expect_verdicts(rt: &(impl Abort + AllocGlobal), len: u8, expected: &Verdict) {
    for (link_type, before) in &BEFORE_SESSION {
        expect_verdict(rt, *link_type, before, len, false, expected);
        expect_verdict(rt, *link_type, before, len, true, expected);
    }
}

#[test]
fn payloads_of_pppoe_end_at_their_length(rt: HostRuntime) {
    for (len, expected) in &PAYLOAD_LENS {
        expect_verdicts(&rt, *len, expected);
    }
}

/// Stops the test unless the payload of the packet in a frame of PPPoE has three bytes, and is of another protocol.
fn expect_three_bytes(rt: &impl Abort, frame: &[u8], is_cut: bool) {
    let link_type = LinkType::PppOverEthernet;
    let packet = read_packet(link_type, ByteOrder::BigEndian, frame, is_cut, false);
    let is_counted = matches!(packet.content, Content::Ip { payload_len: 3, .. });
    expect_equal(rt, &is_counted, &true);
    expect_equal(rt, &packet.verdict, &OTHER_PROTOCOL);
}

#[test]
fn packets_without_a_length_end_with_their_pppoe_payload(rt: HostRuntime) {
    let frame = [
        0x11, 0, 0, 1, 0, 25, 0, 0x21, 0x45, 0, 0, 0, 0, 1, 0x40, 0, 64, 200, 0, 0, 10, 0, 0, 1,
        10, 0, 0, 2, 1, 2, 3, 0xEE, 0xEE,
    ];
    expect_three_bytes(&rt, &frame, false);
    expect_three_bytes(&rt, &frame, true);
}

/// Stops the test unless this is the verdict on a frame of PPPoE that ends before its payload.
fn expect_early_end(rt: &impl Abort, is_cut: bool, expected: Verdict) {
    let link_type = LinkType::PppOverEthernet;
    let frame = [0x11, 0, 0, 1, 0, 33, 0, 0x21, 0x45, 0, 0];
    let packet = read_packet(link_type, ByteOrder::BigEndian, &frame, is_cut, false);
    expect_equal(rt, &packet.verdict, &expected);
}

#[test]
fn frames_end_before_their_pppoe_payload(rt: HostRuntime) {
    expect_early_end(&rt, true, CUT_OFF);
    let refusal = IpError::HeaderCutOff {
        required_len: 20,
        len: 3,
    };
    expect_early_end(&rt, false, Verdict::Refused(Refusal::Ip(refusal)));
}
