//! Tests of link headers: the network packet in a frame.

use crate::expect::{bytes_to, expect_at, joined};
use crate::packets::{IPV4_UDP, UDP_OVER_IPV4};
use capture_numbers::{ByteOrder, LinkType};
use capture_packet::{Frame, LinkHeaderCutOff, NetworkBytes, NetworkProtocol, network_packet};
use std::process::Abort;

/// LLC and SNAP headers with the ether type of IPv4 (RFC 1042).
const SNAP: [u8; 8] = [0xAA, 0xAA, 3, 0, 0, 0, 8, 0];

/// The duration, three addresses and the sequence number 1 of a data frame.
const ADDRESSES: [u8; 22] = [
    0x2C, 0, 2, 0, 0, 0, 0, 2, 2, 0, 0, 0, 0, 1, 2, 0, 0, 0, 0, 3, 0x10, 0,
];

/// The length of the link header of this frame, and the bytes after it, as many as the UDP packet has.
fn udp_in<'a>(rt: &impl Abort, link_type: LinkType, frame: &'a [u8]) -> (usize, &'a [u8]) {
    let len = IPV4_UDP.len() + UDP_OVER_IPV4.len();
    match network_packet(link_type, ByteOrder::BigEndian, frame) {
        Ok(Frame::Ip(found)) => (found.start, bytes_to(rt, found.bytes, len)),
        _ => (0, &[]),
    }
}

/// Stops the test unless the UDP packet is found after these parts of a link header, and before four bytes.
fn expect_udp(rt: &(impl Abort + AllocGlobal), link_type: LinkType, header: &[&[u8]]) {
    let header = joined(rt, header);
    let packet = joined(rt, &[&IPV4_UDP, &UDP_OVER_IPV4]);
    let frame = joined(rt, &[&header, &packet, &[1, 2, 3, 4]]);
    let found = udp_in(rt, link_type, &frame);
    expect_at(rt, &frame, &found, &(header.len(), packet.as_slice()));
}

/// Stops the test unless the frame contains another protocol, or ends within a link header of this length.
fn expect_other(
    rt: &impl Abort,
    link_type: LinkType,
    frame: &[u8],
    expected: Result<NetworkProtocol, usize>,
) {
    let len = frame.len();
    let expected = match expected {
        Ok(protocol) => Ok(Some(protocol)),
        Err(required_len) => Err(LinkHeaderCutOff { required_len, len }),
    };
    let found = match network_packet(link_type, ByteOrder::LittleEndian, frame) {
        Ok(Frame::Other(protocol, _)) => Ok(Some(protocol)),
        Ok(Frame::Ip(_)) => Ok(None),
        Err(error) => Err(error),
    };
    expect_at(rt, &frame, &found, &expected);
}

/// The Frame Control field, and the bytes after the sequence number: address 4, QoS Control and HT Control.
#[rattlefmt::skip]
static WIRELESS: [(&[u8], &[u8]); 9] = [
    (&[0x08, 0x01], &[]),
    (&[0x08, 0x0A], &[]),
    (&[0x18, 0x00], &[]),
    (&[0x08, 0x03], &[2, 0, 0, 0, 0, 4]),
    (&[0x08, 0x81], &[]),
    (&[0x88, 0x01], &[5, 0x80]),
    (&[0x88, 0x03], &[0x80, 0, 0, 0, 0, 4, 0x60, 0]),
    (&[0x88, 0x81], &[0, 0, 1, 2, 3, 4]),
    (&[0x88, 0x83], &[2, 0, 0, 0, 0, 4, 0, 0, 1, 2, 3, 4]),
];

/// The link types of IEEE 802.11 frames, and the headers before the frame.
#[rattlefmt::skip]
static BEFORE_WIRELESS: [(LinkType, &[u8]); 9] = [
    (LinkType::Ieee80211, &[]),
    (LinkType::Radiotap, &[0, 0, 8, 0, 0, 0, 0, 0]),
    (LinkType::Radiotap, &[0, 7, 9, 0, 2, 0, 0, 0, 0x10]),
    (LinkType::Prism, &[0; 144]),
    (LinkType::Prism, &[0x80, 0x21, 0x10, 1, 0, 0, 0, 12, 0, 0, 0, 0]),
    (LinkType::Prism, &[0x80, 0x21, 0x10, 2, 0, 0, 0, 8]),
    (LinkType::Avs, &[0x80, 0x21, 0x10, 1, 0, 0, 0, 12, 0, 0, 0, 0]),
    (LinkType::Avs, &[0x80, 0x21, 0x10, 3, 0, 0, 0, 8]),
    (LinkType::Ppi, &[0, 0, 8, 0, 105, 0, 0, 0]),
];

/// Stops the test unless the packet in a data frame with these headers is read, after each of the headers before it.
fn expect_wireless(rt: &(impl Abort + AllocGlobal), frame_control: &[u8], rest: &[u8]) {
    for (link_type, radiotap) in &BEFORE_WIRELESS {
        expect_udp(
            rt,
            *link_type,
            &[radiotap, frame_control, &ADDRESSES, rest, &SNAP],
        );
    }
}

#[test]
fn wireless_headers_are_passed_over(rt: HostRuntime) {
    for (frame_control, rest) in &WIRELESS {
        expect_wireless(&rt, frame_control, rest);
    }
}

/// The Frame Control field, the first byte of the sequence number, the bytes after it, and the protocol that is found, or the length of the
/// header that is cut off.
type WirelessRow = (
    &'static [u8],
    &'static [u8],
    &'static [u8],
    Result<NetworkProtocol, usize>,
);

#[rattlefmt::skip]
static OTHER_WIRELESS: [WirelessRow; 17] = [
    (&[0x80, 0x00], &[0x10], &[], Ok(NetworkProtocol::Ieee80211 { frame_control: 0x8000 })),
    (&[0xD4, 0x00], &[0x10], &[], Ok(NetworkProtocol::Ieee80211 { frame_control: 0xD400 })),
    (&[0x48, 0x01], &[0x10], &SNAP, Ok(NetworkProtocol::Ieee80211 { frame_control: 0x4801 })),
    (&[0xC8, 0x01], &[0x10], &[0, 0], Ok(NetworkProtocol::Ieee80211 { frame_control: 0xC801 })),
    (&[0x08, 0x41], &[0x10], &SNAP, Ok(NetworkProtocol::Ieee80211 { frame_control: 0x0841 })),
    (&[0x08, 0x05], &[0x10], &SNAP, Ok(NetworkProtocol::Ieee80211 { frame_control: 0x0805 })),
    (&[0x08, 0x01], &[0x11], &SNAP, Ok(NetworkProtocol::Ieee80211 { frame_control: 0x0801 })),
    (&[0x0C, 0x01], &[0x10], &SNAP, Ok(NetworkProtocol::Ieee80211 { frame_control: 0x0C01 })),
    (&[0x09, 0x01], &[0x10], &SNAP, Ok(NetworkProtocol::Ieee80211 { frame_control: 0x0901 })),
    (&[0x88, 0x02], &[0x10], &[0x80, 0], Ok(NetworkProtocol::Ieee80211 { frame_control: 0x8802 })),
    (&[0x08, 0x01], &[0x10], &[0x42, 0x43, 3], Ok(NetworkProtocol::Llc { dsap: 0x42, ssap: 0x43 })),
    (
        &[0x08, 0x01], &[0x10], &[0xAA, 0xAA, 3, 0, 0, 0x0C, 0x20, 0],
        Ok(NetworkProtocol::Snap { organization_code: 0x0C, protocol: 0x2000 }),
    ),
    (&[0x08, 0x01], &[0x10], &[0xAA, 0xAA, 3, 0, 0, 0, 8, 6], Ok(NetworkProtocol::EtherType(0x0806))),
    (&[0x08, 0x01], &[0x10], &[0xAA, 0xAA], Err(27)),
    (&[0x08, 0x01], &[0x10], &[0xAA, 0xAA, 3, 0, 0, 0, 8], Err(32)),
    (&[0x88, 0x03], &[0x10], &[0, 0, 0, 0, 0, 0, 0], Err(32)),
    (&[0x88, 0x81], &[0x10], &[0, 0], Err(30)),
];

/// Stops the test unless the frame of a row has the protocol of the row, or ends within its header.
fn expect_other_wireless(rt: &(impl Abort + AllocGlobal), row: &WirelessRow) {
    let (frame_control, sequence, rest, expected) = *row;
    let parts: [&[u8]; 5] = [frame_control, &ADDRESSES[..20], sequence, &[0], rest];
    let frame = joined(rt, &parts);
    expect_other(rt, LinkType::Ieee80211, &frame, expected);
}

#[test]
fn other_wireless_frames(rt: HostRuntime) {
    for row in &OTHER_WIRELESS {
        expect_other_wireless(&rt, row);
    }
}

#[rattlefmt::skip]
static RADIOTAP: [(&[u8], Result<NetworkProtocol, usize>); 6] = [
    (&[0, 0, 8, 0, 0, 0, 0], Err(8)),
    (&[0, 0, 8, 0, 0, 0, 0, 0, 0x80], Err(10)),
    (&[0, 0, 0, 1, 0, 0, 0, 0, 0x80, 0], Err(258)),
    (&[1, 0, 8, 0, 0, 0, 0, 0, 0x80, 0], Ok(NetworkProtocol::Radiotap { version: 1, len: 8 })),
    (&[0, 0, 7, 0, 0, 0, 0, 0, 0x80, 0], Ok(NetworkProtocol::Radiotap { version: 0, len: 7 })),
    (&[0, 0, 9, 0, 0, 0, 0, 0, 8, 0x80, 0], Ok(NetworkProtocol::Ieee80211 { frame_control: 0x8000 })),
];

#[test]
fn radiotap_headers(rt: HostRuntime) {
    for (frame, expected) in &RADIOTAP {
        expect_other(&rt, LinkType::Radiotap, frame, *expected);
    }
}

#[rattlefmt::skip]
static SERIAL: [(LinkType, &[u8]); 20] = [
    (LinkType::Ppp, &[0xFF, 3, 0, 0x21]),
    (LinkType::Ppp, &[0, 0x21]),
    (LinkType::Ppp, &[0x21]),
    (LinkType::Ppp, &[0xFF, 3, 0x21]),
    (LinkType::Ppp, &[0, 0x57]),
    (LinkType::Ppp, &[0x57]),
    (LinkType::Ppp, &[0xFF, 3, 2, 0x81, 0, 1, 1, 64]),
    (LinkType::Ppp, &[2, 0x83, 0, 1, 0, 64, 0, 2, 1, 63]),
    (LinkType::PppHdlc, &[0xFF, 3, 0, 0x21]),
    (LinkType::PppHdlc, &[0x21]),
    (LinkType::PppHdlc, &[0x0F, 0, 8, 0]),
    (LinkType::PppHdlc, &[0x8F, 0, 0x86, 0xDD]),
    (LinkType::FrameRelay, &[0x18, 0x41, 3, 0xCC]),
    (LinkType::FrameRelay, &[0xFE, 0xFF, 3, 0, 0xCC]),
    (LinkType::FrameRelay, &[0x18, 0x41, 8, 0]),
    (LinkType::FrameRelay, &[0, 1, 0x86, 0xDD]),
    (LinkType::FrameRelay, &[0, 1, 3, 0x8E]),
    (LinkType::FrameRelay, &[0, 1, 3, 0x80, 0, 0, 0, 8, 0]),
    (LinkType::FrameRelay, &[0, 1, 3, 0, 0x80, 0, 0, 0, 8, 0]),
    (LinkType::FrameRelay, &[0, 1, 3, 0, 0x80, 0, 0, 0, 0x81, 0, 0, 1, 8, 0]),
];

#[test]
fn headers_of_serial_lines_are_passed_over(rt: HostRuntime) {
    for (link_type, header) in &SERIAL {
        expect_udp(&rt, *link_type, &[header]);
    }
}

/// The link type, a frame, and its protocol, or the length of the header that is cut off.
type SerialRow = (LinkType, &'static [u8], Result<NetworkProtocol, usize>);

#[rattlefmt::skip]
static OTHER_SERIAL: [SerialRow; 32] = [
    (LinkType::Ppp, &[0xFF, 3, 0xC0, 0x21], Ok(NetworkProtocol::PppProtocol(0xC021))),
    (LinkType::Ppp, &[0x80, 0x21], Ok(NetworkProtocol::PppProtocol(0x8021))),
    (LinkType::Ppp, &[0xFD, 0x21], Ok(NetworkProtocol::PppProtocol(0xFD))),
    (LinkType::Ppp, &[0xFF], Ok(NetworkProtocol::PppProtocol(0xFF))),
    (LinkType::Ppp, &[0xFF, 2, 0, 0x21], Ok(NetworkProtocol::PppProtocol(0xFF))),
    (LinkType::Ppp, &[], Err(1)),
    (LinkType::Ppp, &[0], Err(2)),
    (LinkType::Ppp, &[0xFF, 3], Err(3)),
    (LinkType::Ppp, &[0xFF, 3, 0], Err(4)),
    (LinkType::Ppp, &[0x0F, 0, 8, 0], Ok(NetworkProtocol::PppProtocol(0x0F))),
    (LinkType::Ppp, &[2, 0x81, 0, 1, 1, 64, 0], Ok(NetworkProtocol::PppProtocol(0x0281))),
    (LinkType::Ppp, &[0xFF, 3, 2, 0x83, 0, 1, 1], Err(8)),
    (LinkType::PppHdlc, &[], Err(1)),
    (LinkType::PppHdlc, &[0x8F, 0, 0x80], Err(4)),
    (LinkType::PppHdlc, &[0x8F, 0, 0x80, 0x35], Ok(NetworkProtocol::LinkType(104))),
    (LinkType::PppHdlc, &[0x0F, 0, 0x20, 0], Ok(NetworkProtocol::LinkType(104))),
    (LinkType::CiscoHdlc, &[0x0F, 0, 0x80, 0x35], Ok(NetworkProtocol::LinkType(104))),
    (LinkType::CiscoHdlc, &[0x8F, 0, 0x20, 0], Ok(NetworkProtocol::LinkType(104))),
    (LinkType::CiscoHdlc, &[0x8F, 0, 0x80, 0x36], Ok(NetworkProtocol::EtherType(0x8036))),
    (LinkType::CiscoHdlc, &[0x8F, 0, 0x20, 1], Ok(NetworkProtocol::EtherType(0x2001))),
    (LinkType::CiscoHdlc, &[0x8F, 0, 0x81, 0, 0, 5, 0x80, 0x35], Ok(NetworkProtocol::EtherType(0x8035))),
    (LinkType::CiscoHdlc, &[0x8F, 0, 0x20], Err(4)),
    (LinkType::FrameRelay, &[0, 1, 3], Err(4)),
    (LinkType::FrameRelay, &[0, 1, 3, 0], Err(5)),
    (LinkType::FrameRelay, &[0, 1, 3, 0x80, 0, 0, 0, 8], Err(9)),
    (LinkType::FrameRelay, &[0, 1, 3, 8], Ok(NetworkProtocol::Nlpid(8))),
    (LinkType::FrameRelay, &[0, 1, 0x7F, 0xCC], Ok(NetworkProtocol::FrameRelay { header: 0x17F })),
    (LinkType::FrameRelay, &[0x18, 0x41, 8, 6], Ok(NetworkProtocol::FrameRelay { header: 0x18_4108 })),
    (LinkType::FrameRelay, &[0, 0, 8, 0], Ok(NetworkProtocol::FrameRelay { header: 8 })),
    (LinkType::FrameRelay, &[1, 1, 8, 0], Ok(NetworkProtocol::FrameRelay { header: 0x1_0108 })),
    (LinkType::FrameRelay, &[0, 0, 3, 0xCC], Ok(NetworkProtocol::FrameRelay { header: 3 })),
    (LinkType::FrameRelay, &[1, 1, 3, 0xCC], Ok(NetworkProtocol::FrameRelay { header: 0x1_0103 })),
];

#[test]
fn other_frames_of_serial_lines(rt: HostRuntime) {
    for (link_type, frame, expected) in &OTHER_SERIAL {
        expect_other(&rt, *link_type, frame, *expected);
    }
}

/// The bytes of an Ethernet frame after its addresses and before an IPv4 packet.
#[rattlefmt::skip]
static ETHER_TYPES: [&[u8]; 12] = [
    &[0, 36, 6, 6, 3],
    &[0x81, 0, 0, 5, 0, 36, 6, 6, 3],
    &[0, 41, 0xAA, 0xAA, 3, 0, 0, 0xF8, 8, 0],
    &[0, 45, 0xAA, 0xAA, 3, 0, 0, 0xF8, 0x81, 0, 0, 5, 0x86, 0xDD],
    &[0x88, 0x64, 0x11, 0, 0, 1, 0, 33, 0, 0x21],
    &[0x81, 0, 0, 5, 0x88, 0x64, 0x11, 0, 0xFF, 0xFF, 0, 33, 0, 0x57],
    &[0x88, 0x47, 0, 1, 1, 64],
    &[0x88, 0x48, 0, 1, 0, 64, 0, 2, 0xFE, 63, 0, 3, 0xFF, 62],
    &[0x81, 0, 0, 5, 0x88, 0x47, 0, 1, 1, 64],
    &[0x88, 0x47, 0, 1, 0, 64, 0, 0, 1, 64],
    &[0x92, 0, 0, 5, 8, 0],
    &[0x92, 0, 0, 5, 0x92, 0, 0, 6, 0x81, 0, 0, 7, 8, 0],
];

/// Stops the test unless the packet in an Ethernet frame with these bytes after its addresses is read.
fn expect_in_ethernet(rt: &(impl Abort + AllocGlobal), after: &[u8]) {
    expect_udp(rt, LinkType::Ethernet, &[&ADDRESSES[2..14], after]);
}

#[test]
fn headers_after_an_ether_type_are_passed_over(rt: HostRuntime) {
    for after in &ETHER_TYPES {
        expect_in_ethernet(&rt, after);
    }
}

/// The bytes of an Ethernet frame after its addresses, and its protocol, or the length of the header that is cut off.
type EthernetRow = (&'static [u8], Result<NetworkProtocol, usize>);

#[rattlefmt::skip]
static OTHER_ETHER_TYPES: [EthernetRow; 37] = [
    (&[0x88, 0x64, 0x11, 0, 0, 1, 0], Err(20)),
    (&[0x88, 0x64, 0x11, 0, 0, 1, 0, 2], Err(21)),
    (&[0x88, 0x64, 0x11, 0, 0, 1, 0, 2, 0], Err(22)),
    (&[0x88, 0x64, 0x11, 0, 0, 1, 0, 2, 0xC0, 0x21], Ok(NetworkProtocol::PppProtocol(0xC021))),
    (&[0x88, 0x64, 0x11, 0, 0, 1, 0, 3, 0xC0, 0x21], Ok(NetworkProtocol::PppProtocol(0xC021))),
    (&[0x88, 0x64, 0x11, 0, 0, 1, 0, 1, 0xC1, 0x21], Ok(NetworkProtocol::PppProtocol(0xC1))),
    (&[0x88, 0x64, 0x11, 0, 0, 1, 0, 1, 0xC0, 0x21], Ok(NetworkProtocol::EtherType(0x8864))),
    (&[0x88, 0x64, 0x11, 0, 0, 1, 0, 0, 0xC0, 0x21], Ok(NetworkProtocol::EtherType(0x8864))),
    (&[0x88, 0x64, 0x11, 0, 0, 1, 0, 0], Ok(NetworkProtocol::EtherType(0x8864))),
    (&[0x88, 0x64, 0x11, 0, 0, 1, 0, 6, 2, 0x81, 0, 1, 1, 64, 0x45], Ok(NetworkProtocol::EtherType(0x8864))),
    (&[0x88, 0x64, 0x11, 0xA7, 0, 1, 0, 0], Ok(NetworkProtocol::EtherType(0x8864))),
    (&[0x88, 0x64, 0x21, 0, 0, 1, 0, 2, 0, 0x21], Ok(NetworkProtocol::EtherType(0x8864))),
    (&[0x88, 0x63, 0x11, 9, 0, 0, 0, 0], Ok(NetworkProtocol::EtherType(0x8863))),
    (&[0x88, 0x47, 0, 1, 1], Err(18)),
    (&[0x88, 0x47, 0, 1, 0, 64], Err(22)),
    (&[0x88, 0x47, 0, 1, 0, 64, 0, 2, 0, 64, 0, 3, 1], Err(26)),
    (&[0x88, 0x47, 0, 1, 1, 64], Err(19)),
    (&[0x88, 0x47, 0, 1, 1, 64, 0x00], Ok(NetworkProtocol::EtherType(0x8847))),
    (&[0x88, 0x48, 0, 1, 1, 64, 0x50], Ok(NetworkProtocol::EtherType(0x8848))),
    (&[0x81, 0, 0, 1, 0x88, 0x47, 0, 1, 1, 64], Err(23)),
    (&[0x88, 0x47, 0, 1, 1, 64, 0x44], Ok(NetworkProtocol::EtherType(0x8847))),
    (&[0x88, 0x47, 0, 1, 1, 64, 0x70], Ok(NetworkProtocol::EtherType(0x8847))),
    (&[0, 38, 0x42, 0x42, 3], Ok(NetworkProtocol::Llc { dsap: 0x42, ssap: 0x42 })),
    (&[5, 0xFF, 0xAA, 0xAA, 3, 0, 0, 0x0C, 0x20, 0], Ok(NetworkProtocol::Snap { organization_code: 0x0C, protocol: 0x2000 })),
    (&[0, 8, 0xAA, 0xAA, 3, 0, 0, 0, 8, 6], Ok(NetworkProtocol::EtherType(0x0806))),
    (&[0, 4, 0xFE, 0xFE, 3, 0x83], Ok(NetworkProtocol::Nlpid(0x83))),
    (&[0, 3, 0xFE, 0xFE, 3], Err(18)),
    (&[0, 3, 6, 6, 0xF3], Ok(NetworkProtocol::Llc { dsap: 6, ssap: 6 })),
    (&[0, 3, 6, 0x42, 3], Ok(NetworkProtocol::Llc { dsap: 6, ssap: 0x42 })),
    (&[0, 2, 6, 6], Err(17)),
    (&[0, 8, 0xAA, 0xAA, 3, 0, 0, 0xF8, 8, 6], Ok(NetworkProtocol::EtherType(0x0806))),
    (&[0, 8, 0xAA, 0xAA, 3, 0, 0, 0xF9, 8, 0], Ok(NetworkProtocol::Snap { organization_code: 0xF9, protocol: 0x0800 })),
    (&[0, 7, 0xAA, 0xAA, 3, 0, 0, 0xF8, 8], Err(22)),
    (&[0, 2, 0x42, 0x42], Err(17)),
    (&[0, 7, 0xAA, 0xAA, 3, 0, 0, 0, 8], Err(22)),
    (&[6, 0, 0x42, 0x42, 3], Ok(NetworkProtocol::EtherType(0x0600))),
    (&[0x81, 0, 0, 1, 0, 3, 0x42, 0x42, 3], Ok(NetworkProtocol::Llc { dsap: 0x42, ssap: 0x42 })),
];

/// Stops the test unless the Ethernet frame of a row has the protocol of the row, or ends within its header.
fn expect_other_ether_type(rt: &(impl Abort + AllocGlobal), row: &EthernetRow) {
    let (after, expected) = *row;
    let frame = joined(rt, &[&ADDRESSES[2..14], after]);
    expect_other(rt, LinkType::Ethernet, &frame, expected);
}

#[test]
fn other_headers_after_an_ether_type(rt: HostRuntime) {
    for row in &OTHER_ETHER_TYPES {
        expect_other_ether_type(&rt, row);
    }
}

/// The front of a Linux cooked frame of each version, up to its protocol or after it: a device type, and the bytes around it.
#[rattlefmt::skip]
static COOKED: [(LinkType, &[u8], Result<NetworkProtocol, usize>); 7] = [
    (LinkType::LinuxCooked, &[0, 4, 3, 0x38, 0, 0, 0, 0, 0, 0, 0, 0, 0, 0, 0, 16], Ok(NetworkProtocol::LinkType(253))),
    (LinkType::LinuxCooked, &[0, 4, 3, 0x38, 0, 0, 0, 0, 0, 0, 0, 0, 0, 0, 0, 4], Ok(NetworkProtocol::LinkType(253))),
    (LinkType::LinuxCooked, &[0, 4, 3, 0x38, 0, 0, 0, 0, 0, 0, 0, 0, 0, 0, 0], Err(16)),
    (LinkType::LinuxCooked, &[0, 4, 3, 0x39, 0, 0, 0, 0, 0, 0, 0, 0, 0, 0, 0, 16], Ok(NetworkProtocol::EtherType(16))),
    (LinkType::LinuxCooked2, &[0, 4, 0, 0, 0, 0, 0, 1, 3, 0x38, 4, 0, 0, 0, 0, 0, 0, 0, 0, 0], Ok(NetworkProtocol::LinkType(253))),
    (LinkType::LinuxCooked2, &[8, 0, 0, 0, 0, 0, 0, 1, 3, 0x38, 4, 0, 0, 0, 0, 0, 0, 0, 0], Err(20)),
    (LinkType::LinuxCooked2, &[0, 16, 3, 0x38, 0, 0, 0, 1, 0, 1, 4, 0, 0, 0, 0, 0, 0, 0, 0, 0], Ok(NetworkProtocol::EtherType(16))),
];

#[test]
fn frames_of_netlink(rt: HostRuntime) {
    for (link_type, frame, expected) in &COOKED {
        expect_other(&rt, *link_type, frame, *expected);
    }
}

/// The front of a PPPoE frame without the header of Ethernet, and its protocol, or the length of the header that is cut off.
#[rattlefmt::skip]
static PPPOE: [(&[u8], Result<NetworkProtocol, usize>); 9] = [
    (&[0x11, 9, 0, 0, 0, 0], Ok(NetworkProtocol::EtherType(0x8863))),
    (&[0x11, 7, 0, 0, 0, 4, 1, 1, 0, 0], Ok(NetworkProtocol::EtherType(0x8863))),
    (&[0x11, 0x19, 0, 0, 0, 4, 1, 1, 0, 0], Ok(NetworkProtocol::EtherType(0x8863))),
    (&[0x11, 0x65, 0, 1, 0, 0], Ok(NetworkProtocol::EtherType(0x8863))),
    (&[0x11, 0xA7, 0, 1, 0, 0], Ok(NetworkProtocol::EtherType(0x8863))),
    (&[0x11, 9, 0, 0, 0], Err(6)),
    (&[0x21, 9, 0, 0, 0, 0], Ok(NetworkProtocol::EtherType(0x8864))),
    (&[0x11, 0, 0, 1, 0, 0], Ok(NetworkProtocol::EtherType(0x8864))),
    (&[0x11, 0, 0, 1, 0, 2, 0xC0, 0x21], Ok(NetworkProtocol::PppProtocol(0xC021))),
];

#[test]
fn discovery_of_pppoe_is_no_session(rt: HostRuntime) {
    for (frame, expected) in &PPPOE {
        expect_other(&rt, LinkType::PppOverEthernet, frame, *expected);
    }
}

/// The length of an NFLOG attribute with 4 bytes of a packet, the bytes after the packet, and the number of bytes of the frame that belong
/// to the packet, if the header states it.
#[rattlefmt::skip]
static LOGGED: [(u8, &[u8], usize, bool); 6] = [
    (8, &[], 4, true),
    (8, &[8, 0, 10, 0, 1, 2, 3, 4], 4, true),
    (7, &[0], 3, true),
    (4, &[1, 2], 0, true),
    (9, &[], 4, false),
    (12, &[1, 2, 3], 7, false),
];

/// Stops the test unless the packet of a logged frame ends with its attribute, or with the frame if this is shorter.
fn expect_logged(rt: &(impl Abort + AllocGlobal), row: &(u8, &[u8], usize, bool)) {
    let (len, after, packet_len, is_end_stated) = *row;
    let frame = joined(rt, &[&[2, 0, 0, 5, len, 0, 9, 0, 0x45, 0, 0, 4], after]);
    let expected = NetworkBytes {
        bytes: &frame[8..8 + packet_len],
        start: 8,
        is_end_stated,
    };
    let found = network_packet(LinkType::Nflog, ByteOrder::BigEndian, &frame);
    expect_at(rt, &frame, &found, &Ok(Frame::Ip(expected)));
}

#[test]
fn logged_packets_end_with_their_attribute(rt: HostRuntime) {
    for row in &LOGGED {
        expect_logged(&rt, row);
    }
}

/// Frames with another protocol, the place of the bytes after the link header, their number, and whether their end is stated.
#[rattlefmt::skip]
static OTHERS: [(LinkType, &[u8], NetworkProtocol, usize, usize, bool); 4] = [
    (LinkType::Ethernet, &[2, 0, 0, 0, 0, 2, 2, 0, 0, 0, 0, 1, 8, 6, 1, 2, 3], NetworkProtocol::EtherType(0x0806), 14, 3, false),
    (LinkType::Ethernet, &[2, 0, 0, 0, 0, 2, 2, 0, 0, 0, 0, 1, 0x81, 0, 0, 1, 8, 6], NetworkProtocol::EtherType(0x0806), 18, 0, false),
    (LinkType::PppOverEthernet, &[0x11, 0, 0, 1, 0, 3, 0xC0, 0x21, 7, 8, 9], NetworkProtocol::PppProtocol(0xC021), 8, 1, true),
    (LinkType::BsdLoopback, &[0, 0, 0, 7, 1, 2, 3, 4], NetworkProtocol::AddressFamily(7), 4, 4, false),
];

/// Stops the test unless these bytes follow the link header of another protocol.
fn expect_bytes_of_other(
    rt: &impl Abort,
    row: &(LinkType, &[u8], NetworkProtocol, usize, usize, bool),
) {
    let (link_type, frame, protocol, start, len, is_end_stated) = *row;
    let bytes = NetworkBytes {
        bytes: &frame[start..start + len],
        start,
        is_end_stated,
    };
    let found = network_packet(link_type, ByteOrder::BigEndian, frame);
    expect_at(rt, row, &found, &Ok(Frame::Other(protocol, bytes)));
}

#[test]
fn bytes_of_other_protocols(rt: HostRuntime) {
    for row in &OTHERS {
        expect_bytes_of_other(&rt, row);
    }
}
