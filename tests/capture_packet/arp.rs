//! ARP packets.

use super::packet::OTHER_PROTOCOL;
use crate::expect::{expect_at, joined};
use capture_numbers::{ByteOrder, LinkType};
use capture_packet::{Arp, ArpAddresses, Content, NetworkProtocol, Packet, read_packet};
use std::process::Abort;

/// The addresses of `SENDER` and `TARGET`.
const ADDRESSES: ArpAddresses = ArpAddresses {
    sender_hardware: [2, 0, 0, 0, 0, 7],
    sender: [192, 0, 2, 7],
    target_hardware: [3, 4, 5, 6, 7, 8],
    target: [192, 0, 2, 1],
};

const SENDER: [u8; 10] = [2, 0, 0, 0, 0, 7, 192, 0, 2, 7];

const TARGET: [u8; 10] = [3, 4, 5, 6, 7, 8, 192, 0, 2, 1];

/// The parts of an ARP packet, and what is read of it.
#[rattlefmt::skip]
static PACKETS: [(&[&[u8]], Arp); 14] = [
    (&[&[0, 1, 8, 0, 6, 4, 0, 1], &SENDER, &TARGET], Arp::Addresses { operation: 1, addresses: ADDRESSES }),
    (&[&[0, 1, 8, 0, 6, 4, 0, 2], &SENDER, &TARGET, &[0; 18]], Arp::Addresses { operation: 2, addresses: ADDRESSES }),
    (&[&[0, 1, 8, 0, 6, 4, 1, 9], &SENDER, &TARGET], Arp::Addresses { operation: 265, addresses: ADDRESSES }),
    (&[&[0, 1, 8, 0, 6, 4, 0, 1], &SENDER, &[3, 4, 5, 6, 7, 8, 192, 0, 2]], Arp::Operation { operation: 1, is_cut_off: true }),
    (&[&[0, 1, 8, 0, 6, 4, 0, 1]], Arp::Operation { operation: 1, is_cut_off: true }),
    (&[&[0, 1, 8, 0, 6, 4, 0]], Arp::CutOff),
    (&[], Arp::CutOff),
    (&[&[0, 6, 8, 0, 6, 4, 0, 1], &SENDER, &TARGET], Arp::Operation { operation: 1, is_cut_off: false }),
    (&[&[1, 1, 8, 0, 6, 4, 0, 1], &SENDER, &TARGET], Arp::Operation { operation: 1, is_cut_off: false }),
    (&[&[0, 1, 8, 1, 6, 4, 0, 1], &SENDER, &TARGET], Arp::Operation { operation: 1, is_cut_off: false }),
    (&[&[0, 1, 8, 0, 4, 6, 0, 1], &SENDER, &TARGET], Arp::Operation { operation: 1, is_cut_off: false }),
    (&[&[0, 1, 8, 0, 6, 3, 0, 1], &SENDER, &TARGET], Arp::Operation { operation: 1, is_cut_off: false }),
    (&[&[0, 1, 8, 0, 7, 4, 0, 3], &SENDER, &TARGET], Arp::Operation { operation: 3, is_cut_off: true }),
    (&[&[0, 0, 0, 0, 0, 0, 0, 0]], Arp::Operation { operation: 0, is_cut_off: false }),
];

/// Stops the test unless this is read of an ARP packet after this link header.
fn expect_arp(
    rt: &(impl Abort + AllocGlobal),
    link_type: LinkType,
    header: &[u8],
    row: &(&[&[u8]], Arp),
) {
    let (parts, arp) = *row;
    let bytes = joined(rt, parts);
    let frame = joined(rt, &[header, &bytes]);
    let content = Content::NotIp(NetworkProtocol::EtherType(0x0806));
    let mut expected = Packet::in_no_tunnel(content, OTHER_PROTOCOL);
    expected.arp = Some(arp);
    let packet = read_packet(link_type, ByteOrder::BigEndian, &frame, false, false);
    expect_at(rt, row, &packet, &expected);
}

#[test]
fn arp_packets(rt: HostRuntime) {
    let ethernet = [2, 0, 0, 0, 0, 2, 2, 0, 0, 0, 0, 1, 0x81, 0, 0, 1, 8, 6];
    let cooked = [0, 1, 0, 1, 0, 6, 2, 0, 0, 0, 0, 1, 0, 0, 8, 6];
    for row in &PACKETS {
        expect_arp(&rt, LinkType::Ethernet, &ethernet, row);
    }
    for row in &PACKETS {
        expect_arp(&rt, LinkType::LinuxCooked, &cooked, row);
    }
}

#[test]
fn other_protocols_are_not_arp(rt: HostRuntime) {
    let rarp = [2, 0, 0, 0, 0, 2, 2, 0, 0, 0, 0, 1, 0x80, 0x35];
    let frame = joined(&rt, &[&rarp, &[0, 1, 8, 0, 6, 4, 0, 3], &SENDER, &TARGET]);
    let packet = read_packet(
        LinkType::Ethernet,
        ByteOrder::BigEndian,
        &frame,
        false,
        false,
    );
    expect_at(&rt, &frame, &packet.arp, &None);
}
