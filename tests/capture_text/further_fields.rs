//! The fields of fragments, and ARP packets.

use super::{expect_line_of, line_of};
use crate::expect::expect_all_written;
use crate::packets::OVER_IPV4;
use capture_packet::{
    Arp, ArpAddresses, Content, FragmentFields, Identification, NetworkProtocol, Packet, Verdict,
};
use etherparse_transport::Untested;
use std::process::Abort;

/// The identification, the offset and whether more fragments follow, and the text.
#[rattlefmt::skip]
const FRAGMENTS: [(Identification, u16, bool, &str); 5] = [
    (Identification::Ipv4(0x1A2B), 1480, true, ", fragment, identification 1A2B, offset 1480, more"),
    (Identification::Ipv4(0), 65_528, false, ", fragment, identification 0000, offset 65528"),
    (Identification::Ipv4(0xF), 0, true, ", fragment, identification 000F, offset 0, more"),
    (Identification::Ipv6(0x1A2B), 1480, true, ", fragment, identification 00001A2B, offset 1480, more"),
    (Identification::Ipv6(u32::MAX), 8, false, ", fragment, identification FFFFFFFF, offset 8"),
];

/// Stops the test unless a fragment with the fields of a row has the text of the row.
fn expect_fragment(rt: &(impl Abort + AllocGlobal), row: &(Identification, u16, bool, &str)) {
    let (identification, offset, more_fragments, wanted) = *row;
    let content = Content::IpHeader(OVER_IPV4);
    let mut packet = Packet::in_no_tunnel(content, Verdict::untested(Untested::Fragment));
    packet.fragment = Some(FragmentFields {
        identification,
        offset,
        more_fragments,
    });
    let end = "; checksum not looked at: a fragment";
    expect_line_of(rt, &packet, ["192.0.2.1 > 192.0.2.2", wanted, end]);
}

#[test]
fn fragments(rt: HostRuntime) {
    for row in &FRAGMENTS {
        expect_fragment(&rt, row);
    }
}

/// The addresses of an ARP packet.
const ADDRESSES: ArpAddresses = ArpAddresses {
    sender_hardware: [0, 0x1B, 0xC0, 0xFF, 0x0A, 7],
    sender: [192, 0, 2, 7],
    target_hardware: [3, 4, 5, 6, 7, 8],
    target: [198, 51, 100, 1],
};

/// ARP packets, and the text of each.
#[rattlefmt::skip]
const ARP_PACKETS: [(Arp, &str); 8] = [
    (Arp::Addresses { operation: 1, addresses: ADDRESSES }, "ARP, who has 198.51.100.1, asked by 192.0.2.7"),
    (Arp::Addresses { operation: 2, addresses: ADDRESSES }, "ARP, 192.0.2.7 is at 00:1b:c0:ff:0a:07"),
    (Arp::Addresses { operation: 0, addresses: ADDRESSES }, "ARP, operation 0"),
    (Arp::Addresses { operation: 258, addresses: ADDRESSES }, "ARP, operation 258"),
    (Arp::Operation { operation: 1, is_cut_off: false }, "ARP, operation 1"),
    (Arp::Operation { operation: 2, is_cut_off: true }, "ARP, operation 2, cut off"),
    (Arp::Operation { operation: 65_535, is_cut_off: true }, "ARP, operation 65535, cut off"),
    (Arp::CutOff, "ARP, cut off"),
];

/// Stops the test unless this is the text of this ARP packet.
fn expect_arp(rt: &(impl Abort + AllocGlobal), arp: Arp, wanted: &str) {
    let content = Content::NotIp(NetworkProtocol::EtherType(0x0806));
    let mut packet = Packet::in_no_tunnel(content, Verdict::untested(Untested::OtherProtocol));
    packet.arp = Some(arp);
    let line = line_of(rt, None, &packet);
    expect_all_written(
        rt,
        &line,
        &["1 00:00:00.000000 length unknown: ", wanted, "\n"],
    );
}

#[test]
fn arp_packets(rt: HostRuntime) {
    for (arp, wanted) in &ARP_PACKETS {
        expect_arp(&rt, *arp, wanted);
    }
}
