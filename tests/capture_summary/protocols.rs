//! Tests of the names and rows of protocols.

use crate::expect::expect_at;
use crate::packets::{OVER_IPV4, OVER_IPV6};
use capture_packet::{Content, NetworkProtocol, Transport};
use capture_summary::{Protocol, ip_protocol_name, network_protocol_name};
use etherparse_transport::ip::proto_over;
use etherparse_transport::{IpNumber, Proto, ip_number};
use std::process::Abort;

/// The number of a protocol over IPv6, and its name.
type NumberRow = (u8, Option<&'static str>);

#[rattlefmt::skip]
static OVER_IP: [NumberRow; 26] = [
    (2, Some("IGMP")), (4, Some("IPv4")), (6, Some("TCP")), (17, Some("UDP")), (33, Some("DCCP")), (41, Some("IPv6")), (46, Some("RSVP")),
    (47, Some("GRE")), (50, Some("ESP")), (51, Some("AH")), (58, Some("ICMPv6")), (59, Some("no next header")), (88, Some("EIGRP")),
    (89, Some("OSPF")), (97, Some("EtherIP")), (103, Some("PIM")), (108, Some("IPComp")), (112, Some("VRRP")), (115, Some("L2TP")),
    (132, Some("SCTP")), (136, Some("UDP-Lite")), (137, Some("MPLS-in-IP")), (1, None), (3, None), (138, None), (255, None),
];

/// Stops the test unless the protocol of a row has the name of the row.
fn expect_number(rt: &impl Abort, row: &NumberRow) {
    let number = IpNumber(row.0);
    let name = ip_protocol_name(number, proto_over(OVER_IPV6, number));
    expect_at(rt, &row.0, &name, &row.1);
}

#[test]
fn names_over_ip(rt: HostRuntime) {
    for row in &OVER_IP {
        expect_number(&rt, row);
    }
}

/// Stops the test unless this protocol has this name.
fn expect_name(rt: &impl Abort, protocol: NetworkProtocol, name: &Option<&'static str>) {
    expect_at(rt, &protocol, &network_protocol_name(protocol), name);
}

/// Ether types, and the names of their protocols.
#[rattlefmt::skip]
static ETHER_TYPES: [(u16, Option<&str>); 17] = [
    (0x0806, Some("ARP")), (0x8035, Some("RARP")), (0x8137, Some("IPX")), (0x8809, Some("slow protocol")), (0x8847, Some("MPLS")),
    (0x8848, Some("MPLS")), (0x8863, Some("PPPoE discovery")), (0x8864, Some("PPPoE session")), (0x888E, Some("EAPOL")),
    (0x88CC, Some("LLDP")), (0x88E5, Some("MACsec")), (0x88F5, Some("MVRP")), (0x88F7, Some("PTP")), (0x8902, Some("CFM")),
    (0x9000, Some("loopback")), (0x0807, None), (0xFFFF, None),
];

#[test]
fn names_by_ether_type(rt: HostRuntime) {
    for row in &ETHER_TYPES {
        expect_name(&rt, NetworkProtocol::EtherType(row.0), &row.1);
    }
}

/// Numbers of protocols in PPP, and their names.
#[rattlefmt::skip]
static OVER_PPP: [(u16, Option<&str>); 9] = [
    (0x8021, Some("IPCP")), (0x8057, Some("IPV6CP")), (0x80FD, Some("CCP")), (0xC021, Some("LCP")), (0xC023, Some("PAP")),
    (0xC025, Some("LQR")), (0xC223, Some("CHAP")), (0xC227, Some("EAP")), (0x0806, None),
];

#[test]
fn names_over_ppp(rt: HostRuntime) {
    for row in &OVER_PPP {
        expect_name(&rt, NetworkProtocol::PppProtocol(row.0), &row.1);
    }
}

/// The content of a packet, and the row of its protocol.
type ProtocolRow = (Content<'static>, Protocol);

#[rattlefmt::skip]
const PROTOCOLS: [ProtocolRow; 13] = [
    (Content::Unread, Protocol::Unknown),
    (Content::IpHeader(OVER_IPV4), Protocol::Unknown),
    (Content::NotIp(NetworkProtocol::EtherType(0x0806)), Protocol::Arp),
    (Content::NotIp(NetworkProtocol::EtherType(0x8848)), Protocol::Mpls),
    (Content::NotIp(NetworkProtocol::EtherType(0x0842)), Protocol::OtherWithoutIp),
    (Content::NotIp(NetworkProtocol::LinkType(147)), Protocol::OtherWithoutIp),
    (Content::NotIp(NetworkProtocol::Llc { dsap: 0x42, ssap: 0x42 }), Protocol::Stp),
    (
        Content::Ip { addresses: OVER_IPV4, protocol: ip_number::UDP, proto: Some(Proto::Udp), transport: Transport::Unread(&[]), payload_len: 0 },
        Protocol::Udp,
    ),
    (
        Content::Ip { addresses: OVER_IPV4, protocol: ip_number::TCP, proto: Some(Proto::Tcp), transport: Transport::Unread(&[]), payload_len: 0 },
        Protocol::Tcp,
    ),
    (
        Content::Ip { addresses: OVER_IPV4, protocol: ip_number::ICMP, proto: Some(Proto::Icmpv4), transport: Transport::Unread(&[]), payload_len: 0 },
        Protocol::Icmpv4,
    ),
    (
        Content::Ip { addresses: OVER_IPV4, protocol: ip_number::IPV6_ICMP, proto: Some(Proto::Icmpv6), transport: Transport::Unread(&[]), payload_len: 0 },
        Protocol::Icmpv6,
    ),
    (Content::Ip { addresses: OVER_IPV4, protocol: IpNumber(50), proto: None, transport: Transport::Unread(&[]), payload_len: 0 }, Protocol::Esp),
    (Content::Ip { addresses: OVER_IPV4, protocol: IpNumber(48), proto: None, transport: Transport::Unread(&[]), payload_len: 0 }, Protocol::OtherOverIp),
];

/// Stops the test unless the packet of a row is counted in the row of its protocol.
fn expect_protocol(rt: &impl Abort, row: &ProtocolRow) {
    expect_at(rt, row, &Protocol::of(&row.0), &row.1);
}

#[test]
fn protocols_of_packets(rt: HostRuntime) {
    for row in &PROTOCOLS {
        expect_protocol(&rt, row);
    }
}
