//! Tests of the crate `capture_json`.

mod timeline;

use self::timeline::{NO_PACKETS, ONE_PACKET};
use crate::expect::{append, expect_all_written, expect_ok, expect_some, joined};
use crate::packets::OVER_IPV4;
use crate::summaries::{first_info, flow_of_ipv4, judge, new_summary, refuse};
use capture_file::pcapng::TimeResolution;
use capture_file::reader::PacketInterface;
use capture_file::{KeptText, LinkType, PacketTime};
use capture_json::{Captures, write_packet, write_summary};
use capture_packet::{
    Arp, ArpAddresses, Content, FragmentFields, HopLimit, Identification, NetworkKind,
    NetworkProtocol, Packet, Refusal, Transport, Tunnel, Verdict, VirtualNetwork,
};
use capture_summary::{
    Busiest, CaptureInfo, Count, FileCount, FileTable, FrameLen, MAX_FILES, Protocol, RefusalKind,
    Summary, VerdictKind,
};
use capture_words::Times;
use etherparse_transport::ip::{IpAddresses, IpError};
use etherparse_transport::{
    ChecksumVerdict, Icmpv4Slice, Icmpv6Slice, IpNumber, Proto, TcpSlice, TransportSlice, UdpSlice,
    Untested, ip_number,
};
use std::process::Abort;
use std::random::RandomSource;

/// 2001:db8::1, and a final destination that is not known.
const OVER_IPV6: IpAddresses = IpAddresses::Ipv6 {
    source: &[0x20, 1, 0x0D, 0xB8, 0, 0, 0, 0, 0, 0, 0, 0, 0, 0, 0, 1],
    destination: None,
};

/// A UDP datagram from port 7 to port 9, of 9 bytes, and the same datagram without a length.
const DATAGRAM: [u8; 9] = [0, 7, 0, 9, 0, 9, 0, 0, 1];

const DATAGRAM_OF_0: [u8; 9] = [0, 7, 0, 9, 0, 0, 0, 0, 1];

/// A TCP segment from port 7 to port 9 with the flags URG and SYN, a window scale and a fault after it.
const SEGMENT: [u8; 28] = [
    0, 7, 0, 9, 0, 0, 0, 1, 0, 0, 0, 2, 0x70, 0x22, 0, 3, 0, 0, 0, 4, // the header
    3, 3, 7, 8, 1, 0, 0, 0, // the options
];

/// ICMPv4 errors: time exceeded for a UDP datagram with its ports, without its ports, and with only a part of its IP header.
const ERROR: [u8; 32] = [
    11, 0, 0, 0, 0, 0, 0, 0, // ICMPv4
    0x45, 0, 0, 60, 0, 0, 0, 0, 1, 17, 0, 0, 192, 0, 2, 1, 198, 51, 100, 7, // IPv4
    0xC0, 0, 0x82, 0x9A, // the ports
];

const ERROR_WITHOUT_PORTS: [u8; 31] = [
    11, 0, 0, 0, 0, 0, 0, 0, // ICMPv4
    0x45, 0, 0, 60, 0, 0, 0, 0, 1, 17, 0, 0, 192, 0, 2, 1, 198, 51, 100, 7, // IPv4
    0xC0, 0, 0x82,
];

const ERROR_WITHOUT_HEADER: [u8; 27] = [
    11, 0, 0, 0, 0, 0, 0, 0, // ICMPv4
    0x45, 0, 0, 60, 0, 0, 0, 0, 1, 17, 0, 0, 192, 0, 2, 1, 198, 51, 100,
];

/// The line of a packet with this time.
fn line_of(
    rt: &(impl Abort + AllocGlobal),
    time: Option<PacketTime>,
    packet: &Packet<'_>,
) -> Vec<u8> {
    let times = Times::SinceFirst;
    let mut line = Vec::new(rt.alloc());
    let info = first_info(time, None);
    let written = write_packet(&mut line, rt.alloc(), times, &info, packet);
    expect_ok(rt, written);
    line
}

/// Stops the test unless the line of a packet without a time is the object of these texts.
fn expect_object_of(rt: &(impl Abort + AllocGlobal), packet: &Packet<'_>, wanted: [&str; 5]) {
    let [first, second, third, fourth, fifth] = wanted;
    let line = line_of(rt, None, packet);
    let wanted = [first, second, third, fourth, fifth, "\n"];
    expect_all_written(rt, &line, &wanted);
}

/// Stops the test unless the line of a packet in no tunnel and without a time is this object.
fn expect_object(
    rt: &(impl Abort + AllocGlobal),
    content: Content<'_>,
    verdict: Verdict,
    wanted: &str,
) {
    let packet = Packet::in_no_tunnel(content, verdict);
    expect_object_of(rt, &packet, [wanted, "", "", "", ""]);
}

/// The seconds of a time, its fraction in microseconds and its offset, and its members. Seconds are rounded down, and are at most 2^63 - 1.
type TimeRow = (u64, u64, i64, &'static str);

#[rattlefmt::skip]
static TIMES: [TimeRow; 9] = [
    (5, 7, 0, r#""seconds":5,"nanoseconds":7000"#),
    (0, 0, 0, r#""seconds":0,"nanoseconds":0"#),
    (5, 999_999, -5, r#""seconds":0,"nanoseconds":999999000"#),
    (5, 999_999, -6, r#""seconds":-1,"nanoseconds":999999000"#),
    (5, 0, -7, r#""seconds":-2,"nanoseconds":0"#),
    (1, 2_000_001, 0, r#""seconds":3,"nanoseconds":1000"#),
    (0, 1, i64::MIN, r#""seconds":-9223372036854775808,"nanoseconds":1000"#),
    (0, 1, i64::MAX, r#""seconds":9223372036854775807,"nanoseconds":1000"#),
    (u64::MAX, 1, 0, r#""seconds":9223372036854775807,"nanoseconds":1000"#),
];

/// Stops the test unless the object of a packet with the time of a row has the members of the row.
fn expect_time(rt: &(impl Abort + AllocGlobal), row: &TimeRow) {
    let (seconds, fraction, offset, members) = *row;
    let time = PacketTime {
        seconds,
        fraction,
        resolution: TimeResolution::PowerOfTen(6),
        offset,
    };
    let packet = Packet::in_no_tunnel(Content::Unread, Verdict::untested(Untested::CutOff));
    let line = line_of(rt, Some(time), &packet);
    let before = r#"{"type":"packet","number":1,"time":"00:00:00.000000","#;
    let after = r#","checksum":"not_looked_at","reason":"cut_off"}"#;
    expect_all_written(rt, &line, &[before, members, after, "\n"]);
}

#[test]
fn times_of_packets_as_numbers(rt: HostRuntime) {
    for row in &TIMES {
        expect_time(&rt, row);
    }
}

/// Interfaces by number and name, each with its members.
#[rattlefmt::skip]
static INTERFACES: [(u32, &[u8], &str); 3] = [
    (1, b"eth0", r#""interface":1,"interface_name":"eth0","#),
    (0, b"", r#""interface":0,"#),
    (2, b"a\n\"", r#""interface":2,"interface_name":"a\\x0A\"","#),
];

/// Stops the test unless the object of a packet of this interface has these members.
fn expect_interface(rt: &(impl Abort + AllocGlobal), number: u32, name: &[u8], members: &str) {
    let name = KeptText::new(name);
    let mut info = first_info(None, None);
    info.texts.interface = Some(PacketInterface { number, name });
    let packet = Packet::in_no_tunnel(Content::Unread, Verdict::untested(Untested::CutOff));
    let mut line = Vec::new(rt.alloc());
    let written = write_packet(&mut line, rt.alloc(), Times::SinceFirst, &info, &packet);
    expect_ok(rt, written);
    let before = r#"{"type":"packet","number":1,"time":null,"#;
    let after = r#""checksum":"not_looked_at","reason":"cut_off"}"#;
    expect_all_written(rt, &line, &[before, members, after, "\n"]);
}

#[test]
fn interfaces(rt: HostRuntime) {
    for (number, name, members) in &INTERFACES {
        expect_interface(&rt, *number, name, members);
    }
}

/// Comments of a packet, the number of its other comments, and the members of the packet.
#[rattlefmt::skip]
static COMMENTS: [(&[&[u8]], u64, &str); 4] = [
    (&[], 0, ""),
    (&[b"lost here"], 0, r#","comments":["lost here"]"#),
    (&[b"a\n\"", b"", b"\xFF"], 0, r#","comments":["a\\x0A\"","","\\xFF"]"#),
    (&[b"1", b"2", b"3", b"4"], 3, r#","comments":["1","2","3","4"],"more_comments":3"#),
];

/// Stops the test unless the object of a packet with these comments has these members.
fn expect_comments(rt: &(impl Abort + AllocGlobal), comments: &[&[u8]], more: u64, members: &str) {
    let mut info = first_info(None, None);
    for comment in comments {
        let text = KeptText::new(comment);
        expect_some(rt, info.texts.comments.texts.try_push(text).ok());
    }
    info.texts.comments.more = more;
    let packet = Packet::in_no_tunnel(Content::Unread, Verdict::untested(Untested::CutOff));
    let mut line = Vec::new(rt.alloc());
    let written = write_packet(&mut line, rt.alloc(), Times::SinceFirst, &info, &packet);
    expect_ok(rt, written);
    let before =
        r#"{"type":"packet","number":1,"time":null,"checksum":"not_looked_at","reason":"cut_off""#;
    expect_all_written(rt, &line, &[before, members, "}\n"]);
}

#[test]
fn comments(rt: HostRuntime) {
    for (comments, more, members) in &COMMENTS {
        expect_comments(&rt, comments, *more, members);
    }
}

/// Hop limits, and the object of a packet with each.
#[rattlefmt::skip]
const HOP_LIMITS: [(HopLimit, &str); 2] = [
    (HopLimit::Ipv4(255), r#"{"type":"packet","number":1,"time":null,"source":"192.0.2.1","destination":"192.0.2.2","time_to_live":255,"checksum":"not_looked_at","reason":"cut_off"}"#),
    (HopLimit::Ipv6(0), r#"{"type":"packet","number":1,"time":null,"source":"192.0.2.1","destination":"192.0.2.2","hop_limit":0,"checksum":"not_looked_at","reason":"cut_off"}"#),
];

/// Stops the test unless this is the object of a packet with this hop limit.
fn expect_hop_limit(rt: &(impl Abort + AllocGlobal), hop_limit: HopLimit, wanted: &str) {
    let content = Content::IpHeader(OVER_IPV4);
    let mut packet = Packet::in_no_tunnel(content, Verdict::untested(Untested::CutOff));
    packet.hop_limit = Some(hop_limit);
    expect_object_of(rt, &packet, [wanted, "", "", "", ""]);
}

#[test]
fn hop_limits(rt: HostRuntime) {
    for (hop_limit, wanted) in &HOP_LIMITS {
        expect_hop_limit(&rt, *hop_limit, wanted);
    }
}

/// Identifications of fragments, their offsets, whether more fragments follow, and the object of a packet with each.
#[rattlefmt::skip]
const FRAGMENTS: [(Identification, u16, bool, &str); 2] = [
    (Identification::Ipv4(0x1A2B), 1480, true, r#"{"type":"packet","number":1,"time":null,"source":"192.0.2.1","destination":"192.0.2.2","fragment":{"identification":6699,"offset":1480,"more_fragments":true},"checksum":"not_looked_at","reason":"fragment"}"#),
    (Identification::Ipv6(u32::MAX), 8, false, r#"{"type":"packet","number":1,"time":null,"source":"192.0.2.1","destination":"192.0.2.2","fragment":{"identification":4294967295,"offset":8,"more_fragments":false},"checksum":"not_looked_at","reason":"fragment"}"#),
];

/// Stops the test unless the fragment of a row has the object of the row.
fn expect_fragment(rt: &(impl Abort + AllocGlobal), row: &(Identification, u16, bool, &str)) {
    let (identification, offset, more_fragments, wanted) = *row;
    let content = Content::IpHeader(OVER_IPV4);
    let mut packet = Packet::in_no_tunnel(content, Verdict::untested(Untested::Fragment));
    packet.fragment = Some(FragmentFields {
        identification,
        offset,
        more_fragments,
    });
    expect_object_of(rt, &packet, [wanted, "", "", "", ""]);
}

#[test]
fn fragments(rt: HostRuntime) {
    for row in &FRAGMENTS {
        expect_fragment(&rt, row);
    }
}

/// The addresses of an ARP packet.
const ARP_ADDRESSES: ArpAddresses = ArpAddresses {
    sender_hardware: [2, 0, 0, 0, 0, 7],
    sender: [192, 0, 2, 7],
    target_hardware: [0, 0, 0, 0, 0, 0],
    target: [192, 0, 2, 1],
};

/// ARP packets, and the member of each.
#[rattlefmt::skip]
const ARP_PACKETS: [(Arp, &str); 3] = [
    (Arp::Addresses { operation: 1, addresses: ARP_ADDRESSES },
     r#""arp":{"operation":1,"sender_hardware_address":"02:00:00:00:00:07","sender_address":"192.0.2.7","target_hardware_address":"00:00:00:00:00:00","target_address":"192.0.2.1"}"#),
    (Arp::Operation { operation: 258, is_cut_off: false }, r#""arp":{"operation":258,"cut_off":false}"#),
    (Arp::CutOff, r#""arp":{"cut_off":true}"#),
];

/// Stops the test unless the object of a packet with this ARP packet has this member.
fn expect_arp(rt: &(impl Abort + AllocGlobal), arp: Arp, member: &str) {
    let content = Content::NotIp(NetworkProtocol::EtherType(0x0806));
    let mut packet = Packet::in_no_tunnel(content, Verdict::untested(Untested::OtherProtocol));
    packet.arp = Some(arp);
    let before =
        r#"{"type":"packet","number":1,"time":null,"ether_type":2054,"protocol_name":"ARP","#;
    let after = r#","checksum":"not_looked_at","reason":"another_protocol"}"#;
    expect_object_of(rt, &packet, [before, member, after, "", ""]);
}

#[test]
fn arp_packets(rt: HostRuntime) {
    for (arp, member) in &ARP_PACKETS {
        expect_arp(&rt, *arp, member);
    }
}

/// The object of a packet in three tunnels.
#[rattlefmt::skip]
const IN_TUNNELS: &str = r#"{"type":"packet","number":1,"time":null,"tunnels":[{"source":"192.0.2.1","destination":"192.0.2.2","protocol":47,"protocol_name":"GRE"},{"source":"2001:db8::1","destination":null,"protocol":4,"protocol_name":"IPv4"},{"source":"192.0.2.1","destination":"192.0.2.2","protocol":17,"protocol_name":"UDP","encapsulation":"Geneve","vni":16777215}],"source":"192.0.2.1","destination":"192.0.2.2","checksum":"not_looked_at","reason":"cut_off"}"#;

/// Adds a tunnel to a packet.
fn push_tunnel(
    rt: &impl Abort,
    packet: &mut Packet<'static>,
    addresses: IpAddresses<'static>,
    protocol: IpNumber,
    network: Option<VirtualNetwork>,
) {
    let tunnel = Tunnel {
        addresses,
        protocol,
        network,
    };
    expect_some(rt, packet.tunnels.try_push(tunnel).ok());
}

#[test]
fn tunnels(rt: HostRuntime) {
    let content = Content::IpHeader(OVER_IPV4);
    let mut packet = Packet::in_no_tunnel(content, Verdict::untested(Untested::CutOff));
    push_tunnel(&rt, &mut packet, OVER_IPV4, IpNumber(47), None);
    push_tunnel(&rt, &mut packet, OVER_IPV6, IpNumber(4), None);
    let network = VirtualNetwork {
        kind: NetworkKind::Geneve,
        id: 0xFF_FFFF,
    };
    push_tunnel(&rt, &mut packet, OVER_IPV4, IpNumber(17), Some(network));
    expect_object_of(&rt, &packet, [IN_TUNNELS, "", "", "", ""]);
}

/// Packets whose transport is not read, and the object of each.
#[rattlefmt::skip]
const OBJECTS: [(Content, Verdict, &str); 9] = [
    (Content::Unread, Verdict::Checksum(ChecksumVerdict::Untested(Untested::CutOff)),
     r#"{"type":"packet","number":1,"time":null,"checksum":"not_looked_at","reason":"cut_off"}"#),
    (Content::Unread, Verdict::LengthMissing,
     r#"{"type":"packet","number":1,"time":null,"checksum":"not_looked_at","reason":"no_length_stated"}"#),
    (Content::Unread, Verdict::TooLong { required_len: 600_000 },
     r#"{"type":"packet","number":1,"time":null,"checksum":"not_looked_at","reason":"too_long","required_length":600000}"#),
    (Content::NotIp(NetworkProtocol::Snap { organization_code: 0x0C, protocol: 0x2000 }),
     Verdict::Checksum(ChecksumVerdict::Untested(Untested::OtherProtocol)),
     r#"{"type":"packet","number":1,"time":null,"snap_organization_code":12,"snap_protocol":8192,"checksum":"not_looked_at","reason":"another_protocol"}"#),
    (Content::NotIp(NetworkProtocol::EtherType(0x88CC)), Verdict::Checksum(ChecksumVerdict::Untested(Untested::OtherProtocol)),
     r#"{"type":"packet","number":1,"time":null,"ether_type":35020,"protocol_name":"LLDP","checksum":"not_looked_at","reason":"another_protocol"}"#),
    (Content::Ip { addresses: OVER_IPV4, protocol: IpNumber(89), proto: None, transport: Transport::Unread(&[1, 2, 3]), payload_len: 3 },
     Verdict::Checksum(ChecksumVerdict::Untested(Untested::OtherProtocol)),
     r#"{"type":"packet","number":1,"time":null,"source":"192.0.2.1","destination":"192.0.2.2","protocol":89,"protocol_name":"OSPF","payload_length":3,"checksum":"not_looked_at","reason":"another_protocol"}"#),
    (Content::IpHeader(OVER_IPV6), Verdict::Refused(Refusal::Ip(IpError::Version { version: 5 })),
     r#"{"type":"packet","number":1,"time":null,"source":"2001:db8::1","destination":null,"refused":"IP version 5"}"#),
    (Content::Ip { addresses: OVER_IPV6, protocol: IpNumber(47), proto: None, transport: Transport::Unread(&[1, 2, 3]), payload_len: 1400 },
     Verdict::Checksum(ChecksumVerdict::Untested(Untested::CutOff)),
     r#"{"type":"packet","number":1,"time":null,"source":"2001:db8::1","destination":null,"protocol":47,"protocol_name":"GRE","payload_length":1400,"payload_captured_length":3,"checksum":"not_looked_at","reason":"cut_off"}"#),
    (Content::Ip { addresses: OVER_IPV6, protocol: ip_number::UDP, proto: Some(Proto::Udp), transport: Transport::Unread(&[1, 2, 3]), payload_len: 3 },
     Verdict::Checksum(ChecksumVerdict::Untested(Untested::UnknownDestination)),
     r#"{"type":"packet","number":1,"time":null,"source":"2001:db8::1","destination":null,"protocol":17,"protocol_name":"UDP","payload_length":3,"checksum":"not_looked_at","reason":"final_destination_unknown"}"#),
];

#[test]
fn objects_of_packets(rt: HostRuntime) {
    for (content, verdict, wanted) in OBJECTS {
        expect_object(&rt, content, verdict, wanted);
    }
}

/// Verdicts on the checksum of a packet that is not read, and the object of each.
#[rattlefmt::skip]
static CHECKSUMS: [(ChecksumVerdict, &str); 10] = [
    (ChecksumVerdict::Right, r#"{"type":"packet","number":1,"time":null,"checksum":"right"}"#),
    (ChecksumVerdict::Wrong { expected: 10 }, r#"{"type":"packet","number":1,"time":null,"checksum":"wrong","expected_checksum":10}"#),
    (ChecksumVerdict::Partial { expected: 10 }, r#"{"type":"packet","number":1,"time":null,"checksum":"not_filled_in"}"#),
    (ChecksumVerdict::Absent, r#"{"type":"packet","number":1,"time":null,"checksum":"none"}"#),
    (ChecksumVerdict::Untested(Untested::Fragment), r#"{"type":"packet","number":1,"time":null,"checksum":"not_looked_at","reason":"fragment"}"#),
    (ChecksumVerdict::Untested(Untested::CutOff), r#"{"type":"packet","number":1,"time":null,"checksum":"not_looked_at","reason":"cut_off"}"#),
    (ChecksumVerdict::Untested(Untested::UnknownDestination),
     r#"{"type":"packet","number":1,"time":null,"checksum":"not_looked_at","reason":"final_destination_unknown"}"#),
    (ChecksumVerdict::Untested(Untested::OtherProtocol), r#"{"type":"packet","number":1,"time":null,"checksum":"not_looked_at","reason":"another_protocol"}"#),
    (ChecksumVerdict::Untested(Untested::TooLong), r#"{"type":"packet","number":1,"time":null,"checksum":"not_looked_at","reason":"too_long"}"#),
    (ChecksumVerdict::Untested(Untested::ZeroLength), r#"{"type":"packet","number":1,"time":null,"refused":"UDP header needs 8 bytes, the UDP length is 0"}"#),
];

#[test]
fn objects_of_verdicts(rt: HostRuntime) {
    for (verdict, wanted) in &CHECKSUMS {
        expect_object(&rt, Content::Unread, Verdict::Checksum(*verdict), wanted);
    }
}

/// Transports over IPv4, which differ in their lengths, the verdicts on their checksums, and the object of each.
#[rattlefmt::skip]
static TRANSPORTS: [(&[u8], ChecksumVerdict, &str); 3] = [
    (&DATAGRAM, ChecksumVerdict::Wrong { expected: 0x1A2B },
     r#"{"type":"packet","number":1,"time":null,"source":"192.0.2.1","destination":"192.0.2.2","protocol":17,"protocol_name":"UDP","source_port":7,"destination_port":9,"udp":{"length":9},"payload_length":1,"checksum":"wrong","expected_checksum":6699}"#),
    (&DATAGRAM_OF_0, ChecksumVerdict::Untested(Untested::ZeroLength),
     r#"{"type":"packet","number":1,"time":null,"source":"192.0.2.1","destination":"192.0.2.2","protocol":17,"protocol_name":"UDP","source_port":7,"destination_port":9,"udp":{"length":0},"payload_length":1,"refused":"UDP header needs 8 bytes, the UDP length is 0"}"#),
    (&SEGMENT, ChecksumVerdict::Right,
     r#"{"type":"packet","number":1,"time":null,"source":"192.0.2.1","destination":"192.0.2.2","protocol":17,"protocol_name":"UDP","source_port":7,"destination_port":9,"tcp":{"flags":["SYN","URG"],"sequence":1,"acknowledgment":2,"window":3,"urgent_pointer":4,"options":[{"kind":3,"shift":7}],"options_fault":"option 8 with length 1 below 2"},"payload_length":0,"checksum":"right"}"#),
];

/// A packet over IPv4 with these bytes as its transport.
fn over_ipv4<'a>(rt: &impl Abort, bytes: &'a [u8]) -> Content<'a> {
    let transport = if bytes.len() == DATAGRAM.len() {
        TransportSlice::Udp(expect_ok(rt, UdpSlice::from_slice(bytes)))
    } else {
        TransportSlice::Tcp(expect_ok(rt, TcpSlice::from_slice(bytes)))
    };
    Content::Ip {
        addresses: OVER_IPV4,
        protocol: ip_number::UDP,
        proto: Some(Proto::Udp),
        payload_len: transport.payload().len(),
        transport: Transport::Read(transport),
    }
}

#[test]
fn objects_of_transports(rt: HostRuntime) {
    for (bytes, verdict, wanted) in &TRANSPORTS {
        let verdict = Verdict::Checksum(*verdict);
        expect_object(&rt, over_ipv4(&rt, bytes), verdict, wanted);
    }
}

/// Options, and the members of each list of options.
#[rattlefmt::skip]
const OPTIONS: [(&[u8], &str); 9] = [
    (&[2, 4, 5, 0xB4, 4, 2, 8, 10, 0, 0, 0, 100, 0, 0, 0, 9, 1, 3, 3, 7],
     r#""options":[{"kind":2,"maximum_segment_size":1460},{"kind":4},{"kind":8,"value":100,"echo_reply":9},{"kind":1},{"kind":3,"shift":7}]"#),
    (&[5, 10, 0, 0, 0, 1, 0, 0, 0, 2, 0, 0], r#""options":[{"kind":5,"selective_acknowledgment":[{"left":1,"right":2}]},{"kind":0}]"#),
    (&[5, 18, 0, 0, 0, 1, 0, 0, 0, 2, 0, 0, 0, 3, 0xFF, 0xFF, 0xFF, 0xFF, 1, 1],
     r#""options":[{"kind":5,"selective_acknowledgment":[{"left":1,"right":2},{"left":3,"right":4294967295}]},{"kind":1},{"kind":1}]"#),
    (&[254, 6, 1, 2, 0xAB, 4, 0, 9], r#""options":[{"kind":254,"data":"0102AB04"},{"kind":0}]"#),
    (&[253, 2, 3, 4, 7, 7, 0, 0], r#""options":[{"kind":253,"data":""},{"kind":3,"data":"0707"},{"kind":0}]"#),
    (&[0, 0, 0, 0], r#""options":[{"kind":0}]"#),
    (&[], r#""options":[]"#),
    (&[1, 1, 1, 2], r#""options":[{"kind":1},{"kind":1},{"kind":1}],"options_fault":"option 2 without a length byte""#),
    (&[8, 10, 0, 0], r#""options":[],"options_fault":"option 8 with length 10 above the 4 bytes left""#),
];

/// A TCP segment with these options, whose length is a multiple of four bytes.
fn segment_with(rt: &(impl Abort + AllocGlobal), options: &[u8]) -> Vec<u8> {
    let words = expect_ok(rt, u8::try_from(5 + options.len() / 4));
    let parts: [&[u8]; 3] = [
        &[0, 7, 0, 9, 0, 0, 0, 1, 0, 0, 0, 2],
        &[words.saturating_mul(16), 2, 0, 3, 0, 0, 0, 0],
        options,
    ];
    joined(rt, &parts)
}

/// The beginning of the object of a segment with options.
const BEFORE_OPTIONS: &str =
    r#"{"type":"packet","number":1,"time":null,"source":"192.0.2.1","destination":"192.0.2.2","protocol":17,"protocol_name":"UDP","source_port":7,"destination_port":9,"tcp":{"flags":["SYN"],"sequence":1,"acknowledgment":2,"window":3,"#;

/// Stops the test unless the object of a segment with these options has these members for them.
fn expect_options(rt: &(impl Abort + AllocGlobal), options: &[u8], members: &str) {
    let bytes = segment_with(rt, options);
    let verdict = Verdict::Checksum(ChecksumVerdict::Right);
    let packet = Packet::in_no_tunnel(over_ipv4(rt, &bytes), verdict);
    let after = r#"},"payload_length":0,"checksum":"right"}"#;
    expect_object_of(rt, &packet, [BEFORE_OPTIONS, members, after, "", ""]);
}

#[test]
fn objects_of_options(rt: HostRuntime) {
    for (options, members) in &OPTIONS {
        expect_options(&rt, options, members);
    }
}

/// ICMPv4 messages, and the members of each after the type and the code.
#[rattlefmt::skip]
const ICMPV4_FIELDS: [(&[u8], &str); 8] = [
    (&[8, 0, 9, 9, 0, 1, 0, 2], r#""type":8,"code":0,"message":"echo request, code 0, identifier 1, sequence number 2","identifier":1,"sequence":2"#),
    (&[0, 0, 9, 9, 0, 1, 0, 2], r#""type":0,"code":0,"message":"echo reply, code 0, identifier 1, sequence number 2","identifier":1,"sequence":2"#),
    (&[3, 4, 9, 9, 0, 0, 5, 0xDC], r#""type":3,"code":4,"message":"destination unreachable, code 4 (fragmentation needed), next-hop MTU 1500","mtu":1500"#),
    (&[3, 3, 9, 9, 0, 0, 5, 0xDC], r#""type":3,"code":3,"message":"destination unreachable, code 3 (port)""#),
    (&[5, 1, 9, 9, 192, 0, 2, 1], r#""type":5,"code":1,"message":"redirect, code 1 (host), gateway 192.0.2.1","gateway":"192.0.2.1""#),
    (&[12, 0, 9, 9, 20, 0, 0, 0], r#""type":12,"code":0,"message":"parameter problem, code 0 (pointer indicates the error), pointer 20","pointer":20"#),
    (&[12, 2, 9, 9, 20, 0, 0, 0], r#""type":12,"code":2,"message":"parameter problem, code 2 (bad length)""#),
    (&[42, 0, 9, 9, 0, 0, 0, 0], r#""type":42,"code":0,"message":"type 42, code 0, bytes 5 to 8 00000000""#),
];

/// ICMPv6 messages, and the members of each.
#[rattlefmt::skip]
const ICMPV6_FIELDS: [(&[u8], &str); 4] = [
    (&[2, 0, 9, 9, 0, 0, 5, 0], r#""type":2,"code":0,"message":"packet too big, code 0, MTU 1280","mtu":1280"#),
    (&[4, 1, 9, 9, 0, 0, 0, 40], r#""type":4,"code":1,"message":"parameter problem, code 1 (unrecognized next header), pointer 40","pointer":40"#),
    (&[128, 0, 9, 9, 0, 1, 0, 2], r#""type":128,"code":0,"message":"echo request, code 0, identifier 1, sequence number 2","identifier":1,"sequence":2"#),
    (&[133, 0, 9, 9, 0, 0, 0, 0], r#""type":133,"code":0,"message":"router solicitation, code 0""#),
];

/// The end of the object of a packet with an ICMP message without a payload.
const NO_PAYLOAD: &str = r#"},"payload_length":0,"checksum":"right"}"#;

/// The beginning of the object of a packet with an ICMP message.
const BEFORE_MESSAGE: &str =
    r#"{"type":"packet","number":1,"time":null,"source":"192.0.2.1","destination":"192.0.2.2","protocol":1,"protocol_name":"ICMPv4","#;

/// Stops the test unless the object of a packet over IPv4 with this ICMP message has these members for it, between these texts.
fn expect_message(
    rt: &(impl Abort + AllocGlobal),
    message: TransportSlice<'_>,
    before: &str,
    members: &str,
    after: &str,
) {
    let content = Content::Ip {
        addresses: OVER_IPV4,
        protocol: ip_number::ICMP,
        proto: Some(Proto::Icmpv4),
        payload_len: message.payload().len(),
        transport: Transport::Read(message),
    };
    let verdict = Verdict::Checksum(ChecksumVerdict::Right);
    let packet = Packet::in_no_tunnel(content, verdict);
    expect_object_of(rt, &packet, [BEFORE_MESSAGE, before, members, after, ""]);
}

/// Stops the test unless the object of a packet with this ICMPv4 message has these members for it.
fn expect_icmpv4(rt: &(impl Abort + AllocGlobal), bytes: &[u8], members: &str) {
    let message = TransportSlice::Icmpv4(expect_ok(rt, Icmpv4Slice::from_slice(bytes)));
    expect_message(rt, message, r#""icmpv4":{"#, members, NO_PAYLOAD);
}

#[test]
fn objects_of_icmpv4_messages(rt: HostRuntime) {
    for (bytes, members) in &ICMPV4_FIELDS {
        expect_icmpv4(&rt, bytes, members);
    }
}

/// Stops the test unless the object of a packet with this ICMPv6 message has these members for it.
fn expect_icmpv6(rt: &(impl Abort + AllocGlobal), bytes: &[u8], members: &str) {
    let message = TransportSlice::Icmpv6(expect_ok(rt, Icmpv6Slice::from_slice(bytes)));
    expect_message(rt, message, r#""icmpv6":{"#, members, NO_PAYLOAD);
}

#[test]
fn objects_of_icmpv6_messages(rt: HostRuntime) {
    for (bytes, members) in &ICMPV6_FIELDS {
        expect_icmpv6(&rt, bytes, members);
    }
}

/// ICMPv6 messages with fields after their first eight bytes, and the members of each, up to the end of the object.
#[rattlefmt::skip]
const FURTHER_FIELDS: [(&[u8], &str); 4] = [
    (&[137, 0, 9, 9, 0, 0, 0, 0, 0xFE, 0x80, 0, 0, 0, 0, 0, 0, 0, 0, 0, 0, 0, 0, 0, 1, 0x20, 1, 0x0D, 0xB8, 0, 0, 0, 0, 0, 0, 0, 0, 0, 0, 0, 9,
       2, 1, 2, 0, 0, 0, 0, 10],
     r#""type":137,"code":0,"message":"redirect, code 0, target fe80::1, destination 2001:db8::9, link-layer address 02:00:00:00:00:0a","target":"fe80::1","destination":"2001:db8::9","link_layer_address":"02:00:00:00:00:0a"},"payload_length":40,"checksum":"right"}"#),
    (&[131, 0, 9, 9, 0, 0, 0, 1, 0xFF, 2, 0, 0, 0, 0, 0, 0, 0, 0, 0, 1, 0xFF, 0, 0, 1],
     r#""type":131,"code":0,"message":"multicast listener report, code 0, group ff02::1:ff00:1","group":"ff02::1:ff00:1"},"payload_length":16,"checksum":"right"}"#),
    (&[130, 0, 9, 9, 0x27, 0x10, 0, 1, 0, 0], r#""type":130,"code":0,"message":"multicast listener query, code 0, maximum response code 10000","maximum_response_code":10000},"payload_length":2,"checksum":"right"}"#),
    (&[143, 0, 9, 9, 1, 2, 0, 3], r#""type":143,"code":0,"message":"version 2 multicast listener report, code 0, records 3","records":3},"payload_length":0,"checksum":"right"}"#),
];

/// Stops the test unless the object of a packet with this ICMPv6 message has these members for it and after it.
fn expect_further_fields(rt: &(impl Abort + AllocGlobal), bytes: &[u8], members: &str) {
    let message = TransportSlice::Icmpv6(expect_ok(rt, Icmpv6Slice::from_slice(bytes)));
    expect_message(rt, message, r#""icmpv6":{"#, members, "");
}

#[test]
fn further_fields_of_icmpv6_messages(rt: HostRuntime) {
    for (bytes, members) in &FURTHER_FIELDS {
        expect_further_fields(&rt, bytes, members);
    }
}

/// ICMPv4 errors, the member of each that shows the packet that it quotes, and the length of its payload.
#[rattlefmt::skip]
static ERRORS: [(&[u8], &str, &str); 3] = [
    (&ERROR, r#","quoted":{"source":"192.0.2.1","destination":"198.51.100.7","protocol":17,"protocol_name":"UDP","source_port":49152,"destination_port":33434}"#, "24"),
    (&ERROR_WITHOUT_PORTS, r#","quoted":{"source":"192.0.2.1","destination":"198.51.100.7","protocol":17,"protocol_name":"UDP"}"#, "23"),
    (&ERROR_WITHOUT_HEADER, "", "19"),
];

/// The beginning of the object of a packet with an ICMPv4 error.
const BEFORE_ERROR: &str =
    r#"{"type":"packet","number":1,"time":null,"source":"192.0.2.1","destination":"192.0.2.2","protocol":1,"protocol_name":"ICMPv4""#;

/// The text before the length of the payload of an ICMPv4 error.
const MESSAGE_OF_ERROR: &str =
    r#","icmpv4":{"type":11,"code":0,"message":"time exceeded, code 0 (time to live)"},"payload_length":"#;

/// Stops the test unless the object of a packet with this error has this member for the quoted packet, and this payload length.
fn expect_quoted(rt: &(impl Abort + AllocGlobal), bytes: &[u8], quoted: &str, payload_len: &str) {
    let message = expect_ok(rt, Icmpv4Slice::from_slice(bytes));
    let content = Content::Ip {
        addresses: OVER_IPV4,
        protocol: ip_number::ICMP,
        proto: Some(Proto::Icmpv4),
        payload_len: message.payload().len(),
        transport: Transport::Read(TransportSlice::Icmpv4(message)),
    };
    let packet = Packet::in_no_tunnel(content, Verdict::Checksum(ChecksumVerdict::Right));
    let after = r#","checksum":"right"}"#;
    let wanted = [BEFORE_ERROR, quoted, MESSAGE_OF_ERROR, payload_len, after];
    expect_object_of(rt, &packet, wanted);
}

#[test]
fn objects_of_quoted_packets(rt: HostRuntime) {
    for (bytes, quoted, payload_len) in &ERRORS {
        expect_quoted(&rt, bytes, quoted, payload_len);
    }
}

/// The object of a summary of three packets of raw IP, before the timeline. The names of rows have underscores between their words.
const BEFORE_TIMELINE: &str =
    r#"{"type":"summary","packets":3,"bytes":98,"bytes_per_packet":32,"conversations":1,"first_packet":"2023-11-14T22:13:20.000000Z","first_packet_seconds":1700000000,"first_packet_nanoseconds":0,"last_packet":"2023-11-14T22:13:25.000000Z","last_packet_seconds":1700000005,"last_packet_nanoseconds":0,"duration":"00:00:05.000000","duration_seconds":5,"duration_nanoseconds":0,"packets_per_second":0,"bits_per_second":156,"link_types":{"BSD_loopback":0,"Ethernet":0,"PPP":0,"PPP_or_Cisco_HDLC":0,"PPP_over_Ethernet":0,"raw_IP":3,"Cisco_HDLC":0,"IEEE_802.11":0,"Frame_Relay":0,"OpenBSD_loopback":0,"Linux_cooked":0,"PFLOG":0,"Prism":0,"radiotap":0,"AVS":0,"PPI":0,"Solaris_ipnet":0,"NFLOG":0,"IP_over_InfiniBand":0,"PKTAP":0,"Linux_cooked_version_2":0,"another_link_type":0,"unknown":0},"protocols":{"UDP":{"packets":2,"bytes":68},"TCP":{"packets":0,"bytes":0},"ICMPv4":{"packets":0,"bytes":0},"ICMPv6":{"packets":0,"bytes":0},"IGMP":{"packets":0,"bytes":0},"IPv4":{"packets":0,"bytes":0},"DCCP":{"packets":0,"bytes":0},"IPv6":{"packets":0,"bytes":0},"RSVP":{"packets":0,"bytes":0},"GRE":{"packets":0,"bytes":0},"ESP":{"packets":0,"bytes":0},"AH":{"packets":0,"bytes":0},"no_next_header":{"packets":0,"bytes":0},"EIGRP":{"packets":0,"bytes":0},"OSPF":{"packets":0,"bytes":0},"EtherIP":{"packets":0,"bytes":0},"PIM":{"packets":0,"bytes":0},"IPComp":{"packets":0,"bytes":0},"VRRP":{"packets":0,"bytes":0},"L2TP":{"packets":0,"bytes":0},"SCTP":{"packets":0,"bytes":0},"UDP-Lite":{"packets":0,"bytes":0},"MPLS-in-IP":{"packets":0,"bytes":0},"other_over_IP":{"packets":1,"bytes":30},"ARP":{"packets":0,"bytes":0},"RARP":{"packets":0,"bytes":0},"IPX":{"packets":0,"bytes":0},"slow_protocol":{"packets":0,"bytes":0},"MPLS":{"packets":0,"bytes":0},"PPPoE_discovery":{"packets":0,"bytes":0},"PPPoE_session":{"packets":0,"bytes":0},"EAPOL":{"packets":0,"bytes":0},"LLDP":{"packets":0,"bytes":0},"MACsec":{"packets":0,"bytes":0},"MVRP":{"packets":0,"bytes":0},"PTP":{"packets":0,"bytes":0},"CFM":{"packets":0,"bytes":0},"loopback":{"packets":0,"bytes":0},"IPCP":{"packets":0,"bytes":0},"IPV6CP":{"packets":0,"bytes":0},"CCP":{"packets":0,"bytes":0},"LCP":{"packets":0,"bytes":0},"PAP":{"packets":0,"bytes":0},"LQR":{"packets":0,"bytes":0},"CHAP":{"packets":0,"bytes":0},"EAP":{"packets":0,"bytes":0},"CLNP":{"packets":0,"bytes":0},"ES-IS":{"packets":0,"bytes":0},"IS-IS":{"packets":0,"bytes":0},"STP":{"packets":0,"bytes":0},"other_without_IP":{"packets":0,"bytes":0},"unknown":{"packets":0,"bytes":0}},"checksums":{"right":0,"wrong":0,"not_filled_in":1,"none":0,"fragment":0,"cut_off":1,"no_length_stated":0,"final_destination_unknown":0,"another_protocol":0,"too_long":0,"refused":1},"refusals":{"link_header_cut_off":0,"IP_header_cut_off":0,"IP_version":0,"IP_header_length":0,"IP_total_length":0,"IP_packet_cut_off":0,"IP_extension_header":0,"UDP_length":1,"TCP_length":0,"TCP_data_offset":0,"ICMPv4_length":0,"ICMPv6_length":0}"#;

/// The rest of the object of a summary of three packets.
const AFTER_TIMELINE: &str =
    r#","busiest_conversations":[{"protocol":17,"protocol_name":"UDP","source":"192.0.2.1","source_port":49152,"destination":"192.0.2.2","destination_port":53,"packets":1,"bytes":40,"forward":{"packets":1,"bytes":40},"reverse":{"packets":0,"bytes":0},"first_packet":"2023-11-14T22:13:20.000000Z","first_packet_seconds":1700000000,"first_packet_nanoseconds":0,"last_packet":"2023-11-14T22:13:20.000000Z","last_packet_seconds":1700000000,"last_packet_nanoseconds":0,"duration":"00:00:00.000000","duration_seconds":0,"duration_nanoseconds":0}],"endpoints":[{"address":"192.0.2.1","packets":1,"bytes":40},{"address":"192.0.2.2","packets":1,"bytes":40}],"packets_without_ports":{"packets":2,"bytes":58},"packets_of_other_flows":{"packets":0,"bytes":0}}
"#;

/// What a capture of raw IP states about a packet with this number of bytes, captured at this second.
fn info_of(seconds: u64, len: u64) -> CaptureInfo {
    CaptureInfo {
        link_type: Some(Ok(LinkType::RawIp)),
        time: Some(PacketTime {
            seconds,
            fraction: 0,
            resolution: TimeResolution::PowerOfTen(6),
            offset: 0,
        }),
        len: Some(FrameLen {
            original: len,
            captured: len,
        }),
    }
}

/// Counts three packets. One of them has ports.
fn count_three(rt: &impl Abort, summary: &mut Summary) {
    let flow = Some(flow_of_ipv4());
    let info = info_of(1_700_000_000, 40);
    judge(rt, summary, Protocol::Udp, VerdictKind::Partial, flow, info);
    let protocol = Protocol::OtherOverIp;
    let info = info_of(1_700_000_005, 30);
    judge(rt, summary, protocol, VerdictKind::CutOff, None, info);
    let info = info_of(1_700_000_002, 28);
    refuse(rt, summary, Protocol::Udp, RefusalKind::UdpLength, info);
}

/// The object of a summary of three packets, with this table of files.
fn object_with(rt: &(impl Abort + AllocGlobal + RandomSource), files: &FileTable<'_>) -> Vec<u8> {
    let mut summary = new_summary(rt);
    count_three(rt, &mut summary);
    let busiest = expect_ok(rt, Busiest::of(summary.flows(), rt.alloc(), 10));
    let mut text = Vec::new(rt.alloc());
    let captures = Captures { only: &None, files };
    let written = write_summary(&mut text, rt.alloc(), &captures, &summary, &busiest);
    expect_ok(rt, written);
    text
}

/// The object of the interval of the refused packet, and of the interval of the packet that is cut off.
const REFUSED_PACKET: &str =
    r#"{"packets":1,"bytes":28,"udp":{"packets":1,"bytes":28},"tcp":{"packets":0,"bytes":0},"icmp":{"packets":0,"bytes":0},"other":{"packets":0,"bytes":0},"wrong":{"packets":0,"bytes":0},"refused":{"packets":1,"bytes":28}}"#;

const PACKET_CUT_OFF: &str =
    r#"{"packets":1,"bytes":30,"udp":{"packets":0,"bytes":0},"tcp":{"packets":0,"bytes":0},"icmp":{"packets":0,"bytes":0},"other":{"packets":1,"bytes":30},"wrong":{"packets":0,"bytes":0},"refused":{"packets":0,"bytes":0}}"#;

/// The timeline of three packets: 251 intervals of 20 milliseconds. The packets are in the first, in number 100 and in the last.
fn timeline_of_three(rt: &(impl Abort + AllocGlobal)) -> Vec<u8> {
    let start =
        r#","timeline":{"start":"2023-11-14T22:13:20.000000000Z","start_seconds":1700000000,"start_nanoseconds":0,"interval_seconds":0,"interval_nanoseconds":20000000,"intervals":["#;
    let mut text = joined(rt, &[start.as_bytes(), ONE_PACKET.as_bytes()]);
    for place in 1..251 {
        let interval = match place {
            100 => REFUSED_PACKET,
            250 => PACKET_CUT_OFF,
            _ => NO_PACKETS,
        };
        append(rt, &mut text, b",");
        append(rt, &mut text, interval.as_bytes());
    }
    append(rt, &mut text, br#"],"older":"#);
    append(rt, &mut text, NO_PACKETS.as_bytes());
    append(rt, &mut text, br#","later":"#);
    append(rt, &mut text, NO_PACKETS.as_bytes());
    append(rt, &mut text, br#","untimed":"#);
    append(rt, &mut text, NO_PACKETS.as_bytes());
    append(rt, &mut text, b"}");
    text
}

/// Stops the test unless these bytes are the object of a summary of three packets, with these texts after the timeline.
fn expect_three_packets(rt: &(impl Abort + AllocGlobal), text: &[u8], rest: &str, end: &str) {
    let timeline = timeline_of_three(rt);
    let timeline = expect_ok(rt, std::str::from_utf8(&timeline));
    expect_all_written(rt, text, &[BEFORE_TIMELINE, timeline, rest, end]);
}

#[test]
fn the_object_of_a_summary(rt: HostRuntime) {
    let text = object_with(&rt, &FileTable::new());
    expect_three_packets(&rt, &text, AFTER_TIMELINE, "");
}

/// Three packets of a capture.
const OF_FILE: FileCount = FileCount {
    all: Count {
        packets: 3,
        bytes: 98,
    },
    wrong: 2,
    refused: 1,
};

/// Stops the test unless the object of a summary ends with this text, after the members of the object without a table of files.
fn expect_files(rt: &(impl Abort + AllocGlobal + RandomSource), files: &FileTable<'_>, end: &str) {
    let text = object_with(rt, files);
    let others = expect_some(rt, AFTER_TIMELINE.strip_suffix("}\n"));
    expect_three_packets(rt, &text, others, end);
}

#[test]
fn the_table_of_files(rt: HostRuntime) {
    let mut files = FileTable::new();
    files.add("a \"b\"\n.pcap", OF_FILE);
    files.add("\u{FC}", FileCount::NONE);
    expect_files(
        &rt,
        &files,
        r#","files":[{"file":"a \"b\"\n.pcap","packets":3,"bytes":98,"wrong":2,"refused":1},{"file":"ü","packets":0,"bytes":0,"wrong":0,"refused":0}]}
"#,
    );
}

#[test]
fn files_without_a_row(rt: HostRuntime) {
    let mut files = FileTable::new();
    for _ in 0..MAX_FILES {
        files.add("a", FileCount::NONE);
    }
    let row = r#"{"file":"a","packets":0,"bytes":0,"wrong":0,"refused":0},"#;
    let mut rows = joined(&rt, &[r#","files":["#.as_bytes()]);
    for _ in 1..MAX_FILES {
        append(&rt, &mut rows, row.as_bytes());
    }
    append(
        &rt,
        &mut rows,
        b"{\"file\":\"a\",\"packets\":0,\"bytes\":0,\"wrong\":0,\"refused\":0}]",
    );
    files.add("b", OF_FILE);
    files.add("c", OF_FILE);
    append(
        &rt,
        &mut rows,
        b",\"other_files\":{\"files\":2,\"packets\":6,\"bytes\":196,\"wrong\":4,\"refused\":2}}\n",
    );
    expect_files(&rt, &files, expect_ok(&rt, std::str::from_utf8(&rows)));
}
