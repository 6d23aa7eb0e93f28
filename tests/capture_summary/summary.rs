use crate::expect::{expect_at, expect_equal, expect_ok, expect_some};
use crate::summaries::{judge, new_summary, refuse};
use capture_file::pcapng::TimeResolution;
use capture_file::{LinkType, PacketTime};
use capture_summary::{
    CaptureInfo, ConversationCount, Count, Flow, FlowProtocol, FrameLen, MAX_CONVERSATIONS,
    Protocol, RefusalKind, Summary, TimeSpan, VerdictKind,
};
use std::net::{IpAddr, Ipv4Addr, SocketAddr};
use std::process::Abort;

const UDP: Protocol = Protocol::Udp;

const TCP: Protocol = Protocol::Tcp;

const ICMPV4: Protocol = Protocol::Icmpv4;

const ICMPV6: Protocol = Protocol::Icmpv6;

/// The number of an IPv4 address, and a port.
type End = (u32, u16);

/// The address 192.0.2.1, port 53.
const SERVER: End = (0xC000_0201, 53);

fn socket((address, port): End) -> SocketAddr {
    SocketAddr::new(IpAddr::V4(Ipv4Addr::from_bits(address)), port)
}

/// A flow of this protocol from one end to another.
fn flow(protocol: FlowProtocol, source: End, destination: End) -> Flow {
    Flow {
        protocol,
        source: socket(source),
        destination: socket(destination),
    }
}

/// A flow of UDP from the address with this number, port 4660, to the server.
fn flow_from(number: u32) -> Flow {
    flow(FlowProtocol::Udp, (number, 4660), SERVER)
}

/// What a capture of Ethernet states about a packet with this number of bytes and this time.
fn info_at(len: u64, time: Option<PacketTime>) -> CaptureInfo {
    CaptureInfo {
        link_type: Some(Ok(LinkType::Ethernet)),
        time,
        len: Some(FrameLen {
            original: len,
            captured: len,
        }),
    }
}

/// What a capture of Ethernet states about a packet with this number of bytes, whose time is unknown.
fn info_of(len: u64) -> CaptureInfo {
    info_at(len, None)
}

/// Counts a packet of a flow, whose checksum is right.
fn judge_flow(rt: &impl Abort, summary: &mut Summary, flow: Flow, info: CaptureInfo) {
    judge(rt, summary, UDP, VerdictKind::Right, Some(flow), info);
}

/// Counts packets of the conversation of a flow, each with this number of bytes and a right checksum. Every second packet goes in the other
/// direction.
fn judge_many(rt: &impl Abort, summary: &mut Summary, number: u32, packets: u32, len: u64) {
    let there = flow_from(number);
    let back = there.reversed();
    for packet in 0..packets {
        let flow = if packet % 2 == 0 { there } else { back };
        judge_flow(rt, summary, flow, info_of(len));
    }
}

/// A protocol, a verdict, and whether the packet has ports.
type JudgedRow = (Protocol, VerdictKind, bool);

/// Packets that are not refused.
#[rattlefmt::skip]
static JUDGED: [JudgedRow; 13] = [
    (UDP, VerdictKind::Right, true),
    (UDP, VerdictKind::Absent, true),
    (TCP, VerdictKind::Wrong, true),
    (TCP, VerdictKind::Partial, true),
    (TCP, VerdictKind::UnknownDestination, true),
    (ICMPV4, VerdictKind::Right, false),
    (ICMPV6, VerdictKind::CutOff, false),
    (TCP, VerdictKind::LengthMissing, true),
    (Protocol::OtherOverIp, VerdictKind::Fragment, false),
    (Protocol::OtherWithoutIp, VerdictKind::OtherProtocol, false),
    (Protocol::Ospf, VerdictKind::OtherProtocol, false),
    (Protocol::Arp, VerdictKind::OtherProtocol, false),
    (Protocol::Unknown, VerdictKind::TooLong, false),
];

/// A flow, if a packet has ports.
fn flow_if(has_ports: bool) -> Option<Flow> {
    if has_ports { Some(flow_from(1)) } else { None }
}

/// Counts the packet of a row, of 100 bytes.
fn judge_row(rt: &impl Abort, summary: &mut Summary, row: &JudgedRow) {
    let (protocol, verdict, has_ports) = *row;
    judge(
        rt,
        summary,
        protocol,
        verdict,
        flow_if(has_ports),
        info_of(100),
    );
}

/// Counts these packets.
fn judge_each(rt: &impl Abort, summary: &mut Summary) {
    for row in &JUDGED {
        judge_row(rt, summary, row);
    }
}

/// Why packets of 60 bytes are refused.
#[rattlefmt::skip]
static REFUSED: [RefusalKind; 13] = [
    RefusalKind::LinkHeader,
    RefusalKind::IpHeaderCutOff,
    RefusalKind::IpVersion,
    RefusalKind::IpHeaderLength,
    RefusalKind::IpTotalLength,
    RefusalKind::IpPacketCutOff,
    RefusalKind::IpExtensionHeader,
    RefusalKind::UdpLength,
    RefusalKind::TcpLength,
    RefusalKind::TcpDataOffset,
    RefusalKind::Icmpv4Length,
    RefusalKind::Icmpv6Length,
    RefusalKind::TcpDataOffset,
];

fn refuse_each(rt: &impl Abort, summary: &mut Summary) {
    for refusal in &REFUSED {
        refuse(rt, summary, Protocol::Unknown, *refusal, info_of(60));
    }
}

/// How many packets and bytes each protocol has.
#[rattlefmt::skip]
static OF_PROTOCOLS: [(Protocol, u64, u64); 9] = [
    (UDP, 2, 200),
    (TCP, 4, 400),
    (ICMPV4, 1, 100),
    (ICMPV6, 1, 100),
    (Protocol::Ospf, 1, 100),
    (Protocol::OtherOverIp, 1, 100),
    (Protocol::Arp, 1, 100),
    (Protocol::OtherWithoutIp, 1, 100),
    (Protocol::Unknown, 14, 880),
];

fn expect_protocols(rt: &impl Abort, summary: &Summary) {
    for (protocol, packets, bytes) in &OF_PROTOCOLS {
        let expected = Count {
            packets: *packets,
            bytes: *bytes,
        };
        let count = summary.protocol(*protocol);
        expect_at(rt, protocol, &count, &expected);
    }
}

/// How many packets have each verdict.
#[rattlefmt::skip]
static OF_VERDICTS: [(VerdictKind, u64); 11] = [
    (VerdictKind::Right, 2),
    (VerdictKind::Wrong, 1),
    (VerdictKind::Partial, 1),
    (VerdictKind::Absent, 1),
    (VerdictKind::Fragment, 1),
    (VerdictKind::CutOff, 1),
    (VerdictKind::LengthMissing, 1),
    (VerdictKind::UnknownDestination, 1),
    (VerdictKind::OtherProtocol, 3),
    (VerdictKind::TooLong, 1),
    (VerdictKind::Refused, 13),
];

fn expect_verdicts(rt: &impl Abort, summary: &Summary) {
    for (verdict, packets) in &OF_VERDICTS {
        let count = summary.verdict(*verdict);
        expect_at(rt, verdict, &count, packets);
    }
}

/// How many packets are refused for these reasons.
#[rattlefmt::skip]
static OF_REFUSALS: [(RefusalKind, u64); 5] = [
    (RefusalKind::LinkHeader, 1),
    (RefusalKind::IpVersion, 1),
    (RefusalKind::TcpLength, 1),
    (RefusalKind::TcpDataOffset, 2),
    (RefusalKind::Icmpv6Length, 1),
];

fn expect_refusals(rt: &impl Abort, summary: &Summary) {
    for (refusal, packets) in &OF_REFUSALS {
        let count = summary.refusal(*refusal);
        expect_at(rt, refusal, &count, packets);
    }
}

/// The rows of each table, in their order: names and counts.
#[rattlefmt::skip]
static PROTOCOL_ROWS: [(&str, Count); 52] = [
    ("UDP", Count { packets: 2, bytes: 200 }),
    ("TCP", Count { packets: 4, bytes: 400 }),
    ("ICMPv4", Count { packets: 1, bytes: 100 }),
    ("ICMPv6", Count { packets: 1, bytes: 100 }),
    ("IGMP", Count::NONE),
    ("IPv4", Count::NONE),
    ("DCCP", Count::NONE),
    ("IPv6", Count::NONE),
    ("RSVP", Count::NONE),
    ("GRE", Count::NONE),
    ("ESP", Count::NONE),
    ("AH", Count::NONE),
    ("no next header", Count::NONE),
    ("EIGRP", Count::NONE),
    ("OSPF", Count { packets: 1, bytes: 100 }),
    ("EtherIP", Count::NONE),
    ("PIM", Count::NONE),
    ("IPComp", Count::NONE),
    ("VRRP", Count::NONE),
    ("L2TP", Count::NONE),
    ("SCTP", Count::NONE),
    ("UDP-Lite", Count::NONE),
    ("MPLS-in-IP", Count::NONE),
    ("other over IP", Count { packets: 1, bytes: 100 }),
    ("ARP", Count { packets: 1, bytes: 100 }),
    ("RARP", Count::NONE),
    ("IPX", Count::NONE),
    ("slow protocol", Count::NONE),
    ("MPLS", Count::NONE),
    ("PPPoE discovery", Count::NONE),
    ("PPPoE session", Count::NONE),
    ("EAPOL", Count::NONE),
    ("LLDP", Count::NONE),
    ("MACsec", Count::NONE),
    ("MVRP", Count::NONE),
    ("PTP", Count::NONE),
    ("CFM", Count::NONE),
    ("loopback", Count::NONE),
    ("IPCP", Count::NONE),
    ("IPV6CP", Count::NONE),
    ("CCP", Count::NONE),
    ("LCP", Count::NONE),
    ("PAP", Count::NONE),
    ("LQR", Count::NONE),
    ("CHAP", Count::NONE),
    ("EAP", Count::NONE),
    ("CLNP", Count::NONE),
    ("ES-IS", Count::NONE),
    ("IS-IS", Count::NONE),
    ("STP", Count::NONE),
    ("other without IP", Count { packets: 1, bytes: 100 }),
    ("unknown", Count { packets: 14, bytes: 880 }),
];

#[rattlefmt::skip]
static VERDICT_ROWS: [(&str, u64); 11] = [
    ("right", 2),
    ("wrong", 1),
    ("not filled in", 1),
    ("none", 1),
    ("fragment", 1),
    ("cut off", 1),
    ("no length stated", 1),
    ("final destination unknown", 1),
    ("another protocol", 3),
    ("too long", 1),
    ("refused", 13),
];

#[rattlefmt::skip]
static LINK_ROWS: [(&str, u64); 23] = [
    ("BSD loopback", 0),
    ("Ethernet", 26),
    ("PPP", 0),
    ("PPP or Cisco HDLC", 0),
    ("PPP over Ethernet", 0),
    ("raw IP", 0),
    ("Cisco HDLC", 0),
    ("IEEE 802.11", 0),
    ("Frame Relay", 0),
    ("OpenBSD loopback", 0),
    ("Linux cooked", 0),
    ("PFLOG", 0),
    ("Prism", 0),
    ("radiotap", 0),
    ("AVS", 0),
    ("PPI", 0),
    ("Solaris ipnet", 0),
    ("NFLOG", 0),
    ("IP over InfiniBand", 0),
    ("PKTAP", 0),
    ("Linux cooked version 2", 0),
    ("another link type", 0),
    ("unknown", 0),
];

#[rattlefmt::skip]
static REFUSAL_ROWS: [(&str, u64); 12] = [
    ("link header cut off", 1),
    ("IP header cut off", 1),
    ("IP version", 1),
    ("IP header length", 1),
    ("IP total length", 1),
    ("IP packet cut off", 1),
    ("IP extension header", 1),
    ("UDP length", 1),
    ("TCP length", 1),
    ("TCP data offset", 2),
    ("ICMPv4 length", 1),
    ("ICMPv6 length", 1),
];

/// The rows of protocols with packets, and the row after them, ordered by their packets. Rows with one packet are in the order of the
/// table.
#[rattlefmt::skip]
static PROTOCOLS_BY_PACKETS: [(&str, Count); 10] = [
    ("unknown", Count { packets: 14, bytes: 880 }),
    ("TCP", Count { packets: 4, bytes: 400 }),
    ("UDP", Count { packets: 2, bytes: 200 }),
    ("ICMPv4", Count { packets: 1, bytes: 100 }),
    ("ICMPv6", Count { packets: 1, bytes: 100 }),
    ("OSPF", Count { packets: 1, bytes: 100 }),
    ("other over IP", Count { packets: 1, bytes: 100 }),
    ("ARP", Count { packets: 1, bytes: 100 }),
    ("other without IP", Count { packets: 1, bytes: 100 }),
    ("IGMP", Count::NONE),
];

/// Stops the test unless these are the rows of a table.
fn expect_table(rt: &impl Abort, rows: &[(&str, u64)], expected: &[(&str, u64)]) {
    expect_equal(rt, &rows, &expected);
}

/// Stops the test unless these are the rows of the table of protocols.
fn expect_protocol_rows(rt: &impl Abort, rows: &[(&str, Count)], expected: &[(&str, Count)]) {
    expect_equal(rt, &rows, &expected);
}

fn expect_rows(rt: &impl Abort, summary: &Summary) {
    expect_protocol_rows(rt, &summary.protocols(), &PROTOCOL_ROWS);
    let by_packets = summary.protocols_by_packets();
    let first = expect_some(rt, by_packets.get(..10));
    expect_protocol_rows(rt, first, &PROTOCOLS_BY_PACKETS);
    expect_table(rt, &summary.verdicts(), &VERDICT_ROWS);
    expect_table(rt, &summary.links(), &LINK_ROWS);
    expect_table(rt, &summary.refusals(), &REFUSAL_ROWS);
}

/// Stops the test unless these are the number of conversations, the count of packets without ports, and the count of packets of
/// conversations for which there was no room.
fn expect_flows(
    rt: &impl Abort,
    summary: &Summary,
    conversations: usize,
    without_ports: Count,
    without_room: Count,
) {
    let flows = summary.flows();
    expect_equal(rt, &flows.counts().len(), &conversations);
    expect_equal(rt, &flows.without_ports(), &without_ports);
    expect_equal(rt, &flows.without_room(), &without_room);
}

#[test]
fn each_packet_is_counted_once_in_each_table(rt: HostRuntime) {
    let mut summary = new_summary(&rt);
    judge_each(&rt, &mut summary);
    refuse_each(&rt, &mut summary);
    expect_equal(&rt, &summary.packets(), &26);
    expect_equal(&rt, &summary.bytes(), &2080);
    expect_protocols(&rt, &summary);
    expect_verdicts(&rt, &summary);
    expect_refusals(&rt, &summary);
    expect_rows(&rt, &summary);
    let without_ports = Count {
        packets: 20,
        bytes: 1480,
    };
    expect_flows(&rt, &summary, 1, without_ports, Count::NONE);
}

/// A count of this number of packets, with more bytes than can be counted.
fn saturated(packets: u64) -> Count {
    Count {
        packets,
        bytes: u64::MAX,
    }
}

/// Counts more conversations than there is room for. Then it counts two packets of conversations that have a row, and one packet of a
/// conversation that has no row.
fn judge_too_many(rt: &impl Abort, summary: &mut Summary) {
    for number in 0..65_540 {
        judge_many(rt, summary, number, 1, 100);
    }
    judge_many(rt, summary, 0, 1, u64::MAX);
    judge_many(rt, summary, 65_535, 1, u64::MAX);
    judge_many(rt, summary, 65_536, 1, u64::MAX);
}

/// Stops the test unless this is the row of the conversation of the flow with this number, which has two packets.
fn expect_row(rt: &impl Abort, row: Option<&ConversationCount>, number: u32) {
    let row = expect_some(rt, row);
    expect_equal(rt, &row.flow, &flow_from(number));
    expect_equal(rt, &row.forward, &saturated(2));
}

#[test]
fn conversations_over_the_limit_find_no_room(rt: HostRuntime) {
    let mut summary = new_summary(&rt);
    judge_too_many(&rt, &mut summary);
    let without_room = saturated(5);
    expect_flows(&rt, &summary, MAX_CONVERSATIONS, Count::NONE, without_room);
    let flows = summary.flows();
    expect_equal(&rt, &summary.packets(), &65_543);
    expect_equal(&rt, &flows.packets(), &65_543);
    let rows = flows.counts();
    expect_row(&rt, rows.first(), 0);
    expect_row(&rt, rows.last(), 65_535);
}

/// The number of a flow, the packets of its conversation, and how many bytes each packet has.
static CONVERSATIONS: [(u32, u32, u64); 12] = [
    (1, 1, 900),
    (2, 3, 40),
    (3, 3, 50),
    (4, 3, 50),
    (5, 9, 20),
    (6, 2, 70),
    (7, 3, 40),
    (8, 1, 900),
    (9, 4, 10),
    (10, 1, 901),
    (11, 12, 1),
    (12, 1, 900),
];

/// The number of conversations that are requested, and the number that are returned.
static TOPS: [(usize, usize); 5] = [(0, 0), (1, 1), (10, 10), (11, 11), (100, 12)];

#[test]
fn the_busiest_conversations_come_first(rt: HostRuntime) {
    let mut summary = new_summary(&rt);
    expect_busiest(&rt, &summary, 10, 0);
    for (number, packets, len) in &CONVERSATIONS {
        judge_many(&rt, &mut summary, *number, *packets, *len);
    }
    for (top, len) in &TOPS {
        expect_busiest(&rt, &summary, *top, *len);
    }
}

/// The numbers of the flows, the busiest first.
static BUSIEST: [u32; 12] = [11, 5, 9, 3, 4, 2, 7, 6, 10, 1, 8, 12];

/// Stops the test unless this number of conversations is returned if `top` are requested, the busiest first.
fn expect_busiest(rt: &(impl Abort + AllocGlobal), summary: &Summary, top: usize, len: usize) {
    let busiest = expect_ok(rt, summary.flows().busiest(rt.alloc(), top));
    expect_equal(rt, &busiest.len(), &len);
    for (row, number) in busiest.iter().zip(&BUSIEST) {
        expect_equal(rt, &row.flow, &flow_from(*number));
    }
}

const OVER_UDP: FlowProtocol = FlowProtocol::Udp;

const OVER_TCP: FlowProtocol = FlowProtocol::Tcp;

const CLIENT: End = (7, 4660);

const HIGHEST: End = (0xFFFF_FFFF, 4660);

/// Packets with their flows, their bytes and their times in seconds. Another port or another protocol belongs to another conversation.
#[rattlefmt::skip]
static DIRECTIONS: [DirectionRow; 13] = [
    (OVER_UDP, CLIENT, SERVER, 100, Some(50)),
    (OVER_UDP, SERVER, CLIENT, 40, Some(51)),
    (OVER_TCP, SERVER, CLIENT, 7, Some(60)),
    (OVER_UDP, HIGHEST, SERVER, 20, None),
    (OVER_UDP, CLIENT, SERVER, 100, Some(90)),
    (OVER_UDP, SERVER, HIGHEST, 30, Some(5)),
    (OVER_UDP, (7, 4661), SERVER, 8, None),
    (OVER_UDP, (7, 53), (0xC000_0201, 4660), 9, Some(1)),
    (OVER_UDP, CLIENT, CLIENT, 10, Some(99)),
    (OVER_TCP, CLIENT, SERVER, 11, Some(59)),
    (OVER_UDP, CLIENT, CLIENT, 10, Some(99)),
    (OVER_UDP, SERVER, CLIENT, 41, Some(49)),
    (OVER_UDP, SERVER, CLIENT, 42, None),
];

/// The direction of a conversation that was seen first, the packets and bytes of each direction, and the earliest and the latest time.
type BothWaysRow = (
    FlowProtocol,
    End,
    End,
    (u64, u64),
    (u64, u64),
    Option<(u64, u64)>,
);

/// The conversations of these packets.
#[rattlefmt::skip]
static BOTH_WAYS: [BothWaysRow; 6] = [
    (OVER_UDP, CLIENT, SERVER, (2, 200), (3, 123), Some((49, 90))),
    (OVER_TCP, SERVER, CLIENT, (1, 7), (1, 11), Some((59, 60))),
    (OVER_UDP, HIGHEST, SERVER, (1, 20), (1, 30), Some((5, 5))),
    (OVER_UDP, (7, 4661), SERVER, (1, 8), (0, 0), None),
    (OVER_UDP, (7, 53), (0xC000_0201, 4660), (1, 9), (0, 0), Some((1, 1))),
    (OVER_UDP, CLIENT, CLIENT, (2, 20), (0, 0), Some((99, 99))),
];

/// The time this many seconds after the beginning of 1970.
fn time(seconds: u64) -> PacketTime {
    PacketTime {
        seconds,
        fraction: 0,
        resolution: TimeResolution::PowerOfTen(6),
        offset: 0,
    }
}

/// The span from one second to another.
fn span((first, last): (u64, u64)) -> TimeSpan {
    TimeSpan {
        earliest: time(first),
        latest: time(last),
    }
}

/// Stops the test unless this is the conversation of a row.
fn expect_both_ways(rt: &impl Abort, count: &ConversationCount, row: &BothWaysRow) {
    let (protocol, source, destination, forward, reverse, times) = *row;
    expect_equal(rt, &count.span, &times.map(span));
    expect_equal(rt, &count.flow, &flow(protocol, source, destination));
    expect_equal(rt, &count.forward, &count_of(forward));
    expect_equal(rt, &count.reverse, &count_of(reverse));
}

/// A count of these packets and bytes.
fn count_of((packets, bytes): (u64, u64)) -> Count {
    Count { packets, bytes }
}

/// A packet: its flow, its bytes and its time.
type DirectionRow = (FlowProtocol, End, End, u64, Option<u64>);

/// Counts the packet of a row.
fn judge_direction(rt: &impl Abort, summary: &mut Summary, row: &DirectionRow) {
    let (protocol, source, destination, len, seconds) = *row;
    let info = info_at(len, seconds.map(time));
    judge_flow(rt, summary, flow(protocol, source, destination), info);
}

/// Stops the test unless these are the conversations of `BOTH_WAYS`.
fn expect_conversations(rt: &impl Abort, counts: &[ConversationCount]) {
    expect_equal(rt, &counts.len(), &BOTH_WAYS.len());
    for (count, row) in counts.iter().zip(&BOTH_WAYS) {
        expect_both_ways(rt, count, row);
    }
}

#[test]
fn the_two_directions_are_one_conversation(rt: HostRuntime) {
    let mut summary = new_summary(&rt);
    for row in &DIRECTIONS {
        judge_direction(&rt, &mut summary, row);
    }
    expect_conversations(&rt, summary.flows().counts());
}
