use crate::expect::{expect_ok, expect_written};
use crate::summaries::{flow_of_ipv4, judge, new_summary, refuse};
use capture_file::pcapng::TimeResolution;
use capture_file::{LinkType, PacketTime};
use capture_summary::{
    Busiest, CaptureInfo, FrameLen, Protocol, RefusalKind, Summary, VerdictKind,
};
use capture_text::write_summary;
use std::process::Abort;

/// The whole summary of no packet.
const OF_NO_PACKET: &str = "\
packets 0, bytes 0
conversations 0
";

/// The whole summary of five packets: two of UDP, one in each direction, one of ICMPv6 and two refused packets. The protocol with the most
/// packets is first. Protocols with the same number of packets are in the order of the table.
const OF_FIVE_PACKETS: &str = "\
packets 5, bytes 1312, bytes a packet 262
conversations 1
first packet 2023-11-14T22:13:19.000000Z
last packet 2023-11-14T22:13:24.000000Z
duration 00:00:05.000000, packets a second 1, bits a second 2099

link type                     packets
Ethernet                            5

protocol                      packets             bytes
UDP                                 2              1044
unknown                             2                68
ICMPv6                              1               200

checksum                      packets
right                               2
wrong                               1
refused                             2

refused                       packets
IP version                          2

busiest conversations                 packets         bytes   packets >       bytes >   packets <       bytes < first packet                duration         bits a second
UDP 192.0.2.1:49152 <> 192.0.2.2:53         2          1044           1          1000           1            44 2023-11-14T22:13:20.000000Z 00:00:00.500000          16704
packets without ports                       3           268

busiest endpoints           packets         bytes
192.0.2.1                         2          1044
192.0.2.2                         2          1044
packets without ports             3           268
";

/// What a capture states about a packet with this number of bytes, captured at this second and this number of microseconds.
fn info_of(seconds: u64, fraction: u64, len: u64) -> CaptureInfo {
    CaptureInfo {
        link_type: Some(Ok(LinkType::Ethernet)),
        time: Some(PacketTime {
            seconds,
            fraction,
            resolution: TimeResolution::PowerOfTen(6),
            offset: 0,
        }),
        len: Some(FrameLen {
            original: len,
            captured: len,
        }),
    }
}

/// Counts two packets of UDP, one in each direction.
fn judge_both_ways(rt: &impl Abort, summary: &mut Summary) {
    let there = flow_of_ipv4();
    for (flow, len, fraction) in [(there, 1000, 500_000), (there.reversed(), 44, 0)] {
        let info = info_of(1_700_000_000, fraction, len);
        judge(
            rt,
            summary,
            Protocol::Udp,
            VerdictKind::Right,
            Some(flow),
            info,
        );
    }
}

/// Counts two refused packets of unknown protocols.
fn refuse_two(rt: &impl Abort, summary: &mut Summary) {
    for _ in 0..2 {
        let info = info_of(1_699_999_999, 0, 34);
        refuse(rt, summary, Protocol::Unknown, RefusalKind::IpVersion, info);
    }
}

/// Stops the test unless this is the text of a summary with the ten busiest conversations and endpoints.
fn expect_tables(rt: &(impl Abort + AllocGlobal), summary: &Summary, wanted: &str) {
    let busiest = expect_ok(rt, Busiest::of(summary.flows(), rt.alloc(), 10));
    let mut text = Vec::new(rt.alloc());
    expect_ok(rt, write_summary(&mut text, summary, &busiest));
    expect_written(rt, &text, wanted);
}

#[test]
fn the_tables_of_a_summary(rt: HostRuntime) {
    let mut summary = new_summary(&rt);
    expect_tables(&rt, &summary, OF_NO_PACKET);
    judge_both_ways(&rt, &mut summary);
    let info = info_of(1_700_000_004, 0, 200);
    let protocol = Protocol::Icmpv6;
    judge(&rt, &mut summary, protocol, VerdictKind::Wrong, None, info);
    refuse_two(&rt, &mut summary);
    expect_tables(&rt, &summary, OF_FIVE_PACKETS);
}
