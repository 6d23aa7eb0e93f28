use crate::expect::{expect_at, expect_equal, expect_ok, expect_some};
use crate::summaries::{judge, new_summary, refuse};
use capture_file::PacketTime;
use capture_file::pcapng::TimeResolution;
use capture_summary::{CaptureInfo, FrameLen, Protocol, RefusalKind, Summary, VerdictKind};
use std::process::Abort;
use std::random::RandomSource;
use timeline::{Count, Counts};

/// The number of nanoseconds in a second.
const SECOND: u128 = 1_000_000_000;

/// The time this many seconds after the beginning of 1970, minus an offset in seconds, and so many nanoseconds later.
fn time(seconds: u64, offset: i64, nanoseconds: u64) -> PacketTime {
    PacketTime {
        seconds,
        fraction: nanoseconds,
        resolution: TimeResolution::PowerOfTen(9),
        offset,
    }
}

/// What a capture states about a truncated packet of 100 bytes with this time.
fn info_at(time: Option<PacketTime>) -> CaptureInfo {
    CaptureInfo {
        link_type: None,
        time,
        len: Some(FrameLen {
            original: 100,
            captured: 40,
        }),
    }
}

/// The counts of these numbers of packets of 100 bytes: of UDP, of TCP, of ICMP, of other protocols, with a wrong checksum, and refused.
fn counts_of(numbers: [u64; 6]) -> Counts {
    let [udp, tcp, icmp, other, wrong, refused] = numbers.map(|packets| Count {
        packets,
        bytes: packets * 100,
    });
    Counts {
        udp,
        tcp,
        icmp,
        other,
        wrong,
        refused,
    }
}

/// The protocol of a packet, its verdict, and in which counts it is, as `counts_of` names them.
type KindRow = (Protocol, VerdictKind, [u64; 6]);

#[rattlefmt::skip]
static KINDS: [KindRow; 8] = [
    (Protocol::Udp, VerdictKind::Right, [1, 0, 0, 0, 0, 0]),
    (Protocol::Tcp, VerdictKind::Wrong, [0, 1, 0, 0, 1, 0]),
    (Protocol::Icmpv4, VerdictKind::Partial, [0, 0, 1, 0, 0, 0]),
    (Protocol::Icmpv6, VerdictKind::CutOff, [0, 0, 1, 0, 0, 0]),
    (Protocol::Igmp, VerdictKind::OtherProtocol, [0, 0, 0, 1, 0, 0]),
    (Protocol::UdpLite, VerdictKind::OtherProtocol, [0, 0, 0, 1, 0, 0]),
    (Protocol::Arp, VerdictKind::OtherProtocol, [0, 0, 0, 1, 0, 0]),
    (Protocol::Unknown, VerdictKind::TooLong, [0, 0, 0, 1, 0, 0]),
];

/// Stops the test unless the timeline counts the packet of a row like this, if its time is unknown.
fn expect_counts(rt: &(impl Abort + AllocGlobal + RandomSource), row: &KindRow) {
    let (protocol, verdict, numbers) = *row;
    let mut summary = new_summary(rt);
    judge(rt, &mut summary, protocol, verdict, None, info_at(None));
    let untimed = summary.timeline().untimed();
    expect_at(rt, row, &untimed, &counts_of(numbers));
    expect_equal(rt, &summary.timeline().start(), &None);
}

#[test]
fn the_timeline_counts_by_protocol_and_verdict(rt: HostRuntime) {
    for row in &KINDS {
        expect_counts(&rt, row);
    }
}

#[test]
fn the_timeline_counts_a_refused_packet(rt: HostRuntime) {
    let mut summary = new_summary(&rt);
    let refusal = RefusalKind::IpVersion;
    refuse(&rt, &mut summary, Protocol::Unknown, refusal, info_at(None));
    let untimed = summary.timeline().untimed();
    expect_equal(&rt, &untimed, &counts_of([0, 0, 0, 1, 0, 1]));
}

/// Packets with a right checksum: their protocols and times. The third packet is the last, and the fourth packet is older than the first.
static TIMES: [(Protocol, u64, i64, u64); 4] = [
    (Protocol::Udp, 10, 0, 0),
    (Protocol::Icmpv4, 12, -1, 5),
    (Protocol::Tcp, 12, 0, 0),
    (Protocol::Udp, 10, -1, 999_999_999),
];

/// The intervals of these packets that are not empty: their numbers, and the numbers of packets, as `counts_of` names them.
static INTERVALS: [(usize, [u64; 6]); 3] = [
    (0, [1, 0, 0, 0, 0, 0]),
    (100, [0, 0, 1, 0, 0, 0]),
    (200, [0, 1, 0, 0, 0, 0]),
];

/// Counts a packet with a right checksum.
fn judge_at(rt: &impl Abort, summary: &mut Summary, row: &(Protocol, u64, i64, u64)) {
    let (protocol, seconds, offset, nanoseconds) = *row;
    let info = info_at(Some(time(seconds, offset, nanoseconds)));
    judge(rt, summary, protocol, VerdictKind::Right, None, info);
}

/// Stops the test unless an interval has these counts.
fn expect_interval(rt: &impl Abort, intervals: &[Counts], row: &(usize, [u64; 6])) {
    let (place, numbers) = *row;
    let interval = expect_some(rt, intervals.get(place));
    expect_at(rt, row, interval, &counts_of(numbers));
}

#[test]
fn the_timeline_counts_packets_at_their_times(rt: HostRuntime) {
    let mut summary = new_summary(&rt);
    for row in &TIMES {
        judge_at(&rt, &mut summary, row);
    }
    let timeline = summary.timeline();
    let start = ((1 << 63) + 10) * SECOND;
    expect_equal(&rt, &timeline.start(), &Some(start));
    expect_equal(&rt, &timeline.width(), &10_000_000);
    expect_equal(&rt, &timeline.older(), &counts_of([1, 0, 0, 0, 0, 0]));
    let intervals = expect_ok(&rt, timeline.intervals(rt.alloc()));
    expect_equal(&rt, &intervals.len(), &201);
    for row in &INTERVALS {
        expect_interval(&rt, &intervals, row);
    }
    let all = Counts::sum(&intervals).total();
    expect_equal(&rt, &all.packets, &3);
}
