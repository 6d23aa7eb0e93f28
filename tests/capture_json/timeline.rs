use crate::expect::{append, expect_all_written, expect_equal, expect_ok, expect_some};
use crate::summaries::{judge, new_summary, refuse, summary_with};
use capture_file::PacketTime;
use capture_file::pcapng::TimeResolution;
use capture_json::{Captures, write_summary};
use capture_summary::{
    Busiest, CaptureInfo, FileTable, FrameLen, Protocol, RefusalKind, Summary, VerdictKind,
};
use std::num::NonZeroU128;
use std::process::Abort;
use std::random::RandomSource;

/// The objects of intervals without packets, with a UDP packet of 40 bytes, and with two such packets.
pub const NO_PACKETS: &str =
    r#"{"packets":0,"bytes":0,"udp":{"packets":0,"bytes":0},"tcp":{"packets":0,"bytes":0},"icmp":{"packets":0,"bytes":0},"other":{"packets":0,"bytes":0},"wrong":{"packets":0,"bytes":0},"refused":{"packets":0,"bytes":0}}"#;

pub const ONE_PACKET: &str =
    r#"{"packets":1,"bytes":40,"udp":{"packets":1,"bytes":40},"tcp":{"packets":0,"bytes":0},"icmp":{"packets":0,"bytes":0},"other":{"packets":0,"bytes":0},"wrong":{"packets":0,"bytes":0},"refused":{"packets":0,"bytes":0}}"#;

const TWO_PACKETS: &str =
    r#"{"packets":2,"bytes":80,"udp":{"packets":2,"bytes":80},"tcp":{"packets":0,"bytes":0},"icmp":{"packets":0,"bytes":0},"other":{"packets":0,"bytes":0},"wrong":{"packets":0,"bytes":0},"refused":{"packets":0,"bytes":0}}"#;

/// What a capture states about a packet of 40 bytes with this time.
fn info_at(time: Option<PacketTime>) -> CaptureInfo {
    let len = FrameLen {
        original: 40,
        captured: 14,
    };
    CaptureInfo {
        link_type: None,
        time,
        len: Some(len),
    }
}

/// The time this number of seconds and nanoseconds after the beginning of 1970, and this number of seconds later.
fn time(seconds: u64, nanoseconds: u64, offset: i64) -> PacketTime {
    PacketTime {
        seconds,
        fraction: nanoseconds,
        resolution: TimeResolution::PowerOfTen(9),
        offset,
    }
}

/// Stops the test unless the timeline in the object of a summary is the object of these texts.
fn expect_timeline(rt: &(impl Abort + AllocGlobal), summary: &Summary, wanted: &[&str]) {
    let busiest = expect_ok(rt, Busiest::of(summary.flows(), rt.alloc(), 0));
    let mut bytes = Vec::new(rt.alloc());
    let captures = Captures {
        only: &None,
        files: &FileTable::new(),
    };
    let written = write_summary(&mut bytes, rt.alloc(), &captures, summary, &busiest);
    expect_ok(rt, written);
    let text = expect_ok(rt, std::str::from_utf8(&bytes));
    let (_, text) = expect_some(rt, text.split_once(r#","timeline":"#));
    let (text, _) = expect_some(rt, text.split_once(r#","busiest_conversations":"#));
    expect_all_written(rt, text.as_bytes(), wanted);
}

/// A time: seconds, nanoseconds and the offset in seconds. Then the members of the start of a timeline.
type StartRow = (u64, u64, i64, &'static str);

#[rattlefmt::skip]
static STARTS: [StartRow; 7] = [
    (1_600_000_000, 6_900_007, 0, r#""start":"2020-09-13T12:26:40.006900007Z","start_seconds":1600000000,"start_nanoseconds":6900007"#),
    (0, 0, 0, r#""start":"1970-01-01T00:00:00.000000000Z","start_seconds":0,"start_nanoseconds":0"#),
    (5, 999_999_999, -6, r#""start":"1969-12-31T23:59:59.999999999Z","start_seconds":-1,"start_nanoseconds":999999999"#),
    (3, 1_000_000_001, 0, r#""start":"1970-01-01T00:00:04.000000001Z","start_seconds":4,"start_nanoseconds":1"#),
    (0, 1, i64::MIN, r#""start":"-9223372036854775807.999999999","start_seconds":-9223372036854775808,"start_nanoseconds":1"#),
    (0, 1, i64::MAX, r#""start":"9223372036854775807.000000001","start_seconds":9223372036854775807,"start_nanoseconds":1"#),
    (u64::MAX, 1, 0, r#""start":"9223372036854775807.000000001","start_seconds":9223372036854775807,"start_nanoseconds":1"#),
];

/// Stops the test unless a timeline that starts at the time of a row has the members of the row.
fn expect_start(rt: &(impl Abort + AllocGlobal + RandomSource), row: &StartRow) {
    let (seconds, nanoseconds, offset, members) = *row;
    let mut summary = new_summary(rt);
    let info = info_at(Some(time(seconds, nanoseconds, offset)));
    judge(
        rt,
        &mut summary,
        Protocol::Udp,
        VerdictKind::Right,
        None,
        info,
    );
    let width = r#","interval_seconds":0,"interval_nanoseconds":1,"intervals":["#;
    let older = r#"],"older":"#;
    let later = r#","later":"#;
    let untimed = r#","untimed":"#;
    let wanted = [
        "{", members, width, ONE_PACKET, older, NO_PACKETS, later, NO_PACKETS, untimed, NO_PACKETS,
        "}",
    ];
    expect_timeline(rt, &summary, &wanted);
}

#[test]
fn starts_of_timelines(rt: HostRuntime) {
    for row in &STARTS {
        expect_start(&rt, row);
    }
}

/// Counts a packet without a time, two packets at 1,600,000,000 seconds, a packet this number of nanoseconds later, and an older packet.
fn count_packets(rt: &impl Abort, summary: &mut Summary, nanoseconds: u64) {
    let start = info_at(Some(time(1_600_000_000, 0, 0)));
    let older = info_at(Some(time(1_599_999_999, 999_999_999, 0)));
    let last = info_at(Some(time(1_600_000_000, nanoseconds, 0)));
    judge(
        rt,
        summary,
        Protocol::Arp,
        VerdictKind::OtherProtocol,
        None,
        info_at(None),
    );
    judge(rt, summary, Protocol::Tcp, VerdictKind::Wrong, None, start);
    judge(rt, summary, Protocol::Udp, VerdictKind::Right, None, last);
    judge(rt, summary, Protocol::Udp, VerdictKind::Right, None, older);
    refuse(
        rt,
        summary,
        Protocol::Icmpv6,
        RefusalKind::Icmpv6Length,
        start,
    );
}

/// The object of the interval that begins at the start.
const AT_START: &str =
    r#"{"packets":2,"bytes":80,"udp":{"packets":0,"bytes":0},"tcp":{"packets":1,"bytes":40},"icmp":{"packets":1,"bytes":40},"other":{"packets":0,"bytes":0},"wrong":{"packets":1,"bytes":40},"refused":{"packets":1,"bytes":40}}"#;

/// The object of the packets without a time.
const UNTIMED: &str =
    r#"{"packets":1,"bytes":40,"udp":{"packets":0,"bytes":0},"tcp":{"packets":0,"bytes":0},"icmp":{"packets":0,"bytes":0},"other":{"packets":1,"bytes":40},"wrong":{"packets":0,"bytes":0},"refused":{"packets":0,"bytes":0}}"#;

/// The time of the last packet in nanoseconds after the start, the members of the width, and the number of intervals between the first
/// and the last interval.
type WidthRow = (u64, &'static str, usize);

#[rattlefmt::skip]
static WIDTHS: [WidthRow; 5] = [
    (1, r#""interval_seconds":0,"interval_nanoseconds":1"#, 0),
    (3, r#""interval_seconds":0,"interval_nanoseconds":1"#, 2),
    (510, r#""interval_seconds":0,"interval_nanoseconds":2"#, 254),
    (6_400_000_000, r#""interval_seconds":0,"interval_nanoseconds":50000000"#, 127),
    (12_800_000_000_000, r#""interval_seconds":100,"interval_nanoseconds":0"#, 127),
];

/// Stops the test unless the timeline of the packets has the width of a row.
fn expect_width(rt: &(impl Abort + AllocGlobal + RandomSource), row: &WidthRow) {
    let (nanoseconds, width, between) = *row;
    let mut summary = new_summary(rt);
    count_packets(rt, &mut summary, nanoseconds);
    let start =
        r#"{"start":"2020-09-13T12:26:40.000000000Z","start_seconds":1600000000,"start_nanoseconds":0,"#;
    let mut empty = Vec::new(rt.alloc());
    for _ in 0..between {
        append(rt, &mut empty, NO_PACKETS.as_bytes());
        append(rt, &mut empty, b",");
    }
    let empty = expect_ok(rt, std::str::from_utf8(&empty));
    let wanted = [
        start,
        width,
        r#","intervals":["#,
        AT_START,
        ",",
        empty,
        ONE_PACKET,
        r#"],"older":"#,
        ONE_PACKET,
        r#","later":"#,
        NO_PACKETS,
        r#","untimed":"#,
        UNTIMED,
        "}",
    ];
    expect_timeline(rt, &summary, &wanted);
    expect_equal(rt, &summary.timeline().interval_count(), &(between + 2));
}

#[test]
fn intervals_of_timelines(rt: HostRuntime) {
    for row in &WIDTHS {
        expect_width(&rt, row);
    }
}

#[test]
fn a_timeline_without_a_start(rt: HostRuntime) {
    let mut summary = new_summary(&rt);
    let before =
        r#"{"start":null,"interval_seconds":0,"interval_nanoseconds":1,"intervals":[],"older":"#;
    let later = r#","later":"#;
    let untimed = r#","untimed":"#;
    expect_timeline(
        &rt,
        &summary,
        &[
            before, NO_PACKETS, later, NO_PACKETS, untimed, NO_PACKETS, "}",
        ],
    );
    judge(
        &rt,
        &mut summary,
        Protocol::Udp,
        VerdictKind::Right,
        None,
        info_at(None),
    );
    expect_timeline(
        &rt,
        &summary,
        &[
            before, NO_PACKETS, later, NO_PACKETS, untimed, ONE_PACKET, "}",
        ],
    );
}

/// Two packets in the first interval of ten seconds, one in the next, and one after 65,536 intervals.
#[test]
fn a_timeline_of_a_fixed_width(rt: HostRuntime) {
    let mut summary = summary_with(&rt, NonZeroU128::new(10_000_000_000));
    for seconds in [5, 14, 15, 655_365] {
        let info = info_at(Some(time(seconds, 0, 0)));
        judge(
            &rt,
            &mut summary,
            Protocol::Udp,
            VerdictKind::Right,
            None,
            info,
        );
    }
    let start =
        r#"{"start":"1970-01-01T00:00:05.000000000Z","start_seconds":5,"start_nanoseconds":0,"interval_seconds":10,"interval_nanoseconds":0,"intervals":["#;
    let wanted = [
        start,
        TWO_PACKETS,
        ",",
        ONE_PACKET,
        r#"],"older":"#,
        NO_PACKETS,
        r#","later":"#,
        ONE_PACKET,
        r#","untimed":"#,
        NO_PACKETS,
        "}",
    ];
    expect_timeline(&rt, &summary, &wanted);
}
