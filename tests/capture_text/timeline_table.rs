use crate::expect::{expect_at, expect_equal, expect_ok, expect_some, expect_written};
use capture_text::write_timeline;
use std::num::NonZeroU128;
use std::process::Abort;
use timeline::{Event, Fault, Timeline, Transport};

/// The time of the first packet with a time, in nanoseconds.
const START: u128 = 1_700_000_000_000_000_000;

/// A packet without a time.
const UNTIMED: &str = "
timeline, seconds             packets             bytes       wrong     refused
packets without a time              1                60           0           1
";

/// Three packets at the start, one of them with a wrong checksum, one packet half a second later, and 40 packets a second later. An
/// interval is 5 milliseconds wide, and 201 intervals have rows of 20 intervals. Two packets are older.
const ONE_SECOND: &str = "
timeline, seconds             packets             bytes       wrong     refused
              0.000000000           3               180           1           0 ###
              0.100000000           0                 0           0           0
              0.200000000           0                 0           0           0
              0.300000000           0                 0           0           0
              0.400000000           0                 0           0           0
              0.500000000           1                60           0           0 #
              0.600000000           0                 0           0           0
              0.700000000           0                 0           0           0
              0.800000000           0                 0           0           0
              0.900000000           0                 0           0           0
              1.000000000          40              2400           0           0 ########################################
older packets                       2               120           0           0
packets without a time              1                60           0           1
";

/// Two packets, between which lie nine days and a nanosecond. A row is 50,000 seconds wide.
const NINE_DAYS: &str = "
timeline, seconds             packets             bytes       wrong     refused
              0.000000000           1                60           0           0 ########################################
          50000.000000000           0                 0           0           0
         100000.000000000           0                 0           0           0
         150000.000000000           0                 0           0           0
         200000.000000000           0                 0           0           0
         250000.000000000           0                 0           0           0
         300000.000000000           0                 0           0           0
         350000.000000000           0                 0           0           0
         400000.000000000           0                 0           0           0
         450000.000000000           0                 0           0           0
         500000.000000000           0                 0           0           0
         550000.000000000           0                 0           0           0
         600000.000000000           0                 0           0           0
         650000.000000000           0                 0           0           0
         700000.000000000           0                 0           0           0
         750000.000000000           1                60           0           0 ########################################
";

/// Intervals of two seconds, of which each has a row. Three packets are in the first, and one in the next but one. A packet is older, and
/// two packets are later than 65,536 intervals.
const TWO_SECONDS: &str = "
timeline, seconds             packets             bytes       wrong     refused
              0.000000000           3               180           0           0 ########################################
              2.000000000           0                 0           0           0
              4.000000000           1                60           0           0 ##############
older packets                       1                60           0           0
later packets                       2               120           0           0
packets without a time              1                60           0           0
";

/// A packet of 60 bytes at this time.
fn event(time: Option<u128>, fault: Option<Fault>) -> Event {
    Event {
        time,
        len: 60,
        transport: Transport::Udp,
        fault,
    }
}

/// Counts packets of 60 bytes at these times after the start.
fn add(timeline: &mut Timeline, offsets: &[u128]) {
    for offset in offsets {
        timeline.add(&event(Some(START + offset), None));
    }
}

/// Stops the test unless the table of a timeline is this text.
fn expect_table(rt: &(impl Abort + AllocGlobal), timeline: &Timeline, wanted: &str) {
    let mut text = Vec::new(rt.alloc());
    expect_ok(rt, write_timeline(&mut text, timeline));
    expect_written(rt, &text, wanted);
}

#[test]
fn the_table_of_the_timeline(rt: HostRuntime) {
    let mut timeline = expect_ok(&rt, Timeline::new(rt.alloc()));
    expect_table(&rt, &timeline, "");
    timeline.add(&event(None, Some(Fault::Refused)));
    expect_table(&rt, &timeline, UNTIMED);
    timeline.add(&event(Some(START), Some(Fault::Wrong)));
    for time in [START - 1, START - 1_000_000_000] {
        timeline.add(&event(Some(time), None));
    }
    add(&mut timeline, &[0, 500_000_000, 4_999_999]);
    add(&mut timeline, &[1_000_000_000; 40]);
    expect_table(&rt, &timeline, ONE_SECOND);
}

#[test]
fn the_table_of_days(rt: HostRuntime) {
    let mut timeline = expect_ok(&rt, Timeline::new(rt.alloc()));
    add(&mut timeline, &[0, 777_600_000_000_001]);
    expect_table(&rt, &timeline, NINE_DAYS);
}

/// A timeline without packets, of this width.
fn with_width(rt: &(impl Abort + AllocGlobal), width: u128) -> Timeline {
    let width = expect_some(rt, NonZeroU128::new(width));
    expect_ok(rt, Timeline::with_width(rt.alloc(), width))
}

#[test]
fn the_table_of_a_fixed_width(rt: HostRuntime) {
    let mut timeline = with_width(&rt, 2_000_000_000);
    expect_table(&rt, &timeline, "");
    add(&mut timeline, &[0, 1_999_999_999, 1, 5_999_999_999]);
    add(&mut timeline, &[131_072_000_000_000, u128::MAX - START]);
    timeline.add(&event(Some(START - 1), None));
    timeline.add(&event(None, None));
    expect_table(&rt, &timeline, TWO_SECONDS);
}

#[test]
fn a_row_for_each_interval_of_a_fixed_width(rt: HostRuntime) {
    let mut timeline = with_width(&rt, 10);
    add(&mut timeline, &[0, 2_560]);
    let mut text = Vec::new(rt.alloc());
    expect_ok(&rt, write_timeline(&mut text, &timeline));
    let lines = text.iter().filter(|byte| **byte == b'\n').count();
    expect_equal(&rt, &lines, &259);
}

/// The number of rows after a packet at the start and another packet so many nanoseconds later. A line without a row and the head precede
/// the rows.
fn row_count(rt: &(impl Abort + AllocGlobal), offset: u128) -> usize {
    let mut timeline = expect_ok(rt, Timeline::new(rt.alloc()));
    add(&mut timeline, &[0, offset]);
    let mut text = Vec::new(rt.alloc());
    expect_ok(rt, write_timeline(&mut text, &timeline));
    text.iter().filter(|byte| **byte == b'\n').count() - 2
}

#[test]
fn at_most_twenty_rows(rt: HostRuntime) {
    #[rattlefmt::skip]
    let rows: [(u128, usize); 14] = [
        (0, 1), (1, 2), (19, 20), (20, 11), (39, 20), (40, 9), (99, 20), (100, 11), (199, 20), (200, 11), (255, 13), (256, 13), (1_279, 13),
        (100_000_000_000_000_000_000, 11),
    ];
    for row in &rows {
        expect_at(&rt, row, &row_count(&rt, row.0), &row.1);
    }
}
